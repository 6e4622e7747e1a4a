#ifndef TLSF_ONLY_MEMORY
/* The calls in Rattle. */
	.section	.text.unlikely.,"ax",@progbits
	.p2align	1
	.type	tlsf_c.call_fault.CallFault.refusal,@function
tlsf_c.call_fault.CallFault.refusal:
	.cfi_startproc
	slli	a0, a0, 2
	ori	a0, a0, 32
	andi	a0, a0, 252
	ret
.Lfunc_end0:
	.size	tlsf_c.call_fault.CallFault.refusal, .Lfunc_end0-tlsf_c.call_fault.CallFault.refusal
	.cfi_endproc
	.text
	.p2align	1
	.type	tlsf_heap.heap.Heap.resize_live.4,@function
tlsf_heap.heap.Heap.resize_live.4:
	.cfi_startproc
	addi	sp, sp, -48
	.cfi_def_cfa_offset 48
	sd	ra, 40(sp)
	sd	s0, 32(sp)
	sd	s1, 24(sp)
	sd	s2, 16(sp)
	sd	s3, 8(sp)
	.cfi_offset ra, -8
	.cfi_offset s0, -16
	.cfi_offset s1, -24
	.cfi_offset s2, -32
	.cfi_offset s3, -40
	addi	s0, sp, 48
	.cfi_def_cfa s0, 0
	lbu	a4, 4(a1)
	lbu	a5, 5(a1)
	lbu	s1, 6(a1)
	lbu	a1, 7(a1)
	ld	a3, 24(a0)
	slli	a5, a5, 8
	slli	s1, s1, 16
	slli	a1, a1, 24
	or	a4, a4, a5
	or	a1, a1, s1
	or	a1, a1, a4
	slli	s2, a1, 3
	add	a5, a3, s2
	ld	a7, 0(a5)
	sext.w	a4, a2
	srliw	s1, a7, 2
	addi	a6, a0, 24
	bgeu	s1, a4, .LBB1_6
	andi	a5, a7, 2
	bnez	a5, .LBB1_3
	add	a5, s1, a1
	slli	a5, a5, 32
	srli	a5, a5, 29
	add	a3, a3, a5
	ld	a3, 0(a3)
	andi	a5, a3, 1
	bnez	a5, .LBB1_4
.LBB1_3:
	li	a3, 0
.LBB1_4:
	srliw	a5, a3, 2
	add	a5, a5, s1
	bgeu	a5, a4, .LBB1_10
	li	a0, 1
	li	a1, 5
	j	.LBB1_15
.LBB1_6:
	ld	a4, 8(a0)
	li	a3, -1
	beq	a4, a3, .LBB1_14
	addiw	a3, a2, 4
	sd	zero, 16(a5)
	mv	s2, s1
	bltu	s1, a3, .LBB1_9
	mv	s3, a0
	mv	a0, a6
	mv	s2, a2
	mv	a2, a7
	mv	a3, s2
	call	tlsf_heap.refitting.split_off.4
	mv	a0, s3
.LBB1_9:
	li	a1, 0
	lw	a3, 16(a0)
	ld	a4, 8(a0)
	sub	a5, s2, s1
	add	a3, a3, a5
	addi	a4, a4, 1
	sd	a4, 8(a0)
	sw	a3, 16(a0)
	li	a0, 0
	j	.LBB1_15
.LBB1_10:
	ld	a5, 8(a0)
	li	a4, -1
	beq	a5, a4, .LBB1_14
	mv	s3, a0
	mv	a0, a6
	mv	a4, a2
	mv	a2, a7
	call	tlsf_heap.refitting.recut.4
	mv	a2, s3
	ld	a1, 24(s3)
	add	a1, a1, s2
	sd	zero, 16(a1)
	lw	a1, 16(s3)
	lw	a3, 20(s3)
	sub	a1, a1, s1
	addw	a0, a0, a1
	sw	a0, 16(s3)
	bgeu	a3, a0, .LBB1_13
	sw	a0, 20(a2)
.LBB1_13:
	li	a1, 0
	li	a0, 0
	ld	a3, 8(a2)
	addi	a3, a3, 1
	sd	a3, 8(a2)
	j	.LBB1_15
.LBB1_14:
	li	a1, 1
	li	a0, 1
.LBB1_15:
	.cfi_def_cfa sp, 48
	ld	ra, 40(sp)
	ld	s0, 32(sp)
	ld	s1, 24(sp)
	ld	s2, 16(sp)
	ld	s3, 8(sp)
	.cfi_restore ra
	.cfi_restore s0
	.cfi_restore s1
	.cfi_restore s2
	.cfi_restore s3
	addi	sp, sp, 48
	.cfi_def_cfa_offset 0
	ret
.Lfunc_end1:
	.size	tlsf_heap.heap.Heap.resize_live.4, .Lfunc_end1-tlsf_heap.heap.Heap.resize_live.4
	.cfi_endproc
	.p2align	1
	.type	tlsf_heap.refitting.split_off.4,@function
tlsf_heap.refitting.split_off.4:
	.cfi_startproc
	mv	a6, a4
	mv	t2, a3
	ld	t1, 0(a0)
	andi	a3, a2, 2
	srliw	t0, a2, 2
	bnez	a3, .LBB2_2
	add	a3, t0, a1
	slli	a3, a3, 32
	srli	a3, a3, 29
	add	a3, a3, t1
	ld	a3, 0(a3)
	andi	a4, a3, 1
	bnez	a4, .LBB2_7
.LBB2_2:
	addi	sp, sp, -16
	.cfi_def_cfa_offset 16
	sd	s0, 8(sp)
	.cfi_offset s0, -8
	.cfi_remember_state
	li	a7, -1
	ori	t5, a2, 1
	add	t3, t2, a1
	slli	a3, t2, 2
	slli	t6, a1, 32
	li	t4, 1
	sub	s0, t5, a3
	srli	a2, t6, 29
	slli	a3, s0, 32
	add	a2, a2, t1
	srli	a3, a3, 32
	sub	a5, t5, a3
	sd	a5, 0(a2)
	ld	a2, 0(a0)
	slli	a5, t3, 32
	srli	t1, a5, 29
	or	a3, t6, a3
	add	a2, a2, t1
	sd	a3, 0(a2)
	sd	a6, 8(a2)
	ld	a2, 24(a0)
	srli	a6, a7, 32
	srliw	a3, t3, 6
	slli	a3, a3, 3
	add	a2, a2, a3
	ld	a3, 0(a2)
	sll	a4, t4, t3
	srli	a5, a5, 32
	andi	s0, s0, 2
	or	a3, a3, a4
	sd	a3, 0(a2)
	slli	a7, a5, 32
	bnez	s0, .LBB2_4
	ld	a2, 0(a0)
	add	a1, a1, t0
	slli	a1, a1, 32
	srli	a1, a1, 29
	add	a1, a1, a2
	ld	a2, 0(a1)
	and	a2, a2, a6
	or	a2, a2, a7
	sd	a2, 0(a1)
.LBB2_4:
	subw	a5, t0, t2
	lui	a1, 349525
	lui	a2, 209715
	ori	a3, a5, 16
	addi	a1, a1, 1365
	srliw	a4, a3, 1
	or	a3, a3, a4
	srliw	a4, a3, 2
	or	a3, a3, a4
	srliw	a4, a3, 4
	or	a3, a3, a4
	srliw	a4, a3, 8
	or	a3, a3, a4
	srliw	a4, a3, 16
	or	a3, a3, a4
	not	a3, a3
	srli	a4, a3, 1
	and	a1, a1, a4
	lui	a4, 61681
	addi	a2, a2, 819
	sub	a3, a3, a1
	and	a1, a3, a2
	srli	a3, a3, 2
	and	a2, a2, a3
	lui	a3, 4112
	add	a1, a1, a2
	srli	a2, a1, 4
	add	a1, a1, a2
	li	a2, 27
	addi	a4, a4, -241
	addi	a3, a3, 257
	and	a1, a1, a4
	mul	a1, a1, a3
	srliw	a1, a1, 24
	sub	a2, a2, a1
	srlw	a1, a5, a2
	slli	a2, a2, 4
	add	a2, a2, a1
	slli	a3, a2, 32
	srli	a2, a3, 30
	add	a2, a2, a0
	lw	a5, 144(a2)
	ld	a4, 0(a0)
	sw	t3, 144(a2)
	bltz	a5, .LBB2_6
	li	a0, -1
	add	t1, t1, a4
	slli	a0, a0, 32
	or	a0, a0, a5
	slli	a5, a5, 3
	sd	a0, 16(t1)
	add	a4, a4, a5
	ld	a0, 16(a4)
	and	a0, a0, a6
	or	a0, a0, a7
	sd	a0, 16(a4)
	ld	s0, 8(sp)
	.cfi_restore s0
	addi	sp, sp, 16
	.cfi_def_cfa_offset 0
	ret
.LBB2_6:
	.cfi_restore_state
	srli	a3, a3, 32
	add	a4, a4, t1
	li	a2, -1
	li	a5, 1
	andi	a1, a1, 15
	sd	a2, 16(a4)
	srli	a3, a3, 4
	slli	a2, a3, 2
	add	a2, a2, a0
	lw	a4, 56(a0)
	lw	s0, 60(a2)
	sllw	a1, a5, a1
	sllw	a3, a5, a3
	or	a3, a3, a4
	or	a1, a1, s0
	sw	a3, 56(a0)
	sw	a1, 60(a2)
	ld	s0, 8(sp)
	.cfi_restore s0
	addi	sp, sp, 16
	.cfi_def_cfa_offset 0
	ret
.LBB2_7:
	mv	a4, t2
	mv	a5, a6
	tail	tlsf_heap.refitting.recut.4
.Lfunc_end2:
	.size	tlsf_heap.refitting.split_off.4, .Lfunc_end2-tlsf_heap.refitting.split_off.4
	.cfi_endproc
	.p2align	1
	.type	tlsf_heap.refitting.recut.4,@function
tlsf_heap.refitting.recut.4:
	.cfi_startproc
	addi	sp, sp, -96
	.cfi_def_cfa_offset 96
	sd	ra, 88(sp)
	sd	s0, 80(sp)
	sd	s1, 72(sp)
	sd	s2, 64(sp)
	sd	s3, 56(sp)
	sd	s4, 48(sp)
	sd	s5, 40(sp)
	sd	s6, 32(sp)
	sd	s7, 24(sp)
	sd	s8, 16(sp)
	sd	s9, 8(sp)
	.cfi_offset ra, -8
	.cfi_offset s0, -16
	.cfi_offset s1, -24
	.cfi_offset s2, -32
	.cfi_offset s3, -40
	.cfi_offset s4, -48
	.cfi_offset s5, -56
	.cfi_offset s6, -64
	.cfi_offset s7, -72
	.cfi_offset s8, -80
	.cfi_offset s9, -88
	addi	s0, sp, 96
	.cfi_def_cfa s0, 0
	mv	s3, a5
	mv	s2, a4
	mv	s1, a3
	mv	s7, a2
	mv	s6, a1
	mv	s4, a0
	li	a0, -1
	lui	s9, 131072
	srliw	s5, a3, 2
	srliw	a1, a2, 2
	srli	s8, a0, 32
	addi	s9, s9, -8
	addw	a2, a1, s6
	mv	a0, s4
	mv	a1, s5
	call	tlsf_heap.region.Region.remove.4
	slli	s1, s1, 32
	srli	s1, s1, 32
	add	s7, s7, s1
	srliw	a0, s7, 2
	addiw	a1, s2, 4
	addw	t2, a0, s6
	bgeu	a0, a1, .LBB3_3
	sub	a1, t2, s5
	ld	a2, 24(s4)
	li	a4, -2
	srli	a5, a1, 3
	and	a5, a5, s9
	sll	s1, a4, a1
	add	a2, a2, a5
	ld	a5, 0(a2)
	neg	a1, a1
	srl	a1, a4, a1
	or	a1, a1, s1
	and	a1, a1, a5
	andi	a4, s7, 2
	sd	a1, 0(a2)
	bnez	a4, .LBB3_7
	ld	a1, 0(s4)
	slli	a3, t2, 32
	srli	a3, a3, 29
	add	a3, a3, a1
	ld	a1, 0(a3)
	slli	s6, s6, 32
	and	a2, a1, s8
	srli	a1, s6, 32
	or	a2, a2, s6
	sd	a2, 0(a3)
	j	.LBB3_8
.LBB3_3:
	add	a6, s2, s6
	add	t0, s2, s6
	slli	a2, s2, 2
	slli	s6, s6, 32
	ld	a5, 0(s4)
	sub	s1, t2, s5
	li	t1, -2
	sub	a1, s7, a2
	srli	a4, s6, 29
	slli	a2, a1, 32
	srli	a2, a2, 32
	sub	a3, s7, a2
	add	a4, a4, a5
	sd	a3, 0(a4)
	ld	a3, 0(s4)
	slli	a4, a6, 32
	srli	a7, a4, 29
	or	a2, s6, a2
	add	a3, a3, a7
	sd	a2, 0(a3)
	sd	s3, 8(a3)
	ld	a2, 24(s4)
	srli	a3, s1, 3
	sll	a5, t1, s1
	and	a3, a3, s9
	add	a2, a2, a3
	ld	a3, 0(a2)
	neg	s1, s1
	srl	s1, t1, s1
	or	a5, a5, s1
	and	a3, a3, a5
	sd	a3, 0(a2)
	ld	a2, 24(s4)
	li	a3, 1
	srli	a5, t0, 3
	and	a5, a5, s9
	add	a2, a2, a5
	ld	a5, 0(a2)
	sll	a3, a3, a6
	srli	a4, a4, 32
	andi	a1, a1, 2
	or	a3, a3, a5
	sd	a3, 0(a2)
	slli	a4, a4, 32
	bnez	a1, .LBB3_5
	ld	a1, 0(s4)
	slli	t2, t2, 32
	srli	a2, t2, 29
	add	a1, a1, a2
	ld	a2, 0(a1)
	and	a2, a2, s8
	or	a2, a2, a4
	sd	a2, 0(a1)
.LBB3_5:
	subw	a0, a0, s2
	lui	a1, 349525
	lui	a2, 209715
	ori	a3, a0, 16
	addi	a1, a1, 1365
	srliw	a5, a3, 1
	or	a3, a3, a5
	srliw	a5, a3, 2
	or	a3, a3, a5
	srliw	a5, a3, 4
	or	a3, a3, a5
	srliw	a5, a3, 8
	or	a3, a3, a5
	srliw	a5, a3, 16
	or	a3, a3, a5
	not	a3, a3
	srli	a5, a3, 1
	and	a1, a1, a5
	lui	a5, 61681
	addi	a2, a2, 819
	sub	a3, a3, a1
	and	a1, a3, a2
	srli	a3, a3, 2
	and	a2, a2, a3
	lui	a3, 4112
	add	a1, a1, a2
	srli	a2, a1, 4
	add	a1, a1, a2
	li	a2, 27
	addi	a5, a5, -241
	addi	a3, a3, 257
	and	a1, a1, a5
	mul	a1, a1, a3
	srliw	a1, a1, 24
	sub	a2, a2, a1
	srlw	a0, a0, a2
	slli	a2, a2, 4
	add	a2, a2, a0
	slli	s1, a2, 32
	srli	a1, s1, 30
	add	a1, a1, s4
	lw	a5, 144(a1)
	ld	a3, 0(s4)
	sw	a6, 144(a1)
	bltz	a5, .LBB3_9
	li	a0, -1
	add	a7, a7, a3
	slli	a0, a0, 32
	or	a0, a0, a5
	slli	a5, a5, 3
	sd	a0, 16(a7)
	add	a3, a3, a5
	ld	a0, 16(a3)
	and	a0, a0, s8
	or	a0, a0, a4
	sd	a0, 16(a3)
	j	.LBB3_10
.LBB3_7:
	slli	a1, s6, 32
	srli	a1, a1, 32
.LBB3_8:
	ld	a2, 0(s4)
	addi	s7, s7, -1
	slli	a1, a1, 3
	add	a1, a1, a2
	sd	s7, 0(a1)
	j	.LBB3_11
.LBB3_9:
	srli	s1, s1, 32
	add	a3, a3, a7
	li	a1, -1
	li	a2, 1
	andi	a0, a0, 15
	sd	a1, 16(a3)
	srli	s1, s1, 4
	slli	a1, s1, 2
	add	a1, a1, s4
	lw	a3, 56(s4)
	lw	a4, 60(a1)
	sllw	a0, a2, a0
	sllw	a2, a2, s1
	or	a2, a2, a3
	or	a0, a0, a4
	sw	a2, 56(s4)
	sw	a0, 60(a1)
.LBB3_10:
	mv	a0, s2
.LBB3_11:
	.cfi_def_cfa sp, 96
	ld	ra, 88(sp)
	ld	s0, 80(sp)
	ld	s1, 72(sp)
	ld	s2, 64(sp)
	ld	s3, 56(sp)
	ld	s4, 48(sp)
	ld	s5, 40(sp)
	ld	s6, 32(sp)
	ld	s7, 24(sp)
	ld	s8, 16(sp)
	ld	s9, 8(sp)
	.cfi_restore ra
	.cfi_restore s0
	.cfi_restore s1
	.cfi_restore s2
	.cfi_restore s3
	.cfi_restore s4
	.cfi_restore s5
	.cfi_restore s6
	.cfi_restore s7
	.cfi_restore s8
	.cfi_restore s9
	addi	sp, sp, 96
	.cfi_def_cfa_offset 0
	ret
.Lfunc_end3:
	.size	tlsf_heap.refitting.recut.4, .Lfunc_end3-tlsf_heap.refitting.recut.4
	.cfi_endproc
	.p2align	1
	.type	tlsf_heap.region.Region.remove.4,@function
tlsf_heap.region.Region.remove.4:
	.cfi_startproc
	ld	a7, 0(a0)
	slli	a2, a2, 32
	srli	a2, a2, 29
	add	a2, a2, a7
	ld	a2, 16(a2)
	bltz	a2, .LBB4_3
	srli	a0, a2, 29
	li	a1, 1
	slli	a1, a1, 34
	addi	a1, a1, -8
	and	a0, a0, a1
	add	a1, a7, a0
	ld	a4, 16(a1)
	sext.w	a5, a2
	li	a3, -1
	srli	a0, a3, 32
	beq	a5, a3, .LBB4_5
	srli	a4, a4, 32
	and	a3, a2, a0
	slli	a4, a4, 32
	or	a4, a4, a3
	slli	a3, a3, 3
	add	a3, a3, a7
	sd	a4, 16(a1)
	ld	a1, 16(a3)
	lui	a4, 524288
	addi	a4, a4, -1
	slli	a4, a4, 32
	and	a0, a0, a1
	and	a2, a2, a4
	or	a0, a0, a2
	sd	a0, 16(a3)
	ret
.LBB4_3:
	sext.w	a6, a2
	ori	a3, a1, 16
	lui	a4, 349525
	srliw	a5, a3, 1
	addi	a4, a4, 1365
	or	a3, a3, a5
	srliw	a5, a3, 2
	or	a3, a3, a5
	srliw	a5, a3, 4
	or	a3, a3, a5
	srliw	a5, a3, 8
	or	a3, a3, a5
	srliw	a5, a3, 16
	or	a3, a3, a5
	not	a3, a3
	srli	a5, a3, 1
	and	a4, a4, a5
	lui	a5, 209715
	addi	a5, a5, 819
	sub	a3, a3, a4
	and	a4, a3, a5
	srli	a3, a3, 2
	and	a3, a3, a5
	lui	a5, 61681
	add	a3, a3, a4
	srli	a4, a3, 4
	add	a3, a3, a4
	lui	a4, 4112
	addi	a5, a5, -241
	and	a3, a3, a5
	li	a5, 27
	addi	a4, a4, 257
	mul	a3, a3, a4
	srliw	a3, a3, 24
	sub	a5, a5, a3
	srlw	a1, a1, a5
	slli	a4, a5, 4
	li	a5, -1
	addw	a4, a4, a1
	beq	a6, a5, .LBB4_6
	slli	a1, a2, 32
	srli	a1, a1, 29
	add	a1, a1, a7
	ld	a3, 16(a1)
	slli	a5, a5, 32
	slli	a4, a4, 2
	add	a0, a0, a4
	or	a3, a3, a5
	sd	a3, 16(a1)
	sw	a2, 144(a0)
	ret
.LBB4_5:
	or	a0, a0, a4
	sd	a0, 16(a1)
	ret
.LBB4_6:
	slli	a3, a4, 2
	srli	a2, a4, 4
	add	a3, a3, a0
	slli	a4, a2, 2
	sw	a5, 144(a3)
	add	a4, a4, a0
	lw	a3, 60(a4)
	andi	a5, a1, 15
	li	a1, 1
	sllw	a5, a1, a5
	not	a5, a5
	and	a3, a3, a5
	sw	a3, 60(a4)
	beqz	a3, .LBB4_8
	ret
.LBB4_8:
	lw	a3, 56(a0)
	sllw	a1, a1, a2
	not	a1, a1
	and	a1, a1, a3
	sw	a1, 56(a0)
	ret
.Lfunc_end4:
	.size	tlsf_heap.region.Region.remove.4, .Lfunc_end4-tlsf_heap.region.Region.remove.4
	.cfi_endproc
	.p2align	1
	.type	tlsf_heap.heap.Heap.release_live.4,@function
tlsf_heap.heap.Heap.release_live.4:
	.cfi_startproc
	lbu	a3, 4(a1)
	lbu	a4, 5(a1)
	lbu	a5, 6(a1)
	lbu	a1, 7(a1)
	ld	a2, 24(a0)
	slli	a4, a4, 8
	slli	a5, a5, 16
	slli	a1, a1, 24
	or	a3, a3, a4
	or	a1, a1, a5
	or	a4, a1, a3
	slli	a7, a4, 3
	add	t1, a2, a7
	ld	t2, 0(t1)
	lw	a1, 16(a0)
	srliw	t0, t2, 2
	sub	a1, a1, t0
	andi	a3, t2, 2
	sw	a1, 16(a0)
	bnez	a3, .LBB5_2
	add	a1, t0, a4
	slli	a1, a1, 32
	srli	a1, a1, 29
	add	a1, a1, a2
	ld	a1, 0(a1)
	addi	a6, a0, 24
	bnez	a4, .LBB5_3
	j	.LBB5_4
.LBB5_2:
	li	a1, 0
	addi	a6, a0, 24
	beqz	a4, .LBB5_4
.LBB5_3:
	srli	a3, t2, 29
	andi	a3, a3, -8
	add	a2, a2, a3
	ld	a2, 0(a2)
	andi	a3, a2, 1
	bnez	a3, .LBB5_8
.LBB5_4:
	ld	a3, 8(a0)
	andi	a2, a1, 1
	bnez	a2, .LBB5_7
	ori	a1, t2, 1
	ori	a2, t0, 16
	lui	a5, 349525
	lui	a6, 209715
	sd	a1, 0(t1)
	sd	a3, 8(t1)
	lui	t1, 61681
	srli	a3, a2, 1
	addi	a5, a5, 1365
	or	a2, a2, a3
	srli	a3, a2, 2
	or	a2, a2, a3
	srli	a3, a2, 4
	or	a2, a2, a3
	slli	a3, a2, 34
	srli	a3, a3, 42
	or	a2, a2, a3
	slli	a3, a2, 33
	srli	a3, a3, 49
	or	a2, a2, a3
	not	a2, a2
	srli	a3, a2, 1
	and	a3, a3, a5
	lui	t2, 4112
	addi	a1, a6, 819
	sub	a2, a2, a3
	and	a3, a2, a1
	srli	a2, a2, 2
	and	a1, a1, a2
	li	a6, 27
	addi	a5, t1, -241
	addi	a2, t2, 257
	add	a1, a1, a3
	srli	a3, a1, 4
	add	a1, a1, a3
	ld	t1, 8(a0)
	and	a1, a1, a5
	mul	a1, a1, a2
	srliw	a1, a1, 24
	sub	a2, a6, a1
	srlw	a6, t0, a2
	slli	a2, a2, 4
	add	a3, a6, a2
	slli	a2, a3, 2
	add	a2, a2, a0
	lw	a1, 168(a2)
	ld	a5, 24(a0)
	addi	t1, t1, 1
	sd	t1, 8(a0)
	sw	a4, 168(a2)
	bltz	a1, .LBB5_9
	add	a7, a7, a5
	slli	a0, a1, 3
	add	a0, a0, a5
	li	a2, -1
	slli	a2, a2, 32
	or	a1, a1, a2
	sd	a1, 16(a7)
	sw	a4, 20(a0)
	ret
.LBB5_7:
	addi	a2, a3, 1
	sd	a2, 8(a0)
	mv	a0, a6
	mv	a2, t2
	tail	tlsf_heap.fitting.merge_next.4
.LBB5_8:
	ld	a3, 8(a0)
	addi	a5, a3, 1
	sd	a5, 8(a0)
	mv	a0, a6
	mv	a5, t2
	tail	tlsf_heap.fitting.merge_before.4
.LBB5_9:
	add	a5, a5, a7
	li	a1, -1
	srli	a3, a3, 4
	li	a7, 1
	andi	a4, a6, 15
	sd	a1, 16(a5)
	slli	a1, a3, 2
	add	a1, a1, a0
	lw	a5, 80(a0)
	lw	a2, 84(a1)
	sllw	a3, a7, a3
	sllw	a4, a7, a4
	or	a3, a3, a5
	or	a2, a2, a4
	sw	a3, 80(a0)
	sw	a2, 84(a1)
	ret
.Lfunc_end5:
	.size	tlsf_heap.heap.Heap.release_live.4, .Lfunc_end5-tlsf_heap.heap.Heap.release_live.4
	.cfi_endproc
	.p2align	1
	.type	tlsf_heap.fitting.merge_before.4,@function
tlsf_heap.fitting.merge_before.4:
	.cfi_startproc
	addi	sp, sp, -96
	.cfi_def_cfa_offset 96
	sd	ra, 88(sp)
	sd	s0, 80(sp)
	sd	s1, 72(sp)
	sd	s2, 64(sp)
	sd	s3, 56(sp)
	sd	s4, 48(sp)
	sd	s5, 40(sp)
	sd	s6, 32(sp)
	sd	s7, 24(sp)
	sd	s8, 16(sp)
	sd	s9, 8(sp)
	sd	s10, 0(sp)
	.cfi_offset ra, -8
	.cfi_offset s0, -16
	.cfi_offset s1, -24
	.cfi_offset s2, -32
	.cfi_offset s3, -40
	.cfi_offset s4, -48
	.cfi_offset s5, -56
	.cfi_offset s6, -64
	.cfi_offset s7, -72
	.cfi_offset s8, -80
	.cfi_offset s9, -88
	.cfi_offset s10, -96
	addi	s0, sp, 96
	.cfi_def_cfa s0, 0
	.cfi_remember_state
	andi	s1, a1, 1
	bnez	s1, .LBB6_3
	li	a6, -1
	srliw	a1, a2, 2
	ld	a7, 0(a0)
	srli	s3, a6, 32
	subw	s2, a4, a1
	addi	a6, s3, -1
	slli	s1, s2, 32
	and	s7, a5, a6
	srli	s4, s1, 29
	add	a7, a7, s4
	ld	a5, 16(a7)
	add	s7, s7, a2
	lui	s8, 131072
	addi	s8, s8, -8
	srli	s6, s1, 32
	bltz	a5, .LBB6_4
	mv	s10, a4
	mv	s9, a3
	srliw	s5, s7, 2
	j	.LBB6_8
.LBB6_3:
	.cfi_def_cfa sp, 96
	ld	ra, 88(sp)
	ld	s0, 80(sp)
	ld	s1, 72(sp)
	ld	s2, 64(sp)
	ld	s3, 56(sp)
	ld	s4, 48(sp)
	ld	s5, 40(sp)
	ld	s6, 32(sp)
	ld	s7, 24(sp)
	ld	s8, 16(sp)
	ld	s9, 8(sp)
	ld	s10, 0(sp)
	.cfi_restore ra
	.cfi_restore s0
	.cfi_restore s1
	.cfi_restore s2
	.cfi_restore s3
	.cfi_restore s4
	.cfi_restore s5
	.cfi_restore s6
	.cfi_restore s7
	.cfi_restore s8
	.cfi_restore s9
	.cfi_restore s10
	addi	sp, sp, 96
	.cfi_def_cfa_offset 0
	tail	tlsf_heap.fitting.merge_both.4
.LBB6_4:
	.cfi_restore_state
	ori	t1, a1, 16
	lui	a5, 349525
	lui	a6, 209715
	lui	a7, 61681
	lui	t0, 4112
	srliw	s5, s7, 2
	srli	a2, t1, 1
	addi	t3, a5, 1365
	ori	t2, s5, 16
	or	a2, t1, a2
	srli	s1, t2, 1
	srli	a5, a2, 2
	or	s1, t2, s1
	or	a2, a2, a5
	srli	a5, s1, 2
	srli	t1, a2, 4
	or	a5, a5, s1
	or	a2, a2, t1
	srli	s1, a5, 4
	slli	t1, a2, 34
	or	a5, a5, s1
	srli	s1, t1, 42
	slli	t1, a5, 33
	or	a2, a2, s1
	srli	s1, t1, 41
	slli	t1, a2, 33
	or	a5, a5, s1
	srli	s1, t1, 49
	srliw	t1, a5, 16
	or	a2, a2, s1
	or	a5, a5, t1
	not	a2, a2
	not	a5, a5
	srli	s1, a2, 1
	srli	t1, a5, 1
	and	t4, s1, t3
	and	t1, t1, t3
	li	t2, 27
	addi	s1, a6, 819
	addi	a6, a7, -241
	addi	a7, t0, 257
	sub	a2, a2, t4
	sub	a5, a5, t1
	and	t0, a2, s1
	srli	a2, a2, 2
	and	t1, a5, s1
	srli	a5, a5, 2
	and	a2, a2, s1
	and	a5, a5, s1
	add	a2, a2, t0
	add	a5, a5, t1
	srli	s1, a2, 4
	srli	t0, a5, 4
	add	a2, a2, s1
	add	a5, a5, t0
	and	a2, a2, a6
	and	a5, a5, a6
	mul	a2, a2, a7
	mul	a5, a5, a7
	srliw	a2, a2, 24
	srliw	a5, a5, 24
	sub	a2, t2, a2
	sub	a5, t2, a5
	srlw	a6, a1, a2
	slli	a2, a2, 4
	srlw	s1, s5, a5
	slli	a5, a5, 4
	add	a2, a2, a6
	add	a5, a5, s1
	bne	a2, a5, .LBB6_7
	ld	a1, 24(a0)
	srli	a2, a4, 3
	li	a5, -2
	and	a2, a2, s8
	neg	s1, a4
	add	a1, a1, a2
	ld	a2, 0(a1)
	sll	a4, a5, a4
	srl	a5, a5, s1
	or	a4, a4, a5
	and	a2, a2, a4
	sd	a2, 0(a1)
	ld	a1, 0(a0)
	andi	a2, s7, 2
	add	a1, a1, s4
	sd	s7, 0(a1)
	sd	a3, 8(a1)
	bnez	a2, .LBB6_13
	ld	a0, 0(a0)
	add	s2, s2, s5
	slli	s2, s2, 32
	srli	a1, s2, 29
	add	a0, a0, a1
	ld	a1, 0(a0)
	and	a1, a1, s3
	slli	s6, s6, 32
	or	a1, a1, s6
	sd	a1, 0(a0)
	j	.LBB6_13
.LBB6_7:
	mv	s10, a4
	mv	s9, a3
.LBB6_8:
	mv	s1, a0
	mv	a2, s2
	call	tlsf_heap.region.Region.remove.4
	ld	a0, 24(s1)
	srli	a1, s10, 3
	li	a2, -2
	and	a1, a1, s8
	neg	a3, s10
	add	a0, a0, a1
	ld	a1, 0(a0)
	sll	a4, a2, s10
	srl	a2, a2, a3
	or	a2, a2, a4
	and	a1, a1, a2
	sd	a1, 0(a0)
	ld	a0, 0(s1)
	andi	a1, s7, 2
	add	a0, a0, s4
	sd	s7, 0(a0)
	sd	s9, 8(a0)
	slli	s6, s6, 32
	bnez	a1, .LBB6_10
	ld	a0, 0(s1)
	add	a1, s5, s2
	slli	a1, a1, 32
	srli	a1, a1, 29
	add	a0, a0, a1
	ld	a1, 0(a0)
	and	a1, a1, s3
	or	a1, a1, s6
	sd	a1, 0(a0)
.LBB6_10:
	ori	a0, s5, 16
	lui	a1, 349525
	lui	a2, 209715
	srli	a3, a0, 1
	addi	a1, a1, 1365
	or	a0, a0, a3
	srli	a3, a0, 2
	or	a0, a0, a3
	srli	a3, a0, 4
	or	a0, a0, a3
	slli	a3, a0, 34
	srli	a3, a3, 42
	or	a0, a0, a3
	slli	a3, a0, 33
	srli	a3, a3, 49
	or	a0, a0, a3
	not	a0, a0
	srli	a3, a0, 1
	and	a1, a1, a3
	lui	a3, 61681
	addi	a2, a2, 819
	sub	a0, a0, a1
	and	a1, a0, a2
	srli	a0, a0, 2
	and	a0, a0, a2
	lui	a2, 4112
	add	a0, a0, a1
	srli	a1, a0, 4
	add	a0, a0, a1
	li	a1, 27
	addi	a3, a3, -241
	addi	a2, a2, 257
	and	a0, a0, a3
	mul	a0, a0, a2
	srliw	a0, a0, 24
	sub	a1, a1, a0
	srlw	a0, s5, a1
	slli	a1, a1, 4
	add	a3, a0, a1
	slli	a1, a3, 2
	add	a4, s1, a1
	lw	a2, 144(a4)
	ld	a1, 0(s1)
	sw	s2, 144(a4)
	bltz	a2, .LBB6_12
	li	a0, -1
	add	s4, s4, a1
	slli	a0, a0, 32
	or	a0, a0, a2
	slli	a2, a2, 3
	sd	a0, 16(s4)
	add	a1, a1, a2
	ld	a0, 16(a1)
	and	a0, a0, s3
	or	a0, a0, s6
	sd	a0, 16(a1)
	j	.LBB6_13
.LBB6_12:
	add	a1, a1, s4
	li	a2, -1
	srli	a3, a3, 4
	li	a4, 1
	andi	a0, a0, 15
	sd	a2, 16(a1)
	slli	a1, a3, 2
	add	a1, a1, s1
	lw	a2, 56(s1)
	lw	a5, 60(a1)
	sllw	a3, a4, a3
	sllw	a0, a4, a0
	or	a2, a2, a3
	or	a0, a0, a5
	sw	a2, 56(s1)
	sw	a0, 60(a1)
.LBB6_13:
	.cfi_def_cfa sp, 96
	ld	ra, 88(sp)
	ld	s0, 80(sp)
	ld	s1, 72(sp)
	ld	s2, 64(sp)
	ld	s3, 56(sp)
	ld	s4, 48(sp)
	ld	s5, 40(sp)
	ld	s6, 32(sp)
	ld	s7, 24(sp)
	ld	s8, 16(sp)
	ld	s9, 8(sp)
	ld	s10, 0(sp)
	.cfi_restore ra
	.cfi_restore s0
	.cfi_restore s1
	.cfi_restore s2
	.cfi_restore s3
	.cfi_restore s4
	.cfi_restore s5
	.cfi_restore s6
	.cfi_restore s7
	.cfi_restore s8
	.cfi_restore s9
	.cfi_restore s10
	addi	sp, sp, 96
	.cfi_def_cfa_offset 0
	ret
.Lfunc_end6:
	.size	tlsf_heap.fitting.merge_before.4, .Lfunc_end6-tlsf_heap.fitting.merge_before.4
	.cfi_endproc
	.p2align	1
	.type	tlsf_heap.fitting.merge_both.4,@function
tlsf_heap.fitting.merge_both.4:
	.cfi_startproc
	addi	sp, sp, -96
	.cfi_def_cfa_offset 96
	sd	ra, 88(sp)
	sd	s0, 80(sp)
	sd	s1, 72(sp)
	sd	s2, 64(sp)
	sd	s3, 56(sp)
	sd	s4, 48(sp)
	sd	s5, 40(sp)
	sd	s6, 32(sp)
	sd	s7, 24(sp)
	sd	s8, 16(sp)
	sd	s9, 8(sp)
	.cfi_offset ra, -8
	.cfi_offset s0, -16
	.cfi_offset s1, -24
	.cfi_offset s2, -32
	.cfi_offset s3, -40
	.cfi_offset s4, -48
	.cfi_offset s5, -56
	.cfi_offset s6, -64
	.cfi_offset s7, -72
	.cfi_offset s8, -80
	.cfi_offset s9, -88
	addi	s0, sp, 96
	.cfi_def_cfa s0, 0
	mv	s7, a5
	mv	s1, a4
	mv	s3, a3
	mv	s5, a2
	mv	s8, a1
	mv	s6, a0
	li	a0, -1
	srliw	s4, a1, 2
	srliw	a2, a5, 2
	srli	s9, a0, 32
	addw	a2, a2, a4
	mv	a0, s6
	mv	a1, s4
	call	tlsf_heap.region.Region.remove.4
	srliw	a1, s5, 2
	subw	s2, s1, a1
	mv	a0, s6
	mv	a2, s2
	call	tlsf_heap.region.Region.remove.4
	add	s7, s7, s8
	ld	a0, 24(s6)
	srliw	a1, s1, 6
	li	a7, -2
	neg	a3, s1
	slli	a4, s2, 32
	slli	s7, s7, 32
	slli	a1, a1, 3
	sll	a5, a7, s1
	srl	a3, a7, a3
	srli	s1, s7, 32
	or	a5, a5, a3
	add	s1, s1, s5
	addi	s1, s1, -1
	add	a1, a1, a0
	ld	a0, 0(a1)
	srliw	a6, s1, 2
	add	a3, a6, s2
	sub	a2, a3, s4
	and	a0, a0, a5
	sd	a0, 0(a1)
	ld	a0, 24(s6)
	srliw	a1, a2, 6
	sll	a5, a7, a2
	slli	a1, a1, 3
	add	a0, a0, a1
	ld	a1, 0(a0)
	neg	a2, a2
	srl	a2, a7, a2
	or	a2, a2, a5
	and	a1, a1, a2
	sd	a1, 0(a0)
	ld	a0, 0(s6)
	srli	a2, a4, 32
	srli	a1, a4, 29
	andi	a4, s1, 2
	add	a0, a0, a1
	sd	s1, 0(a0)
	sd	s3, 8(a0)
	slli	a2, a2, 32
	bnez	a4, .LBB7_2
	ld	a0, 0(s6)
	slli	a3, a3, 32
	srli	a3, a3, 29
	add	a0, a0, a3
	ld	a3, 0(a0)
	and	a3, a3, s9
	or	a3, a3, a2
	sd	a3, 0(a0)
.LBB7_2:
	ori	a0, a6, 16
	lui	a3, 349525
	lui	a4, 209715
	srli	a5, a0, 1
	addi	a3, a3, 1365
	or	a0, a0, a5
	srli	a5, a0, 2
	or	a0, a0, a5
	srli	a5, a0, 4
	or	a0, a0, a5
	slli	a5, a0, 34
	srli	a5, a5, 42
	or	a0, a0, a5
	slli	a5, a0, 33
	srli	a5, a5, 49
	or	a0, a0, a5
	not	a0, a0
	srli	a5, a0, 1
	and	a3, a3, a5
	lui	a5, 61681
	addi	a4, a4, 819
	sub	a0, a0, a3
	and	a3, a0, a4
	srli	a0, a0, 2
	and	a0, a0, a4
	lui	a4, 4112
	add	a0, a0, a3
	srli	a3, a0, 4
	add	a0, a0, a3
	li	a3, 27
	addi	a5, a5, -241
	addi	a4, a4, 257
	and	a0, a0, a5
	mul	a0, a0, a4
	srliw	a0, a0, 24
	sub	a3, a3, a0
	srlw	a0, a6, a3
	slli	a3, a3, 4
	add	a5, a0, a3
	slli	a3, a5, 2
	add	a3, a3, s6
	lw	a4, 144(a3)
	ld	s1, 0(s6)
	sw	s2, 144(a3)
	bltz	a4, .LBB7_4
	li	a0, -1
	add	a1, a1, s1
	slli	a0, a0, 32
	or	a0, a0, a4
	slli	a4, a4, 3
	sd	a0, 16(a1)
	add	a4, a4, s1
	ld	a0, 16(a4)
	and	a0, a0, s9
	or	a0, a0, a2
	sd	a0, 16(a4)
	j	.LBB7_5
.LBB7_4:
	add	a1, a1, s1
	li	a2, -1
	srli	a5, a5, 4
	li	a3, 1
	andi	a0, a0, 15
	sd	a2, 16(a1)
	slli	a1, a5, 2
	add	a1, a1, s6
	lw	a2, 56(s6)
	lw	a4, 60(a1)
	sllw	a5, a3, a5
	sllw	a0, a3, a0
	or	a2, a2, a5
	or	a0, a0, a4
	sw	a2, 56(s6)
	sw	a0, 60(a1)
.LBB7_5:
	.cfi_def_cfa sp, 96
	ld	ra, 88(sp)
	ld	s0, 80(sp)
	ld	s1, 72(sp)
	ld	s2, 64(sp)
	ld	s3, 56(sp)
	ld	s4, 48(sp)
	ld	s5, 40(sp)
	ld	s6, 32(sp)
	ld	s7, 24(sp)
	ld	s8, 16(sp)
	ld	s9, 8(sp)
	.cfi_restore ra
	.cfi_restore s0
	.cfi_restore s1
	.cfi_restore s2
	.cfi_restore s3
	.cfi_restore s4
	.cfi_restore s5
	.cfi_restore s6
	.cfi_restore s7
	.cfi_restore s8
	.cfi_restore s9
	addi	sp, sp, 96
	.cfi_def_cfa_offset 0
	ret
.Lfunc_end7:
	.size	tlsf_heap.fitting.merge_both.4, .Lfunc_end7-tlsf_heap.fitting.merge_both.4
	.cfi_endproc
	.p2align	1
	.type	tlsf_heap.fitting.merge_next.4,@function
tlsf_heap.fitting.merge_next.4:
	.cfi_startproc
	addi	sp, sp, -80
	.cfi_def_cfa_offset 80
	sd	ra, 72(sp)
	sd	s0, 64(sp)
	sd	s1, 56(sp)
	sd	s2, 48(sp)
	sd	s3, 40(sp)
	sd	s4, 32(sp)
	sd	s5, 24(sp)
	sd	s6, 16(sp)
	sd	s7, 8(sp)
	.cfi_offset ra, -8
	.cfi_offset s0, -16
	.cfi_offset s1, -24
	.cfi_offset s2, -32
	.cfi_offset s3, -40
	.cfi_offset s4, -48
	.cfi_offset s5, -56
	.cfi_offset s6, -64
	.cfi_offset s7, -72
	addi	s0, sp, 80
	.cfi_def_cfa s0, 0
	mv	s2, a4
	mv	s3, a3
	mv	s5, a2
	mv	s1, a1
	mv	s4, a0
	li	a0, -1
	srliw	s6, a1, 2
	srliw	a1, a2, 2
	srli	s7, a0, 32
	addw	a2, a4, a1
	mv	a0, s4
	mv	a1, s6
	call	tlsf_heap.region.Region.remove.4
	slli	s1, s1, 32
	ld	a1, 24(s4)
	li	a2, -2
	srli	s1, s1, 32
	add	s1, s1, s5
	srliw	a6, s1, 2
	add	a3, a6, s2
	sub	a4, a3, s6
	srliw	a5, a4, 6
	sll	a0, a2, a4
	neg	a4, a4
	slli	a5, a5, 3
	add	a1, a1, a5
	ld	a5, 0(a1)
	srl	a2, a2, a4
	slli	a4, s2, 32
	or	a0, a0, a2
	and	a0, a0, a5
	sd	a0, 0(a1)
	ld	a0, 0(s4)
	srli	a2, a4, 32
	srli	a1, a4, 29
	andi	a4, s1, 2
	add	a0, a0, a1
	sd	s1, 0(a0)
	sd	s3, 8(a0)
	slli	a2, a2, 32
	bnez	a4, .LBB8_2
	ld	a0, 0(s4)
	slli	a3, a3, 32
	srli	a3, a3, 29
	add	a0, a0, a3
	ld	a3, 0(a0)
	and	a3, a3, s7
	or	a3, a3, a2
	sd	a3, 0(a0)
.LBB8_2:
	ori	a0, a6, 16
	lui	a3, 349525
	lui	a4, 209715
	srli	a5, a0, 1
	addi	a3, a3, 1365
	or	a0, a0, a5
	srli	a5, a0, 2
	or	a0, a0, a5
	srli	a5, a0, 4
	or	a0, a0, a5
	slli	a5, a0, 34
	srli	a5, a5, 42
	or	a0, a0, a5
	slli	a5, a0, 33
	srli	a5, a5, 49
	or	a0, a0, a5
	not	a0, a0
	srli	a5, a0, 1
	and	a3, a3, a5
	lui	a5, 61681
	addi	a4, a4, 819
	sub	a0, a0, a3
	and	a3, a0, a4
	srli	a0, a0, 2
	and	a0, a0, a4
	lui	a4, 4112
	add	a0, a0, a3
	srli	a3, a0, 4
	add	a0, a0, a3
	li	a3, 27
	addi	a5, a5, -241
	addi	a4, a4, 257
	and	a0, a0, a5
	mul	a0, a0, a4
	srliw	a0, a0, 24
	sub	a3, a3, a0
	srlw	a0, a6, a3
	slli	a3, a3, 4
	add	a5, a0, a3
	slli	a3, a5, 2
	add	a3, a3, s4
	lw	a4, 144(a3)
	ld	s1, 0(s4)
	sw	s2, 144(a3)
	bltz	a4, .LBB8_4
	li	a0, -1
	add	a1, a1, s1
	slli	a0, a0, 32
	or	a0, a0, a4
	slli	a4, a4, 3
	sd	a0, 16(a1)
	add	a4, a4, s1
	ld	a0, 16(a4)
	and	a0, a0, s7
	or	a0, a0, a2
	sd	a0, 16(a4)
	j	.LBB8_5
.LBB8_4:
	add	a1, a1, s1
	li	a2, -1
	srli	a5, a5, 4
	li	a3, 1
	andi	a0, a0, 15
	sd	a2, 16(a1)
	slli	a1, a5, 2
	add	a1, a1, s4
	lw	a2, 56(s4)
	lw	a4, 60(a1)
	sllw	a5, a3, a5
	sllw	a0, a3, a0
	or	a2, a2, a5
	or	a0, a0, a4
	sw	a2, 56(s4)
	sw	a0, 60(a1)
.LBB8_5:
	.cfi_def_cfa sp, 80
	ld	ra, 72(sp)
	ld	s0, 64(sp)
	ld	s1, 56(sp)
	ld	s2, 48(sp)
	ld	s3, 40(sp)
	ld	s4, 32(sp)
	ld	s5, 24(sp)
	ld	s6, 16(sp)
	ld	s7, 8(sp)
	.cfi_restore ra
	.cfi_restore s0
	.cfi_restore s1
	.cfi_restore s2
	.cfi_restore s3
	.cfi_restore s4
	.cfi_restore s5
	.cfi_restore s6
	.cfi_restore s7
	addi	sp, sp, 80
	.cfi_def_cfa_offset 0
	ret
.Lfunc_end8:
	.size	tlsf_heap.fitting.merge_next.4, .Lfunc_end8-tlsf_heap.fitting.merge_next.4
	.cfi_endproc
	.p2align	1
	.type	tlsf_heap.heap.Heap.resize_live.5,@function
tlsf_heap.heap.Heap.resize_live.5:
	.cfi_startproc
	addi	sp, sp, -48
	.cfi_def_cfa_offset 48
	sd	ra, 40(sp)
	sd	s0, 32(sp)
	sd	s1, 24(sp)
	sd	s2, 16(sp)
	sd	s3, 8(sp)
	.cfi_offset ra, -8
	.cfi_offset s0, -16
	.cfi_offset s1, -24
	.cfi_offset s2, -32
	.cfi_offset s3, -40
	addi	s0, sp, 48
	.cfi_def_cfa s0, 0
	lbu	a4, 4(a1)
	lbu	a5, 5(a1)
	lbu	s1, 6(a1)
	lbu	a1, 7(a1)
	ld	a3, 24(a0)
	slli	a5, a5, 8
	slli	s1, s1, 16
	slli	a1, a1, 24
	or	a4, a4, a5
	or	a1, a1, s1
	or	a1, a1, a4
	slli	s2, a1, 3
	add	a5, a3, s2
	ld	a7, 0(a5)
	sext.w	a4, a2
	srliw	s1, a7, 2
	addi	a6, a0, 24
	bgeu	s1, a4, .LBB9_6
	andi	a5, a7, 2
	bnez	a5, .LBB9_3
	add	a5, s1, a1
	slli	a5, a5, 32
	srli	a5, a5, 29
	add	a3, a3, a5
	ld	a3, 0(a3)
	andi	a5, a3, 1
	bnez	a5, .LBB9_4
.LBB9_3:
	li	a3, 0
.LBB9_4:
	srliw	a5, a3, 2
	add	a5, a5, s1
	bgeu	a5, a4, .LBB9_10
	li	a0, 1
	li	a1, 5
	j	.LBB9_15
.LBB9_6:
	ld	a4, 8(a0)
	li	a3, -1
	beq	a4, a3, .LBB9_14
	addiw	a3, a2, 4
	sd	zero, 16(a5)
	mv	s2, s1
	bltu	s1, a3, .LBB9_9
	mv	s3, a0
	mv	a0, a6
	mv	s2, a2
	mv	a2, a7
	mv	a3, s2
	call	tlsf_heap.refitting.split_off.5
	mv	a0, s3
.LBB9_9:
	li	a1, 0
	lw	a3, 16(a0)
	ld	a4, 8(a0)
	sub	a5, s2, s1
	add	a3, a3, a5
	addi	a4, a4, 1
	sd	a4, 8(a0)
	sw	a3, 16(a0)
	li	a0, 0
	j	.LBB9_15
.LBB9_10:
	ld	a5, 8(a0)
	li	a4, -1
	beq	a5, a4, .LBB9_14
	mv	s3, a0
	mv	a0, a6
	mv	a4, a2
	mv	a2, a7
	call	tlsf_heap.refitting.recut.5
	mv	a2, s3
	ld	a1, 24(s3)
	add	a1, a1, s2
	sd	zero, 16(a1)
	lw	a1, 16(s3)
	lw	a3, 20(s3)
	sub	a1, a1, s1
	addw	a0, a0, a1
	sw	a0, 16(s3)
	bgeu	a3, a0, .LBB9_13
	sw	a0, 20(a2)
.LBB9_13:
	li	a1, 0
	li	a0, 0
	ld	a3, 8(a2)
	addi	a3, a3, 1
	sd	a3, 8(a2)
	j	.LBB9_15
.LBB9_14:
	li	a1, 1
	li	a0, 1
.LBB9_15:
	.cfi_def_cfa sp, 48
	ld	ra, 40(sp)
	ld	s0, 32(sp)
	ld	s1, 24(sp)
	ld	s2, 16(sp)
	ld	s3, 8(sp)
	.cfi_restore ra
	.cfi_restore s0
	.cfi_restore s1
	.cfi_restore s2
	.cfi_restore s3
	addi	sp, sp, 48
	.cfi_def_cfa_offset 0
	ret
.Lfunc_end9:
	.size	tlsf_heap.heap.Heap.resize_live.5, .Lfunc_end9-tlsf_heap.heap.Heap.resize_live.5
	.cfi_endproc
	.p2align	1
	.type	tlsf_heap.refitting.split_off.5,@function
tlsf_heap.refitting.split_off.5:
	.cfi_startproc
	mv	a6, a4
	mv	t2, a3
	ld	t1, 0(a0)
	andi	a3, a2, 2
	srliw	t0, a2, 2
	bnez	a3, .LBB10_2
	add	a3, t0, a1
	slli	a3, a3, 32
	srli	a3, a3, 29
	add	a3, a3, t1
	ld	a3, 0(a3)
	andi	a4, a3, 1
	bnez	a4, .LBB10_7
.LBB10_2:
	addi	sp, sp, -16
	.cfi_def_cfa_offset 16
	sd	s0, 8(sp)
	.cfi_offset s0, -8
	.cfi_remember_state
	li	a7, -1
	ori	t5, a2, 1
	add	t3, t2, a1
	slli	a3, t2, 2
	slli	t6, a1, 32
	li	t4, 1
	sub	s0, t5, a3
	srli	a2, t6, 29
	slli	a3, s0, 32
	add	a2, a2, t1
	srli	a3, a3, 32
	sub	a5, t5, a3
	sd	a5, 0(a2)
	ld	a2, 0(a0)
	slli	a5, t3, 32
	srli	t1, a5, 29
	or	a3, t6, a3
	add	a2, a2, t1
	sd	a3, 0(a2)
	sd	a6, 8(a2)
	ld	a2, 24(a0)
	srli	a6, a7, 32
	srliw	a3, t3, 6
	slli	a3, a3, 3
	add	a2, a2, a3
	ld	a3, 0(a2)
	sll	a4, t4, t3
	srli	a5, a5, 32
	andi	s0, s0, 2
	or	a3, a3, a4
	sd	a3, 0(a2)
	slli	a7, a5, 32
	bnez	s0, .LBB10_4
	ld	a2, 0(a0)
	add	a1, a1, t0
	slli	a1, a1, 32
	srli	a1, a1, 29
	add	a1, a1, a2
	ld	a2, 0(a1)
	and	a2, a2, a6
	or	a2, a2, a7
	sd	a2, 0(a1)
.LBB10_4:
	subw	a5, t0, t2
	lui	a1, 349525
	lui	a2, 209715
	ori	a3, a5, 32
	addi	a1, a1, 1365
	srliw	a4, a3, 1
	or	a3, a3, a4
	srliw	a4, a3, 2
	or	a3, a3, a4
	srliw	a4, a3, 4
	or	a3, a3, a4
	srliw	a4, a3, 8
	or	a3, a3, a4
	srliw	a4, a3, 16
	or	a3, a3, a4
	not	a3, a3
	srli	a4, a3, 1
	and	a1, a1, a4
	lui	a4, 61681
	addi	a2, a2, 819
	sub	a3, a3, a1
	and	a1, a3, a2
	srli	a3, a3, 2
	and	a2, a2, a3
	lui	a3, 4112
	add	a1, a1, a2
	srli	a2, a1, 4
	add	a1, a1, a2
	li	a2, 26
	addi	a4, a4, -241
	addi	a3, a3, 257
	and	a1, a1, a4
	mul	a1, a1, a3
	srliw	a1, a1, 24
	sub	a2, a2, a1
	srlw	a1, a5, a2
	slli	a2, a2, 5
	add	a2, a2, a1
	slli	a3, a2, 32
	srli	a2, a3, 30
	add	a2, a2, a0
	lw	a5, 144(a2)
	ld	a4, 0(a0)
	sw	t3, 144(a2)
	bltz	a5, .LBB10_6
	li	a0, -1
	add	t1, t1, a4
	slli	a0, a0, 32
	or	a0, a0, a5
	slli	a5, a5, 3
	sd	a0, 16(t1)
	add	a4, a4, a5
	ld	a0, 16(a4)
	and	a0, a0, a6
	or	a0, a0, a7
	sd	a0, 16(a4)
	ld	s0, 8(sp)
	.cfi_restore s0
	addi	sp, sp, 16
	.cfi_def_cfa_offset 0
	ret
.LBB10_6:
	.cfi_restore_state
	srli	a3, a3, 32
	add	a4, a4, t1
	li	a2, -1
	li	a5, 1
	sd	a2, 16(a4)
	srli	a3, a3, 5
	slli	a2, a3, 2
	add	a2, a2, a0
	lw	a4, 56(a0)
	lw	s0, 60(a2)
	sllw	a1, a5, a1
	sllw	a3, a5, a3
	or	a3, a3, a4
	or	a1, a1, s0
	sw	a3, 56(a0)
	sw	a1, 60(a2)
	ld	s0, 8(sp)
	.cfi_restore s0
	addi	sp, sp, 16
	.cfi_def_cfa_offset 0
	ret
.LBB10_7:
	mv	a4, t2
	mv	a5, a6
	tail	tlsf_heap.refitting.recut.5
.Lfunc_end10:
	.size	tlsf_heap.refitting.split_off.5, .Lfunc_end10-tlsf_heap.refitting.split_off.5
	.cfi_endproc
	.p2align	1
	.type	tlsf_heap.refitting.recut.5,@function
tlsf_heap.refitting.recut.5:
	.cfi_startproc
	addi	sp, sp, -96
	.cfi_def_cfa_offset 96
	sd	ra, 88(sp)
	sd	s0, 80(sp)
	sd	s1, 72(sp)
	sd	s2, 64(sp)
	sd	s3, 56(sp)
	sd	s4, 48(sp)
	sd	s5, 40(sp)
	sd	s6, 32(sp)
	sd	s7, 24(sp)
	sd	s8, 16(sp)
	sd	s9, 8(sp)
	.cfi_offset ra, -8
	.cfi_offset s0, -16
	.cfi_offset s1, -24
	.cfi_offset s2, -32
	.cfi_offset s3, -40
	.cfi_offset s4, -48
	.cfi_offset s5, -56
	.cfi_offset s6, -64
	.cfi_offset s7, -72
	.cfi_offset s8, -80
	.cfi_offset s9, -88
	addi	s0, sp, 96
	.cfi_def_cfa s0, 0
	mv	s3, a5
	mv	s2, a4
	mv	s1, a3
	mv	s7, a2
	mv	s6, a1
	mv	s4, a0
	li	a0, -1
	lui	s9, 131072
	srliw	s5, a3, 2
	srliw	a1, a2, 2
	srli	s8, a0, 32
	addi	s9, s9, -8
	addw	a2, a1, s6
	mv	a0, s4
	mv	a1, s5
	call	tlsf_heap.region.Region.remove.5
	slli	s1, s1, 32
	srli	s1, s1, 32
	add	s7, s7, s1
	srliw	a0, s7, 2
	addiw	a1, s2, 4
	addw	t2, a0, s6
	bgeu	a0, a1, .LBB11_3
	sub	a1, t2, s5
	ld	a2, 24(s4)
	li	a4, -2
	srli	a5, a1, 3
	and	a5, a5, s9
	sll	s1, a4, a1
	add	a2, a2, a5
	ld	a5, 0(a2)
	neg	a1, a1
	srl	a1, a4, a1
	or	a1, a1, s1
	and	a1, a1, a5
	andi	a4, s7, 2
	sd	a1, 0(a2)
	bnez	a4, .LBB11_7
	ld	a1, 0(s4)
	slli	a3, t2, 32
	srli	a3, a3, 29
	add	a3, a3, a1
	ld	a1, 0(a3)
	slli	s6, s6, 32
	and	a2, a1, s8
	srli	a1, s6, 32
	or	a2, a2, s6
	sd	a2, 0(a3)
	j	.LBB11_8
.LBB11_3:
	add	a6, s2, s6
	add	t0, s2, s6
	slli	a2, s2, 2
	slli	s6, s6, 32
	ld	a5, 0(s4)
	sub	s1, t2, s5
	li	t1, -2
	sub	a1, s7, a2
	srli	a4, s6, 29
	slli	a2, a1, 32
	srli	a2, a2, 32
	sub	a3, s7, a2
	add	a4, a4, a5
	sd	a3, 0(a4)
	ld	a3, 0(s4)
	slli	a4, a6, 32
	srli	a7, a4, 29
	or	a2, s6, a2
	add	a3, a3, a7
	sd	a2, 0(a3)
	sd	s3, 8(a3)
	ld	a2, 24(s4)
	srli	a3, s1, 3
	sll	a5, t1, s1
	and	a3, a3, s9
	add	a2, a2, a3
	ld	a3, 0(a2)
	neg	s1, s1
	srl	s1, t1, s1
	or	a5, a5, s1
	and	a3, a3, a5
	sd	a3, 0(a2)
	ld	a2, 24(s4)
	li	a3, 1
	srli	a5, t0, 3
	and	a5, a5, s9
	add	a2, a2, a5
	ld	a5, 0(a2)
	sll	a3, a3, a6
	srli	a4, a4, 32
	andi	a1, a1, 2
	or	a3, a3, a5
	sd	a3, 0(a2)
	slli	a4, a4, 32
	bnez	a1, .LBB11_5
	ld	a1, 0(s4)
	slli	t2, t2, 32
	srli	a2, t2, 29
	add	a1, a1, a2
	ld	a2, 0(a1)
	and	a2, a2, s8
	or	a2, a2, a4
	sd	a2, 0(a1)
.LBB11_5:
	subw	a0, a0, s2
	lui	a1, 349525
	lui	a2, 209715
	ori	a3, a0, 32
	addi	a1, a1, 1365
	srliw	a5, a3, 1
	or	a3, a3, a5
	srliw	a5, a3, 2
	or	a3, a3, a5
	srliw	a5, a3, 4
	or	a3, a3, a5
	srliw	a5, a3, 8
	or	a3, a3, a5
	srliw	a5, a3, 16
	or	a3, a3, a5
	not	a3, a3
	srli	a5, a3, 1
	and	a1, a1, a5
	lui	a5, 61681
	addi	a2, a2, 819
	sub	a3, a3, a1
	and	a1, a3, a2
	srli	a3, a3, 2
	and	a2, a2, a3
	lui	a3, 4112
	add	a1, a1, a2
	srli	a2, a1, 4
	add	a1, a1, a2
	li	a2, 26
	addi	a5, a5, -241
	addi	a3, a3, 257
	and	a1, a1, a5
	mul	a1, a1, a3
	srliw	a1, a1, 24
	sub	a2, a2, a1
	srlw	a0, a0, a2
	slli	a2, a2, 5
	add	a2, a2, a0
	slli	s1, a2, 32
	srli	a1, s1, 30
	add	a1, a1, s4
	lw	a5, 144(a1)
	ld	a3, 0(s4)
	sw	a6, 144(a1)
	bltz	a5, .LBB11_9
	li	a0, -1
	add	a7, a7, a3
	slli	a0, a0, 32
	or	a0, a0, a5
	slli	a5, a5, 3
	sd	a0, 16(a7)
	add	a3, a3, a5
	ld	a0, 16(a3)
	and	a0, a0, s8
	or	a0, a0, a4
	sd	a0, 16(a3)
	j	.LBB11_10
.LBB11_7:
	slli	a1, s6, 32
	srli	a1, a1, 32
.LBB11_8:
	ld	a2, 0(s4)
	addi	s7, s7, -1
	slli	a1, a1, 3
	add	a1, a1, a2
	sd	s7, 0(a1)
	j	.LBB11_11
.LBB11_9:
	srli	s1, s1, 32
	add	a3, a3, a7
	li	a1, -1
	li	a2, 1
	sd	a1, 16(a3)
	srli	s1, s1, 5
	slli	a1, s1, 2
	add	a1, a1, s4
	lw	a3, 56(s4)
	lw	a4, 60(a1)
	sllw	a0, a2, a0
	sllw	a2, a2, s1
	or	a2, a2, a3
	or	a0, a0, a4
	sw	a2, 56(s4)
	sw	a0, 60(a1)
.LBB11_10:
	mv	a0, s2
.LBB11_11:
	.cfi_def_cfa sp, 96
	ld	ra, 88(sp)
	ld	s0, 80(sp)
	ld	s1, 72(sp)
	ld	s2, 64(sp)
	ld	s3, 56(sp)
	ld	s4, 48(sp)
	ld	s5, 40(sp)
	ld	s6, 32(sp)
	ld	s7, 24(sp)
	ld	s8, 16(sp)
	ld	s9, 8(sp)
	.cfi_restore ra
	.cfi_restore s0
	.cfi_restore s1
	.cfi_restore s2
	.cfi_restore s3
	.cfi_restore s4
	.cfi_restore s5
	.cfi_restore s6
	.cfi_restore s7
	.cfi_restore s8
	.cfi_restore s9
	addi	sp, sp, 96
	.cfi_def_cfa_offset 0
	ret
.Lfunc_end11:
	.size	tlsf_heap.refitting.recut.5, .Lfunc_end11-tlsf_heap.refitting.recut.5
	.cfi_endproc
	.p2align	1
	.type	tlsf_heap.region.Region.remove.5,@function
tlsf_heap.region.Region.remove.5:
	.cfi_startproc
	ld	a7, 0(a0)
	slli	a2, a2, 32
	srli	a2, a2, 29
	add	a2, a2, a7
	ld	a2, 16(a2)
	bltz	a2, .LBB12_3
	srli	a0, a2, 29
	li	a1, 1
	slli	a1, a1, 34
	addi	a1, a1, -8
	and	a0, a0, a1
	add	a1, a7, a0
	ld	a4, 16(a1)
	sext.w	a5, a2
	li	a3, -1
	srli	a0, a3, 32
	beq	a5, a3, .LBB12_5
	srli	a4, a4, 32
	and	a3, a2, a0
	slli	a4, a4, 32
	or	a4, a4, a3
	slli	a3, a3, 3
	add	a3, a3, a7
	sd	a4, 16(a1)
	ld	a1, 16(a3)
	lui	a4, 524288
	addi	a4, a4, -1
	slli	a4, a4, 32
	and	a0, a0, a1
	and	a2, a2, a4
	or	a0, a0, a2
	sd	a0, 16(a3)
	ret
.LBB12_3:
	sext.w	a6, a2
	ori	a3, a1, 32
	lui	a4, 349525
	srliw	a5, a3, 1
	addi	a4, a4, 1365
	or	a3, a3, a5
	srliw	a5, a3, 2
	or	a3, a3, a5
	srliw	a5, a3, 4
	or	a3, a3, a5
	srliw	a5, a3, 8
	or	a3, a3, a5
	srliw	a5, a3, 16
	or	a3, a3, a5
	not	a3, a3
	srli	a5, a3, 1
	and	a4, a4, a5
	lui	a5, 209715
	addi	a5, a5, 819
	sub	a3, a3, a4
	and	a4, a3, a5
	srli	a3, a3, 2
	and	a3, a3, a5
	lui	a5, 61681
	add	a3, a3, a4
	srli	a4, a3, 4
	add	a3, a3, a4
	lui	a4, 4112
	addi	a5, a5, -241
	and	a3, a3, a5
	li	a5, 26
	addi	a4, a4, 257
	mul	a3, a3, a4
	srliw	a3, a3, 24
	sub	a5, a5, a3
	srlw	a1, a1, a5
	slli	a4, a5, 5
	li	a5, -1
	addw	a4, a4, a1
	beq	a6, a5, .LBB12_6
	slli	a1, a2, 32
	srli	a1, a1, 29
	add	a1, a1, a7
	ld	a3, 16(a1)
	slli	a5, a5, 32
	slli	a4, a4, 2
	add	a0, a0, a4
	or	a3, a3, a5
	sd	a3, 16(a1)
	sw	a2, 144(a0)
	ret
.LBB12_5:
	or	a0, a0, a4
	sd	a0, 16(a1)
	ret
.LBB12_6:
	slli	a2, a4, 2
	srli	a4, a4, 5
	add	a2, a2, a0
	slli	a3, a4, 2
	sw	a5, 144(a2)
	add	a3, a3, a0
	lw	a5, 60(a3)
	li	a2, 1
	sllw	a1, a2, a1
	not	a1, a1
	and	a1, a1, a5
	sw	a1, 60(a3)
	beqz	a1, .LBB12_8
	ret
.LBB12_8:
	lw	a1, 56(a0)
	sllw	a2, a2, a4
	not	a2, a2
	and	a1, a1, a2
	sw	a1, 56(a0)
	ret
.Lfunc_end12:
	.size	tlsf_heap.region.Region.remove.5, .Lfunc_end12-tlsf_heap.region.Region.remove.5
	.cfi_endproc
	.p2align	1
	.type	tlsf_heap.heap.Heap.release_live.5,@function
tlsf_heap.heap.Heap.release_live.5:
	.cfi_startproc
	lbu	a3, 4(a1)
	lbu	a4, 5(a1)
	lbu	a5, 6(a1)
	lbu	a1, 7(a1)
	ld	a2, 24(a0)
	slli	a4, a4, 8
	slli	a5, a5, 16
	slli	a1, a1, 24
	or	a3, a3, a4
	or	a1, a1, a5
	or	a4, a1, a3
	slli	a7, a4, 3
	add	t1, a2, a7
	ld	t2, 0(t1)
	lw	a1, 16(a0)
	srliw	t0, t2, 2
	sub	a1, a1, t0
	andi	a3, t2, 2
	sw	a1, 16(a0)
	bnez	a3, .LBB13_2
	add	a1, t0, a4
	slli	a1, a1, 32
	srli	a1, a1, 29
	add	a1, a1, a2
	ld	a1, 0(a1)
	addi	a6, a0, 24
	bnez	a4, .LBB13_3
	j	.LBB13_4
.LBB13_2:
	li	a1, 0
	addi	a6, a0, 24
	beqz	a4, .LBB13_4
.LBB13_3:
	srli	a3, t2, 29
	andi	a3, a3, -8
	add	a2, a2, a3
	ld	a2, 0(a2)
	andi	a3, a2, 1
	bnez	a3, .LBB13_8
.LBB13_4:
	ld	a3, 8(a0)
	andi	a2, a1, 1
	bnez	a2, .LBB13_7
	ori	a1, t2, 1
	ori	a2, t0, 32
	lui	a5, 349525
	lui	a6, 209715
	sd	a1, 0(t1)
	sd	a3, 8(t1)
	lui	t1, 61681
	srli	a3, a2, 1
	addi	a5, a5, 1365
	or	a2, a2, a3
	srli	a3, a2, 2
	or	a2, a2, a3
	srli	a3, a2, 4
	or	a2, a2, a3
	slli	a3, a2, 34
	srli	a3, a3, 42
	or	a2, a2, a3
	slli	a3, a2, 33
	srli	a3, a3, 49
	or	a2, a2, a3
	not	a2, a2
	srli	a3, a2, 1
	and	a3, a3, a5
	lui	t2, 4112
	addi	a1, a6, 819
	sub	a2, a2, a3
	and	a3, a2, a1
	srli	a2, a2, 2
	and	a1, a1, a2
	li	a6, 26
	addi	a5, t1, -241
	addi	a2, t2, 257
	add	a1, a1, a3
	srli	a3, a1, 4
	add	a1, a1, a3
	ld	t1, 8(a0)
	and	a1, a1, a5
	mul	a1, a1, a2
	srliw	a1, a1, 24
	sub	a2, a6, a1
	srlw	a6, t0, a2
	slli	a2, a2, 5
	add	a3, a6, a2
	slli	a2, a3, 2
	add	a2, a2, a0
	lw	a1, 168(a2)
	ld	a5, 24(a0)
	addi	t1, t1, 1
	sd	t1, 8(a0)
	sw	a4, 168(a2)
	bltz	a1, .LBB13_9
	add	a7, a7, a5
	slli	a0, a1, 3
	add	a0, a0, a5
	li	a2, -1
	slli	a2, a2, 32
	or	a1, a1, a2
	sd	a1, 16(a7)
	sw	a4, 20(a0)
	ret
.LBB13_7:
	addi	a2, a3, 1
	sd	a2, 8(a0)
	mv	a0, a6
	mv	a2, t2
	tail	tlsf_heap.fitting.merge_next.5
.LBB13_8:
	ld	a3, 8(a0)
	addi	a5, a3, 1
	sd	a5, 8(a0)
	mv	a0, a6
	mv	a5, t2
	tail	tlsf_heap.fitting.merge_before.5
.LBB13_9:
	add	a5, a5, a7
	li	a1, -1
	srli	a3, a3, 5
	li	a2, 1
	sd	a1, 16(a5)
	slli	a1, a3, 2
	add	a1, a1, a0
	lw	a4, 80(a0)
	lw	a5, 84(a1)
	sllw	a3, a2, a3
	sllw	a2, a2, a6
	or	a3, a3, a4
	or	a2, a2, a5
	sw	a3, 80(a0)
	sw	a2, 84(a1)
	ret
.Lfunc_end13:
	.size	tlsf_heap.heap.Heap.release_live.5, .Lfunc_end13-tlsf_heap.heap.Heap.release_live.5
	.cfi_endproc
	.p2align	1
	.type	tlsf_heap.fitting.merge_before.5,@function
tlsf_heap.fitting.merge_before.5:
	.cfi_startproc
	addi	sp, sp, -96
	.cfi_def_cfa_offset 96
	sd	ra, 88(sp)
	sd	s0, 80(sp)
	sd	s1, 72(sp)
	sd	s2, 64(sp)
	sd	s3, 56(sp)
	sd	s4, 48(sp)
	sd	s5, 40(sp)
	sd	s6, 32(sp)
	sd	s7, 24(sp)
	sd	s8, 16(sp)
	sd	s9, 8(sp)
	sd	s10, 0(sp)
	.cfi_offset ra, -8
	.cfi_offset s0, -16
	.cfi_offset s1, -24
	.cfi_offset s2, -32
	.cfi_offset s3, -40
	.cfi_offset s4, -48
	.cfi_offset s5, -56
	.cfi_offset s6, -64
	.cfi_offset s7, -72
	.cfi_offset s8, -80
	.cfi_offset s9, -88
	.cfi_offset s10, -96
	addi	s0, sp, 96
	.cfi_def_cfa s0, 0
	.cfi_remember_state
	andi	s1, a1, 1
	bnez	s1, .LBB14_3
	li	a6, -1
	srliw	a1, a2, 2
	ld	a7, 0(a0)
	srli	s3, a6, 32
	subw	s2, a4, a1
	addi	a6, s3, -1
	slli	s1, s2, 32
	and	s7, a5, a6
	srli	s4, s1, 29
	add	a7, a7, s4
	ld	a5, 16(a7)
	add	s7, s7, a2
	lui	s8, 131072
	addi	s8, s8, -8
	srli	s6, s1, 32
	bltz	a5, .LBB14_4
	mv	s10, a4
	mv	s9, a3
	srliw	s5, s7, 2
	j	.LBB14_8
.LBB14_3:
	.cfi_def_cfa sp, 96
	ld	ra, 88(sp)
	ld	s0, 80(sp)
	ld	s1, 72(sp)
	ld	s2, 64(sp)
	ld	s3, 56(sp)
	ld	s4, 48(sp)
	ld	s5, 40(sp)
	ld	s6, 32(sp)
	ld	s7, 24(sp)
	ld	s8, 16(sp)
	ld	s9, 8(sp)
	ld	s10, 0(sp)
	.cfi_restore ra
	.cfi_restore s0
	.cfi_restore s1
	.cfi_restore s2
	.cfi_restore s3
	.cfi_restore s4
	.cfi_restore s5
	.cfi_restore s6
	.cfi_restore s7
	.cfi_restore s8
	.cfi_restore s9
	.cfi_restore s10
	addi	sp, sp, 96
	.cfi_def_cfa_offset 0
	tail	tlsf_heap.fitting.merge_both.5
.LBB14_4:
	.cfi_restore_state
	ori	t1, a1, 32
	lui	a5, 349525
	lui	a6, 209715
	lui	a7, 61681
	lui	t0, 4112
	srliw	s5, s7, 2
	srli	a2, t1, 1
	addi	t3, a5, 1365
	ori	t2, s5, 32
	or	a2, t1, a2
	srli	s1, t2, 1
	srli	a5, a2, 2
	or	s1, t2, s1
	or	a2, a2, a5
	srli	a5, s1, 2
	srli	t1, a2, 4
	or	a5, a5, s1
	or	a2, a2, t1
	srli	s1, a5, 4
	slli	t1, a2, 34
	or	a5, a5, s1
	srli	s1, t1, 42
	slli	t1, a5, 33
	or	a2, a2, s1
	srli	s1, t1, 41
	slli	t1, a2, 33
	or	a5, a5, s1
	srli	s1, t1, 49
	srliw	t1, a5, 16
	or	a2, a2, s1
	or	a5, a5, t1
	not	a2, a2
	not	a5, a5
	srli	s1, a2, 1
	srli	t1, a5, 1
	and	t4, s1, t3
	and	t1, t1, t3
	li	t2, 26
	addi	s1, a6, 819
	addi	a6, a7, -241
	addi	a7, t0, 257
	sub	a2, a2, t4
	sub	a5, a5, t1
	and	t0, a2, s1
	srli	a2, a2, 2
	and	t1, a5, s1
	srli	a5, a5, 2
	and	a2, a2, s1
	and	a5, a5, s1
	add	a2, a2, t0
	add	a5, a5, t1
	srli	s1, a2, 4
	srli	t0, a5, 4
	add	a2, a2, s1
	add	a5, a5, t0
	and	a2, a2, a6
	and	a5, a5, a6
	mul	a2, a2, a7
	mul	a5, a5, a7
	srliw	a2, a2, 24
	srliw	a5, a5, 24
	sub	a2, t2, a2
	sub	a5, t2, a5
	srlw	a6, a1, a2
	slli	a2, a2, 5
	srlw	s1, s5, a5
	slli	a5, a5, 5
	add	a2, a2, a6
	add	a5, a5, s1
	bne	a2, a5, .LBB14_7
	ld	a1, 24(a0)
	srli	a2, a4, 3
	li	a5, -2
	and	a2, a2, s8
	neg	s1, a4
	add	a1, a1, a2
	ld	a2, 0(a1)
	sll	a4, a5, a4
	srl	a5, a5, s1
	or	a4, a4, a5
	and	a2, a2, a4
	sd	a2, 0(a1)
	ld	a1, 0(a0)
	andi	a2, s7, 2
	add	a1, a1, s4
	sd	s7, 0(a1)
	sd	a3, 8(a1)
	bnez	a2, .LBB14_13
	ld	a0, 0(a0)
	add	s2, s2, s5
	slli	s2, s2, 32
	srli	a1, s2, 29
	add	a0, a0, a1
	ld	a1, 0(a0)
	and	a1, a1, s3
	slli	s6, s6, 32
	or	a1, a1, s6
	sd	a1, 0(a0)
	j	.LBB14_13
.LBB14_7:
	mv	s10, a4
	mv	s9, a3
.LBB14_8:
	mv	s1, a0
	mv	a2, s2
	call	tlsf_heap.region.Region.remove.5
	ld	a0, 24(s1)
	srli	a1, s10, 3
	li	a2, -2
	and	a1, a1, s8
	neg	a3, s10
	add	a0, a0, a1
	ld	a1, 0(a0)
	sll	a4, a2, s10
	srl	a2, a2, a3
	or	a2, a2, a4
	and	a1, a1, a2
	sd	a1, 0(a0)
	ld	a0, 0(s1)
	andi	a1, s7, 2
	add	a0, a0, s4
	sd	s7, 0(a0)
	sd	s9, 8(a0)
	slli	s6, s6, 32
	bnez	a1, .LBB14_10
	ld	a0, 0(s1)
	add	a1, s5, s2
	slli	a1, a1, 32
	srli	a1, a1, 29
	add	a0, a0, a1
	ld	a1, 0(a0)
	and	a1, a1, s3
	or	a1, a1, s6
	sd	a1, 0(a0)
.LBB14_10:
	ori	a0, s5, 32
	lui	a1, 349525
	lui	a2, 209715
	srli	a3, a0, 1
	addi	a1, a1, 1365
	or	a0, a0, a3
	srli	a3, a0, 2
	or	a0, a0, a3
	srli	a3, a0, 4
	or	a0, a0, a3
	slli	a3, a0, 34
	srli	a3, a3, 42
	or	a0, a0, a3
	slli	a3, a0, 33
	srli	a3, a3, 49
	or	a0, a0, a3
	not	a0, a0
	srli	a3, a0, 1
	and	a1, a1, a3
	lui	a3, 61681
	addi	a2, a2, 819
	sub	a0, a0, a1
	and	a1, a0, a2
	srli	a0, a0, 2
	and	a0, a0, a2
	lui	a2, 4112
	add	a0, a0, a1
	srli	a1, a0, 4
	add	a0, a0, a1
	li	a1, 26
	addi	a3, a3, -241
	addi	a2, a2, 257
	and	a0, a0, a3
	mul	a0, a0, a2
	srliw	a0, a0, 24
	sub	a1, a1, a0
	srlw	a0, s5, a1
	slli	a1, a1, 5
	add	a3, a0, a1
	slli	a1, a3, 2
	add	a4, s1, a1
	lw	a2, 144(a4)
	ld	a1, 0(s1)
	sw	s2, 144(a4)
	bltz	a2, .LBB14_12
	li	a0, -1
	add	s4, s4, a1
	slli	a0, a0, 32
	or	a0, a0, a2
	slli	a2, a2, 3
	sd	a0, 16(s4)
	add	a1, a1, a2
	ld	a0, 16(a1)
	and	a0, a0, s3
	or	a0, a0, s6
	sd	a0, 16(a1)
	j	.LBB14_13
.LBB14_12:
	add	a1, a1, s4
	li	a2, -1
	srli	a3, a3, 5
	li	a4, 1
	sd	a2, 16(a1)
	slli	a1, a3, 2
	add	a1, a1, s1
	lw	a2, 56(s1)
	lw	a5, 60(a1)
	sllw	a3, a4, a3
	sllw	a0, a4, a0
	or	a2, a2, a3
	or	a0, a0, a5
	sw	a2, 56(s1)
	sw	a0, 60(a1)
.LBB14_13:
	.cfi_def_cfa sp, 96
	ld	ra, 88(sp)
	ld	s0, 80(sp)
	ld	s1, 72(sp)
	ld	s2, 64(sp)
	ld	s3, 56(sp)
	ld	s4, 48(sp)
	ld	s5, 40(sp)
	ld	s6, 32(sp)
	ld	s7, 24(sp)
	ld	s8, 16(sp)
	ld	s9, 8(sp)
	ld	s10, 0(sp)
	.cfi_restore ra
	.cfi_restore s0
	.cfi_restore s1
	.cfi_restore s2
	.cfi_restore s3
	.cfi_restore s4
	.cfi_restore s5
	.cfi_restore s6
	.cfi_restore s7
	.cfi_restore s8
	.cfi_restore s9
	.cfi_restore s10
	addi	sp, sp, 96
	.cfi_def_cfa_offset 0
	ret
.Lfunc_end14:
	.size	tlsf_heap.fitting.merge_before.5, .Lfunc_end14-tlsf_heap.fitting.merge_before.5
	.cfi_endproc
	.p2align	1
	.type	tlsf_heap.fitting.merge_both.5,@function
tlsf_heap.fitting.merge_both.5:
	.cfi_startproc
	addi	sp, sp, -96
	.cfi_def_cfa_offset 96
	sd	ra, 88(sp)
	sd	s0, 80(sp)
	sd	s1, 72(sp)
	sd	s2, 64(sp)
	sd	s3, 56(sp)
	sd	s4, 48(sp)
	sd	s5, 40(sp)
	sd	s6, 32(sp)
	sd	s7, 24(sp)
	sd	s8, 16(sp)
	sd	s9, 8(sp)
	.cfi_offset ra, -8
	.cfi_offset s0, -16
	.cfi_offset s1, -24
	.cfi_offset s2, -32
	.cfi_offset s3, -40
	.cfi_offset s4, -48
	.cfi_offset s5, -56
	.cfi_offset s6, -64
	.cfi_offset s7, -72
	.cfi_offset s8, -80
	.cfi_offset s9, -88
	addi	s0, sp, 96
	.cfi_def_cfa s0, 0
	mv	s7, a5
	mv	s1, a4
	mv	s3, a3
	mv	s5, a2
	mv	s8, a1
	mv	s6, a0
	li	a0, -1
	srliw	s4, a1, 2
	srliw	a2, a5, 2
	srli	s9, a0, 32
	addw	a2, a2, a4
	mv	a0, s6
	mv	a1, s4
	call	tlsf_heap.region.Region.remove.5
	srliw	a1, s5, 2
	subw	s2, s1, a1
	mv	a0, s6
	mv	a2, s2
	call	tlsf_heap.region.Region.remove.5
	add	s7, s7, s8
	ld	a0, 24(s6)
	srliw	a1, s1, 6
	li	a7, -2
	neg	a3, s1
	slli	a4, s2, 32
	slli	s7, s7, 32
	slli	a1, a1, 3
	sll	a5, a7, s1
	srl	a3, a7, a3
	srli	s1, s7, 32
	or	a5, a5, a3
	add	s1, s1, s5
	addi	s1, s1, -1
	add	a1, a1, a0
	ld	a0, 0(a1)
	srliw	a6, s1, 2
	add	a3, a6, s2
	sub	a2, a3, s4
	and	a0, a0, a5
	sd	a0, 0(a1)
	ld	a0, 24(s6)
	srliw	a1, a2, 6
	sll	a5, a7, a2
	slli	a1, a1, 3
	add	a0, a0, a1
	ld	a1, 0(a0)
	neg	a2, a2
	srl	a2, a7, a2
	or	a2, a2, a5
	and	a1, a1, a2
	sd	a1, 0(a0)
	ld	a0, 0(s6)
	srli	a2, a4, 32
	srli	a1, a4, 29
	andi	a4, s1, 2
	add	a0, a0, a1
	sd	s1, 0(a0)
	sd	s3, 8(a0)
	slli	a2, a2, 32
	bnez	a4, .LBB15_2
	ld	a0, 0(s6)
	slli	a3, a3, 32
	srli	a3, a3, 29
	add	a0, a0, a3
	ld	a3, 0(a0)
	and	a3, a3, s9
	or	a3, a3, a2
	sd	a3, 0(a0)
.LBB15_2:
	ori	a0, a6, 32
	lui	a3, 349525
	lui	a4, 209715
	srli	a5, a0, 1
	addi	a3, a3, 1365
	or	a0, a0, a5
	srli	a5, a0, 2
	or	a0, a0, a5
	srli	a5, a0, 4
	or	a0, a0, a5
	slli	a5, a0, 34
	srli	a5, a5, 42
	or	a0, a0, a5
	slli	a5, a0, 33
	srli	a5, a5, 49
	or	a0, a0, a5
	not	a0, a0
	srli	a5, a0, 1
	and	a3, a3, a5
	lui	a5, 61681
	addi	a4, a4, 819
	sub	a0, a0, a3
	and	a3, a0, a4
	srli	a0, a0, 2
	and	a0, a0, a4
	lui	a4, 4112
	add	a0, a0, a3
	srli	a3, a0, 4
	add	a0, a0, a3
	li	a3, 26
	addi	a5, a5, -241
	addi	a4, a4, 257
	and	a0, a0, a5
	mul	a0, a0, a4
	srliw	a0, a0, 24
	sub	a3, a3, a0
	srlw	a0, a6, a3
	slli	a3, a3, 5
	add	a5, a0, a3
	slli	a3, a5, 2
	add	a3, a3, s6
	lw	a4, 144(a3)
	ld	s1, 0(s6)
	sw	s2, 144(a3)
	bltz	a4, .LBB15_4
	li	a0, -1
	add	a1, a1, s1
	slli	a0, a0, 32
	or	a0, a0, a4
	slli	a4, a4, 3
	sd	a0, 16(a1)
	add	a4, a4, s1
	ld	a0, 16(a4)
	and	a0, a0, s9
	or	a0, a0, a2
	sd	a0, 16(a4)
	j	.LBB15_5
.LBB15_4:
	add	a1, a1, s1
	li	a2, -1
	srli	a5, a5, 5
	li	a3, 1
	sd	a2, 16(a1)
	slli	a1, a5, 2
	add	a1, a1, s6
	lw	a2, 56(s6)
	lw	a4, 60(a1)
	sllw	a5, a3, a5
	sllw	a0, a3, a0
	or	a2, a2, a5
	or	a0, a0, a4
	sw	a2, 56(s6)
	sw	a0, 60(a1)
.LBB15_5:
	.cfi_def_cfa sp, 96
	ld	ra, 88(sp)
	ld	s0, 80(sp)
	ld	s1, 72(sp)
	ld	s2, 64(sp)
	ld	s3, 56(sp)
	ld	s4, 48(sp)
	ld	s5, 40(sp)
	ld	s6, 32(sp)
	ld	s7, 24(sp)
	ld	s8, 16(sp)
	ld	s9, 8(sp)
	.cfi_restore ra
	.cfi_restore s0
	.cfi_restore s1
	.cfi_restore s2
	.cfi_restore s3
	.cfi_restore s4
	.cfi_restore s5
	.cfi_restore s6
	.cfi_restore s7
	.cfi_restore s8
	.cfi_restore s9
	addi	sp, sp, 96
	.cfi_def_cfa_offset 0
	ret
.Lfunc_end15:
	.size	tlsf_heap.fitting.merge_both.5, .Lfunc_end15-tlsf_heap.fitting.merge_both.5
	.cfi_endproc
	.p2align	1
	.type	tlsf_heap.fitting.merge_next.5,@function
tlsf_heap.fitting.merge_next.5:
	.cfi_startproc
	addi	sp, sp, -80
	.cfi_def_cfa_offset 80
	sd	ra, 72(sp)
	sd	s0, 64(sp)
	sd	s1, 56(sp)
	sd	s2, 48(sp)
	sd	s3, 40(sp)
	sd	s4, 32(sp)
	sd	s5, 24(sp)
	sd	s6, 16(sp)
	sd	s7, 8(sp)
	.cfi_offset ra, -8
	.cfi_offset s0, -16
	.cfi_offset s1, -24
	.cfi_offset s2, -32
	.cfi_offset s3, -40
	.cfi_offset s4, -48
	.cfi_offset s5, -56
	.cfi_offset s6, -64
	.cfi_offset s7, -72
	addi	s0, sp, 80
	.cfi_def_cfa s0, 0
	mv	s2, a4
	mv	s3, a3
	mv	s5, a2
	mv	s1, a1
	mv	s4, a0
	li	a0, -1
	srliw	s6, a1, 2
	srliw	a1, a2, 2
	srli	s7, a0, 32
	addw	a2, a4, a1
	mv	a0, s4
	mv	a1, s6
	call	tlsf_heap.region.Region.remove.5
	slli	s1, s1, 32
	ld	a1, 24(s4)
	li	a2, -2
	srli	s1, s1, 32
	add	s1, s1, s5
	srliw	a6, s1, 2
	add	a3, a6, s2
	sub	a4, a3, s6
	srliw	a5, a4, 6
	sll	a0, a2, a4
	neg	a4, a4
	slli	a5, a5, 3
	add	a1, a1, a5
	ld	a5, 0(a1)
	srl	a2, a2, a4
	slli	a4, s2, 32
	or	a0, a0, a2
	and	a0, a0, a5
	sd	a0, 0(a1)
	ld	a0, 0(s4)
	srli	a2, a4, 32
	srli	a1, a4, 29
	andi	a4, s1, 2
	add	a0, a0, a1
	sd	s1, 0(a0)
	sd	s3, 8(a0)
	slli	a2, a2, 32
	bnez	a4, .LBB16_2
	ld	a0, 0(s4)
	slli	a3, a3, 32
	srli	a3, a3, 29
	add	a0, a0, a3
	ld	a3, 0(a0)
	and	a3, a3, s7
	or	a3, a3, a2
	sd	a3, 0(a0)
.LBB16_2:
	ori	a0, a6, 32
	lui	a3, 349525
	lui	a4, 209715
	srli	a5, a0, 1
	addi	a3, a3, 1365
	or	a0, a0, a5
	srli	a5, a0, 2
	or	a0, a0, a5
	srli	a5, a0, 4
	or	a0, a0, a5
	slli	a5, a0, 34
	srli	a5, a5, 42
	or	a0, a0, a5
	slli	a5, a0, 33
	srli	a5, a5, 49
	or	a0, a0, a5
	not	a0, a0
	srli	a5, a0, 1
	and	a3, a3, a5
	lui	a5, 61681
	addi	a4, a4, 819
	sub	a0, a0, a3
	and	a3, a0, a4
	srli	a0, a0, 2
	and	a0, a0, a4
	lui	a4, 4112
	add	a0, a0, a3
	srli	a3, a0, 4
	add	a0, a0, a3
	li	a3, 26
	addi	a5, a5, -241
	addi	a4, a4, 257
	and	a0, a0, a5
	mul	a0, a0, a4
	srliw	a0, a0, 24
	sub	a3, a3, a0
	srlw	a0, a6, a3
	slli	a3, a3, 5
	add	a5, a0, a3
	slli	a3, a5, 2
	add	a3, a3, s4
	lw	a4, 144(a3)
	ld	s1, 0(s4)
	sw	s2, 144(a3)
	bltz	a4, .LBB16_4
	li	a0, -1
	add	a1, a1, s1
	slli	a0, a0, 32
	or	a0, a0, a4
	slli	a4, a4, 3
	sd	a0, 16(a1)
	add	a4, a4, s1
	ld	a0, 16(a4)
	and	a0, a0, s7
	or	a0, a0, a2
	sd	a0, 16(a4)
	j	.LBB16_5
.LBB16_4:
	add	a1, a1, s1
	li	a2, -1
	srli	a5, a5, 5
	li	a3, 1
	sd	a2, 16(a1)
	slli	a1, a5, 2
	add	a1, a1, s4
	lw	a2, 56(s4)
	lw	a4, 60(a1)
	sllw	a5, a3, a5
	sllw	a0, a3, a0
	or	a2, a2, a5
	or	a0, a0, a4
	sw	a2, 56(s4)
	sw	a0, 60(a1)
.LBB16_5:
	.cfi_def_cfa sp, 80
	ld	ra, 72(sp)
	ld	s0, 64(sp)
	ld	s1, 56(sp)
	ld	s2, 48(sp)
	ld	s3, 40(sp)
	ld	s4, 32(sp)
	ld	s5, 24(sp)
	ld	s6, 16(sp)
	ld	s7, 8(sp)
	.cfi_restore ra
	.cfi_restore s0
	.cfi_restore s1
	.cfi_restore s2
	.cfi_restore s3
	.cfi_restore s4
	.cfi_restore s5
	.cfi_restore s6
	.cfi_restore s7
	addi	sp, sp, 80
	.cfi_def_cfa_offset 0
	ret
.Lfunc_end16:
	.size	tlsf_heap.fitting.merge_next.5, .Lfunc_end16-tlsf_heap.fitting.merge_next.5
	.cfi_endproc
	.p2align	1
	.type	tlsf_heap.check.examine,@function
tlsf_heap.check.examine:
	.cfi_startproc
	lw	a4, 8(a0)
	sext.w	t3, a1
	addiw	a5, a4, -4
	bgeu	a5, t3, .LBB17_2
.LBB17_1:
	li	a2, 0
	j	.LBB17_26
.LBB17_2:
	ld	t2, 24(a0)
	srliw	a2, a1, 6
	slli	a2, a2, 3
	add	a2, a2, t2
	ld	a2, 0(a2)
	srl	a2, a2, a1
	andi	a2, a2, 1
	beqz	a2, .LBB17_26
	ld	a6, 0(a0)
	slli	a0, a1, 32
	srli	a0, a0, 29
	add	t0, a6, a0
	ld	a3, 0(t0)
	sext.w	a0, a3
	li	a7, 16
	li	a2, 0
	bltu	a0, a7, .LBB17_18
	srliw	t1, a3, 2
	addw	a7, t1, a1
	mv	a0, a2
	bltu	a4, a7, .LBB17_27
	slli	a0, a3, 62
	xor	a2, a7, a4
	srli	a0, a0, 63
	seqz	a2, a2
	bne	a0, a2, .LBB17_1
	srli	a0, a3, 32
	beqz	t3, .LBB17_10
	sext.w	a2, a0
	bltu	a5, a2, .LBB17_1
	srli	a2, a3, 35
	andi	a2, a2, -8
	add	a2, a2, t2
	ld	a2, 0(a2)
	srl	a2, a2, a0
	andi	a2, a2, 1
	beqz	a2, .LBB17_26
	slli	a2, a0, 3
	add	a2, a2, a6
	lwu	a2, 0(a2)
	srli	a2, a2, 2
	addw	a0, a0, a2
	bne	a0, t3, .LBB17_1
	j	.LBB17_11
.LBB17_10:
	li	a2, -1
	srli	a2, a2, 32
	bne	a0, a2, .LBB17_1
.LBB17_11:
	andi	a3, a3, 1
	bgeu	a7, a4, .LBB17_16
	bltu	a5, a7, .LBB17_1
	lui	a0, 131072
	addi	a0, a0, -8
	srli	a2, a7, 3
	and	a0, a0, a2
	add	a0, a0, t2
	ld	a0, 0(a0)
	srl	a0, a0, a7
	andi	a0, a0, 1
	beqz	a0, .LBB17_31
	slli	a0, a7, 32
	srli	a0, a0, 29
	add	a0, a0, a6
	ld	a0, 0(a0)
	srai	a4, a0, 32
	li	a2, 0
	bne	t3, a4, .LBB17_18
	and	a4, a3, a0
	mv	a0, a2
	bnez	a4, .LBB17_27
.LBB17_16:
	bnez	a3, .LBB17_19
	addi	a1, a1, 2
	slli	a1, a1, 32
	srli	a1, a1, 29
	add	a1, a1, a6
	ld	a0, 0(a1)
	slli	t1, t1, 3
	addi	t1, t1, -24
	bltu	t1, a0, .LBB17_1
	j	.LBB17_25
.LBB17_18:
	mv	a0, a2
	mv	a1, a2
	ret
.LBB17_19:
	ld	a0, 16(t0)
	sext.w	a2, a0
	li	a1, -1
	beq	a2, a1, .LBB17_24
	bltu	a5, a2, .LBB17_1
	srliw	a2, a0, 6
	slli	a2, a2, 3
	add	a2, a2, t2
	ld	a2, 0(a2)
	srl	a2, a2, a0
	andi	a2, a2, 1
	beqz	a2, .LBB17_26
	slli	a2, a0, 32
	srli	a2, a2, 29
	add	a2, a2, a6
	lbu	a3, 0(a2)
	andi	a3, a3, 1
	beqz	a3, .LBB17_1
	lw	a2, 20(a2)
	bne	t3, a2, .LBB17_1
.LBB17_24:
	srli	a2, a0, 32
	srli	a1, a1, 32
	bne	a2, a1, .LBB17_28
.LBB17_25:
	li	a0, 1
	mv	a1, a7
	ret
.LBB17_26:
	li	a0, 0
.LBB17_27:
	mv	a1, a2
	ret
.LBB17_28:
	sext.w	a1, a2
	bltu	a5, a1, .LBB17_1
	srli	a0, a0, 35
	andi	a0, a0, -8
	add	a0, a0, t2
	ld	a0, 0(a0)
	srl	a0, a0, a2
	andi	a0, a0, 1
	beqz	a0, .LBB17_31
	slli	a2, a2, 3
	add	a6, a6, a2
	lbu	a0, 0(a6)
	andi	a0, a0, 1
	bnez	a0, .LBB17_32
.LBB17_31:
	li	a1, 0
	ret
.LBB17_32:
	lw	a0, 16(a6)
	bne	t3, a0, .LBB17_1
	j	.LBB17_25
.Lfunc_end17:
	.size	tlsf_heap.check.examine, .Lfunc_end17-tlsf_heap.check.examine
	.cfi_endproc
	.p2align	1
	.type	tlsf_post.take_end.TakeEnd.take_slice,@function
tlsf_post.take_end.TakeEnd.take_slice:
	.cfi_startproc
	addi	sp, sp, -96
	.cfi_def_cfa_offset 96
	sd	ra, 88(sp)
	sd	s0, 80(sp)
	sd	s1, 72(sp)
	sd	s2, 64(sp)
	sd	s3, 56(sp)
	sd	s4, 48(sp)
	sd	s5, 40(sp)
	sd	s6, 32(sp)
	sd	s7, 24(sp)
	sd	s8, 16(sp)
	sd	s9, 8(sp)
	sd	s10, 0(sp)
	.cfi_offset ra, -8
	.cfi_offset s0, -16
	.cfi_offset s1, -24
	.cfi_offset s2, -32
	.cfi_offset s3, -40
	.cfi_offset s4, -48
	.cfi_offset s5, -56
	.cfi_offset s6, -64
	.cfi_offset s7, -72
	.cfi_offset s8, -80
	.cfi_offset s9, -88
	.cfi_offset s10, -96
	addi	s0, sp, 96
	.cfi_def_cfa s0, 0
	mv	s2, a2
	mv	s4, a0
	ld	s5, 24(a0)
	ld	a0, 32(a0)
	ld	s6, 16(s4)
	sltu	a2, a0, s5
	slli	a3, s6, 1
	neg	a2, a2
	and	a2, a2, a3
	sub	a0, a0, s5
	add	a0, a0, a2
	mv	s3, a1
	bgeu	a0, s2, .LBB18_4
	ld	a0, 0(s4)
	fence	rw, rw
	ld	a1, 128(a0)
	fence	r, rw
	ld	s5, 24(s4)
	ld	s6, 16(s4)
	sltu	a0, a1, s5
	slli	a2, s6, 1
	neg	a0, a0
	and	a0, a0, a2
	sub	a2, a1, s5
	add	a0, a0, a2
	sd	a1, 32(s4)
	bltu	a0, s2, .LBB18_3
	mv	a0, s2
.LBB18_3:
	mv	s2, a0
.LBB18_4:
	beqz	s2, .LBB18_16
	sltu	a0, s5, s6
	addi	a0, a0, -1
	and	a0, a0, s6
	sub	a1, s5, a0
	sub	s8, s6, a1
	mv	s7, s8
	bltu	s8, s2, .LBB18_7
	mv	s7, s2
.LBB18_7:
	beq	s6, a1, .LBB18_10
	slli	a1, s5, 3
	slli	a2, s5, 4
	add	a1, a1, a2
	slli	a2, a0, 3
	slli	a0, a0, 4
	add	a0, a0, a2
	sub	s9, a1, a0
	mv	s10, s3
	mv	s1, s7
.LBB18_9:
	ld	a1, 8(s4)
	add	a1, a1, s9
	li	a2, 24
	mv	a0, s10
	call	tlsf_memory_move
	addi	s1, s1, -1
	addi	s10, s10, 24
	addi	s9, s9, 24
	bnez	s1, .LBB18_9
.LBB18_10:
	bgeu	s8, s2, .LBB18_13
	li	s1, 0
	slli	a0, s7, 3
	slli	a1, s7, 4
	add	a0, a0, a1
	add	s3, s3, a0
	sub	s7, s2, s7
.LBB18_12:
	ld	a1, 8(s4)
	add	a1, a1, s1
	add	a0, s3, s1
	li	a2, 24
	call	tlsf_memory_move
	addi	s7, s7, -1
	addi	s1, s1, 24
	bnez	s7, .LBB18_12
.LBB18_13:
	slli	s6, s6, 1
	sub	a0, s6, s5
	bltu	s2, a0, .LBB18_15
	neg	s5, a0
.LBB18_15:
	ld	a0, 0(s4)
	add	s5, s5, s2
	fence	rw, w
	sd	s5, 0(a0)
	fence	rw, rw
.LBB18_16:
	sd	s5, 24(s4)
	mv	a0, s2
	.cfi_def_cfa sp, 96
	ld	ra, 88(sp)
	ld	s0, 80(sp)
	ld	s1, 72(sp)
	ld	s2, 64(sp)
	ld	s3, 56(sp)
	ld	s4, 48(sp)
	ld	s5, 40(sp)
	ld	s6, 32(sp)
	ld	s7, 24(sp)
	ld	s8, 16(sp)
	ld	s9, 8(sp)
	ld	s10, 0(sp)
	.cfi_restore ra
	.cfi_restore s0
	.cfi_restore s1
	.cfi_restore s2
	.cfi_restore s3
	.cfi_restore s4
	.cfi_restore s5
	.cfi_restore s6
	.cfi_restore s7
	.cfi_restore s8
	.cfi_restore s9
	.cfi_restore s10
	addi	sp, sp, 96
	.cfi_def_cfa_offset 0
	ret
.Lfunc_end18:
	.size	tlsf_post.take_end.TakeEnd.take_slice, .Lfunc_end18-tlsf_post.take_end.TakeEnd.take_slice
	.cfi_endproc
	.p2align	1
	.type	tlsf_c.heap_calls.release_named,@function
tlsf_c.heap_calls.release_named:
	.cfi_startproc
	addi	sp, sp, -32
	.cfi_def_cfa_offset 32
	sd	ra, 24(sp)
	sd	s0, 16(sp)
	sd	s1, 8(sp)
	sd	s2, 0(sp)
	.cfi_offset ra, -8
	.cfi_offset s0, -16
	.cfi_offset s1, -24
	.cfi_offset s2, -32
	addi	s0, sp, 32
	.cfi_def_cfa s0, 0
	.cfi_remember_state
	mv	t2, a3
	lbu	a3, 8(a0)
	beqz	a3, .LBB19_26
	ld	s2, 0(a0)
	lbu	a0, 0(s2)
	beqz	a0, .LBB19_26
	lbu	a0, 16(s2)
	lw	a3, 24(s2)
	sb	zero, 0(s2)
	beqz	a0, .LBB19_11
	sext.w	a0, a1
	bne	a0, a3, .LBB19_20
	lw	a0, 56(s2)
	sext.w	t3, t2
	mv	a3, a1
	bgeu	t3, a0, .LBB19_20
	ld	a0, 72(s2)
	srliw	a3, t2, 6
	slli	a3, a3, 3
	add	a0, a0, a3
	ld	a0, 0(a0)
	srl	a0, a0, t2
	andi	a0, a0, 1
	mv	a3, a1
	beqz	a0, .LBB19_20
	addi	a0, s2, 48
	ld	a4, 0(a0)
	slli	a6, t2, 32
	srli	a7, a6, 29
	add	t1, a4, a7
	ld	s1, 0(t1)
	andi	a5, s1, 1
	mv	a3, a1
	bnez	a5, .LBB19_20
	ld	a5, 8(t1)
	mv	a3, a1
	bne	a5, a2, .LBB19_20
	ld	a3, 32(s2)
	li	a1, -1
	beq	a3, a1, .LBB19_19
	lw	a1, 40(s2)
	srliw	t0, s1, 2
	sub	a1, a1, t0
	andi	a2, s1, 2
	sw	a1, 40(s2)
	bnez	a2, .LBB19_21
	add	a1, t0, t2
	slli	a1, a1, 32
	srli	a1, a1, 29
	add	a1, a1, a4
	ld	a1, 0(a1)
	bnez	t3, .LBB19_22
	j	.LBB19_23
.LBB19_11:
	sext.w	a0, a1
	bne	a0, a3, .LBB19_20
	lw	a0, 56(s2)
	sext.w	t3, t2
	mv	a3, a1
	bgeu	t3, a0, .LBB19_20
	ld	a0, 72(s2)
	srliw	a3, t2, 6
	slli	a3, a3, 3
	add	a0, a0, a3
	ld	a0, 0(a0)
	srl	a0, a0, t2
	andi	a0, a0, 1
	mv	a3, a1
	beqz	a0, .LBB19_20
	addi	a0, s2, 48
	ld	a4, 0(a0)
	slli	a6, t2, 32
	srli	a7, a6, 29
	add	t1, a4, a7
	ld	t4, 0(t1)
	andi	a5, t4, 1
	mv	a3, a1
	bnez	a5, .LBB19_20
	ld	a5, 8(t1)
	mv	a3, a1
	bne	a5, a2, .LBB19_20
	ld	a3, 32(s2)
	li	a1, -1
	beq	a3, a1, .LBB19_19
	lw	a1, 40(s2)
	srliw	t0, t4, 2
	sub	a1, a1, t0
	andi	a2, t4, 2
	sw	a1, 40(s2)
	bnez	a2, .LBB19_29
	add	a1, t0, t2
	slli	a1, a1, 32
	srli	a1, a1, 29
	add	a1, a1, a4
	ld	a1, 0(a1)
	bnez	t3, .LBB19_30
	j	.LBB19_31
.LBB19_19:
	li	a0, 2
	j	.LBB19_38
.LBB19_20:
	mv	a0, a1
	mv	a1, a3
	call	tlsf_heap.refusal.Refusal.of_name
	zext.b	a0, a0
	addi	a0, a0, -3
	seqz	a0, a0
	addi	a0, a0, 3
	j	.LBB19_38
.LBB19_21:
	li	a1, 0
	beqz	t3, .LBB19_23
.LBB19_22:
	srli	a2, s1, 29
	andi	a2, a2, -8
	add	a2, a2, a4
	ld	a2, 0(a2)
	andi	a4, a2, 1
	bnez	a4, .LBB19_28
.LBB19_23:
	andi	a2, a1, 1
	bnez	a2, .LBB19_27
	addi	s1, s1, 1
	ori	a0, t0, 32
	lui	a1, 349525
	lui	a2, 209715
	sd	s1, 0(t1)
	sd	a3, 8(t1)
	lui	a3, 61681
	srli	a4, a0, 1
	addi	a1, a1, 1365
	or	a0, a0, a4
	srli	a4, a0, 2
	or	a0, a0, a4
	srli	a4, a0, 4
	or	a0, a0, a4
	slli	a4, a0, 34
	srli	a4, a4, 42
	or	a0, a0, a4
	slli	a4, a0, 33
	srli	a4, a4, 49
	or	a0, a0, a4
	not	a0, a0
	srli	a4, a0, 1
	and	a1, a1, a4
	lui	a4, 4112
	addi	a2, a2, 819
	sub	a0, a0, a1
	and	a1, a0, a2
	srli	a0, a0, 2
	and	a0, a0, a2
	li	a2, 26
	addi	a3, a3, -241
	addi	a4, a4, 257
	add	a0, a0, a1
	srli	a1, a0, 4
	add	a0, a0, a1
	ld	a5, 32(s2)
	and	a0, a0, a3
	mul	a0, a0, a4
	srliw	a0, a0, 24
	sub	a2, a2, a0
	srlw	a1, t0, a2
	slli	a2, a2, 5
	add	a4, a1, a2
	slli	a0, a4, 2
	add	a0, a0, s2
	lw	a2, 192(a0)
	ld	a3, 48(s2)
	sw	t2, 192(a0)
	addi	a5, a5, 1
	sd	a5, 32(s2)
	bgez	a2, .LBB19_33
	li	a0, 0
	add	a3, a3, a7
	li	a2, -1
	srli	a4, a4, 5
	li	a5, 1
	sd	a2, 16(a3)
	slli	a2, a4, 2
	add	a2, a2, s2
	lw	a3, 104(s2)
	lw	s1, 108(a2)
	sllw	a4, a5, a4
	sllw	a1, a5, a1
	or	a3, a3, a4
	or	a1, a1, s1
	j	.LBB19_37
.LBB19_26:
	li	a0, 0
	.cfi_def_cfa sp, 32
	ld	ra, 24(sp)
	ld	s0, 16(sp)
	ld	s1, 8(sp)
	ld	s2, 0(sp)
	.cfi_restore ra
	.cfi_restore s0
	.cfi_restore s1
	.cfi_restore s2
	addi	sp, sp, 32
	.cfi_def_cfa_offset 0
	tail	tlsf_c.call_fault.CallFault.refusal
.LBB19_27:
	.cfi_restore_state
	addi	a2, a3, 1
	sd	a2, 32(s2)
	mv	a2, s1
	mv	a4, t2
	call	tlsf_heap.fitting.merge_next.5
	li	a0, 0
	j	.LBB19_38
.LBB19_28:
	addi	a4, a3, 1
	sd	a4, 32(s2)
	mv	a4, t2
	mv	a5, s1
	call	tlsf_heap.fitting.merge_before.5
	li	a0, 0
	j	.LBB19_38
.LBB19_29:
	li	a1, 0
	beqz	t3, .LBB19_31
.LBB19_30:
	srli	a2, t4, 29
	andi	a2, a2, -8
	add	a2, a2, a4
	ld	a2, 0(a2)
	andi	a4, a2, 1
	bnez	a4, .LBB19_35
.LBB19_31:
	andi	a2, a1, 1
	bnez	a2, .LBB19_34
	addi	t4, t4, 1
	ori	a0, t0, 16
	lui	a1, 349525
	lui	a2, 209715
	sd	t4, 0(t1)
	sd	a3, 8(t1)
	lui	a3, 61681
	srli	a4, a0, 1
	addi	a1, a1, 1365
	or	a0, a0, a4
	srli	a4, a0, 2
	or	a0, a0, a4
	srli	a4, a0, 4
	or	a0, a0, a4
	slli	a4, a0, 34
	srli	a4, a4, 42
	or	a0, a0, a4
	slli	a4, a0, 33
	srli	a4, a4, 49
	or	a0, a0, a4
	not	a0, a0
	srli	a4, a0, 1
	and	a1, a1, a4
	lui	a4, 4112
	addi	a2, a2, 819
	sub	a0, a0, a1
	and	a1, a0, a2
	srli	a0, a0, 2
	and	a0, a0, a2
	li	a2, 27
	addi	a3, a3, -241
	addi	a4, a4, 257
	add	a0, a0, a1
	srli	a1, a0, 4
	add	a0, a0, a1
	ld	a5, 32(s2)
	and	a0, a0, a3
	mul	a0, a0, a4
	srliw	a0, a0, 24
	sub	a2, a2, a0
	srlw	a1, t0, a2
	slli	a2, a2, 4
	add	a4, a1, a2
	slli	a0, a4, 2
	add	a0, a0, s2
	lw	a2, 192(a0)
	ld	a3, 48(s2)
	sw	t2, 192(a0)
	addi	a5, a5, 1
	sd	a5, 32(s2)
	bltz	a2, .LBB19_36
.LBB19_33:
	li	a0, 0
	add	a7, a7, a3
	slli	a1, a2, 3
	add	a1, a1, a3
	li	a3, -1
	slli	a3, a3, 32
	or	a2, a2, a3
	srli	a3, a6, 32
	sd	a2, 16(a7)
	sw	a3, 20(a1)
	j	.LBB19_38
.LBB19_34:
	addi	a2, a3, 1
	sd	a2, 32(s2)
	mv	a2, t4
	mv	a4, t2
	call	tlsf_heap.fitting.merge_next.4
	li	a0, 0
	j	.LBB19_38
.LBB19_35:
	addi	a4, a3, 1
	sd	a4, 32(s2)
	mv	a4, t2
	mv	a5, t4
	call	tlsf_heap.fitting.merge_before.4
	li	a0, 0
	j	.LBB19_38
.LBB19_36:
	li	a0, 0
	add	a3, a3, a7
	li	a2, -1
	srli	a4, a4, 4
	li	a6, 1
	andi	a1, a1, 15
	sd	a2, 16(a3)
	slli	a2, a4, 2
	add	a2, a2, s2
	lw	a3, 104(s2)
	lw	a5, 108(a2)
	sllw	a4, a6, a4
	sllw	a1, a6, a1
	or	a3, a3, a4
	or	a1, a1, a5
.LBB19_37:
	sw	a3, 104(s2)
	sw	a1, 108(a2)
.LBB19_38:
	li	a1, 1
	sb	a1, 0(s2)
	.cfi_def_cfa sp, 32
	ld	ra, 24(sp)
	ld	s0, 16(sp)
	ld	s1, 8(sp)
	ld	s2, 0(sp)
	.cfi_restore ra
	.cfi_restore s0
	.cfi_restore s1
	.cfi_restore s2
	addi	sp, sp, 32
	.cfi_def_cfa_offset 0
	ret
.Lfunc_end19:
	.size	tlsf_c.heap_calls.release_named, .Lfunc_end19-tlsf_c.heap_calls.release_named
	.cfi_endproc
	.section	.text.unlikely.,"ax",@progbits
	.p2align	1
	.type	tlsf_heap.refusal.Refusal.of_name,@function
tlsf_heap.refusal.Refusal.of_name:
	.cfi_startproc
	sext.w	a1, a1
	sext.w	a0, a0
	xor	a0, a0, a1
	seqz	a0, a0
	addiw	a0, a0, 2
	ret
.Lfunc_end20:
	.size	tlsf_heap.refusal.Refusal.of_name, .Lfunc_end20-tlsf_heap.refusal.Refusal.of_name
	.cfi_endproc
	.text
	.p2align	1
	.type	std_alloc.boxed.Box.new.91a8e04f462e8cea,@function
std_alloc.boxed.Box.new.91a8e04f462e8cea:
	.cfi_startproc
	addi	sp, sp, -144
	.cfi_def_cfa_offset 144
	sd	ra, 136(sp)
	sd	s0, 128(sp)
	sd	s1, 120(sp)
	sd	s2, 112(sp)
	sd	s3, 104(sp)
	sd	s4, 96(sp)
	sd	s5, 88(sp)
	sd	s6, 80(sp)
	sd	s7, 72(sp)
	sd	s8, 64(sp)
	sd	s9, 56(sp)
	sd	s10, 48(sp)
	sd	s11, 40(sp)
	.cfi_offset ra, -8
	.cfi_offset s0, -16
	.cfi_offset s1, -24
	.cfi_offset s2, -32
	.cfi_offset s3, -40
	.cfi_offset s4, -48
	.cfi_offset s5, -56
	.cfi_offset s6, -64
	.cfi_offset s7, -72
	.cfi_offset s8, -80
	.cfi_offset s9, -88
	.cfi_offset s10, -96
	.cfi_offset s11, -104
	addi	s0, sp, 144
	.cfi_def_cfa s0, 0
	mv	s2, a0
	lbu	s3, 0(a1)
	lbu	s4, 1(a1)
	lbu	a6, 8(a1)
	lbu	a2, 9(a1)
	lbu	a7, 10(a1)
	lbu	t1, 11(a1)
	lbu	t0, 12(a1)
	lbu	t5, 13(a1)
	lbu	s6, 14(a1)
	lbu	a4, 15(a1)
	lbu	a5, 16(a1)
	lbu	a3, 17(a1)
	lbu	t3, 18(a1)
	lbu	t4, 19(a1)
	lbu	t2, 20(a1)
	lbu	t6, 21(a1)
	lbu	s5, 22(a1)
	lbu	s7, 23(a1)
	lbu	s1, 24(a1)
	lbu	a0, 25(a1)
	slli	a2, a2, 8
	or	a6, a2, a6
	lbu	s8, 26(a1)
	lbu	s10, 27(a1)
	lbu	s9, 28(a1)
	lbu	s11, 29(a1)
	slli	a7, a7, 16
	slli	t1, t1, 24
	slli	t5, t5, 8
	slli	s6, s6, 16
	slli	a4, a4, 24
	slli	a3, a3, 8
	or	a7, t1, a7
	or	t0, t5, t0
	or	t5, a4, s6
	or	t1, a3, a5
	lbu	s6, 30(a1)
	lbu	ra, 31(a1)
	lbu	a4, 32(a1)
	lbu	a2, 33(a1)
	slli	t3, t3, 16
	slli	t4, t4, 24
	slli	t6, t6, 8
	slli	s5, s5, 16
	slli	s7, s7, 24
	slli	a0, a0, 8
	or	t3, t4, t3
	or	t2, t6, t2
	or	t4, s7, s5
	or	t6, a0, s1
	lbu	a0, 34(a1)
	lbu	s1, 35(a1)
	lbu	a5, 36(a1)
	lbu	a3, 37(a1)
	slli	s8, s8, 16
	slli	s10, s10, 24
	slli	s11, s11, 8
	slli	s6, s6, 16
	slli	ra, ra, 24
	slli	a2, a2, 8
	or	s5, s10, s8
	or	s7, s11, s9
	or	s6, ra, s6
	or	s8, a2, a4
	lbu	s9, 38(a1)
	lbu	s10, 39(a1)
	lbu	a4, 40(a1)
	lbu	a2, 41(a1)
	slli	a0, a0, 16
	slli	s1, s1, 24
	slli	a3, a3, 8
	slli	s9, s9, 16
	slli	s10, s10, 24
	slli	a2, a2, 8
	or	s11, s1, a0
	or	ra, a3, a5
	or	s10, s10, s9
	or	s9, a2, a4
	lbu	a4, 42(a1)
	lbu	s1, 43(a1)
	lbu	a0, 44(a1)
	lbu	a3, 45(a1)
	slli	a4, a4, 16
	slli	s1, s1, 24
	or	a4, a4, s1
	lbu	s1, 46(a1)
	lbu	a1, 47(a1)
	slli	a3, a3, 8
	or	a0, a0, a3
	slli	s1, s1, 16
	slli	a1, a1, 24
	or	a1, a1, s1
	or	a3, a7, a6
	or	s1, t5, t0
	or	a7, t3, t1
	or	a5, t4, t2
	or	a6, s5, t6
	or	a2, s6, s7
	or	t0, s11, s8
	or	t1, s10, ra
	or	a4, a4, s9
	or	a0, a0, a1
	slli	s1, s1, 32
	or	a3, a3, s1
	slli	a5, a5, 32
	or	a1, a5, a7
	slli	a2, a2, 32
	or	a2, a2, a6
	slli	t1, t1, 32
	or	a5, t1, t0
	slli	a0, a0, 32
	or	a0, a0, a4
	sd	a3, -144(s0)
	sd	a1, -136(s0)
	sd	a2, -128(s0)
	sd	a5, -120(s0)
	sd	a0, -112(s0)
	li	a0, 48
	li	a1, 8
	call	tlsf_memory_alloc
	andi	a0, a0, 1
	beqz	a0, .LBB21_2
	mv	s1, a1
	sb	s3, 0(a1)
	sb	s4, 1(a1)
	addi	a0, a1, 8
	addi	a1, s0, -144
	li	a2, 40
	call	tlsf_memory_cpy
	addi	a0, s2, 16
	li	a2, 40
	li	a1, 0
	call	tlsf_memory_set
	li	a0, 0
	j	.LBB21_3
.LBB21_2:
	slli	s4, s4, 8
	or	s1, s4, s3
	addi	a0, s2, 16
	addi	a1, s0, -144
	li	a2, 40
	call	tlsf_memory_cpy
	li	a0, 1
.LBB21_3:
	sb	zero, 4(s2)
	sb	zero, 5(s2)
	sb	zero, 6(s2)
	sb	zero, 7(s2)
	sb	a0, 0(s2)
	sb	zero, 1(s2)
	sb	zero, 2(s2)
	sb	zero, 3(s2)
	srli	a0, s1, 56
	srli	a1, s1, 48
	srli	a2, s1, 40
	srli	a3, s1, 32
	srli	a4, s1, 24
	srli	a5, s1, 16
	sb	a3, 12(s2)
	sb	a2, 13(s2)
	sb	a1, 14(s2)
	sb	a0, 15(s2)
	srli	a0, s1, 8
	sb	s1, 8(s2)
	sb	a0, 9(s2)
	sb	a5, 10(s2)
	sb	a4, 11(s2)
	.cfi_def_cfa sp, 144
	ld	ra, 136(sp)
	ld	s0, 128(sp)
	ld	s1, 120(sp)
	ld	s2, 112(sp)
	ld	s3, 104(sp)
	ld	s4, 96(sp)
	ld	s5, 88(sp)
	ld	s6, 80(sp)
	ld	s7, 72(sp)
	ld	s8, 64(sp)
	ld	s9, 56(sp)
	ld	s10, 48(sp)
	ld	s11, 40(sp)
	.cfi_restore ra
	.cfi_restore s0
	.cfi_restore s1
	.cfi_restore s2
	.cfi_restore s3
	.cfi_restore s4
	.cfi_restore s5
	.cfi_restore s6
	.cfi_restore s7
	.cfi_restore s8
	.cfi_restore s9
	.cfi_restore s10
	.cfi_restore s11
	addi	sp, sp, 144
	.cfi_def_cfa_offset 0
	ret
.Lfunc_end21:
	.size	std_alloc.boxed.Box.new.91a8e04f462e8cea, .Lfunc_end21-std_alloc.boxed.Box.new.91a8e04f462e8cea
	.cfi_endproc
	.p2align	1
	.type	rtrb.release.drop_slow.23d795680250cb0d,@function
rtrb.release.drop_slow.23d795680250cb0d:
	.cfi_startproc
	addi	sp, sp, -32
	.cfi_def_cfa_offset 32
	sd	ra, 24(sp)
	sd	s0, 16(sp)
	sd	s1, 8(sp)
	.cfi_offset ra, -8
	.cfi_offset s0, -16
	.cfi_offset s1, -24
	addi	s0, sp, 32
	.cfi_def_cfa s0, 0
	mv	s1, a0
	fence	rw, rw
	ld	a4, 0(a0)
	fence	r, rw
	fence	rw, rw
	ld	a3, 128(a0)
	fence	r, rw
	mv	a0, a1
	beq	a4, a3, .LBB22_3
	slli	a1, a2, 1
	addi	a1, a1, -1
.LBB22_2:
	sltu	a2, a4, a1
	addi	a4, a4, 1
	fence	rw, w
	neg	a2, a2
	and	a4, a4, a2
	sd	a4, 0(s1)
	fence	rw, rw
	bne	a4, a3, .LBB22_2
.LBB22_3:
	call	tlsf_memory_dealloc
	mv	a0, s1
	.cfi_def_cfa sp, 32
	ld	ra, 24(sp)
	ld	s0, 16(sp)
	ld	s1, 8(sp)
	.cfi_restore ra
	.cfi_restore s0
	.cfi_restore s1
	addi	sp, sp, 32
	.cfi_def_cfa_offset 0
	tail	tlsf_memory_dealloc
.Lfunc_end22:
	.size	rtrb.release.drop_slow.23d795680250cb0d, .Lfunc_end22-rtrb.release.drop_slow.23d795680250cb0d
	.cfi_endproc
	.p2align	1
	.type	std_alloc.vec.Vec.drop.7ac45d8413b9ad54,@function
std_alloc.vec.Vec.drop.7ac45d8413b9ad54:
	.cfi_startproc
	addi	sp, sp, -192
	.cfi_def_cfa_offset 192
	sd	ra, 184(sp)
	sd	s0, 176(sp)
	sd	s1, 168(sp)
	sd	s2, 160(sp)
	sd	s3, 152(sp)
	sd	s4, 144(sp)
	sd	s5, 136(sp)
	sd	s6, 128(sp)
	sd	s7, 120(sp)
	sd	s8, 112(sp)
	sd	s9, 104(sp)
	.cfi_offset ra, -8
	.cfi_offset s0, -16
	.cfi_offset s1, -24
	.cfi_offset s2, -32
	.cfi_offset s3, -40
	.cfi_offset s4, -48
	.cfi_offset s5, -56
	.cfi_offset s6, -64
	.cfi_offset s7, -72
	.cfi_offset s8, -80
	.cfi_offset s9, -88
	addi	s0, sp, 192
	.cfi_def_cfa s0, 0
	.cfi_remember_state
	lbu	a6, 0(a0)
	lbu	t2, 1(a0)
	lbu	t3, 2(a0)
	lbu	a4, 3(a0)
	lbu	t4, 4(a0)
	lbu	s1, 5(a0)
	lbu	a7, 6(a0)
	lbu	t1, 7(a0)
	lbu	t0, 8(a0)
	lbu	t5, 9(a0)
	lbu	a2, 10(a0)
	lbu	a3, 11(a0)
	slli	t2, t2, 8
	slli	t3, t3, 16
	slli	a4, a4, 24
	slli	a5, s1, 8
	or	a6, t2, a6
	or	t3, a4, t3
	or	t2, a5, t4
	lbu	a4, 12(a0)
	lbu	a5, 13(a0)
	lbu	s1, 14(a0)
	lbu	a1, 15(a0)
	slli	a7, a7, 16
	slli	t1, t1, 24
	slli	t5, t5, 8
	slli	a2, a2, 16
	slli	a3, a3, 24
	slli	a5, a5, 8
	or	a7, t1, a7
	or	t0, t5, t0
	or	t1, a3, a2
	or	t4, a5, a4
	lbu	a3, 16(a0)
	lbu	a5, 17(a0)
	lbu	a2, 18(a0)
	lbu	a4, 19(a0)
	slli	s1, s1, 16
	slli	a1, a1, 24
	slli	a5, a5, 8
	slli	a2, a2, 16
	slli	a4, a4, 24
	or	t5, a1, s1
	or	t6, a5, a3
	or	a2, a2, a4
	lbu	a4, 21(a0)
	lbu	a5, 20(a0)
	lbu	s1, 22(a0)
	lbu	a0, 23(a0)
	slli	a4, a4, 8
	or	a4, a4, a5
	slli	s1, s1, 16
	slli	a0, a0, 24
	or	a0, a0, s1
	or	a5, t3, a6
	or	s1, a7, t2
	or	a1, t1, t0
	or	a3, t5, t4
	or	a2, a2, t6
	or	a0, a0, a4
	slli	s1, s1, 32
	slli	a3, a3, 32
	or	s2, s1, a5
	or	s5, a3, a1
	slli	a0, a0, 32
	or	s6, a0, a2
	beqz	s5, .LBB23_3
	addi	s4, s0, -176
	addi	s3, s0, -128
	mv	s1, s2
.LBB23_2:
	lbu	a0, 1(s1)
	lbu	a1, 2(s1)
	lbu	a2, 3(s1)
	lbu	a3, 0(s1)
	slli	a0, a0, 8
	slli	a1, a1, 16
	slli	a2, a2, 24
	or	a0, a0, a3
	or	a1, a1, a2
	lbu	a2, 5(s1)
	lbu	a3, 4(s1)
	lbu	a4, 6(s1)
	lbu	a5, 7(s1)
	slli	a2, a2, 8
	or	a2, a2, a3
	slli	a4, a4, 16
	slli	a5, a5, 24
	or	a4, a4, a5
	or	a0, a0, a1
	or	a2, a2, a4
	slli	a2, a2, 32
	or	s7, a2, a0
	lbu	s8, 0(s7)
	lbu	s9, 1(s7)
	addi	a1, s7, 8
	li	a2, 40
	mv	a0, s4
	call	tlsf_memory_cpy
	mv	a0, s7
	call	tlsf_memory_dealloc
	sd	zero, -136(s0)
	sb	s8, -136(s0)
	sb	s9, -135(s0)
	li	a2, 40
	mv	a0, s3
	mv	a1, s4
	call	tlsf_memory_cpy
	addi	a0, s0, -136
	call	tlsf_c.tlsf_c.any_end.AnyEnd.Destruct.drop
	addi	s5, s5, -1
	addi	s1, s1, 8
	bnez	s5, .LBB23_2
.LBB23_3:
	beqz	s6, .LBB23_5
	mv	a0, s2
	.cfi_def_cfa sp, 192
	ld	ra, 184(sp)
	ld	s0, 176(sp)
	ld	s1, 168(sp)
	ld	s2, 160(sp)
	ld	s3, 152(sp)
	ld	s4, 144(sp)
	ld	s5, 136(sp)
	ld	s6, 128(sp)
	ld	s7, 120(sp)
	ld	s8, 112(sp)
	ld	s9, 104(sp)
	.cfi_restore ra
	.cfi_restore s0
	.cfi_restore s1
	.cfi_restore s2
	.cfi_restore s3
	.cfi_restore s4
	.cfi_restore s5
	.cfi_restore s6
	.cfi_restore s7
	.cfi_restore s8
	.cfi_restore s9
	addi	sp, sp, 192
	.cfi_def_cfa_offset 0
	tail	tlsf_memory_dealloc
.LBB23_5:
	.cfi_restore_state
	.cfi_def_cfa sp, 192
	ld	ra, 184(sp)
	ld	s0, 176(sp)
	ld	s1, 168(sp)
	ld	s2, 160(sp)
	ld	s3, 152(sp)
	ld	s4, 144(sp)
	ld	s5, 136(sp)
	ld	s6, 128(sp)
	ld	s7, 120(sp)
	ld	s8, 112(sp)
	ld	s9, 104(sp)
	.cfi_restore ra
	.cfi_restore s0
	.cfi_restore s1
	.cfi_restore s2
	.cfi_restore s3
	.cfi_restore s4
	.cfi_restore s5
	.cfi_restore s6
	.cfi_restore s7
	.cfi_restore s8
	.cfi_restore s9
	addi	sp, sp, 192
	.cfi_def_cfa_offset 0
	ret
.Lfunc_end23:
	.size	std_alloc.vec.Vec.drop.7ac45d8413b9ad54, .Lfunc_end23-std_alloc.vec.Vec.drop.7ac45d8413b9ad54
	.cfi_endproc
	.p2align	1
	.type	std_alloc.arc.Arc.drop.c4a047e811255370,@function
std_alloc.arc.Arc.drop.c4a047e811255370:
	.cfi_startproc
	li	a1, -1
	amoadd.d.aqrl	a1, a1, (a0)
	li	a2, 1
	bne	a1, a2, .LBB24_2
	addi	sp, sp, -32
	.cfi_def_cfa_offset 32
	sd	ra, 24(sp)
	sd	s0, 16(sp)
	sd	s1, 8(sp)
	sd	s2, 0(sp)
	.cfi_offset ra, -8
	.cfi_offset s0, -16
	.cfi_offset s1, -24
	.cfi_offset s2, -32
	addi	s0, sp, 32
	.cfi_def_cfa s0, 0
	lbu	a1, 40(a0)
	lbu	a2, 41(a0)
	lbu	a3, 42(a0)
	lbu	a4, 43(a0)
	lbu	a6, 44(a0)
	lbu	a7, 45(a0)
	lbu	a5, 46(a0)
	lbu	s1, 47(a0)
	slli	a2, a2, 8
	slli	a3, a3, 16
	slli	a4, a4, 24
	or	t0, a2, a1
	or	t1, a4, a3
	lbu	a2, 56(a0)
	lbu	a4, 57(a0)
	lbu	a1, 58(a0)
	lbu	a3, 59(a0)
	slli	a7, a7, 8
	slli	a5, a5, 16
	slli	s1, s1, 24
	slli	a4, a4, 8
	slli	a1, a1, 16
	slli	a3, a3, 24
	or	a6, a7, a6
	or	a5, a5, s1
	or	a7, a4, a2
	or	a1, a1, a3
	lbu	a3, 61(a0)
	lbu	a4, 60(a0)
	lbu	s1, 62(a0)
	lbu	a2, 63(a0)
	slli	a3, a3, 8
	or	a3, a3, a4
	slli	s1, s1, 16
	slli	a2, a2, 24
	or	a2, a2, s1
	or	a4, t1, t0
	or	a5, a5, a6
	or	a1, a1, a7
	or	a2, a2, a3
	slli	a5, a5, 32
	slli	a2, a2, 32
	or	s1, a5, a4
	or	s2, a2, a1
	call	tlsf_memory_dealloc
	mv	a0, s1
	call	tlsf_memory_dealloc
	mv	a0, s2
	.cfi_def_cfa sp, 32
	ld	ra, 24(sp)
	ld	s0, 16(sp)
	ld	s1, 8(sp)
	ld	s2, 0(sp)
	.cfi_restore ra
	.cfi_restore s0
	.cfi_restore s1
	.cfi_restore s2
	addi	sp, sp, 32
	.cfi_def_cfa_offset 0
	tail	tlsf_memory_dealloc
.LBB24_2:
	ret
.Lfunc_end24:
	.size	std_alloc.arc.Arc.drop.c4a047e811255370, .Lfunc_end24-std_alloc.arc.Arc.drop.c4a047e811255370
	.cfi_endproc
	.p2align	1
	.type	std_alloc.boxed.Box.drop.7d8ec8058c3633cd,@function
std_alloc.boxed.Box.drop.7d8ec8058c3633cd:
	.cfi_startproc
	addi	sp, sp, -192
	.cfi_def_cfa_offset 192
	sd	ra, 184(sp)
	sd	s0, 176(sp)
	sd	s1, 168(sp)
	sd	s2, 160(sp)
	sd	s3, 152(sp)
	sd	s4, 144(sp)
	sd	s5, 136(sp)
	sd	s6, 128(sp)
	sd	s7, 120(sp)
	sd	s8, 112(sp)
	sd	s9, 104(sp)
	sd	s10, 96(sp)
	sd	s11, 88(sp)
	.cfi_offset ra, -8
	.cfi_offset s0, -16
	.cfi_offset s1, -24
	.cfi_offset s2, -32
	.cfi_offset s3, -40
	.cfi_offset s4, -48
	.cfi_offset s5, -56
	.cfi_offset s6, -64
	.cfi_offset s7, -72
	.cfi_offset s8, -80
	.cfi_offset s9, -88
	.cfi_offset s10, -96
	.cfi_offset s11, -104
	addi	s0, sp, 192
	.cfi_def_cfa s0, 0
	lbu	s3, 0(a0)
	lbu	s2, 1(a0)
	lbu	a6, 8(a0)
	lbu	a7, 9(a0)
	lbu	t3, 10(a0)
	lbu	s5, 11(a0)
	lbu	t0, 12(a0)
	lbu	a5, 13(a0)
	lbu	a1, 14(a0)
	lbu	s1, 15(a0)
	lbu	t1, 16(a0)
	lbu	t4, 17(a0)
	lbu	t6, 18(a0)
	lbu	s4, 19(a0)
	lbu	t5, 20(a0)
	lbu	s10, 21(a0)
	lbu	a2, 22(a0)
	lbu	a4, 23(a0)
	lbu	t2, 24(a0)
	lbu	s6, 25(a0)
	lbu	s7, 26(a0)
	lbu	s8, 27(a0)
	lbu	s9, 28(a0)
	lbu	s11, 29(a0)
	slli	a7, a7, 8
	slli	t3, t3, 16
	slli	s5, s5, 24
	slli	a5, a5, 8
	slli	a1, a1, 16
	slli	s1, s1, 24
	or	a6, a7, a6
	or	a7, s5, t3
	or	t0, a5, t0
	or	t3, s1, a1
	lbu	a5, 30(a0)
	lbu	a1, 31(a0)
	lbu	s5, 32(a0)
	lbu	ra, 33(a0)
	slli	t4, t4, 8
	slli	t6, t6, 16
	slli	s4, s4, 24
	slli	s10, s10, 8
	slli	a2, a2, 16
	slli	a4, a4, 24
	or	t1, t4, t1
	or	t6, s4, t6
	or	t4, s10, t5
	or	t5, a4, a2
	lbu	a2, 34(a0)
	lbu	a4, 35(a0)
	lbu	s10, 36(a0)
	lbu	s1, 37(a0)
	slli	s6, s6, 8
	slli	s7, s7, 16
	slli	s8, s8, 24
	slli	s11, s11, 8
	slli	a5, a5, 16
	slli	a1, a1, 24
	or	t2, s6, t2
	or	s6, s8, s7
	or	s4, s11, s9
	or	s7, a1, a5
	lbu	a5, 38(a0)
	lbu	a1, 39(a0)
	lbu	s8, 40(a0)
	lbu	a3, 41(a0)
	slli	ra, ra, 8
	slli	a2, a2, 16
	slli	a4, a4, 24
	slli	s1, s1, 8
	slli	a5, a5, 16
	slli	a1, a1, 24
	or	s5, ra, s5
	or	s9, a4, a2
	or	s10, s1, s10
	or	s11, a1, a5
	lbu	a5, 42(a0)
	lbu	s1, 43(a0)
	lbu	a2, 44(a0)
	lbu	a4, 45(a0)
	slli	a3, a3, 8
	slli	a5, a5, 16
	slli	s1, s1, 24
	or	s8, a3, s8
	or	ra, s1, a5
	lbu	s1, 46(a0)
	lbu	a1, 47(a0)
	slli	a4, a4, 8
	or	a2, a2, a4
	slli	s1, s1, 16
	slli	a1, a1, 24
	or	a1, a1, s1
	or	a4, a7, a6
	or	s1, t3, t0
	or	a7, t6, t1
	or	a5, t5, t4
	or	a6, s6, t2
	or	a3, s7, s4
	or	t0, s9, s5
	or	t1, s11, s10
	or	t2, ra, s8
	or	a1, a1, a2
	slli	s1, s1, 32
	or	a4, a4, s1
	slli	a5, a5, 32
	or	a2, a5, a7
	slli	a3, a3, 32
	or	a3, a3, a6
	slli	t1, t1, 32
	or	a5, t1, t0
	slli	a1, a1, 32
	or	a1, a1, t2
	sd	a4, -192(s0)
	sd	a2, -184(s0)
	sd	a3, -176(s0)
	sd	a5, -168(s0)
	sd	a1, -160(s0)
	call	tlsf_memory_dealloc
	sd	zero, -152(s0)
	sb	s3, -152(s0)
	sb	s2, -151(s0)
	addi	a0, s0, -144
	addi	a1, s0, -192
	li	a2, 40
	call	tlsf_memory_cpy
	addi	a0, s0, -152
	call	tlsf_c.tlsf_c.any_end.AnyEnd.Destruct.drop
	.cfi_def_cfa sp, 192
	ld	ra, 184(sp)
	ld	s0, 176(sp)
	ld	s1, 168(sp)
	ld	s2, 160(sp)
	ld	s3, 152(sp)
	ld	s4, 144(sp)
	ld	s5, 136(sp)
	ld	s6, 128(sp)
	ld	s7, 120(sp)
	ld	s8, 112(sp)
	ld	s9, 104(sp)
	ld	s10, 96(sp)
	ld	s11, 88(sp)
	.cfi_restore ra
	.cfi_restore s0
	.cfi_restore s1
	.cfi_restore s2
	.cfi_restore s3
	.cfi_restore s4
	.cfi_restore s5
	.cfi_restore s6
	.cfi_restore s7
	.cfi_restore s8
	.cfi_restore s9
	.cfi_restore s10
	.cfi_restore s11
	addi	sp, sp, 192
	.cfi_def_cfa_offset 0
	ret
.Lfunc_end25:
	.size	std_alloc.boxed.Box.drop.7d8ec8058c3633cd, .Lfunc_end25-std_alloc.boxed.Box.drop.7d8ec8058c3633cd
	.cfi_endproc
	.p2align	1
	.type	tlsf_c.tlsf_c.any_end.AnyEnd.Destruct.drop,@function
tlsf_c.tlsf_c.any_end.AnyEnd.Destruct.drop:
	.cfi_startproc
	addi	sp, sp, -192
	.cfi_def_cfa_offset 192
	sd	ra, 184(sp)
	sd	s0, 176(sp)
	sd	s1, 168(sp)
	sd	s2, 160(sp)
	sd	s3, 152(sp)
	sd	s4, 144(sp)
	sd	s5, 136(sp)
	sd	s6, 128(sp)
	sd	s7, 120(sp)
	sd	s8, 112(sp)
	sd	s9, 104(sp)
	.cfi_offset ra, -8
	.cfi_offset s0, -16
	.cfi_offset s1, -24
	.cfi_offset s2, -32
	.cfi_offset s3, -40
	.cfi_offset s4, -48
	.cfi_offset s5, -56
	.cfi_offset s6, -64
	.cfi_offset s7, -72
	.cfi_offset s8, -80
	.cfi_offset s9, -88
	addi	s0, sp, 192
	.cfi_def_cfa s0, 0
	.cfi_remember_state
	mv	a1, a0
	lbu	a6, 0(a0)
	lbu	a0, 8(a0)
	lbu	a3, 9(a1)
	lbu	t1, 10(a1)
	lbu	t2, 11(a1)
	lbu	a7, 12(a1)
	lbu	a2, 13(a1)
	lbu	s1, 14(a1)
	slli	a3, a3, 8
	or	t0, a3, a0
	lbu	a3, 15(a1)
	lbu	a0, 24(a1)
	lbu	a4, 25(a1)
	lbu	a5, 26(a1)
	slli	t1, t1, 16
	slli	t2, t2, 24
	slli	a2, a2, 8
	slli	s1, s1, 16
	slli	a3, a3, 24
	slli	a4, a4, 8
	or	t1, t2, t1
	or	a7, a2, a7
	or	a3, a3, s1
	or	t2, a4, a0
	lbu	a4, 27(a1)
	lbu	s1, 28(a1)
	lbu	a2, 29(a1)
	lbu	a0, 30(a1)
	slli	a5, a5, 16
	slli	a4, a4, 24
	or	a4, a4, a5
	lbu	a5, 31(a1)
	slli	a2, a2, 8
	or	a2, a2, s1
	slli	a0, a0, 16
	slli	a5, a5, 24
	or	a0, a0, a5
	or	a5, t1, t0
	or	a3, a3, a7
	or	a4, a4, t2
	or	a0, a0, a2
	li	a2, 1
	slli	a3, a3, 32
	slli	s1, a0, 32
	or	a0, a3, a5
	or	s2, s1, a4
	blt	a2, a6, .LBB26_3
	lbu	a2, 17(a1)
	lbu	a3, 18(a1)
	lbu	a4, 19(a1)
	lbu	a5, 16(a1)
	slli	a2, a2, 8
	slli	a3, a3, 16
	slli	a4, a4, 24
	or	a2, a2, a5
	or	a3, a3, a4
	lbu	a4, 21(a1)
	lbu	a5, 20(a1)
	lbu	s1, 22(a1)
	lbu	a1, 23(a1)
	slli	a4, a4, 8
	or	a4, a4, a5
	slli	s1, s1, 16
	slli	a1, a1, 24
	or	s1, s1, a1
	or	a1, a3, a2
	or	a3, s1, a4
	addi	a2, a0, 256
	bnez	a6, .LBB26_10
	li	a4, 1
	amoswap.d.aqrl	a2, a4, (a2)
	bnez	a2, .LBB26_11
	j	.LBB26_15
.LBB26_3:
	li	a2, 2
	bne	a6, a2, .LBB26_12
	lbu	a6, 32(a1)
	lbu	a3, 33(a1)
	lbu	a4, 34(a1)
	lbu	a5, 35(a1)
	lbu	s1, 36(a1)
	lbu	a2, 37(a1)
	lbu	a7, 38(a1)
	lbu	t0, 39(a1)
	slli	a3, a3, 8
	slli	a4, a4, 16
	slli	a5, a5, 24
	slli	a2, a2, 8
	or	a6, a3, a6
	or	t2, a5, a4
	or	t1, a2, s1
	lbu	a5, 40(a1)
	lbu	s1, 41(a1)
	lbu	a3, 42(a1)
	lbu	a2, 43(a1)
	slli	a7, a7, 16
	slli	t0, t0, 24
	slli	s1, s1, 8
	slli	a3, a3, 16
	slli	a2, a2, 24
	or	a7, t0, a7
	or	a5, a5, s1
	or	a2, a2, a3
	lbu	a3, 45(a1)
	lbu	s1, 44(a1)
	lbu	a4, 46(a1)
	lbu	a1, 47(a1)
	slli	a3, a3, 8
	or	a3, a3, s1
	slli	a4, a4, 16
	slli	a1, a1, 24
	or	a1, a1, a4
	or	a4, t2, a6
	or	s1, a7, t1
	or	s4, a2, a5
	or	a1, a1, a3
	li	a2, -1
	amoadd.d.aqrl	a2, a2, (a0)
	slli	s1, s1, 32
	or	s5, s1, a4
	li	a3, 1
	slli	s6, a1, 32
	bne	a2, a3, .LBB26_6
	lbu	a1, 40(a0)
	lbu	a2, 41(a0)
	lbu	a3, 42(a0)
	lbu	a4, 43(a0)
	lbu	a6, 44(a0)
	lbu	a7, 45(a0)
	lbu	a5, 46(a0)
	lbu	s1, 47(a0)
	slli	a2, a2, 8
	slli	a3, a3, 16
	slli	a4, a4, 24
	or	t0, a2, a1
	or	t1, a4, a3
	lbu	a2, 56(a0)
	lbu	a4, 57(a0)
	lbu	a1, 58(a0)
	lbu	a3, 59(a0)
	slli	a7, a7, 8
	slli	a5, a5, 16
	slli	s1, s1, 24
	slli	a4, a4, 8
	slli	a1, a1, 16
	slli	a3, a3, 24
	or	a6, a7, a6
	or	a5, a5, s1
	or	a7, a4, a2
	or	a1, a1, a3
	lbu	a3, 61(a0)
	lbu	a4, 60(a0)
	lbu	s1, 62(a0)
	lbu	a2, 63(a0)
	slli	a3, a3, 8
	or	a3, a3, a4
	slli	s1, s1, 16
	slli	a2, a2, 24
	or	a2, a2, s1
	or	a4, t1, t0
	or	a5, a5, a6
	or	a1, a1, a7
	or	a2, a2, a3
	slli	a5, a5, 32
	slli	a2, a2, 32
	or	s1, a5, a4
	or	s3, a2, a1
	call	tlsf_memory_dealloc
	mv	a0, s1
	call	tlsf_memory_dealloc
	mv	a0, s3
	call	tlsf_memory_dealloc
.LBB26_6:
	or	s6, s6, s4
	beqz	s5, .LBB26_9
	addi	s4, s0, -176
	addi	s3, s0, -128
	mv	s1, s2
.LBB26_8:
	lbu	a0, 1(s1)
	lbu	a1, 2(s1)
	lbu	a2, 3(s1)
	lbu	a3, 0(s1)
	slli	a0, a0, 8
	slli	a1, a1, 16
	slli	a2, a2, 24
	or	a0, a0, a3
	or	a1, a1, a2
	lbu	a2, 5(s1)
	lbu	a3, 4(s1)
	lbu	a4, 6(s1)
	lbu	a5, 7(s1)
	slli	a2, a2, 8
	or	a2, a2, a3
	slli	a4, a4, 16
	slli	a5, a5, 24
	or	a4, a4, a5
	or	a0, a0, a1
	or	a2, a2, a4
	slli	a2, a2, 32
	or	s7, a2, a0
	lbu	s8, 0(s7)
	lbu	s9, 1(s7)
	addi	a1, s7, 8
	li	a2, 40
	mv	a0, s4
	call	tlsf_memory_cpy
	mv	a0, s7
	call	tlsf_memory_dealloc
	sd	zero, -136(s0)
	sb	s8, -136(s0)
	sb	s9, -135(s0)
	li	a2, 40
	mv	a0, s3
	mv	a1, s4
	call	tlsf_memory_cpy
	addi	a0, s0, -136
	call	tlsf_c.tlsf_c.any_end.AnyEnd.Destruct.drop
	addi	s5, s5, -1
	addi	s1, s1, 8
	bnez	s5, .LBB26_8
.LBB26_9:
	bnez	s6, .LBB26_14
	j	.LBB26_15
.LBB26_10:
	li	a4, 1
	amoswap.d.aqrl	a2, a4, (a2)
	beqz	a2, .LBB26_15
.LBB26_11:
	slli	a3, a3, 32
	or	a1, a1, a3
	mv	a2, s2
	.cfi_def_cfa sp, 192
	ld	ra, 184(sp)
	ld	s0, 176(sp)
	ld	s1, 168(sp)
	ld	s2, 160(sp)
	ld	s3, 152(sp)
	ld	s4, 144(sp)
	ld	s5, 136(sp)
	ld	s6, 128(sp)
	ld	s7, 120(sp)
	ld	s8, 112(sp)
	ld	s9, 104(sp)
	.cfi_restore ra
	.cfi_restore s0
	.cfi_restore s1
	.cfi_restore s2
	.cfi_restore s3
	.cfi_restore s4
	.cfi_restore s5
	.cfi_restore s6
	.cfi_restore s7
	.cfi_restore s8
	.cfi_restore s9
	addi	sp, sp, 192
	.cfi_def_cfa_offset 0
	tail	rtrb.release.drop_slow.23d795680250cb0d
.LBB26_12:
	.cfi_restore_state
	.cfi_remember_state
	li	a1, -1
	amoadd.d.aqrl	a1, a1, (a0)
	li	a2, 1
	bne	a1, a2, .LBB26_15
	lbu	a1, 40(a0)
	lbu	a2, 41(a0)
	lbu	a3, 42(a0)
	lbu	a4, 43(a0)
	lbu	a6, 44(a0)
	lbu	a7, 45(a0)
	lbu	a5, 46(a0)
	lbu	s1, 47(a0)
	slli	a2, a2, 8
	slli	a3, a3, 16
	slli	a4, a4, 24
	or	t0, a2, a1
	or	t1, a4, a3
	lbu	a2, 56(a0)
	lbu	a4, 57(a0)
	lbu	a1, 58(a0)
	lbu	a3, 59(a0)
	slli	a7, a7, 8
	slli	a5, a5, 16
	slli	s1, s1, 24
	slli	a4, a4, 8
	slli	a1, a1, 16
	slli	a3, a3, 24
	or	a6, a7, a6
	or	a5, a5, s1
	or	a7, a4, a2
	or	a1, a1, a3
	lbu	a3, 61(a0)
	lbu	a4, 60(a0)
	lbu	s1, 62(a0)
	lbu	a2, 63(a0)
	slli	a3, a3, 8
	or	a3, a3, a4
	slli	s1, s1, 16
	slli	a2, a2, 24
	or	a2, a2, s1
	or	a4, t1, t0
	or	a5, a5, a6
	or	a1, a1, a7
	or	a2, a2, a3
	slli	a5, a5, 32
	slli	a2, a2, 32
	or	s1, a5, a4
	or	s2, a2, a1
	call	tlsf_memory_dealloc
	mv	a0, s1
	call	tlsf_memory_dealloc
.LBB26_14:
	mv	a0, s2
	.cfi_def_cfa sp, 192
	ld	ra, 184(sp)
	ld	s0, 176(sp)
	ld	s1, 168(sp)
	ld	s2, 160(sp)
	ld	s3, 152(sp)
	ld	s4, 144(sp)
	ld	s5, 136(sp)
	ld	s6, 128(sp)
	ld	s7, 120(sp)
	ld	s8, 112(sp)
	ld	s9, 104(sp)
	.cfi_restore ra
	.cfi_restore s0
	.cfi_restore s1
	.cfi_restore s2
	.cfi_restore s3
	.cfi_restore s4
	.cfi_restore s5
	.cfi_restore s6
	.cfi_restore s7
	.cfi_restore s8
	.cfi_restore s9
	addi	sp, sp, 192
	.cfi_def_cfa_offset 0
	tail	tlsf_memory_dealloc
.LBB26_15:
	.cfi_restore_state
	.cfi_def_cfa sp, 192
	ld	ra, 184(sp)
	ld	s0, 176(sp)
	ld	s1, 168(sp)
	ld	s2, 160(sp)
	ld	s3, 152(sp)
	ld	s4, 144(sp)
	ld	s5, 136(sp)
	ld	s6, 128(sp)
	ld	s7, 120(sp)
	ld	s8, 112(sp)
	ld	s9, 104(sp)
	.cfi_restore ra
	.cfi_restore s0
	.cfi_restore s1
	.cfi_restore s2
	.cfi_restore s3
	.cfi_restore s4
	.cfi_restore s5
	.cfi_restore s6
	.cfi_restore s7
	.cfi_restore s8
	.cfi_restore s9
	addi	sp, sp, 192
	.cfi_def_cfa_offset 0
	ret
.Lfunc_end26:
	.size	tlsf_c.tlsf_c.any_end.AnyEnd.Destruct.drop, .Lfunc_end26-tlsf_c.tlsf_c.any_end.AnyEnd.Destruct.drop
	.cfi_endproc
	.p2align	1
	.type	tlsf_c.arena_slot.ArenaSlot.close,@function
tlsf_c.arena_slot.ArenaSlot.close:
	.cfi_startproc
	lbu	a1, 8(a0)
	beqz	a1, .LBB27_11
	ld	a1, 0(a0)
	lbu	a2, 1(a1)
	beqz	a2, .LBB27_11
	addi	sp, sp, -288
	.cfi_def_cfa_offset 288
	sd	ra, 280(sp)
	sd	s0, 272(sp)
	sd	s1, 264(sp)
	sd	s2, 256(sp)
	sd	s3, 248(sp)
	sd	s4, 240(sp)
	sd	s5, 232(sp)
	sd	s6, 224(sp)
	sd	s7, 216(sp)
	sd	s8, 208(sp)
	sd	s9, 200(sp)
	sd	s10, 192(sp)
	sd	s11, 184(sp)
	.cfi_offset ra, -8
	.cfi_offset s0, -16
	.cfi_offset s1, -24
	.cfi_offset s2, -32
	.cfi_offset s3, -40
	.cfi_offset s4, -48
	.cfi_offset s5, -56
	.cfi_offset s6, -64
	.cfi_offset s7, -72
	.cfi_offset s8, -80
	.cfi_offset s9, -88
	.cfi_offset s10, -96
	.cfi_offset s11, -104
	addi	s0, sp, 288
	.cfi_def_cfa s0, 0
	sb	zero, 1(a1)
	lbu	a1, 1(a0)
	lbu	a2, 2(a0)
	lbu	a3, 3(a0)
	lbu	a4, 0(a0)
	slli	a1, a1, 8
	slli	a2, a2, 16
	slli	a3, a3, 24
	or	a1, a1, a4
	or	a2, a2, a3
	lbu	a3, 5(a0)
	lbu	a4, 4(a0)
	lbu	a5, 6(a0)
	lbu	s1, 7(a0)
	slli	a3, a3, 8
	or	a3, a3, a4
	slli	a5, a5, 16
	slli	s1, s1, 24
	or	a5, a5, s1
	or	a1, a1, a2
	or	a3, a3, a5
	slli	a3, a3, 32
	or	s1, a3, a1
	li	a2, 16
	li	a1, 0
	call	tlsf_memory_set
	lbu	a0, 0(s1)
	sd	a0, -168(s0)
	lbu	a0, 8(s1)
	sd	a0, -160(s0)
	lbu	a3, 16(s1)
	lbu	a1, 17(s1)
	lbu	t0, 18(s1)
	lbu	t1, 19(s1)
	lbu	a7, 20(s1)
	lbu	s2, 21(s1)
	lbu	s5, 22(s1)
	lbu	s7, 23(s1)
	lbu	s4, 24(s1)
	lbu	a4, 25(s1)
	lbu	t4, 26(s1)
	lbu	t5, 27(s1)
	lbu	t2, 28(s1)
	lbu	s6, 29(s1)
	lbu	s9, 30(s1)
	lbu	s10, 31(s1)
	lbu	s11, 32(s1)
	lbu	a5, 33(s1)
	lbu	t6, 34(s1)
	lbu	s3, 35(s1)
	lbu	t3, 36(s1)
	lbu	s8, 37(s1)
	slli	a1, a1, 8
	or	a6, a1, a3
	lbu	a3, 38(s1)
	lbu	a0, 39(s1)
	lbu	a1, 40(s1)
	lbu	a2, 41(s1)
	slli	t0, t0, 16
	slli	t1, t1, 24
	slli	s2, s2, 8
	slli	s5, s5, 16
	slli	s7, s7, 24
	slli	a4, a4, 8
	or	ra, t1, t0
	or	a7, s2, a7
	or	t0, s7, s5
	or	t1, a4, s4
	lbu	s2, 42(s1)
	lbu	s5, 43(s1)
	lbu	s4, 44(s1)
	lbu	s7, 45(s1)
	slli	t4, t4, 16
	slli	t5, t5, 24
	slli	s6, s6, 8
	slli	s9, s9, 16
	slli	s10, s10, 24
	slli	a5, a5, 8
	or	t4, t5, t4
	or	t2, s6, t2
	or	t5, s10, s9
	or	s6, a5, s11
	lbu	s9, 46(s1)
	lbu	a4, 47(s1)
	lbu	a5, 56(s1)
	sd	a5, -184(s0)
	lbu	a5, 57(s1)
	sd	a5, -200(s0)
	slli	t6, t6, 16
	slli	s3, s3, 24
	slli	s8, s8, 8
	slli	a3, a3, 16
	slli	a0, a0, 24
	slli	a2, a2, 8
	or	s10, s3, t6
	or	t3, s8, t3
	or	t6, a0, a3
	or	s8, a2, a1
	lbu	a0, 58(s1)
	sd	a0, -216(s0)
	lbu	a0, 59(s1)
	sd	a0, -224(s0)
	lbu	a0, 60(s1)
	sd	a0, -192(s0)
	lbu	a0, 61(s1)
	sd	a0, -208(s0)
	slli	s2, s2, 16
	slli	s5, s5, 24
	slli	s7, s7, 8
	slli	s9, s9, 16
	slli	a4, a4, 24
	or	a2, s5, s2
	or	a3, s7, s4
	or	a4, a4, s9
	or	s2, ra, a6
	lbu	a0, 62(s1)
	sd	a0, -240(s0)
	lbu	a0, 63(s1)
	sd	a0, -248(s0)
	lbu	a0, 64(s1)
	sd	a0, -264(s0)
	lbu	a0, 65(s1)
	sd	a0, -272(s0)
	or	a1, t0, a7
	or	a6, t4, t1
	or	a5, t5, t2
	or	a7, s10, s6
	lbu	s5, 66(s1)
	lbu	s6, 67(s1)
	lbu	s11, 68(s1)
	lbu	s3, 69(s1)
	or	a0, t6, t3
	or	a2, a2, s8
	or	a3, a3, a4
	slli	a1, a1, 32
	or	a1, a1, s2
	lbu	s2, 70(s1)
	lbu	s7, 71(s1)
	lbu	a4, 80(s1)
	sd	a4, -232(s0)
	lbu	a4, 81(s1)
	sd	a4, -280(s0)
	slli	a5, a5, 32
	slli	a0, a0, 32
	or	a4, a5, a6
	or	a0, a0, a7
	sd	a1, -152(s0)
	sd	a4, -144(s0)
	lbu	s10, 82(s1)
	lbu	s4, 83(s1)
	lbu	a1, 84(s1)
	sd	a1, -256(s0)
	lbu	s9, 85(s1)
	lbu	a1, 86(s1)
	sd	a1, -288(s0)
	lbu	s8, 87(s1)
	sd	a0, -136(s0)
	slli	a3, a3, 32
	or	a2, a2, a3
	sd	a2, -176(s0)
	mv	a0, s1
	call	tlsf_memory_dealloc
	ld	a0, -168(s0)
	beqz	a0, .LBB27_5
	addi	a0, s0, -144
	ld	a1, -160(s0)
	beqz	a1, .LBB27_9
	ld	a1, 0(a0)
	ld	a0, 8(a0)
	sd	a1, -128(s0)
	sd	a0, -120(s0)
	ld	a0, -176(s0)
	sd	a0, -112(s0)
	addi	a0, s0, -128
	call	std_alloc.vec.Vec.drop.1d6c342d5cae5f6b
	j	.LBB27_10
.LBB27_5:
	mv	t6, s7
	mv	t5, s2
	mv	t4, s6
	mv	t3, s5
	mv	t2, s3
	ld	s2, -272(s0)
	mv	t0, s11
	ld	a7, -264(s0)
	ld	a0, -200(s0)
	slli	a0, a0, 8
	ld	a1, -216(s0)
	slli	a1, a1, 16
	ld	a2, -224(s0)
	slli	a2, a2, 24
	ld	a3, -208(s0)
	slli	a3, a3, 8
	ld	s3, -240(s0)
	slli	s3, s3, 16
	ld	s11, -248(s0)
	slli	s11, s11, 24
	ld	s6, -280(s0)
	slli	s6, s6, 8
	slli	s10, s10, 16
	slli	s4, s4, 24
	slli	s9, s9, 8
	ld	s7, -288(s0)
	slli	s7, s7, 16
	slli	s8, s8, 24
	ld	a4, -184(s0)
	or	a6, a0, a4
	or	a1, a1, a2
	ld	a2, -192(s0)
	or	a2, a2, a3
	or	a3, s11, s3
	ld	a0, -232(s0)
	or	a4, s6, a0
	or	a5, s4, s10
	ld	a0, -256(s0)
	or	s1, s9, a0
	or	a0, s8, s7
	or	a1, a1, a6
	or	a2, a2, a3
	or	a4, a4, a5
	or	a0, a0, s1
	slli	a2, a2, 32
	slli	s1, a0, 32
	or	a0, a2, a1
	or	s1, s1, a4
	ld	a1, -160(s0)
	mv	s3, a7
	mv	s4, t0
	mv	s5, t2
	mv	s6, t3
	mv	s7, t4
	mv	s8, t5
	mv	s9, t6
	beqz	a0, .LBB27_7
	ld	a0, -176(s0)
	call	tlsf_memory_dealloc
.LBB27_7:
	beqz	s1, .LBB27_10
	slli	a0, s2, 8
	slli	a1, s6, 16
	slli	a2, s7, 24
	slli	a3, s5, 8
	slli	a4, s8, 16
	slli	a5, s9, 24
	or	a0, a0, s3
	or	a1, a1, a2
	or	a2, a3, s4
	or	a4, a4, a5
	or	a0, a0, a1
	or	a2, a2, a4
	slli	a2, a2, 32
	or	a0, a0, a2
	call	tlsf_memory_dealloc
	j	.LBB27_10
.LBB27_9:
	ld	a1, 0(a0)
	ld	a0, 8(a0)
	sd	a1, -128(s0)
	sd	a0, -120(s0)
	ld	a0, -176(s0)
	sd	a0, -112(s0)
	addi	a0, s0, -128
	call	std_alloc.vec.Vec.drop.01e19ae241269710
.LBB27_10:
	.cfi_def_cfa sp, 288
	ld	ra, 280(sp)
	ld	s0, 272(sp)
	ld	s1, 264(sp)
	ld	s2, 256(sp)
	ld	s3, 248(sp)
	ld	s4, 240(sp)
	ld	s5, 232(sp)
	ld	s6, 224(sp)
	ld	s7, 216(sp)
	ld	s8, 208(sp)
	ld	s9, 200(sp)
	ld	s10, 192(sp)
	ld	s11, 184(sp)
	.cfi_restore ra
	.cfi_restore s0
	.cfi_restore s1
	.cfi_restore s2
	.cfi_restore s3
	.cfi_restore s4
	.cfi_restore s5
	.cfi_restore s6
	.cfi_restore s7
	.cfi_restore s8
	.cfi_restore s9
	.cfi_restore s10
	.cfi_restore s11
	addi	sp, sp, 288
	.cfi_def_cfa_offset 0
.LBB27_11:
	ret
.Lfunc_end27:
	.size	tlsf_c.arena_slot.ArenaSlot.close, .Lfunc_end27-tlsf_c.arena_slot.ArenaSlot.close
	.cfi_endproc
	.p2align	1
	.type	std_alloc.vec.Vec.drop.01e19ae241269710,@function
std_alloc.vec.Vec.drop.01e19ae241269710:
	.cfi_startproc
	addi	sp, sp, -464
	.cfi_def_cfa_offset 464
	sd	ra, 456(sp)
	sd	s0, 448(sp)
	sd	s1, 440(sp)
	sd	s2, 432(sp)
	sd	s3, 424(sp)
	sd	s4, 416(sp)
	sd	s5, 408(sp)
	sd	s6, 400(sp)
	sd	s7, 392(sp)
	sd	s8, 384(sp)
	sd	s9, 376(sp)
	sd	s10, 368(sp)
	sd	s11, 360(sp)
	.cfi_offset ra, -8
	.cfi_offset s0, -16
	.cfi_offset s1, -24
	.cfi_offset s2, -32
	.cfi_offset s3, -40
	.cfi_offset s4, -48
	.cfi_offset s5, -56
	.cfi_offset s6, -64
	.cfi_offset s7, -72
	.cfi_offset s8, -80
	.cfi_offset s9, -88
	.cfi_offset s10, -96
	.cfi_offset s11, -104
	addi	s0, sp, 464
	.cfi_def_cfa s0, 0
	.cfi_remember_state
	lbu	a6, 0(a0)
	lbu	t2, 1(a0)
	lbu	t3, 2(a0)
	lbu	a4, 3(a0)
	lbu	t4, 4(a0)
	lbu	s1, 5(a0)
	lbu	a7, 6(a0)
	lbu	t1, 7(a0)
	lbu	t0, 8(a0)
	lbu	t5, 9(a0)
	lbu	a2, 10(a0)
	lbu	a3, 11(a0)
	slli	t2, t2, 8
	slli	t3, t3, 16
	slli	a4, a4, 24
	slli	a5, s1, 8
	or	a6, t2, a6
	or	t3, a4, t3
	or	t2, a5, t4
	lbu	a4, 12(a0)
	lbu	a5, 13(a0)
	lbu	s1, 14(a0)
	lbu	a1, 15(a0)
	slli	a7, a7, 16
	slli	t1, t1, 24
	slli	t5, t5, 8
	slli	a2, a2, 16
	slli	a3, a3, 24
	slli	a5, a5, 8
	or	a7, t1, a7
	or	t0, t5, t0
	or	t1, a3, a2
	or	t4, a5, a4
	lbu	a3, 16(a0)
	lbu	a5, 17(a0)
	lbu	a2, 18(a0)
	lbu	a4, 19(a0)
	slli	s1, s1, 16
	slli	a1, a1, 24
	slli	a5, a5, 8
	slli	a2, a2, 16
	slli	a4, a4, 24
	or	t5, a1, s1
	or	t6, a5, a3
	or	a2, a2, a4
	lbu	a4, 21(a0)
	lbu	a5, 20(a0)
	lbu	s1, 22(a0)
	lbu	a0, 23(a0)
	slli	a4, a4, 8
	or	a4, a4, a5
	slli	s1, s1, 16
	slli	a0, a0, 24
	or	a0, a0, s1
	or	a5, t3, a6
	or	s1, a7, t2
	or	a1, t1, t0
	or	a3, t5, t4
	or	a2, a2, t6
	or	a0, a0, a4
	slli	s1, s1, 32
	slli	a3, a3, 32
	or	a5, a5, s1
	sd	a5, -448(s0)
	or	s4, a3, a1
	slli	a0, a0, 32
	or	a0, a0, a2
	sd	a0, -456(s0)
	beqz	s4, .LBB28_11
	ld	s7, -448(s0)
	addi	s5, s7, 24
	addi	a0, s7, 2047
	lui	a1, 1
	addi	s1, a0, 737
	addi	a0, a1, -1304
	sd	a0, -440(s0)
	j	.LBB28_3
.LBB28_2:
	addi	s4, s4, -1
	ld	a0, -440(s0)
	add	s5, s5, a0
	add	s1, s1, a0
	add	s7, s7, a0
	beqz	s4, .LBB28_11
.LBB28_3:
	lbu	s2, 40(s7)
	lbu	a1, 41(s7)
	lbu	a6, 42(s7)
	lbu	a3, 43(s7)
	lbu	a7, 44(s7)
	lbu	a5, 45(s7)
	lbu	a2, 46(s7)
	lbu	a4, 47(s7)
	lbu	t0, 48(s7)
	lbu	s8, 49(s7)
	lbu	t5, 50(s7)
	lbu	t6, 51(s7)
	lbu	t1, 52(s7)
	lbu	t4, 53(s7)
	lbu	t2, 54(s7)
	lbu	t3, 55(s7)
	lbu	ra, 64(s7)
	lbu	s3, 65(s7)
	lbu	s9, 66(s7)
	lbu	s10, 67(s7)
	lbu	a0, 68(s7)
	sd	a0, -240(s0)
	lbu	s6, 69(s7)
	lbu	s11, 70(s7)
	lbu	a0, 71(s7)
	sd	a0, -248(s0)
	slli	a1, a1, 8
	or	a0, a1, s2
	lbu	a1, -48(s1)
	sd	a1, -320(s0)
	lbu	a1, -47(s1)
	sd	a1, -344(s0)
	lbu	a1, -46(s1)
	sd	a1, -328(s0)
	lbu	a1, -45(s1)
	sd	a1, -336(s0)
	slli	a6, a6, 16
	slli	a3, a3, 24
	slli	a5, a5, 8
	slli	a2, a2, 16
	slli	a4, a4, 24
	or	a1, a3, a6
	or	a3, a5, a7
	or	a2, a2, a4
	or	a0, a0, a1
	lbu	a1, -44(s1)
	sd	a1, -352(s0)
	lbu	a1, -43(s1)
	sd	a1, -376(s0)
	lbu	a1, -42(s1)
	sd	a1, -360(s0)
	lbu	a1, -41(s1)
	sd	a1, -368(s0)
	or	a2, a2, a3
	lbu	a1, -32(s1)
	sd	a1, -176(s0)
	lbu	a1, -31(s1)
	sd	a1, -232(s0)
	lbu	a1, -30(s1)
	sd	a1, -216(s0)
	lbu	a1, -29(s1)
	sd	a1, -224(s0)
	lbu	a1, -28(s1)
	sd	a1, -184(s0)
	lbu	a1, -27(s1)
	sd	a1, -208(s0)
	lbu	a1, -26(s1)
	sd	a1, -192(s0)
	lbu	a1, -25(s1)
	sd	a1, -200(s0)
	lbu	a1, -16(s1)
	sd	a1, -256(s0)
	lbu	a1, -15(s1)
	sd	a1, -312(s0)
	lbu	a1, -14(s1)
	sd	a1, -296(s0)
	lbu	a1, -13(s1)
	sd	a1, -304(s0)
	lbu	a1, -12(s1)
	sd	a1, -264(s0)
	lbu	a1, -11(s1)
	sd	a1, -288(s0)
	lbu	a1, -10(s1)
	sd	a1, -272(s0)
	lbu	a1, -9(s1)
	sd	a1, -280(s0)
	lbu	a1, 0(s1)
	sd	a1, -112(s0)
	lbu	a1, 1(s1)
	sd	a1, -168(s0)
	lbu	a1, 2(s1)
	sd	a1, -152(s0)
	lbu	a1, 3(s1)
	sd	a1, -160(s0)
	lbu	a1, 4(s1)
	sd	a1, -120(s0)
	lbu	a1, 5(s1)
	sd	a1, -144(s0)
	lbu	a1, 6(s1)
	sd	a1, -128(s0)
	lbu	a1, 7(s1)
	sd	a1, -136(s0)
	slli	a2, a2, 32
	or	a0, a0, a2
	beqz	a0, .LBB28_5
	lbu	a0, 1(s5)
	lbu	a1, 2(s5)
	lbu	a2, 3(s5)
	lbu	a3, 0(s5)
	slli	a0, a0, 8
	slli	a1, a1, 16
	slli	a2, a2, 24
	or	a0, a0, a3
	or	a1, a1, a2
	lbu	a2, 5(s5)
	lbu	a3, 4(s5)
	lbu	a4, 6(s5)
	lbu	a5, 7(s5)
	slli	a2, a2, 8
	or	a2, a2, a3
	slli	a4, a4, 16
	slli	a5, a5, 24
	or	a4, a4, a5
	or	a0, a0, a1
	or	a2, a2, a4
	slli	a2, a2, 32
	or	a0, a0, a2
	sd	s5, -384(s0)
	sd	s4, -392(s0)
	sd	s8, -400(s0)
	mv	s8, t0
	mv	s2, t1
	sd	s11, -408(s0)
	mv	s11, t2
	sd	s6, -432(s0)
	mv	s6, t3
	sd	s9, -416(s0)
	mv	s9, t4
	sd	s10, -424(s0)
	mv	s10, t5
	mv	s4, s3
	mv	s3, t6
	mv	s5, ra
	call	tlsf_memory_dealloc
	mv	ra, s5
	mv	t6, s3
	mv	s3, s4
	mv	t5, s10
	ld	s10, -424(s0)
	mv	t4, s9
	ld	s9, -416(s0)
	mv	t3, s6
	ld	s6, -432(s0)
	mv	t2, s11
	ld	s11, -408(s0)
	mv	t1, s2
	mv	t0, s8
	ld	s8, -400(s0)
	ld	s4, -392(s0)
	ld	s5, -384(s0)
.LBB28_5:
	slli	s3, s3, 8
	slli	s9, s9, 16
	slli	s10, s10, 24
	slli	s6, s6, 8
	slli	s11, s11, 16
	ld	s2, -248(s0)
	slli	s2, s2, 24
	or	a0, s3, ra
	or	a1, s10, s9
	ld	a2, -240(s0)
	or	a2, s6, a2
	or	a3, s2, s11
	or	a0, a0, a1
	or	a2, a2, a3
	slli	a2, a2, 32
	or	a0, a0, a2
	beqz	a0, .LBB28_7
	slli	a0, s8, 8
	slli	a1, t5, 16
	slli	a2, t6, 24
	slli	a3, t4, 8
	slli	a4, t2, 16
	slli	a5, t3, 24
	or	a0, a0, t0
	or	a1, a1, a2
	or	a2, a3, t1
	or	a4, a4, a5
	or	a0, a0, a1
	or	a2, a2, a4
	slli	a2, a2, 32
	or	a0, a0, a2
	call	tlsf_memory_dealloc
.LBB28_7:
	ld	a6, -232(s0)
	slli	a6, a6, 8
	ld	a1, -216(s0)
	slli	a1, a1, 16
	ld	a2, -224(s0)
	slli	a2, a2, 24
	ld	a3, -208(s0)
	slli	a3, a3, 8
	ld	a4, -192(s0)
	slli	a4, a4, 16
	ld	a5, -200(s0)
	slli	a5, a5, 24
	ld	a0, -176(s0)
	or	a0, a6, a0
	or	a1, a1, a2
	ld	a2, -184(s0)
	or	a2, a2, a3
	or	a4, a4, a5
	or	a0, a0, a1
	or	a2, a2, a4
	slli	a2, a2, 32
	or	a0, a0, a2
	beqz	a0, .LBB28_9
	ld	a6, -344(s0)
	slli	a6, a6, 8
	ld	a1, -328(s0)
	slli	a1, a1, 16
	ld	a2, -336(s0)
	slli	a2, a2, 24
	ld	a3, -376(s0)
	slli	a3, a3, 8
	ld	a4, -360(s0)
	slli	a4, a4, 16
	ld	a5, -368(s0)
	slli	a5, a5, 24
	ld	a0, -320(s0)
	or	a0, a6, a0
	or	a1, a1, a2
	ld	a2, -352(s0)
	or	a2, a2, a3
	or	a4, a4, a5
	or	a0, a0, a1
	or	a2, a2, a4
	slli	a2, a2, 32
	or	a0, a0, a2
	call	tlsf_memory_dealloc
.LBB28_9:
	ld	a6, -168(s0)
	slli	a6, a6, 8
	ld	a1, -152(s0)
	slli	a1, a1, 16
	ld	a2, -160(s0)
	slli	a2, a2, 24
	ld	a3, -144(s0)
	slli	a3, a3, 8
	ld	a4, -128(s0)
	slli	a4, a4, 16
	ld	a5, -136(s0)
	slli	a5, a5, 24
	ld	a0, -112(s0)
	or	a0, a6, a0
	or	a1, a1, a2
	ld	a2, -120(s0)
	or	a2, a2, a3
	or	a4, a4, a5
	or	a0, a0, a1
	or	a2, a2, a4
	slli	a2, a2, 32
	or	a0, a0, a2
	beqz	a0, .LBB28_2
	ld	a6, -312(s0)
	slli	a6, a6, 8
	ld	a1, -296(s0)
	slli	a1, a1, 16
	ld	a2, -304(s0)
	slli	a2, a2, 24
	ld	a3, -288(s0)
	slli	a3, a3, 8
	ld	a4, -272(s0)
	slli	a4, a4, 16
	ld	a5, -280(s0)
	slli	a5, a5, 24
	ld	a0, -256(s0)
	or	a0, a6, a0
	or	a1, a1, a2
	ld	a2, -264(s0)
	or	a2, a2, a3
	or	a4, a4, a5
	or	a0, a0, a1
	or	a2, a2, a4
	slli	a2, a2, 32
	or	a0, a0, a2
	call	tlsf_memory_dealloc
	j	.LBB28_2
.LBB28_11:
	ld	a0, -456(s0)
	beqz	a0, .LBB28_13
	ld	a0, -448(s0)
	.cfi_def_cfa sp, 464
	ld	ra, 456(sp)
	ld	s0, 448(sp)
	ld	s1, 440(sp)
	ld	s2, 432(sp)
	ld	s3, 424(sp)
	ld	s4, 416(sp)
	ld	s5, 408(sp)
	ld	s6, 400(sp)
	ld	s7, 392(sp)
	ld	s8, 384(sp)
	ld	s9, 376(sp)
	ld	s10, 368(sp)
	ld	s11, 360(sp)
	.cfi_restore ra
	.cfi_restore s0
	.cfi_restore s1
	.cfi_restore s2
	.cfi_restore s3
	.cfi_restore s4
	.cfi_restore s5
	.cfi_restore s6
	.cfi_restore s7
	.cfi_restore s8
	.cfi_restore s9
	.cfi_restore s10
	.cfi_restore s11
	addi	sp, sp, 464
	.cfi_def_cfa_offset 0
	tail	tlsf_memory_dealloc
.LBB28_13:
	.cfi_restore_state
	.cfi_def_cfa sp, 464
	ld	ra, 456(sp)
	ld	s0, 448(sp)
	ld	s1, 440(sp)
	ld	s2, 432(sp)
	ld	s3, 424(sp)
	ld	s4, 416(sp)
	ld	s5, 408(sp)
	ld	s6, 400(sp)
	ld	s7, 392(sp)
	ld	s8, 384(sp)
	ld	s9, 376(sp)
	ld	s10, 368(sp)
	ld	s11, 360(sp)
	.cfi_restore ra
	.cfi_restore s0
	.cfi_restore s1
	.cfi_restore s2
	.cfi_restore s3
	.cfi_restore s4
	.cfi_restore s5
	.cfi_restore s6
	.cfi_restore s7
	.cfi_restore s8
	.cfi_restore s9
	.cfi_restore s10
	.cfi_restore s11
	addi	sp, sp, 464
	.cfi_def_cfa_offset 0
	ret
.Lfunc_end28:
	.size	std_alloc.vec.Vec.drop.01e19ae241269710, .Lfunc_end28-std_alloc.vec.Vec.drop.01e19ae241269710
	.cfi_endproc
	.p2align	1
	.type	std_alloc.vec.Vec.drop.1d6c342d5cae5f6b,@function
std_alloc.vec.Vec.drop.1d6c342d5cae5f6b:
	.cfi_startproc
	addi	sp, sp, -464
	.cfi_def_cfa_offset 464
	sd	ra, 456(sp)
	sd	s0, 448(sp)
	sd	s1, 440(sp)
	sd	s2, 432(sp)
	sd	s3, 424(sp)
	sd	s4, 416(sp)
	sd	s5, 408(sp)
	sd	s6, 400(sp)
	sd	s7, 392(sp)
	sd	s8, 384(sp)
	sd	s9, 376(sp)
	sd	s10, 368(sp)
	sd	s11, 360(sp)
	.cfi_offset ra, -8
	.cfi_offset s0, -16
	.cfi_offset s1, -24
	.cfi_offset s2, -32
	.cfi_offset s3, -40
	.cfi_offset s4, -48
	.cfi_offset s5, -56
	.cfi_offset s6, -64
	.cfi_offset s7, -72
	.cfi_offset s8, -80
	.cfi_offset s9, -88
	.cfi_offset s10, -96
	.cfi_offset s11, -104
	addi	s0, sp, 464
	.cfi_def_cfa s0, 0
	.cfi_remember_state
	lbu	a6, 0(a0)
	lbu	t2, 1(a0)
	lbu	t3, 2(a0)
	lbu	a4, 3(a0)
	lbu	t4, 4(a0)
	lbu	s1, 5(a0)
	lbu	a7, 6(a0)
	lbu	t1, 7(a0)
	lbu	t0, 8(a0)
	lbu	t5, 9(a0)
	lbu	a2, 10(a0)
	lbu	a3, 11(a0)
	slli	t2, t2, 8
	slli	t3, t3, 16
	slli	a4, a4, 24
	slli	a5, s1, 8
	or	a6, t2, a6
	or	t3, a4, t3
	or	t2, a5, t4
	lbu	a4, 12(a0)
	lbu	a5, 13(a0)
	lbu	s1, 14(a0)
	lbu	a1, 15(a0)
	slli	a7, a7, 16
	slli	t1, t1, 24
	slli	t5, t5, 8
	slli	a2, a2, 16
	slli	a3, a3, 24
	slli	a5, a5, 8
	or	a7, t1, a7
	or	t0, t5, t0
	or	t1, a3, a2
	or	t4, a5, a4
	lbu	a3, 16(a0)
	lbu	a5, 17(a0)
	lbu	a2, 18(a0)
	lbu	a4, 19(a0)
	slli	s1, s1, 16
	slli	a1, a1, 24
	slli	a5, a5, 8
	slli	a2, a2, 16
	slli	a4, a4, 24
	or	t5, a1, s1
	or	t6, a5, a3
	or	a2, a2, a4
	lbu	a4, 21(a0)
	lbu	a5, 20(a0)
	lbu	s1, 22(a0)
	lbu	a0, 23(a0)
	slli	a4, a4, 8
	or	a4, a4, a5
	slli	s1, s1, 16
	slli	a0, a0, 24
	or	a0, a0, s1
	or	a5, t3, a6
	or	s1, a7, t2
	or	a1, t1, t0
	or	a3, t5, t4
	or	a2, a2, t6
	or	a0, a0, a4
	slli	s1, s1, 32
	slli	a3, a3, 32
	or	a5, a5, s1
	sd	a5, -448(s0)
	or	s4, a3, a1
	slli	a0, a0, 32
	or	a0, a0, a2
	sd	a0, -456(s0)
	beqz	s4, .LBB29_11
	ld	s7, -448(s0)
	addi	s5, s7, 24
	addi	a0, s7, 2047
	lui	a1, 1
	addi	s1, a0, 737
	addi	a0, a1, -1304
	sd	a0, -440(s0)
	j	.LBB29_3
.LBB29_2:
	addi	s4, s4, -1
	ld	a0, -440(s0)
	add	s5, s5, a0
	add	s1, s1, a0
	add	s7, s7, a0
	beqz	s4, .LBB29_11
.LBB29_3:
	lbu	s2, 40(s7)
	lbu	a1, 41(s7)
	lbu	a6, 42(s7)
	lbu	a3, 43(s7)
	lbu	a7, 44(s7)
	lbu	a5, 45(s7)
	lbu	a2, 46(s7)
	lbu	a4, 47(s7)
	lbu	t0, 48(s7)
	lbu	s8, 49(s7)
	lbu	t5, 50(s7)
	lbu	t6, 51(s7)
	lbu	t1, 52(s7)
	lbu	t4, 53(s7)
	lbu	t2, 54(s7)
	lbu	t3, 55(s7)
	lbu	ra, 64(s7)
	lbu	s3, 65(s7)
	lbu	s9, 66(s7)
	lbu	s10, 67(s7)
	lbu	a0, 68(s7)
	sd	a0, -240(s0)
	lbu	s6, 69(s7)
	lbu	s11, 70(s7)
	lbu	a0, 71(s7)
	sd	a0, -248(s0)
	slli	a1, a1, 8
	or	a0, a1, s2
	lbu	a1, -48(s1)
	sd	a1, -320(s0)
	lbu	a1, -47(s1)
	sd	a1, -344(s0)
	lbu	a1, -46(s1)
	sd	a1, -328(s0)
	lbu	a1, -45(s1)
	sd	a1, -336(s0)
	slli	a6, a6, 16
	slli	a3, a3, 24
	slli	a5, a5, 8
	slli	a2, a2, 16
	slli	a4, a4, 24
	or	a1, a3, a6
	or	a3, a5, a7
	or	a2, a2, a4
	or	a0, a0, a1
	lbu	a1, -44(s1)
	sd	a1, -352(s0)
	lbu	a1, -43(s1)
	sd	a1, -376(s0)
	lbu	a1, -42(s1)
	sd	a1, -360(s0)
	lbu	a1, -41(s1)
	sd	a1, -368(s0)
	or	a2, a2, a3
	lbu	a1, -32(s1)
	sd	a1, -176(s0)
	lbu	a1, -31(s1)
	sd	a1, -232(s0)
	lbu	a1, -30(s1)
	sd	a1, -216(s0)
	lbu	a1, -29(s1)
	sd	a1, -224(s0)
	lbu	a1, -28(s1)
	sd	a1, -184(s0)
	lbu	a1, -27(s1)
	sd	a1, -208(s0)
	lbu	a1, -26(s1)
	sd	a1, -192(s0)
	lbu	a1, -25(s1)
	sd	a1, -200(s0)
	lbu	a1, -16(s1)
	sd	a1, -256(s0)
	lbu	a1, -15(s1)
	sd	a1, -312(s0)
	lbu	a1, -14(s1)
	sd	a1, -296(s0)
	lbu	a1, -13(s1)
	sd	a1, -304(s0)
	lbu	a1, -12(s1)
	sd	a1, -264(s0)
	lbu	a1, -11(s1)
	sd	a1, -288(s0)
	lbu	a1, -10(s1)
	sd	a1, -272(s0)
	lbu	a1, -9(s1)
	sd	a1, -280(s0)
	lbu	a1, 0(s1)
	sd	a1, -112(s0)
	lbu	a1, 1(s1)
	sd	a1, -168(s0)
	lbu	a1, 2(s1)
	sd	a1, -152(s0)
	lbu	a1, 3(s1)
	sd	a1, -160(s0)
	lbu	a1, 4(s1)
	sd	a1, -120(s0)
	lbu	a1, 5(s1)
	sd	a1, -144(s0)
	lbu	a1, 6(s1)
	sd	a1, -128(s0)
	lbu	a1, 7(s1)
	sd	a1, -136(s0)
	slli	a2, a2, 32
	or	a0, a0, a2
	beqz	a0, .LBB29_5
	lbu	a0, 1(s5)
	lbu	a1, 2(s5)
	lbu	a2, 3(s5)
	lbu	a3, 0(s5)
	slli	a0, a0, 8
	slli	a1, a1, 16
	slli	a2, a2, 24
	or	a0, a0, a3
	or	a1, a1, a2
	lbu	a2, 5(s5)
	lbu	a3, 4(s5)
	lbu	a4, 6(s5)
	lbu	a5, 7(s5)
	slli	a2, a2, 8
	or	a2, a2, a3
	slli	a4, a4, 16
	slli	a5, a5, 24
	or	a4, a4, a5
	or	a0, a0, a1
	or	a2, a2, a4
	slli	a2, a2, 32
	or	a0, a0, a2
	sd	s5, -384(s0)
	sd	s4, -392(s0)
	sd	s8, -400(s0)
	mv	s8, t0
	mv	s2, t1
	sd	s11, -408(s0)
	mv	s11, t2
	sd	s6, -432(s0)
	mv	s6, t3
	sd	s9, -416(s0)
	mv	s9, t4
	sd	s10, -424(s0)
	mv	s10, t5
	mv	s4, s3
	mv	s3, t6
	mv	s5, ra
	call	tlsf_memory_dealloc
	mv	ra, s5
	mv	t6, s3
	mv	s3, s4
	mv	t5, s10
	ld	s10, -424(s0)
	mv	t4, s9
	ld	s9, -416(s0)
	mv	t3, s6
	ld	s6, -432(s0)
	mv	t2, s11
	ld	s11, -408(s0)
	mv	t1, s2
	mv	t0, s8
	ld	s8, -400(s0)
	ld	s4, -392(s0)
	ld	s5, -384(s0)
.LBB29_5:
	slli	s3, s3, 8
	slli	s9, s9, 16
	slli	s10, s10, 24
	slli	s6, s6, 8
	slli	s11, s11, 16
	ld	s2, -248(s0)
	slli	s2, s2, 24
	or	a0, s3, ra
	or	a1, s10, s9
	ld	a2, -240(s0)
	or	a2, s6, a2
	or	a3, s2, s11
	or	a0, a0, a1
	or	a2, a2, a3
	slli	a2, a2, 32
	or	a0, a0, a2
	beqz	a0, .LBB29_7
	slli	a0, s8, 8
	slli	a1, t5, 16
	slli	a2, t6, 24
	slli	a3, t4, 8
	slli	a4, t2, 16
	slli	a5, t3, 24
	or	a0, a0, t0
	or	a1, a1, a2
	or	a2, a3, t1
	or	a4, a4, a5
	or	a0, a0, a1
	or	a2, a2, a4
	slli	a2, a2, 32
	or	a0, a0, a2
	call	tlsf_memory_dealloc
.LBB29_7:
	ld	a6, -232(s0)
	slli	a6, a6, 8
	ld	a1, -216(s0)
	slli	a1, a1, 16
	ld	a2, -224(s0)
	slli	a2, a2, 24
	ld	a3, -208(s0)
	slli	a3, a3, 8
	ld	a4, -192(s0)
	slli	a4, a4, 16
	ld	a5, -200(s0)
	slli	a5, a5, 24
	ld	a0, -176(s0)
	or	a0, a6, a0
	or	a1, a1, a2
	ld	a2, -184(s0)
	or	a2, a2, a3
	or	a4, a4, a5
	or	a0, a0, a1
	or	a2, a2, a4
	slli	a2, a2, 32
	or	a0, a0, a2
	beqz	a0, .LBB29_9
	ld	a6, -344(s0)
	slli	a6, a6, 8
	ld	a1, -328(s0)
	slli	a1, a1, 16
	ld	a2, -336(s0)
	slli	a2, a2, 24
	ld	a3, -376(s0)
	slli	a3, a3, 8
	ld	a4, -360(s0)
	slli	a4, a4, 16
	ld	a5, -368(s0)
	slli	a5, a5, 24
	ld	a0, -320(s0)
	or	a0, a6, a0
	or	a1, a1, a2
	ld	a2, -352(s0)
	or	a2, a2, a3
	or	a4, a4, a5
	or	a0, a0, a1
	or	a2, a2, a4
	slli	a2, a2, 32
	or	a0, a0, a2
	call	tlsf_memory_dealloc
.LBB29_9:
	ld	a6, -168(s0)
	slli	a6, a6, 8
	ld	a1, -152(s0)
	slli	a1, a1, 16
	ld	a2, -160(s0)
	slli	a2, a2, 24
	ld	a3, -144(s0)
	slli	a3, a3, 8
	ld	a4, -128(s0)
	slli	a4, a4, 16
	ld	a5, -136(s0)
	slli	a5, a5, 24
	ld	a0, -112(s0)
	or	a0, a6, a0
	or	a1, a1, a2
	ld	a2, -120(s0)
	or	a2, a2, a3
	or	a4, a4, a5
	or	a0, a0, a1
	or	a2, a2, a4
	slli	a2, a2, 32
	or	a0, a0, a2
	beqz	a0, .LBB29_2
	ld	a6, -312(s0)
	slli	a6, a6, 8
	ld	a1, -296(s0)
	slli	a1, a1, 16
	ld	a2, -304(s0)
	slli	a2, a2, 24
	ld	a3, -288(s0)
	slli	a3, a3, 8
	ld	a4, -272(s0)
	slli	a4, a4, 16
	ld	a5, -280(s0)
	slli	a5, a5, 24
	ld	a0, -256(s0)
	or	a0, a6, a0
	or	a1, a1, a2
	ld	a2, -264(s0)
	or	a2, a2, a3
	or	a4, a4, a5
	or	a0, a0, a1
	or	a2, a2, a4
	slli	a2, a2, 32
	or	a0, a0, a2
	call	tlsf_memory_dealloc
	j	.LBB29_2
.LBB29_11:
	ld	a0, -456(s0)
	beqz	a0, .LBB29_13
	ld	a0, -448(s0)
	.cfi_def_cfa sp, 464
	ld	ra, 456(sp)
	ld	s0, 448(sp)
	ld	s1, 440(sp)
	ld	s2, 432(sp)
	ld	s3, 424(sp)
	ld	s4, 416(sp)
	ld	s5, 408(sp)
	ld	s6, 400(sp)
	ld	s7, 392(sp)
	ld	s8, 384(sp)
	ld	s9, 376(sp)
	ld	s10, 368(sp)
	ld	s11, 360(sp)
	.cfi_restore ra
	.cfi_restore s0
	.cfi_restore s1
	.cfi_restore s2
	.cfi_restore s3
	.cfi_restore s4
	.cfi_restore s5
	.cfi_restore s6
	.cfi_restore s7
	.cfi_restore s8
	.cfi_restore s9
	.cfi_restore s10
	.cfi_restore s11
	addi	sp, sp, 464
	.cfi_def_cfa_offset 0
	tail	tlsf_memory_dealloc
.LBB29_13:
	.cfi_restore_state
	.cfi_def_cfa sp, 464
	ld	ra, 456(sp)
	ld	s0, 448(sp)
	ld	s1, 440(sp)
	ld	s2, 432(sp)
	ld	s3, 424(sp)
	ld	s4, 416(sp)
	ld	s5, 408(sp)
	ld	s6, 400(sp)
	ld	s7, 392(sp)
	ld	s8, 384(sp)
	ld	s9, 376(sp)
	ld	s10, 368(sp)
	ld	s11, 360(sp)
	.cfi_restore ra
	.cfi_restore s0
	.cfi_restore s1
	.cfi_restore s2
	.cfi_restore s3
	.cfi_restore s4
	.cfi_restore s5
	.cfi_restore s6
	.cfi_restore s7
	.cfi_restore s8
	.cfi_restore s9
	.cfi_restore s10
	.cfi_restore s11
	addi	sp, sp, 464
	.cfi_def_cfa_offset 0
	ret
.Lfunc_end29:
	.size	std_alloc.vec.Vec.drop.1d6c342d5cae5f6b, .Lfunc_end29-std_alloc.vec.Vec.drop.1d6c342d5cae5f6b
	.cfi_endproc
	.section	.text.unlikely.,"ax",@progbits
	.p2align	1
	.type	std_alloc.vec.Vec.grow_amortized.1345b5ed95b64201,@function
std_alloc.vec.Vec.grow_amortized.1345b5ed95b64201:
	.cfi_startproc
	ld	a2, 8(a0)
	not	a3, a2
	bgeu	a3, a1, .LBB30_2
	li	a0, 0
	ret
.LBB30_2:
	ld	a3, 16(a0)
	add	a1, a1, a2
	li	a4, 4
	bltu	a4, a1, .LBB30_4
	li	a1, 4
.LBB30_4:
	addi	sp, sp, -48
	.cfi_def_cfa_offset 48
	sd	ra, 40(sp)
	sd	s0, 32(sp)
	sd	s1, 24(sp)
	sd	s2, 16(sp)
	sd	s3, 8(sp)
	.cfi_offset ra, -8
	.cfi_offset s0, -16
	.cfi_offset s1, -24
	.cfi_offset s2, -32
	.cfi_offset s3, -40
	addi	s0, sp, 48
	.cfi_def_cfa s0, 0
	slli	a4, a3, 1
	srli	a5, a3, 62
	mv	s1, a1
	bgeu	a4, a1, .LBB30_9
	mv	s3, s1
	bnez	a5, .LBB30_10
.LBB30_6:
	srli	a1, s3, 60
	bnez	a1, .LBB30_11
.LBB30_7:
	beqz	a3, .LBB30_12
	mv	s2, a0
	ld	a0, 0(a0)
	slli	a1, a2, 3
	slli	a2, s3, 3
	li	a3, 8
	call	tlsf_memory_realloc
	andi	a0, a0, 1
	bnez	a0, .LBB30_13
	j	.LBB30_14
.LBB30_9:
	mv	s1, a4
	mv	s3, a4
	beqz	a5, .LBB30_6
.LBB30_10:
	mv	s3, a1
	srli	a1, a1, 60
	beqz	a1, .LBB30_7
.LBB30_11:
	li	a0, 0
	j	.LBB30_14
.LBB30_12:
	mv	s2, a0
	slli	a0, s1, 3
	li	a1, 8
	call	tlsf_memory_alloc
	andi	a0, a0, 1
	beqz	a0, .LBB30_14
.LBB30_13:
	sd	a1, 0(s2)
	sd	s3, 16(s2)
	li	a0, 1
.LBB30_14:
	.cfi_def_cfa sp, 48
	ld	ra, 40(sp)
	ld	s0, 32(sp)
	ld	s1, 24(sp)
	ld	s2, 16(sp)
	ld	s3, 8(sp)
	.cfi_restore ra
	.cfi_restore s0
	.cfi_restore s1
	.cfi_restore s2
	.cfi_restore s3
	addi	sp, sp, 48
	.cfi_def_cfa_offset 0
	ret
.Lfunc_end30:
	.size	std_alloc.vec.Vec.grow_amortized.1345b5ed95b64201, .Lfunc_end30-std_alloc.vec.Vec.grow_amortized.1345b5ed95b64201
	.cfi_endproc
	.text
	.p2align	1
	.type	tlsf_words.words.Words.lengthen,@function
tlsf_words.words.Words.lengthen:
	.cfi_startproc
	addi	sp, sp, -64
	.cfi_def_cfa_offset 64
	sd	ra, 56(sp)
	sd	s0, 48(sp)
	sd	s1, 40(sp)
	sd	s2, 32(sp)
	sd	s3, 24(sp)
	sd	s4, 16(sp)
	sd	s5, 8(sp)
	sd	s6, 0(sp)
	.cfi_offset ra, -8
	.cfi_offset s0, -16
	.cfi_offset s1, -24
	.cfi_offset s2, -32
	.cfi_offset s3, -40
	.cfi_offset s4, -48
	.cfi_offset s5, -56
	.cfi_offset s6, -64
	addi	s0, sp, 64
	.cfi_def_cfa s0, 0
	.cfi_remember_state
	mv	s1, a0
	ld	a0, 8(a0)
	mv	s2, a1
	slli	a1, a1, 32
	srli	a1, a1, 32
	bgeu	a0, a1, .LBB31_5
	ld	s4, 16(s1)
	sub	s3, a1, a0
	sub	a1, s4, a0
	bltu	a1, s3, .LBB31_17
	ld	s6, 0(s1)
	add	s5, a0, s3
	bgeu	a0, s5, .LBB31_4
.LBB31_3:
	slli	a0, a0, 3
	add	a0, a0, s6
	slli	a2, s3, 3
	li	a1, 0
	call	tlsf_memory_set
.LBB31_4:
	sd	s6, 0(s1)
	sd	s5, 8(s1)
	sd	s4, 16(s1)
	j	.LBB31_7
.LBB31_5:
	bgeu	a1, a0, .LBB31_7
	sd	a1, 8(s1)
.LBB31_7:
	ld	a0, 32(s1)
	beqz	a0, .LBB31_9
	sd	zero, 32(s1)
.LBB31_9:
	sext.w	a0, s2
	beqz	a0, .LBB31_14
	srliw	s3, s2, 6
	ld	s4, 40(s1)
	andi	a0, s2, 63
	snez	a0, a0
	add	s3, s3, a0
	bltu	s4, s3, .LBB31_15
	li	a0, 0
	ld	s6, 24(s1)
	mv	s5, s3
	beqz	s3, .LBB31_13
.LBB31_12:
	slli	a0, a0, 3
	add	a0, a0, s6
	slli	a2, s3, 3
	li	a1, 0
	call	tlsf_memory_set
.LBB31_13:
	sd	s6, 24(s1)
	sd	s5, 32(s1)
	sd	s4, 40(s1)
.LBB31_14:
	sw	s2, 48(s1)
	.cfi_def_cfa sp, 64
	ld	ra, 56(sp)
	ld	s0, 48(sp)
	ld	s1, 40(sp)
	ld	s2, 32(sp)
	ld	s3, 24(sp)
	ld	s4, 16(sp)
	ld	s5, 8(sp)
	ld	s6, 0(sp)
	.cfi_restore ra
	.cfi_restore s0
	.cfi_restore s1
	.cfi_restore s2
	.cfi_restore s3
	.cfi_restore s4
	.cfi_restore s5
	.cfi_restore s6
	addi	sp, sp, 64
	.cfi_def_cfa_offset 0
	ret
.LBB31_15:
	.cfi_restore_state
	addi	a0, s1, 24
	mv	a1, s3
	call	std_alloc.vec.Vec.grow_amortized.1345b5ed95b64201
	beqz	a0, .LBB31_19
	ld	a0, 32(s1)
	ld	s4, 40(s1)
	ld	s6, 24(s1)
	add	s5, a0, s3
	bltu	a0, s5, .LBB31_12
	j	.LBB31_13
.LBB31_17:
	mv	a0, s1
	mv	a1, s3
	call	std_alloc.vec.Vec.grow_amortized.1345b5ed95b64201
	beqz	a0, .LBB31_19
	ld	a0, 8(s1)
	ld	s4, 16(s1)
	ld	s6, 0(s1)
	add	s5, a0, s3
	bltu	a0, s5, .LBB31_3
	j	.LBB31_4
.LBB31_19:
	unimp
.Lfunc_end31:
	.size	tlsf_words.words.Words.lengthen, .Lfunc_end31-tlsf_words.words.Words.lengthen
	.cfi_endproc
	.p2align	1
	.type	tlsf_pool.sizes.split.rising_split.4,@function
tlsf_pool.sizes.split.rising_split.4:
	.cfi_startproc
	addi	sp, sp, -1536
	.cfi_def_cfa_offset 1536
	sd	ra, 1528(sp)
	sd	s0, 1520(sp)
	sd	s1, 1512(sp)
	sd	s2, 1504(sp)
	sd	s3, 1496(sp)
	sd	s4, 1488(sp)
	sd	s5, 1480(sp)
	sd	s6, 1472(sp)
	sd	s7, 1464(sp)
	sd	s8, 1456(sp)
	sd	s9, 1448(sp)
	sd	s10, 1440(sp)
	sd	s11, 1432(sp)
	.cfi_offset ra, -8
	.cfi_offset s0, -16
	.cfi_offset s1, -24
	.cfi_offset s2, -32
	.cfi_offset s3, -40
	.cfi_offset s4, -48
	.cfi_offset s5, -56
	.cfi_offset s6, -64
	.cfi_offset s7, -72
	.cfi_offset s8, -80
	.cfi_offset s9, -88
	.cfi_offset s10, -96
	.cfi_offset s11, -104
	addi	s0, sp, 1536
	.cfi_def_cfa s0, 0
	.cfi_remember_state
	mv	s5, a2
	mv	s3, a1
	li	a1, 2
	mv	s2, a0
	bltu	a2, a1, .LBB32_5
	addi	a0, s5, -1
	addi	a1, s3, 12
.LBB32_2:
	lw	a2, -8(a1)
	lw	a3, 0(a1)
	bgeu	a2, a3, .LBB32_40
	addi	a0, a0, -1
	addi	a1, a1, 8
	bnez	a0, .LBB32_2
	addi	a0, s0, -1484
	li	a2, 1300
	li	a1, 0
	call	tlsf_memory_set
	j	.LBB32_6
.LBB32_5:
	addi	a0, s0, -1484
	li	a2, 1300
	li	a1, 0
	call	tlsf_memory_set
	beqz	s5, .LBB32_41
.LBB32_6:
	sd	s2, -1536(s0)
	slli	s4, s5, 2
	slli	a0, s5, 4
	add	s4, s4, a0
	addi	a0, s0, -1484
	li	a1, 0
	mv	a2, s4
	call	tlsf_memory_set
	addi	t1, s0, -1484
	li	a1, 0
	add	a0, t1, s4
	li	a7, 1
	addi	s1, s0, -144
	addi	s4, s0, -164
	addi	s8, s0, -140
	addi	t5, s0, -160
	addi	a2, s3, 4
	sd	a2, -1528(s0)
	lui	a2, 2048
	lui	a6, 349525
	lui	a3, 209715
	lui	a4, 61681
	lui	a5, 4112
	li	t3, 27
	lui	t4, 256
	sw	a7, 0(a0)
	sw	zero, 4(a0)
	sw	zero, 8(a0)
	sw	zero, 12(a0)
	sw	zero, 16(a0)
	addi	a2, a2, -23
	addi	s7, a6, 1365
	addi	s6, a3, 819
	addi	s10, a4, -241
	addi	s11, a5, 257
	sd	s5, -1504(s0)
	sd	s3, -1520(s0)
	j	.LBB32_8
.LBB32_7:
	ld	a1, -1512(s0)
	addi	a1, a1, 1
	ld	s3, -1520(s0)
	li	a0, 8
	beq	a1, a0, .LBB32_36
.LBB32_8:
	sd	a1, -1512(s0)
	li	s9, 0
	mv	ra, s3
	ld	t0, -1528(s0)
	j	.LBB32_10
.LBB32_9:
	sw	t6, -144(s0)
	slli	a0, s9, 2
	slli	s9, s9, 4
	addi	s1, s0, -144
	lwu	a1, 0(s1)
	lw	a3, 4(s1)
	lwu	a4, 8(s1)
	lw	a5, 12(s1)
	add	a0, a0, s9
	addi	t0, t0, 8
	addi	t1, s0, -1484
	add	a0, a0, t1
	slli	a5, a5, 32
	slli	a3, a3, 32
	or	a5, a5, a4
	or	a3, a3, a1
	sd	a3, -184(s0)
	sd	a5, -176(s0)
	lw	a3, -180(s0)
	lw	a5, -172(s0)
	sw	t2, 0(a0)
	sw	a1, 4(a0)
	sw	a3, 8(a0)
	sw	a4, 12(a0)
	sw	a5, 16(a0)
	addi	ra, ra, 8
	ld	a0, -1496(s0)
	mv	s9, a0
	ld	s5, -1504(s0)
	beq	a0, s5, .LBB32_7
.LBB32_10:
	li	t2, 0
	li	t6, 0
	li	a0, 0
	addi	a4, s9, 1
	sub	a7, s5, s9
	sw	zero, 0(s1)
	sw	zero, 4(s1)
	sw	zero, 8(s1)
	sw	zero, 12(s1)
	slli	a1, a4, 2
	sd	a4, -1496(s0)
	slli	a4, a4, 4
	add	a1, a1, a4
	add	s3, t1, a1
	li	t1, 1
	j	.LBB32_14
.LBB32_11:
	sd	zero, -168(s0)
	sd	zero, -160(s0)
	sw	zero, -152(s0)
	beqz	t2, .LBB32_35
	li	t2, 1
	mv	a1, s8
.LBB32_13:
	lw	a3, 0(a1)
	lw	a4, 4(a1)
	lw	a1, 8(a1)
	sw	a3, 0(s8)
	sw	a4, 4(s8)
	sw	a1, 8(s8)
	addi	t1, t1, 1
	beq	a0, a7, .LBB32_9
.LBB32_14:
	slli	a1, a0, 2
	slli	a4, a0, 4
	add	a1, a1, a4
	add	s5, s3, a1
	addi	a0, a0, 1
	mv	a1, t0
	mv	s1, t1
.LBB32_15:
	lw	a4, 0(a1)
	bgeu	a4, a2, .LBB32_11
	addi	s1, s1, -1
	addi	a1, a1, 8
	bnez	s1, .LBB32_15
	li	a6, 0
	mv	a1, ra
	mv	s1, t1
.LBB32_18:
	lwu	a4, 0(a1)
	addi	s1, s1, -1
	add	a6, a6, a4
	addi	a1, a1, 8
	bnez	s1, .LBB32_18
	mv	a1, t0
	mv	s2, t1
	j	.LBB32_22
.LBB32_20:
	mv	s1, a4
.LBB32_21:
	addi	s2, s2, -1
	addi	a1, a1, 8
	beqz	s2, .LBB32_25
.LBB32_22:
	lw	a4, -4(a1)
	beqz	a4, .LBB32_21
	lw	a4, 0(a1)
	bltu	s1, a4, .LBB32_20
	mv	a4, s1
	j	.LBB32_20
.LBB32_25:
	slli	a1, s1, 32
	seqz	a4, s1
	srli	a1, a1, 32
	add	a1, a1, a4
	addi	a1, a1, 31
	srli	a1, a1, 3
	ori	a4, a1, 16
	addi	a1, a1, -1
	srli	s1, a4, 1
	or	a4, a4, s1
	slli	s1, a4, 33
	srli	s1, s1, 35
	or	a4, a4, s1
	srliw	s1, a4, 4
	or	a4, a4, s1
	srliw	s1, a4, 8
	or	a4, a4, s1
	srliw	s1, a4, 16
	or	a4, a4, s1
	not	a4, a4
	srli	s1, a4, 1
	and	s1, s1, s7
	sub	a4, a4, s1
	and	s1, a4, s6
	srli	a4, a4, 2
	and	a4, a4, s6
	add	a4, a4, s1
	srli	s1, a4, 4
	add	a4, a4, s1
	and	a4, a4, s10
	mul	a4, a4, s11
	srliw	a4, a4, 24
	sub	a4, t3, a4
	srlw	a1, a1, a4
	addi	a1, a1, 1
	slli	a4, a4, 4
	add	a4, a4, a1
	srliw	s1, a4, 4
	beqz	s1, .LBB32_27
	li	a3, 8
	sllw	a4, a3, s1
	andi	a1, a1, 15
	addi	s1, s1, -1
	sllw	a1, a1, s1
	add	a4, a4, a1
.LBB32_27:
	slli	a4, a4, 32
	srli	a4, a4, 32
	mul	s1, a6, a4
	bltu	t4, s1, .LBB32_11
	lbu	a1, 0(s5)
	li	a3, 1
	bne	a1, a3, .LBB32_11
	li	a1, 4
	bltu	a1, s1, .LBB32_31
	li	s1, 4
.LBB32_31:
	lw	a1, 16(s5)
	lwu	a4, 12(s5)
	lw	a5, 8(s5)
	lwu	a3, 4(s5)
	slli	a1, a1, 32
	or	a1, a1, a4
	slli	a5, a5, 32
	or	a5, a5, a3
	sd	a5, -128(s0)
	lbu	a4, -124(s0)
	add	a3, a3, s1
	sd	a1, -120(s0)
	addi	a1, s0, -123
	add	a1, a1, a4
	addi	a4, a4, 1
	sb	a0, 0(a1)
	sb	a4, -124(s0)
	lw	a1, -124(s0)
	lw	a4, -120(s0)
	lw	a5, -116(s0)
	sw	a3, 0(s4)
	sw	a1, 4(s4)
	sw	a4, 8(s4)
	sw	a5, 12(s4)
	lw	a4, -164(s0)
	mv	a1, t5
	beqz	t2, .LBB32_34
	bltu	a4, t6, .LBB32_34
	mv	a1, s8
	mv	a4, t6
.LBB32_34:
	mv	t6, a4
	li	t2, 1
	j	.LBB32_13
.LBB32_35:
	li	t6, 0
	mv	a1, t5
	j	.LBB32_13
.LBB32_36:
	lbu	a4, -1484(s0)
	li	a0, 1
	bne	a4, a0, .LBB32_38
	lbu	a7, -1469(s0)
	lbu	a6, -1468(s0)
	lbu	a5, -1473(s0)
	lbu	t2, -1472(s0)
	lbu	t1, -1471(s0)
	lbu	t0, -1470(s0)
	lw	a0, -1480(s0)
	lbu	a3, -1476(s0)
	lbu	a2, -1475(s0)
	lbu	a1, -1474(s0)
	li	a4, 1
	j	.LBB32_39
.LBB32_38:
	li	a3, 0
	li	a2, 0
	li	a1, 0
	li	a5, 0
	li	t2, 0
	li	t1, 0
	li	t0, 0
	li	a7, 0
	li	a6, 0
	li	a0, 0
.LBB32_39:
	ld	s2, -1536(s0)
	j	.LBB32_42
.LBB32_40:
	li	a2, 88
	mv	a0, s2
	li	a1, 0
	.cfi_def_cfa sp, 1536
	ld	ra, 1528(sp)
	ld	s0, 1520(sp)
	ld	s1, 1512(sp)
	ld	s2, 1504(sp)
	ld	s3, 1496(sp)
	ld	s4, 1488(sp)
	ld	s5, 1480(sp)
	ld	s6, 1472(sp)
	ld	s7, 1464(sp)
	ld	s8, 1456(sp)
	ld	s9, 1448(sp)
	ld	s10, 1440(sp)
	ld	s11, 1432(sp)
	.cfi_restore ra
	.cfi_restore s0
	.cfi_restore s1
	.cfi_restore s2
	.cfi_restore s3
	.cfi_restore s4
	.cfi_restore s5
	.cfi_restore s6
	.cfi_restore s7
	.cfi_restore s8
	.cfi_restore s9
	.cfi_restore s10
	.cfi_restore s11
	addi	sp, sp, 1536
	.cfi_def_cfa_offset 0
	tail	tlsf_memory_set
.LBB32_41:
	.cfi_restore_state
	li	a3, 0
	li	a2, 0
	li	a1, 0
	li	a5, 0
	li	t2, 0
	li	t1, 0
	li	t0, 0
	li	a7, 0
	li	a6, 0
	li	a0, 0
	li	a4, 1
.LBB32_42:
	sb	zero, 4(s2)
	sb	zero, 5(s2)
	sb	zero, 6(s2)
	sb	zero, 7(s2)
	sb	a4, 0(s2)
	sb	zero, 1(s2)
	sb	zero, 2(s2)
	sb	zero, 3(s2)
	sb	zero, 12(s2)
	sb	zero, 13(s2)
	sb	zero, 14(s2)
	sb	zero, 15(s2)
	sb	a3, 8(s2)
	sb	zero, 9(s2)
	sb	zero, 10(s2)
	sb	zero, 11(s2)
	sb	zero, 20(s2)
	sb	zero, 21(s2)
	sb	zero, 22(s2)
	sb	zero, 23(s2)
	sb	a2, 16(s2)
	sb	zero, 17(s2)
	sb	zero, 18(s2)
	sb	zero, 19(s2)
	sb	zero, 28(s2)
	sb	zero, 29(s2)
	sb	zero, 30(s2)
	sb	zero, 31(s2)
	sb	a1, 24(s2)
	sb	zero, 25(s2)
	sb	zero, 26(s2)
	sb	zero, 27(s2)
	sb	zero, 36(s2)
	sb	zero, 37(s2)
	sb	zero, 38(s2)
	sb	zero, 39(s2)
	sb	a5, 32(s2)
	sb	zero, 33(s2)
	sb	zero, 34(s2)
	sb	zero, 35(s2)
	sb	zero, 44(s2)
	sb	zero, 45(s2)
	sb	zero, 46(s2)
	sb	zero, 47(s2)
	sb	t2, 40(s2)
	sb	zero, 41(s2)
	sb	zero, 42(s2)
	sb	zero, 43(s2)
	sb	zero, 52(s2)
	sb	zero, 53(s2)
	sb	zero, 54(s2)
	sb	zero, 55(s2)
	sb	t1, 48(s2)
	sb	zero, 49(s2)
	sb	zero, 50(s2)
	sb	zero, 51(s2)
	sb	zero, 60(s2)
	sb	zero, 61(s2)
	sb	zero, 62(s2)
	sb	zero, 63(s2)
	sb	t0, 56(s2)
	sb	zero, 57(s2)
	sb	zero, 58(s2)
	sb	zero, 59(s2)
	sb	zero, 68(s2)
	sb	zero, 69(s2)
	sb	zero, 70(s2)
	sb	zero, 71(s2)
	sb	a7, 64(s2)
	sb	zero, 65(s2)
	sb	zero, 66(s2)
	sb	zero, 67(s2)
	sb	zero, 76(s2)
	sb	zero, 77(s2)
	sb	zero, 78(s2)
	sb	zero, 79(s2)
	sb	a6, 72(s2)
	sb	zero, 73(s2)
	sb	zero, 74(s2)
	sb	zero, 75(s2)
	sb	zero, 84(s2)
	sb	zero, 85(s2)
	sb	zero, 86(s2)
	sb	zero, 87(s2)
	srli	a1, a0, 24
	srli	a2, a0, 16
	srli	a3, a0, 8
	sb	a0, 80(s2)
	sb	a3, 81(s2)
	sb	a2, 82(s2)
	sb	a1, 83(s2)
	.cfi_def_cfa sp, 1536
	ld	ra, 1528(sp)
	ld	s0, 1520(sp)
	ld	s1, 1512(sp)
	ld	s2, 1504(sp)
	ld	s3, 1496(sp)
	ld	s4, 1488(sp)
	ld	s5, 1480(sp)
	ld	s6, 1472(sp)
	ld	s7, 1464(sp)
	ld	s8, 1456(sp)
	ld	s9, 1448(sp)
	ld	s10, 1440(sp)
	ld	s11, 1432(sp)
	.cfi_restore ra
	.cfi_restore s0
	.cfi_restore s1
	.cfi_restore s2
	.cfi_restore s3
	.cfi_restore s4
	.cfi_restore s5
	.cfi_restore s6
	.cfi_restore s7
	.cfi_restore s8
	.cfi_restore s9
	.cfi_restore s10
	.cfi_restore s11
	addi	sp, sp, 1536
	.cfi_def_cfa_offset 0
	ret
.Lfunc_end32:
	.size	tlsf_pool.sizes.split.rising_split.4, .Lfunc_end32-tlsf_pool.sizes.split.rising_split.4
	.cfi_endproc
	.section	.rodata.cst8,"aM",@progbits,8
	.p2align	3, 0x0
.LCPI33_0:
	.quad	3303500013200134
	.section	.text.unlikely.,"ax",@progbits
	.p2align	1
	.type	std_alloc.vec.Vec.grow_amortized.8f83c87fc5454f35,@function
std_alloc.vec.Vec.grow_amortized.8f83c87fc5454f35:
	.cfi_startproc
	ld	a1, 8(a0)
	addi	a4, a1, 1
	bnez	a4, .LBB33_2
	li	a0, 0
	ret
.LBB33_2:
	addi	sp, sp, -48
	.cfi_def_cfa_offset 48
	sd	ra, 40(sp)
	sd	s0, 32(sp)
	sd	s1, 24(sp)
	sd	s2, 16(sp)
	sd	s3, 8(sp)
	.cfi_offset ra, -8
	.cfi_offset s0, -16
	.cfi_offset s1, -24
	.cfi_offset s2, -32
	.cfi_offset s3, -40
	addi	s0, sp, 48
	.cfi_def_cfa s0, 0
	ld	a2, 16(a0)
	slli	a3, a2, 1
	srli	a5, a2, 62
	mv	s1, a4
	bltu	a3, a4, .LBB33_4
	mv	s1, a3
.LBB33_4:
	mv	s3, s1
	beqz	a5, .LBB33_6
	mv	s3, a4
.LBB33_6:
.Lpcrel_hi0:
	auipc	a3, %pcrel_hi(.LCPI33_0)
	ld	a3, %pcrel_lo(.Lpcrel_hi0)(a3)
	bltu	a3, s3, .LBB33_9
	lui	a4, 1
	addi	a4, a4, -1304
	beqz	a2, .LBB33_10
	mv	s2, a0
	ld	a0, 0(a0)
	mul	a1, a1, a4
	mul	a2, s3, a4
	li	a3, 8
	call	tlsf_memory_realloc
	andi	a0, a0, 1
	bnez	a0, .LBB33_11
	j	.LBB33_12
.LBB33_9:
	li	a0, 0
	j	.LBB33_12
.LBB33_10:
	mv	s2, a0
	mul	a0, s1, a4
	li	a1, 8
	call	tlsf_memory_alloc
	andi	a0, a0, 1
	beqz	a0, .LBB33_12
.LBB33_11:
	sd	a1, 0(s2)
	sd	s3, 16(s2)
	li	a0, 1
.LBB33_12:
	.cfi_def_cfa sp, 48
	ld	ra, 40(sp)
	ld	s0, 32(sp)
	ld	s1, 24(sp)
	ld	s2, 16(sp)
	ld	s3, 8(sp)
	.cfi_restore ra
	.cfi_restore s0
	.cfi_restore s1
	.cfi_restore s2
	.cfi_restore s3
	addi	sp, sp, 48
	.cfi_def_cfa_offset 0
	ret
.Lfunc_end33:
	.size	std_alloc.vec.Vec.grow_amortized.8f83c87fc5454f35, .Lfunc_end33-std_alloc.vec.Vec.grow_amortized.8f83c87fc5454f35
	.cfi_endproc
	.text
	.p2align	1
	.type	tlsf_pool.sizes.split.rising_split.5,@function
tlsf_pool.sizes.split.rising_split.5:
	.cfi_startproc
	addi	sp, sp, -1536
	.cfi_def_cfa_offset 1536
	sd	ra, 1528(sp)
	sd	s0, 1520(sp)
	sd	s1, 1512(sp)
	sd	s2, 1504(sp)
	sd	s3, 1496(sp)
	sd	s4, 1488(sp)
	sd	s5, 1480(sp)
	sd	s6, 1472(sp)
	sd	s7, 1464(sp)
	sd	s8, 1456(sp)
	sd	s9, 1448(sp)
	sd	s10, 1440(sp)
	sd	s11, 1432(sp)
	.cfi_offset ra, -8
	.cfi_offset s0, -16
	.cfi_offset s1, -24
	.cfi_offset s2, -32
	.cfi_offset s3, -40
	.cfi_offset s4, -48
	.cfi_offset s5, -56
	.cfi_offset s6, -64
	.cfi_offset s7, -72
	.cfi_offset s8, -80
	.cfi_offset s9, -88
	.cfi_offset s10, -96
	.cfi_offset s11, -104
	addi	s0, sp, 1536
	.cfi_def_cfa s0, 0
	.cfi_remember_state
	mv	s5, a2
	mv	s6, a1
	li	a1, 2
	mv	s2, a0
	bltu	a2, a1, .LBB34_5
	addi	a0, s5, -1
	addi	a1, s6, 12
.LBB34_2:
	lw	a2, -8(a1)
	lw	a3, 0(a1)
	bgeu	a2, a3, .LBB34_40
	addi	a0, a0, -1
	addi	a1, a1, 8
	bnez	a0, .LBB34_2
	addi	a0, s0, -1484
	li	a2, 1300
	li	a1, 0
	call	tlsf_memory_set
	j	.LBB34_6
.LBB34_5:
	addi	a0, s0, -1484
	li	a2, 1300
	li	a1, 0
	call	tlsf_memory_set
	beqz	s5, .LBB34_41
.LBB34_6:
	sd	s2, -1536(s0)
	slli	s4, s5, 2
	slli	a0, s5, 4
	add	s4, s4, a0
	addi	a0, s0, -1484
	li	a1, 0
	mv	a2, s4
	call	tlsf_memory_set
	addi	t1, s0, -1484
	li	a5, 0
	add	s4, s4, t1
	li	a6, 1
	addi	s1, s0, -144
	addi	s7, s0, -164
	addi	s9, s0, -140
	addi	t6, s0, -160
	addi	a0, s6, 4
	sd	a0, -1528(s0)
	lui	a2, 32768
	lui	a0, 349525
	lui	a1, 209715
	lui	a3, 61681
	lui	a4, 4112
	li	t4, 26
	lui	t5, 4096
	sw	a6, 0(s4)
	sw	zero, 4(s4)
	sw	zero, 8(s4)
	sw	zero, 12(s4)
	sw	zero, 16(s4)
	addi	a2, a2, -23
	addi	s8, a0, 1365
	addi	t2, a1, 819
	addi	s11, a3, -241
	addi	ra, a4, 257
	sd	s5, -1504(s0)
	sd	s6, -1520(s0)
	j	.LBB34_8
.LBB34_7:
	ld	a5, -1512(s0)
	addi	a5, a5, 1
	ld	s6, -1520(s0)
	li	a0, 8
	beq	a5, a0, .LBB34_36
.LBB34_8:
	sd	a5, -1512(s0)
	li	s10, 0
	ld	t0, -1528(s0)
	j	.LBB34_10
.LBB34_9:
	sw	a7, -144(s0)
	slli	a0, s10, 2
	slli	s10, s10, 4
	addi	s1, s0, -144
	lwu	a1, 0(s1)
	lw	a3, 4(s1)
	lwu	a4, 8(s1)
	lw	a5, 12(s1)
	add	a0, a0, s10
	addi	t0, t0, 8
	addi	t1, s0, -1484
	add	a0, a0, t1
	slli	a5, a5, 32
	slli	a3, a3, 32
	or	a5, a5, a4
	or	a3, a3, a1
	sd	a3, -184(s0)
	sd	a5, -176(s0)
	lw	a3, -180(s0)
	lw	a5, -172(s0)
	sw	t3, 0(a0)
	sw	a1, 4(a0)
	sw	a3, 8(a0)
	sw	a4, 12(a0)
	sw	a5, 16(a0)
	addi	s6, s6, 8
	ld	a0, -1496(s0)
	mv	s10, a0
	ld	s5, -1504(s0)
	beq	a0, s5, .LBB34_7
.LBB34_10:
	li	t3, 0
	li	a7, 0
	li	a0, 0
	addi	a4, s10, 1
	sub	s4, s5, s10
	sw	zero, 0(s1)
	sw	zero, 4(s1)
	sw	zero, 8(s1)
	sw	zero, 12(s1)
	slli	a1, a4, 2
	sd	a4, -1496(s0)
	slli	a4, a4, 4
	add	a1, a1, a4
	add	s3, t1, a1
	li	t1, 1
	j	.LBB34_14
.LBB34_11:
	sd	zero, -168(s0)
	sd	zero, -160(s0)
	sw	zero, -152(s0)
	beqz	t3, .LBB34_35
	li	t3, 1
	mv	a1, s9
.LBB34_13:
	lw	a3, 0(a1)
	lw	a4, 4(a1)
	lw	a1, 8(a1)
	sw	a3, 0(s9)
	sw	a4, 4(s9)
	sw	a1, 8(s9)
	addi	t1, t1, 1
	beq	a0, s4, .LBB34_9
.LBB34_14:
	slli	a1, a0, 2
	slli	a4, a0, 4
	add	a1, a1, a4
	add	s5, s3, a1
	addi	a0, a0, 1
	mv	a1, t0
	mv	a4, t1
.LBB34_15:
	lw	s1, 0(a1)
	bgeu	s1, a2, .LBB34_11
	addi	a4, a4, -1
	addi	a1, a1, 8
	bnez	a4, .LBB34_15
	li	a6, 0
	mv	a1, s6
	mv	a4, t1
.LBB34_18:
	lwu	s1, 0(a1)
	addi	a4, a4, -1
	add	a6, a6, s1
	addi	a1, a1, 8
	bnez	a4, .LBB34_18
	mv	a1, t0
	mv	s2, t1
	j	.LBB34_22
.LBB34_20:
	mv	a4, s1
.LBB34_21:
	addi	s2, s2, -1
	addi	a1, a1, 8
	beqz	s2, .LBB34_25
.LBB34_22:
	lw	s1, -4(a1)
	beqz	s1, .LBB34_21
	lw	s1, 0(a1)
	bltu	a4, s1, .LBB34_20
	mv	s1, a4
	j	.LBB34_20
.LBB34_25:
	slli	a1, a4, 32
	seqz	a4, a4
	srli	a1, a1, 32
	add	a1, a1, a4
	addi	a1, a1, 31
	srli	a1, a1, 3
	ori	a4, a1, 32
	addi	a1, a1, -1
	srli	s1, a4, 1
	or	a4, a4, s1
	slli	s1, a4, 33
	srli	s1, s1, 35
	or	a4, a4, s1
	srliw	s1, a4, 4
	or	a4, a4, s1
	srliw	s1, a4, 8
	or	a4, a4, s1
	srliw	s1, a4, 16
	or	a4, a4, s1
	not	a4, a4
	srli	s1, a4, 1
	and	s1, s1, s8
	sub	a4, a4, s1
	and	s1, a4, t2
	srli	a4, a4, 2
	and	a4, a4, t2
	add	a4, a4, s1
	srli	s1, a4, 4
	add	a4, a4, s1
	and	a4, a4, s11
	mul	a4, a4, ra
	srliw	a4, a4, 24
	sub	a4, t4, a4
	srlw	a1, a1, a4
	addi	a1, a1, 1
	slli	a4, a4, 5
	add	a4, a4, a1
	srliw	s1, a4, 5
	beqz	s1, .LBB34_27
	li	a3, 16
	sllw	a4, a3, s1
	andi	a1, a1, 31
	addi	s1, s1, -1
	sllw	a1, a1, s1
	add	a4, a4, a1
.LBB34_27:
	slli	a4, a4, 32
	srli	a4, a4, 32
	mul	a4, a6, a4
	bltu	t5, a4, .LBB34_11
	lbu	a1, 0(s5)
	li	a3, 1
	bne	a1, a3, .LBB34_11
	li	a1, 4
	bltu	a1, a4, .LBB34_31
	li	a4, 4
.LBB34_31:
	lw	a1, 16(s5)
	lwu	s1, 12(s5)
	lw	a5, 8(s5)
	lwu	a3, 4(s5)
	slli	a1, a1, 32
	or	a1, a1, s1
	slli	a5, a5, 32
	or	a5, a5, a3
	sd	a5, -128(s0)
	lbu	a5, -124(s0)
	add	a3, a3, a4
	sd	a1, -120(s0)
	addi	a1, s0, -123
	add	a1, a1, a5
	addi	a5, a5, 1
	sb	a0, 0(a1)
	sb	a5, -124(s0)
	lw	a1, -124(s0)
	lw	a4, -120(s0)
	lw	a5, -116(s0)
	sw	a3, 0(s7)
	sw	a1, 4(s7)
	sw	a4, 8(s7)
	sw	a5, 12(s7)
	lw	a4, -164(s0)
	mv	a1, t6
	beqz	t3, .LBB34_34
	bltu	a4, a7, .LBB34_34
	mv	a1, s9
	mv	a4, a7
.LBB34_34:
	mv	a7, a4
	li	t3, 1
	j	.LBB34_13
.LBB34_35:
	li	a7, 0
	mv	a1, t6
	j	.LBB34_13
.LBB34_36:
	lbu	a4, -1484(s0)
	li	a0, 1
	bne	a4, a0, .LBB34_38
	lbu	a7, -1469(s0)
	lbu	a6, -1468(s0)
	lbu	a5, -1473(s0)
	lbu	t2, -1472(s0)
	lbu	t1, -1471(s0)
	lbu	t0, -1470(s0)
	lw	a0, -1480(s0)
	lbu	a3, -1476(s0)
	lbu	a2, -1475(s0)
	lbu	a1, -1474(s0)
	li	a4, 1
	j	.LBB34_39
.LBB34_38:
	li	a3, 0
	li	a2, 0
	li	a1, 0
	li	a5, 0
	li	t2, 0
	li	t1, 0
	li	t0, 0
	li	a7, 0
	li	a6, 0
	li	a0, 0
.LBB34_39:
	ld	s2, -1536(s0)
	j	.LBB34_42
.LBB34_40:
	li	a2, 88
	mv	a0, s2
	li	a1, 0
	.cfi_def_cfa sp, 1536
	ld	ra, 1528(sp)
	ld	s0, 1520(sp)
	ld	s1, 1512(sp)
	ld	s2, 1504(sp)
	ld	s3, 1496(sp)
	ld	s4, 1488(sp)
	ld	s5, 1480(sp)
	ld	s6, 1472(sp)
	ld	s7, 1464(sp)
	ld	s8, 1456(sp)
	ld	s9, 1448(sp)
	ld	s10, 1440(sp)
	ld	s11, 1432(sp)
	.cfi_restore ra
	.cfi_restore s0
	.cfi_restore s1
	.cfi_restore s2
	.cfi_restore s3
	.cfi_restore s4
	.cfi_restore s5
	.cfi_restore s6
	.cfi_restore s7
	.cfi_restore s8
	.cfi_restore s9
	.cfi_restore s10
	.cfi_restore s11
	addi	sp, sp, 1536
	.cfi_def_cfa_offset 0
	tail	tlsf_memory_set
.LBB34_41:
	.cfi_restore_state
	li	a3, 0
	li	a2, 0
	li	a1, 0
	li	a5, 0
	li	t2, 0
	li	t1, 0
	li	t0, 0
	li	a7, 0
	li	a6, 0
	li	a0, 0
	li	a4, 1
.LBB34_42:
	sb	zero, 4(s2)
	sb	zero, 5(s2)
	sb	zero, 6(s2)
	sb	zero, 7(s2)
	sb	a4, 0(s2)
	sb	zero, 1(s2)
	sb	zero, 2(s2)
	sb	zero, 3(s2)
	sb	zero, 12(s2)
	sb	zero, 13(s2)
	sb	zero, 14(s2)
	sb	zero, 15(s2)
	sb	a3, 8(s2)
	sb	zero, 9(s2)
	sb	zero, 10(s2)
	sb	zero, 11(s2)
	sb	zero, 20(s2)
	sb	zero, 21(s2)
	sb	zero, 22(s2)
	sb	zero, 23(s2)
	sb	a2, 16(s2)
	sb	zero, 17(s2)
	sb	zero, 18(s2)
	sb	zero, 19(s2)
	sb	zero, 28(s2)
	sb	zero, 29(s2)
	sb	zero, 30(s2)
	sb	zero, 31(s2)
	sb	a1, 24(s2)
	sb	zero, 25(s2)
	sb	zero, 26(s2)
	sb	zero, 27(s2)
	sb	zero, 36(s2)
	sb	zero, 37(s2)
	sb	zero, 38(s2)
	sb	zero, 39(s2)
	sb	a5, 32(s2)
	sb	zero, 33(s2)
	sb	zero, 34(s2)
	sb	zero, 35(s2)
	sb	zero, 44(s2)
	sb	zero, 45(s2)
	sb	zero, 46(s2)
	sb	zero, 47(s2)
	sb	t2, 40(s2)
	sb	zero, 41(s2)
	sb	zero, 42(s2)
	sb	zero, 43(s2)
	sb	zero, 52(s2)
	sb	zero, 53(s2)
	sb	zero, 54(s2)
	sb	zero, 55(s2)
	sb	t1, 48(s2)
	sb	zero, 49(s2)
	sb	zero, 50(s2)
	sb	zero, 51(s2)
	sb	zero, 60(s2)
	sb	zero, 61(s2)
	sb	zero, 62(s2)
	sb	zero, 63(s2)
	sb	t0, 56(s2)
	sb	zero, 57(s2)
	sb	zero, 58(s2)
	sb	zero, 59(s2)
	sb	zero, 68(s2)
	sb	zero, 69(s2)
	sb	zero, 70(s2)
	sb	zero, 71(s2)
	sb	a7, 64(s2)
	sb	zero, 65(s2)
	sb	zero, 66(s2)
	sb	zero, 67(s2)
	sb	zero, 76(s2)
	sb	zero, 77(s2)
	sb	zero, 78(s2)
	sb	zero, 79(s2)
	sb	a6, 72(s2)
	sb	zero, 73(s2)
	sb	zero, 74(s2)
	sb	zero, 75(s2)
	sb	zero, 84(s2)
	sb	zero, 85(s2)
	sb	zero, 86(s2)
	sb	zero, 87(s2)
	srli	a1, a0, 24
	srli	a2, a0, 16
	srli	a3, a0, 8
	sb	a0, 80(s2)
	sb	a3, 81(s2)
	sb	a2, 82(s2)
	sb	a1, 83(s2)
	.cfi_def_cfa sp, 1536
	ld	ra, 1528(sp)
	ld	s0, 1520(sp)
	ld	s1, 1512(sp)
	ld	s2, 1504(sp)
	ld	s3, 1496(sp)
	ld	s4, 1488(sp)
	ld	s5, 1480(sp)
	ld	s6, 1472(sp)
	ld	s7, 1464(sp)
	ld	s8, 1456(sp)
	ld	s9, 1448(sp)
	ld	s10, 1440(sp)
	ld	s11, 1432(sp)
	.cfi_restore ra
	.cfi_restore s0
	.cfi_restore s1
	.cfi_restore s2
	.cfi_restore s3
	.cfi_restore s4
	.cfi_restore s5
	.cfi_restore s6
	.cfi_restore s7
	.cfi_restore s8
	.cfi_restore s9
	.cfi_restore s10
	.cfi_restore s11
	addi	sp, sp, 1536
	.cfi_def_cfa_offset 0
	ret
.Lfunc_end34:
	.size	tlsf_pool.sizes.split.rising_split.5, .Lfunc_end34-tlsf_pool.sizes.split.rising_split.5
	.cfi_endproc
	.section	.rodata.cst8,"aM",@progbits,8
	.p2align	3, 0x0
.LCPI35_0:
	.quad	3303500013200134
	.section	.text.unlikely.,"ax",@progbits
	.p2align	1
	.type	std_alloc.vec.Vec.grow_amortized.cb831ce0f1fbfa3d,@function
std_alloc.vec.Vec.grow_amortized.cb831ce0f1fbfa3d:
	.cfi_startproc
	ld	a1, 8(a0)
	addi	a4, a1, 1
	bnez	a4, .LBB35_2
	li	a0, 0
	ret
.LBB35_2:
	addi	sp, sp, -48
	.cfi_def_cfa_offset 48
	sd	ra, 40(sp)
	sd	s0, 32(sp)
	sd	s1, 24(sp)
	sd	s2, 16(sp)
	sd	s3, 8(sp)
	.cfi_offset ra, -8
	.cfi_offset s0, -16
	.cfi_offset s1, -24
	.cfi_offset s2, -32
	.cfi_offset s3, -40
	addi	s0, sp, 48
	.cfi_def_cfa s0, 0
	ld	a2, 16(a0)
	slli	a3, a2, 1
	srli	a5, a2, 62
	mv	s1, a4
	bltu	a3, a4, .LBB35_4
	mv	s1, a3
.LBB35_4:
	mv	s3, s1
	beqz	a5, .LBB35_6
	mv	s3, a4
.LBB35_6:
.Lpcrel_hi1:
	auipc	a3, %pcrel_hi(.LCPI35_0)
	ld	a3, %pcrel_lo(.Lpcrel_hi1)(a3)
	bltu	a3, s3, .LBB35_9
	lui	a4, 1
	addi	a4, a4, -1304
	beqz	a2, .LBB35_10
	mv	s2, a0
	ld	a0, 0(a0)
	mul	a1, a1, a4
	mul	a2, s3, a4
	li	a3, 8
	call	tlsf_memory_realloc
	andi	a0, a0, 1
	bnez	a0, .LBB35_11
	j	.LBB35_12
.LBB35_9:
	li	a0, 0
	j	.LBB35_12
.LBB35_10:
	mv	s2, a0
	mul	a0, s1, a4
	li	a1, 8
	call	tlsf_memory_alloc
	andi	a0, a0, 1
	beqz	a0, .LBB35_12
.LBB35_11:
	sd	a1, 0(s2)
	sd	s3, 16(s2)
	li	a0, 1
.LBB35_12:
	.cfi_def_cfa sp, 48
	ld	ra, 40(sp)
	ld	s0, 32(sp)
	ld	s1, 24(sp)
	ld	s2, 16(sp)
	ld	s3, 8(sp)
	.cfi_restore ra
	.cfi_restore s0
	.cfi_restore s1
	.cfi_restore s2
	.cfi_restore s3
	addi	sp, sp, 48
	.cfi_def_cfa_offset 0
	ret
.Lfunc_end35:
	.size	std_alloc.vec.Vec.grow_amortized.cb831ce0f1fbfa3d, .Lfunc_end35-std_alloc.vec.Vec.grow_amortized.cb831ce0f1fbfa3d
	.cfi_endproc
	.text
	.p2align	1
	.type	tlsf_heap.region.Region.read.4,@function
tlsf_heap.region.Region.read.4:
	.cfi_startproc
	slli	a1, a1, 32
	slli	a5, a2, 32
	or	a2, a2, a4
	srli	a1, a1, 29
	srli	a5, a5, 32
	add	a1, a1, a5
	andi	a2, a2, 7
	addi	a1, a1, 24
	beqz	a2, .LBB36_3
	li	a2, 7
	bltu	a2, a4, .LBB36_8
	mv	a2, a3
	mv	a3, a4
	tail	tlsf_words.words.Words.read_few
.LBB36_3:
	ld	a0, 0(a0)
	li	a2, 63
	add	a0, a0, a1
	bltu	a2, a4, .LBB36_9
	andi	a1, a4, 8
	bnez	a1, .LBB36_10
	andi	a1, a4, 16
	bnez	a1, .LBB36_11
.LBB36_6:
	li	a1, 25
	bgeu	a4, a1, .LBB36_12
.LBB36_7:
	ret
.LBB36_8:
	mv	a2, a3
	mv	a3, a4
	tail	tlsf_words.words.Words.read_run
.LBB36_9:
	srli	a1, a4, 3
	mv	a2, a3
	tail	tlsf_words.cells.unpack_many
.LBB36_10:
	add	a1, a0, a4
	ld	a1, -8(a1)
	add	a2, a3, a4
	srli	a6, a1, 56
	srli	a7, a1, 48
	srli	t0, a1, 40
	srli	a5, a1, 32
	srli	t1, a1, 24
	srli	t2, a1, 16
	sb	a5, -4(a2)
	sb	t0, -3(a2)
	sb	a7, -2(a2)
	sb	a6, -1(a2)
	srli	a5, a1, 8
	sb	a1, -8(a2)
	sb	a5, -7(a2)
	sb	t2, -6(a2)
	sb	t1, -5(a2)
	andi	a1, a4, 16
	beqz	a1, .LBB36_6
.LBB36_11:
	andi	a1, a4, 32
	add	a2, a0, a1
	ld	a2, 0(a2)
	add	a5, a3, a1
	addiw	a1, a1, 8
	add	a6, a0, a1
	srli	a7, a2, 56
	srli	t0, a2, 48
	srli	t1, a2, 40
	srli	t2, a2, 32
	srli	t3, a2, 24
	srli	t4, a2, 16
	srli	t5, a2, 8
	sb	t2, 4(a5)
	sb	t1, 5(a5)
	sb	t0, 6(a5)
	sb	a7, 7(a5)
	sb	a2, 0(a5)
	sb	t5, 1(a5)
	sb	t4, 2(a5)
	sb	t3, 3(a5)
	ld	a2, 0(a6)
	add	a1, a1, a3
	srli	a6, a2, 56
	srli	a7, a2, 48
	srli	t0, a2, 40
	srli	a5, a2, 32
	srli	t1, a2, 24
	srli	t2, a2, 16
	sb	a5, 4(a1)
	sb	t0, 5(a1)
	sb	a7, 6(a1)
	sb	a6, 7(a1)
	srli	a5, a2, 8
	sb	a2, 0(a1)
	sb	a5, 1(a1)
	sb	t2, 2(a1)
	sb	t1, 3(a1)
	li	a1, 25
	bltu	a4, a1, .LBB36_7
.LBB36_12:
	ld	a1, 0(a0)
	srli	a6, a1, 56
	srli	a7, a1, 48
	srli	t1, a1, 40
	srli	a2, a1, 32
	srli	t0, a1, 24
	srli	a4, a1, 16
	srli	a5, a1, 8
	sb	a2, 4(a3)
	sb	t1, 5(a3)
	sb	a7, 6(a3)
	sb	a6, 7(a3)
	sb	a1, 0(a3)
	sb	a5, 1(a3)
	sb	a4, 2(a3)
	sb	t0, 3(a3)
	ld	a1, 8(a0)
	srli	a6, a1, 56
	srli	a7, a1, 48
	srli	t1, a1, 40
	srli	a2, a1, 32
	srli	t0, a1, 24
	srli	a4, a1, 16
	srli	a5, a1, 8
	sb	a2, 12(a3)
	sb	t1, 13(a3)
	sb	a7, 14(a3)
	sb	a6, 15(a3)
	sb	a1, 8(a3)
	sb	a5, 9(a3)
	sb	a4, 10(a3)
	sb	t0, 11(a3)
	ld	a1, 16(a0)
	srli	a6, a1, 56
	srli	a7, a1, 48
	srli	t1, a1, 40
	srli	a2, a1, 32
	srli	t0, a1, 24
	srli	a4, a1, 16
	srli	a5, a1, 8
	sb	a2, 20(a3)
	sb	t1, 21(a3)
	sb	a7, 22(a3)
	sb	a6, 23(a3)
	sb	a1, 16(a3)
	sb	a5, 17(a3)
	sb	a4, 18(a3)
	sb	t0, 19(a3)
	ld	a0, 24(a0)
	srli	a6, a0, 56
	srli	a2, a0, 48
	srli	a4, a0, 40
	srli	a5, a0, 32
	srli	a7, a0, 24
	srli	a1, a0, 16
	sb	a5, 28(a3)
	sb	a4, 29(a3)
	sb	a2, 30(a3)
	sb	a6, 31(a3)
	srli	a2, a0, 8
	sb	a0, 24(a3)
	sb	a2, 25(a3)
	sb	a1, 26(a3)
	sb	a7, 27(a3)
	ret
.Lfunc_end36:
	.size	tlsf_heap.region.Region.read.4, .Lfunc_end36-tlsf_heap.region.Region.read.4
	.cfi_endproc
	.p2align	1
	.type	tlsf_words.cells.unpack_many,@function
tlsf_words.cells.unpack_many:
	.cfi_startproc
	andi	t6, a1, -4
	andi	a5, a1, 1
	slli	a6, t6, 3
	add	a4, a2, a6
	add	a6, a6, a0
	beqz	a5, .LBB37_2
	slli	a5, a1, 3
	andi	a7, a5, 24
	add	a5, a6, a7
	ld	a5, -8(a5)
	add	a7, a7, a4
	srli	t0, a5, 56
	srli	t1, a5, 48
	srli	t2, a5, 40
	srli	t3, a5, 32
	srli	t4, a5, 24
	srli	t5, a5, 16
	sb	t3, -4(a7)
	sb	t2, -3(a7)
	sb	t1, -2(a7)
	sb	t0, -1(a7)
	srli	t0, a5, 8
	sb	a5, -8(a7)
	sb	t0, -7(a7)
	sb	t5, -6(a7)
	sb	t4, -5(a7)
.LBB37_2:
	andi	a1, a1, 2
	beqz	a1, .LBB37_4
	ld	a1, 0(a6)
	srli	a7, a1, 56
	srli	t0, a1, 48
	srli	t1, a1, 40
	srli	t4, a1, 32
	srli	t2, a1, 24
	srli	t3, a1, 16
	srli	a5, a1, 8
	sb	t4, 4(a4)
	sb	t1, 5(a4)
	sb	t0, 6(a4)
	sb	a7, 7(a4)
	sb	a1, 0(a4)
	sb	a5, 1(a4)
	sb	t3, 2(a4)
	sb	t2, 3(a4)
	ld	a1, 8(a6)
	srli	a6, a1, 56
	srli	a7, a1, 48
	srli	t0, a1, 40
	srli	a5, a1, 32
	srli	t1, a1, 24
	srli	t2, a1, 16
	sb	a5, 12(a4)
	sb	t0, 13(a4)
	sb	a7, 14(a4)
	sb	a6, 15(a4)
	srli	a5, a1, 8
	sb	a1, 8(a4)
	sb	a5, 9(a4)
	sb	t2, 10(a4)
	sb	t1, 11(a4)
.LBB37_4:
	ld	a1, 0(a0)
	addi	t6, t6, -1
	addi	a0, a0, 8
	srli	a6, a1, 56
	srli	a5, a1, 48
	srli	a3, a1, 40
	srli	a4, a1, 32
	srli	a7, a1, 24
	srli	t0, a1, 16
	sb	a4, 4(a2)
	sb	a3, 5(a2)
	sb	a5, 6(a2)
	sb	a6, 7(a2)
	srli	a3, a1, 8
	sb	a1, 0(a2)
	sb	a3, 1(a2)
	sb	t0, 2(a2)
	sb	a7, 3(a2)
	addi	a2, a2, 8
	bnez	t6, .LBB37_4
	ret
.Lfunc_end37:
	.size	tlsf_words.cells.unpack_many, .Lfunc_end37-tlsf_words.cells.unpack_many
	.cfi_endproc
	.p2align	1
	.type	tlsf_words.words.Words.read_few,@function
tlsf_words.words.Words.read_few:
	.cfi_startproc
	addi	sp, sp, -80
	.cfi_def_cfa_offset 80
	sd	ra, 72(sp)
	sd	s0, 64(sp)
	sd	s1, 56(sp)
	sd	s2, 48(sp)
	sd	s3, 40(sp)
	sd	s4, 32(sp)
	sd	s5, 24(sp)
	sd	s6, 16(sp)
	.cfi_offset ra, -8
	.cfi_offset s0, -16
	.cfi_offset s1, -24
	.cfi_offset s2, -32
	.cfi_offset s3, -40
	.cfi_offset s4, -48
	.cfi_offset s5, -56
	.cfi_offset s6, -64
	addi	s0, sp, 80
	.cfi_def_cfa s0, 0
	mv	s5, a3
	mv	s2, a2
	mv	s3, a0
	andi	a0, a1, 7
	li	s1, 8
	sub	s1, s1, a0
	mv	s4, s1
	bltu	s1, a3, .LBB38_2
	mv	s4, s5
.LBB38_2:
	lui	a2, 524288
	srli	a2, a2, 28
	and	s6, a1, a2
	beqz	s5, .LBB38_4
	ld	a1, 0(s3)
	add	a1, a1, s6
	ld	a1, 0(a1)
	sd	a1, -72(s0)
	addi	a1, s0, -72
	or	a1, a1, a0
	mv	a0, s2
	mv	a2, s4
	call	tlsf_memory_cpy
.LBB38_4:
	bgeu	s1, s5, .LBB38_6
	ld	a0, 0(s3)
	add	a0, a0, s6
	ld	a1, 8(a0)
	sub	a2, s5, s4
	add	a0, s2, s4
	sd	a1, -72(s0)
	addi	a1, s0, -72
	call	tlsf_memory_cpy
.LBB38_6:
	.cfi_def_cfa sp, 80
	ld	ra, 72(sp)
	ld	s0, 64(sp)
	ld	s1, 56(sp)
	ld	s2, 48(sp)
	ld	s3, 40(sp)
	ld	s4, 32(sp)
	ld	s5, 24(sp)
	ld	s6, 16(sp)
	.cfi_restore ra
	.cfi_restore s0
	.cfi_restore s1
	.cfi_restore s2
	.cfi_restore s3
	.cfi_restore s4
	.cfi_restore s5
	.cfi_restore s6
	addi	sp, sp, 80
	.cfi_def_cfa_offset 0
	ret
.Lfunc_end38:
	.size	tlsf_words.words.Words.read_few, .Lfunc_end38-tlsf_words.words.Words.read_few
	.cfi_endproc
	.p2align	1
	.type	tlsf_words.words.Words.read_run,@function
tlsf_words.words.Words.read_run:
	.cfi_startproc
	addi	sp, sp, -16
	.cfi_def_cfa_offset 16
	sd	s0, 8(sp)
	.cfi_offset s0, -8
	.cfi_remember_state
	neg	a4, a1
	andi	a7, a4, 7
	sub	a6, a3, a7
	andi	t0, a6, -8
	andi	a5, a1, 7
	or	t1, t0, a7
	beqz	a5, .LBB39_2
	ld	t2, 0(a0)
	lui	a4, 524288
	srli	a4, a4, 28
	and	a4, a4, a1
	add	a4, a4, t2
	ld	a4, 0(a4)
	slli	a5, a5, 3
	srl	a4, a4, a5
	srli	t2, a4, 56
	srli	t3, a4, 48
	srli	t4, a4, 40
	srli	a5, a4, 32
	srli	t5, a4, 24
	srli	t6, a4, 16
	sb	a5, 4(a2)
	sb	t4, 5(a2)
	sb	t3, 6(a2)
	sb	t2, 7(a2)
	srli	a5, a4, 8
	sb	a4, 0(a2)
	sb	a5, 1(a2)
	sb	t6, 2(a2)
	sb	t5, 3(a2)
.LBB39_2:
	addi	t2, a1, 7
	beq	t1, a3, .LBB39_4
	sub	t1, t1, a3
	ld	t3, 0(a0)
	add	t0, t0, t2
	add	a3, a3, a2
	andi	t4, t0, -8
	lbu	t0, -8(a3)
	lbu	a5, -7(a3)
	lbu	a1, -6(a3)
	lbu	a4, -5(a3)
	add	t3, t3, t4
	slli	a5, a5, 8
	slli	a1, a1, 16
	slli	a4, a4, 24
	or	t0, a5, t0
	or	t4, a4, a1
	lbu	a4, -3(a3)
	lbu	a5, -4(a3)
	lbu	t5, -2(a3)
	lbu	a1, -1(a3)
	slli	a4, a4, 8
	or	t6, a4, a5
	li	a5, -1
	slli	t1, t1, 3
	sll	a5, a5, t1
	not	s0, a5
	ld	a4, 0(t3)
	slli	t5, t5, 16
	slli	a1, a1, 24
	or	a1, a1, t5
	or	a5, t4, t0
	or	a1, a1, t6
	slli	a1, a1, 32
	or	a1, a1, a5
	sll	a4, a4, t1
	and	a1, a1, s0
	add	a1, a1, a4
	srli	t0, a1, 48
	srli	t1, a1, 56
	srli	s0, a1, 32
	srli	a4, a1, 40
	srli	t3, a1, 16
	srli	t4, a1, 24
	srli	a5, a1, 8
	sb	s0, -4(a3)
	sb	a4, -3(a3)
	sb	t0, -2(a3)
	sb	t1, -1(a3)
	sb	a1, -8(a3)
	sb	a5, -7(a3)
	sb	t3, -6(a3)
	sb	t4, -5(a3)
.LBB39_4:
	add	a2, a2, a7
	ld	a0, 0(a0)
	lui	a1, 786432
	srli	a1, a1, 27
	and	a1, t2, a1
	li	a3, 63
	add	a0, a0, a1
	bltu	a3, a6, .LBB39_9
	andi	a1, a6, 8
	bnez	a1, .LBB39_10
	andi	a1, a6, 16
	bnez	a1, .LBB39_11
.LBB39_7:
	li	a1, 32
	bgeu	a6, a1, .LBB39_12
.LBB39_8:
	ld	s0, 8(sp)
	.cfi_restore s0
	addi	sp, sp, 16
	.cfi_def_cfa_offset 0
	ret
.LBB39_9:
	.cfi_restore_state
	.cfi_remember_state
	srli	a1, a6, 3
	ld	s0, 8(sp)
	.cfi_restore s0
	addi	sp, sp, 16
	.cfi_def_cfa_offset 0
	tail	tlsf_words.cells.unpack_many
.LBB39_10:
	.cfi_restore_state
	andi	a1, a6, 56
	add	a3, a0, a1
	ld	a3, -8(a3)
	add	a1, a1, a2
	srli	a7, a3, 56
	srli	t1, a3, 48
	srli	s0, a3, 40
	srli	a4, a3, 32
	srli	t0, a3, 24
	srli	a5, a3, 16
	sb	a4, -4(a1)
	sb	s0, -3(a1)
	sb	t1, -2(a1)
	sb	a7, -1(a1)
	srli	a4, a3, 8
	sb	a3, -8(a1)
	sb	a4, -7(a1)
	sb	a5, -6(a1)
	sb	t0, -5(a1)
	andi	a1, a6, 16
	beqz	a1, .LBB39_7
.LBB39_11:
	andi	a1, a6, 32
	add	a3, a0, a1
	ld	a3, 0(a3)
	add	a4, a2, a1
	addiw	a1, a1, 8
	add	a7, a0, a1
	srli	t0, a3, 56
	srli	t1, a3, 48
	srli	s0, a3, 40
	srli	a5, a3, 32
	srli	t2, a3, 24
	srli	t3, a3, 16
	srli	t4, a3, 8
	sb	a5, 4(a4)
	sb	s0, 5(a4)
	sb	t1, 6(a4)
	sb	t0, 7(a4)
	sb	a3, 0(a4)
	sb	t4, 1(a4)
	sb	t3, 2(a4)
	sb	t2, 3(a4)
	ld	a3, 0(a7)
	add	a1, a1, a2
	srli	a7, a3, 56
	srli	t1, a3, 48
	srli	s0, a3, 40
	srli	a4, a3, 32
	srli	t0, a3, 24
	srli	a5, a3, 16
	sb	a4, 4(a1)
	sb	s0, 5(a1)
	sb	t1, 6(a1)
	sb	a7, 7(a1)
	srli	a4, a3, 8
	sb	a3, 0(a1)
	sb	a4, 1(a1)
	sb	a5, 2(a1)
	sb	t0, 3(a1)
	li	a1, 32
	bltu	a6, a1, .LBB39_8
.LBB39_12:
	ld	a1, 0(a0)
	srli	a6, a1, 56
	srli	a7, a1, 48
	srli	a5, a1, 40
	srli	s0, a1, 32
	srli	t0, a1, 24
	srli	a4, a1, 16
	srli	a3, a1, 8
	sb	s0, 4(a2)
	sb	a5, 5(a2)
	sb	a7, 6(a2)
	sb	a6, 7(a2)
	sb	a1, 0(a2)
	sb	a3, 1(a2)
	sb	a4, 2(a2)
	sb	t0, 3(a2)
	ld	a1, 8(a0)
	srli	a6, a1, 56
	srli	a7, a1, 48
	srli	a5, a1, 40
	srli	s0, a1, 32
	srli	t0, a1, 24
	srli	a4, a1, 16
	srli	a3, a1, 8
	sb	s0, 12(a2)
	sb	a5, 13(a2)
	sb	a7, 14(a2)
	sb	a6, 15(a2)
	sb	a1, 8(a2)
	sb	a3, 9(a2)
	sb	a4, 10(a2)
	sb	t0, 11(a2)
	ld	a1, 16(a0)
	srli	a6, a1, 56
	srli	a7, a1, 48
	srli	a5, a1, 40
	srli	s0, a1, 32
	srli	t0, a1, 24
	srli	a4, a1, 16
	srli	a3, a1, 8
	sb	s0, 20(a2)
	sb	a5, 21(a2)
	sb	a7, 22(a2)
	sb	a6, 23(a2)
	sb	a1, 16(a2)
	sb	a3, 17(a2)
	sb	a4, 18(a2)
	sb	t0, 19(a2)
	ld	a0, 24(a0)
	srli	a6, a0, 56
	srli	a3, a0, 48
	srli	a4, a0, 40
	srli	a5, a0, 32
	srli	s0, a0, 24
	srli	a1, a0, 16
	sb	a5, 28(a2)
	sb	a4, 29(a2)
	sb	a3, 30(a2)
	sb	a6, 31(a2)
	srli	a3, a0, 8
	sb	a0, 24(a2)
	sb	a3, 25(a2)
	sb	a1, 26(a2)
	sb	s0, 27(a2)
	ld	s0, 8(sp)
	.cfi_restore s0
	addi	sp, sp, 16
	.cfi_def_cfa_offset 0
	ret
.Lfunc_end39:
	.size	tlsf_words.words.Words.read_run, .Lfunc_end39-tlsf_words.words.Words.read_run
	.cfi_endproc
	.p2align	1
	.type	tlsf_heap.region.Region.read.5,@function
tlsf_heap.region.Region.read.5:
	.cfi_startproc
	slli	a1, a1, 32
	slli	a5, a2, 32
	or	a2, a2, a4
	srli	a1, a1, 29
	srli	a5, a5, 32
	add	a1, a1, a5
	andi	a2, a2, 7
	addi	a1, a1, 24
	beqz	a2, .LBB40_3
	li	a2, 7
	bltu	a2, a4, .LBB40_8
	mv	a2, a3
	mv	a3, a4
	tail	tlsf_words.words.Words.read_few
.LBB40_3:
	ld	a0, 0(a0)
	li	a2, 63
	add	a0, a0, a1
	bltu	a2, a4, .LBB40_9
	andi	a1, a4, 8
	bnez	a1, .LBB40_10
	andi	a1, a4, 16
	bnez	a1, .LBB40_11
.LBB40_6:
	li	a1, 25
	bgeu	a4, a1, .LBB40_12
.LBB40_7:
	ret
.LBB40_8:
	mv	a2, a3
	mv	a3, a4
	tail	tlsf_words.words.Words.read_run
.LBB40_9:
	srli	a1, a4, 3
	mv	a2, a3
	tail	tlsf_words.cells.unpack_many
.LBB40_10:
	add	a1, a0, a4
	ld	a1, -8(a1)
	add	a2, a3, a4
	srli	a6, a1, 56
	srli	a7, a1, 48
	srli	t0, a1, 40
	srli	a5, a1, 32
	srli	t1, a1, 24
	srli	t2, a1, 16
	sb	a5, -4(a2)
	sb	t0, -3(a2)
	sb	a7, -2(a2)
	sb	a6, -1(a2)
	srli	a5, a1, 8
	sb	a1, -8(a2)
	sb	a5, -7(a2)
	sb	t2, -6(a2)
	sb	t1, -5(a2)
	andi	a1, a4, 16
	beqz	a1, .LBB40_6
.LBB40_11:
	andi	a1, a4, 32
	add	a2, a0, a1
	ld	a2, 0(a2)
	add	a5, a3, a1
	addiw	a1, a1, 8
	add	a6, a0, a1
	srli	a7, a2, 56
	srli	t0, a2, 48
	srli	t1, a2, 40
	srli	t2, a2, 32
	srli	t3, a2, 24
	srli	t4, a2, 16
	srli	t5, a2, 8
	sb	t2, 4(a5)
	sb	t1, 5(a5)
	sb	t0, 6(a5)
	sb	a7, 7(a5)
	sb	a2, 0(a5)
	sb	t5, 1(a5)
	sb	t4, 2(a5)
	sb	t3, 3(a5)
	ld	a2, 0(a6)
	add	a1, a1, a3
	srli	a6, a2, 56
	srli	a7, a2, 48
	srli	t0, a2, 40
	srli	a5, a2, 32
	srli	t1, a2, 24
	srli	t2, a2, 16
	sb	a5, 4(a1)
	sb	t0, 5(a1)
	sb	a7, 6(a1)
	sb	a6, 7(a1)
	srli	a5, a2, 8
	sb	a2, 0(a1)
	sb	a5, 1(a1)
	sb	t2, 2(a1)
	sb	t1, 3(a1)
	li	a1, 25
	bltu	a4, a1, .LBB40_7
.LBB40_12:
	ld	a1, 0(a0)
	srli	a6, a1, 56
	srli	a7, a1, 48
	srli	t1, a1, 40
	srli	a2, a1, 32
	srli	t0, a1, 24
	srli	a4, a1, 16
	srli	a5, a1, 8
	sb	a2, 4(a3)
	sb	t1, 5(a3)
	sb	a7, 6(a3)
	sb	a6, 7(a3)
	sb	a1, 0(a3)
	sb	a5, 1(a3)
	sb	a4, 2(a3)
	sb	t0, 3(a3)
	ld	a1, 8(a0)
	srli	a6, a1, 56
	srli	a7, a1, 48
	srli	t1, a1, 40
	srli	a2, a1, 32
	srli	t0, a1, 24
	srli	a4, a1, 16
	srli	a5, a1, 8
	sb	a2, 12(a3)
	sb	t1, 13(a3)
	sb	a7, 14(a3)
	sb	a6, 15(a3)
	sb	a1, 8(a3)
	sb	a5, 9(a3)
	sb	a4, 10(a3)
	sb	t0, 11(a3)
	ld	a1, 16(a0)
	srli	a6, a1, 56
	srli	a7, a1, 48
	srli	t1, a1, 40
	srli	a2, a1, 32
	srli	t0, a1, 24
	srli	a4, a1, 16
	srli	a5, a1, 8
	sb	a2, 20(a3)
	sb	t1, 21(a3)
	sb	a7, 22(a3)
	sb	a6, 23(a3)
	sb	a1, 16(a3)
	sb	a5, 17(a3)
	sb	a4, 18(a3)
	sb	t0, 19(a3)
	ld	a0, 24(a0)
	srli	a6, a0, 56
	srli	a2, a0, 48
	srli	a4, a0, 40
	srli	a5, a0, 32
	srli	a7, a0, 24
	srli	a1, a0, 16
	sb	a5, 28(a3)
	sb	a4, 29(a3)
	sb	a2, 30(a3)
	sb	a6, 31(a3)
	srli	a2, a0, 8
	sb	a0, 24(a3)
	sb	a2, 25(a3)
	sb	a1, 26(a3)
	sb	a7, 27(a3)
	ret
.Lfunc_end40:
	.size	tlsf_heap.region.Region.read.5, .Lfunc_end40-tlsf_heap.region.Region.read.5
	.cfi_endproc
	.p2align	1
	.type	tlsf_c.queue_end.take_once,@function
tlsf_c.queue_end.take_once:
	.cfi_startproc
	addi	sp, sp, -240
	.cfi_def_cfa_offset 240
	sd	ra, 232(sp)
	sd	s0, 224(sp)
	sd	s1, 216(sp)
	sd	s2, 208(sp)
	sd	s3, 200(sp)
	sd	s4, 192(sp)
	sd	s5, 184(sp)
	sd	s6, 176(sp)
	sd	s7, 168(sp)
	sd	s8, 160(sp)
	sd	s9, 152(sp)
	sd	s10, 144(sp)
	sd	s11, 136(sp)
	.cfi_offset ra, -8
	.cfi_offset s0, -16
	.cfi_offset s1, -24
	.cfi_offset s2, -32
	.cfi_offset s3, -40
	.cfi_offset s4, -48
	.cfi_offset s5, -56
	.cfi_offset s6, -64
	.cfi_offset s7, -72
	.cfi_offset s8, -80
	.cfi_offset s9, -88
	.cfi_offset s10, -96
	.cfi_offset s11, -104
	addi	s0, sp, 240
	.cfi_def_cfa s0, 0
	.cfi_remember_state
	sd	zero, -208(s0)
	sd	zero, -200(s0)
	sd	zero, -224(s0)
	sd	zero, -216(s0)
	ld	s6, 0(a1)
	sd	zero, -192(s0)
	sd	zero, -184(s0)
	sd	zero, -160(s0)
	sd	zero, -152(s0)
	ld	a2, 8(s6)
	sd	zero, -176(s0)
	sd	zero, -168(s0)
	fence	rw, rw
	ld	s2, 256(a2)
	fence	r, rw
	ld	a2, 80(s6)
	ld	a3, 8(s6)
	fence	rw, rw
	addi	a2, a2, -1
	and	a2, a2, s2
	slli	s3, a2, 3
	add	a3, a3, s3
	ld	a3, 384(a3)
	fence	r, rw
	srli	a4, s2, 62
	li	a5, 2
	bltu	a5, a4, .LBB41_8
	addi	a4, s2, 1
	bne	a3, a4, .LBB41_8
	ld	a4, 72(s6)
	sd	zero, -128(s0)
	sd	zero, -120(s0)
	sd	zero, -112(s0)
	addi	a5, a2, 1
	sd	zero, -144(s0)
	sd	zero, -136(s0)
	bltu	a5, a4, .LBB41_4
	ld	a3, 80(s6)
	sub	a4, s2, a2
	add	a3, a3, a4
.LBB41_4:
	ld	a4, 8(s6)
	addi	a4, a4, 256
.LBB41_11:
	lr.d.aqrl	a5, (a4)
	bne	a5, s2, .LBB41_13
	sc.d.rl	s1, a3, (a4)
	bnez	s1, .LBB41_11
.LBB41_13:
	bne	a5, s2, .LBB41_7
	sd	a0, -232(s0)
	ld	a1, 16(s6)
	slli	a2, a2, 5
	add	a1, a1, a2
	addi	a0, a1, 8
	lbu	a2, 15(a1)
	sd	a2, -240(s0)
	lbu	a6, 16(a1)
	lbu	t2, 17(a1)
	lbu	a4, 18(a1)
	lbu	a5, 19(a1)
	lbu	s1, 20(a1)
	lbu	a2, 21(a1)
	lbu	a7, 22(a1)
	lbu	t0, 23(a1)
	lbu	t1, 24(a1)
	lbu	t3, 25(a1)
	lbu	t5, 26(a1)
	slli	t2, t2, 8
	slli	a4, a4, 16
	slli	a5, a5, 24
	slli	a2, a2, 8
	or	a6, t2, a6
	or	t4, a5, a4
	or	t2, a2, s1
	lbu	a5, 27(a1)
	lbu	t6, 28(a1)
	lbu	a2, 29(a1)
	lbu	a4, 30(a1)
	slli	a7, a7, 16
	slli	t0, t0, 24
	or	a7, t0, a7
	lbu	a3, 31(a1)
	slli	t3, t3, 8
	slli	t5, t5, 16
	slli	a5, a5, 24
	slli	a2, a2, 8
	slli	a4, a4, 16
	slli	a3, a3, 24
	or	s1, t3, t1
	or	a5, a5, t5
	or	a2, a2, t6
	or	a3, a3, a4
	lbu	s4, 0(a1)
	lbu	s7, 8(a1)
	lbu	s9, 9(a1)
	lbu	s8, 10(a1)
	or	a6, t4, a6
	or	a4, a7, t2
	or	a5, a5, s1
	or	a2, a2, a3
	lbu	s5, 11(a1)
	lbu	s1, 12(a1)
	lbu	s11, 13(a1)
	lbu	s10, 14(a1)
	sb	zero, 4(a1)
	sb	zero, 5(a1)
	sb	zero, 6(a1)
	sb	zero, 7(a1)
	slli	a4, a4, 32
	slli	a2, a2, 32
	or	a3, a4, a6
	or	a2, a2, a5
	sd	a3, -144(s0)
	sd	a2, -136(s0)
	sb	zero, 0(a1)
	sb	zero, 1(a1)
	sb	zero, 2(a1)
	sb	zero, 3(a1)
	addi	a1, s0, -128
	li	a2, 24
	call	tlsf_memory_cpy
	ld	a0, 80(s6)
	ld	a1, 8(s6)
	fence	rw, w
	add	a0, a0, s2
	add	a1, a1, s3
	sd	a0, 384(a1)
	fence	rw, rw
	li	a0, 1
	bne	s4, a0, .LBB41_10
	li	a7, 0
	li	a6, 0
	slli	s9, s9, 8
	or	a0, s9, s7
	slli	s8, s8, 16
	slli	s5, s5, 24
	or	a1, s5, s8
	slli	s11, s11, 8
	slli	s10, s10, 16
	ld	a2, -240(s0)
	slli	a2, a2, 24
	or	a3, s11, s1
	or	a2, a2, s10
	ld	a4, -144(s0)
	ld	a5, -136(s0)
	or	a0, a0, a1
	or	a2, a2, a3
	slli	a2, a2, 32
	or	a2, a2, a0
	sd	a5, -168(s0)
	sd	a4, -208(s0)
	sd	a5, -200(s0)
	addi	a1, s0, -208
	ld	a0, -232(s0)
	j	.LBB41_9
.LBB41_7:
	sd	zero, -160(s0)
	sd	zero, -152(s0)
.LBB41_8:
	li	a2, 0
	ld	a1, 0(a1)
	ld	a3, -160(s0)
	ld	a4, -152(s0)
	ld	a5, 8(a1)
	sd	a3, -208(s0)
	sd	a4, -200(s0)
	fence	rw, rw
	ld	a3, 256(a5)
	fence	r, rw
	ld	a1, 8(a1)
	fence	rw, rw
	ld	a4, 128(a1)
	addi	a1, s0, -224
	fence	r, rw
	xor	a3, a3, a4
	seqz	a3, a3
	xori	a6, a3, 9
	li	a7, 1
.LBB41_9:
	srli	a5, a2, 56
	srli	s1, a2, 48
	srli	t0, a2, 40
	srli	a4, a2, 32
	srli	a3, a2, 24
	sb	s1, 14(a0)
	sb	a5, 15(a0)
	srli	a5, a2, 16
	sb	a5, 10(a0)
	sb	a3, 11(a0)
	sb	a4, 12(a0)
	sb	t0, 13(a0)
	srli	a3, a2, 8
	sb	a7, 0(a0)
	sb	a6, 1(a0)
	sb	a2, 8(a0)
	sb	a3, 9(a0)
	addi	a0, a0, 16
	li	a2, 16
	call	tlsf_memory_cpy
	.cfi_def_cfa sp, 240
	ld	ra, 232(sp)
	ld	s0, 224(sp)
	ld	s1, 216(sp)
	ld	s2, 208(sp)
	ld	s3, 200(sp)
	ld	s4, 192(sp)
	ld	s5, 184(sp)
	ld	s6, 176(sp)
	ld	s7, 168(sp)
	ld	s8, 160(sp)
	ld	s9, 152(sp)
	ld	s10, 144(sp)
	ld	s11, 136(sp)
	.cfi_restore ra
	.cfi_restore s0
	.cfi_restore s1
	.cfi_restore s2
	.cfi_restore s3
	.cfi_restore s4
	.cfi_restore s5
	.cfi_restore s6
	.cfi_restore s7
	.cfi_restore s8
	.cfi_restore s9
	.cfi_restore s10
	.cfi_restore s11
	addi	sp, sp, 240
	.cfi_def_cfa_offset 0
	ret
.LBB41_10:
	.cfi_restore_state
	unimp
.Lfunc_end41:
	.size	tlsf_c.queue_end.take_once, .Lfunc_end41-tlsf_c.queue_end.take_once
	.cfi_endproc
	.section	.text.unlikely.,"ax",@progbits
	.p2align	1
	.type	std_alloc.vec.Vec.grow_amortized.94730218a1e37034,@function
std_alloc.vec.Vec.grow_amortized.94730218a1e37034:
	.cfi_startproc
	ld	a1, 8(a0)
	li	a2, -1
	beq	a1, a2, .LBB42_8
	ld	a2, 16(a0)
	li	a3, 3
	mv	a4, a1
	bltu	a3, a1, .LBB42_3
	li	a4, 3
.LBB42_3:
	addi	sp, sp, -48
	.cfi_def_cfa_offset 48
	sd	ra, 40(sp)
	sd	s0, 32(sp)
	sd	s1, 24(sp)
	sd	s2, 16(sp)
	sd	s3, 8(sp)
	.cfi_offset ra, -8
	.cfi_offset s0, -16
	.cfi_offset s1, -24
	.cfi_offset s2, -32
	.cfi_offset s3, -40
	addi	s0, sp, 48
	.cfi_def_cfa s0, 0
	.cfi_remember_state
	addi	a4, a4, 1
	slli	a3, a2, 1
	srli	a5, a2, 62
	mv	s1, a4
	bgeu	a3, a4, .LBB42_9
	mv	s3, s1
	bnez	a5, .LBB42_10
.LBB42_5:
	srli	a3, s3, 58
	bnez	a3, .LBB42_11
.LBB42_6:
	beqz	a2, .LBB42_12
	mv	s2, a0
	ld	a0, 0(a0)
	slli	a1, a1, 5
	slli	a2, s3, 5
	li	a3, 8
	call	tlsf_memory_realloc
	andi	a0, a0, 1
	bnez	a0, .LBB42_13
	j	.LBB42_14
.LBB42_8:
	li	a0, 0
	ret
.LBB42_9:
	.cfi_restore_state
	mv	s1, a3
	mv	s3, a3
	beqz	a5, .LBB42_5
.LBB42_10:
	mv	s3, a4
	srli	a3, a4, 58
	beqz	a3, .LBB42_6
.LBB42_11:
	li	a0, 0
	j	.LBB42_14
.LBB42_12:
	mv	s2, a0
	slli	a0, s1, 5
	li	a1, 8
	call	tlsf_memory_alloc
	andi	a0, a0, 1
	beqz	a0, .LBB42_14
.LBB42_13:
	sd	a1, 0(s2)
	sd	s3, 16(s2)
	li	a0, 1
.LBB42_14:
	.cfi_def_cfa sp, 48
	ld	ra, 40(sp)
	ld	s0, 32(sp)
	ld	s1, 24(sp)
	ld	s2, 16(sp)
	ld	s3, 8(sp)
	.cfi_restore ra
	.cfi_restore s0
	.cfi_restore s1
	.cfi_restore s2
	.cfi_restore s3
	addi	sp, sp, 48
	.cfi_def_cfa_offset 0
	ret
.Lfunc_end42:
	.size	std_alloc.vec.Vec.grow_amortized.94730218a1e37034, .Lfunc_end42-std_alloc.vec.Vec.grow_amortized.94730218a1e37034
	.cfi_endproc
	.text
	.p2align	1
	.type	tlsf_post.mailboxes.send_out,@function
tlsf_post.mailboxes.send_out:
	.cfi_startproc
	sext.w	t5, a2
	sext.w	a2, a1
	bgeu	a2, t5, .LBB43_5
	addi	sp, sp, -32
	.cfi_def_cfa_offset 32
	sd	s0, 24(sp)
	sd	s1, 16(sp)
	sd	s2, 8(sp)
	sd	s3, 0(sp)
	.cfi_offset s0, -8
	.cfi_offset s1, -16
	.cfi_offset s2, -24
	.cfi_offset s3, -32
	.cfi_remember_state
	li	a5, -3
	srli	a6, a0, 56
	srli	a7, a0, 48
	srli	t0, a0, 40
	srli	t1, a0, 32
	srli	t2, a0, 24
	srli	t3, a0, 16
	srli	t6, a5, 1
	srli	t4, a0, 8
.LBB43_2:
	fence	rw, rw
	ld	a2, 0(a0)
	fence	r, rw
	bltu	t6, a2, .LBB43_6
	addi	a4, a2, 1
.LBB43_8:
	lr.d.aqrl	a5, (a0)
	bne	a5, a2, .LBB43_10
	sc.d.rl	s0, a4, (a0)
	bnez	s0, .LBB43_8
.LBB43_10:
	bne	a5, a2, .LBB43_2
	li	a2, 0
	ld	a4, 8(a0)
	fence	rw, rw
	ld	zero, 0(a4)
	fence	r, rw
	ld	s3, 8(a3)
	ld	s2, 0(a3)
	srli	s0, a1, 24
	srli	s1, a1, 16
	slli	a4, s3, 4
	add	a4, a4, s2
	srli	a5, a1, 8
	sb	a1, 8(a4)
	sb	a5, 9(a4)
	sb	s1, 10(a4)
	sb	s0, 11(a4)
	addi	s3, s3, 1
	sb	t1, 4(a4)
	sb	t0, 5(a4)
	sb	a7, 6(a4)
	sb	a6, 7(a4)
	sb	a0, 0(a4)
	sb	t4, 1(a4)
	sb	t3, 2(a4)
	sb	t2, 3(a4)
	sb	zero, 12(a4)
	sb	zero, 13(a4)
	sb	zero, 14(a4)
	sb	zero, 15(a4)
	addiw	a1, a1, 1
	sd	s3, 8(a3)
	bne	a1, t5, .LBB43_2
	j	.LBB43_7
.LBB43_5:
	li	a0, 0
	ret
.LBB43_6:
	.cfi_restore_state
	li	a2, 1
.LBB43_7:
	ld	s0, 24(sp)
	ld	s1, 16(sp)
	ld	s2, 8(sp)
	ld	s3, 0(sp)
	.cfi_restore s0
	.cfi_restore s1
	.cfi_restore s2
	.cfi_restore s3
	addi	sp, sp, 32
	.cfi_def_cfa_offset 0
	mv	a0, a2
	ret
.Lfunc_end43:
	.size	tlsf_post.mailboxes.send_out, .Lfunc_end43-tlsf_post.mailboxes.send_out
	.cfi_endproc
	.p2align	1
	.type	std_alloc.arc.Arc.drop.f29941b0e8355977,@function
std_alloc.arc.Arc.drop.f29941b0e8355977:
	.cfi_startproc
	li	a1, -1
	amoadd.d.aqrl	a1, a1, (a0)
	li	a2, 1
	bne	a1, a2, .LBB44_2
	addi	sp, sp, -32
	.cfi_def_cfa_offset 32
	sd	ra, 24(sp)
	sd	s0, 16(sp)
	sd	s1, 8(sp)
	sd	s2, 0(sp)
	.cfi_offset ra, -8
	.cfi_offset s0, -16
	.cfi_offset s1, -24
	.cfi_offset s2, -32
	addi	s0, sp, 32
	.cfi_def_cfa s0, 0
	lbu	a1, 40(a0)
	lbu	a2, 41(a0)
	lbu	a3, 42(a0)
	lbu	a4, 43(a0)
	lbu	a6, 44(a0)
	lbu	a7, 45(a0)
	lbu	a5, 46(a0)
	lbu	s1, 47(a0)
	slli	a2, a2, 8
	slli	a3, a3, 16
	slli	a4, a4, 24
	or	t0, a2, a1
	or	t1, a4, a3
	lbu	a2, 56(a0)
	lbu	a4, 57(a0)
	lbu	a1, 58(a0)
	lbu	a3, 59(a0)
	slli	a7, a7, 8
	slli	a5, a5, 16
	slli	s1, s1, 24
	slli	a4, a4, 8
	slli	a1, a1, 16
	slli	a3, a3, 24
	or	a6, a7, a6
	or	a5, a5, s1
	or	a7, a4, a2
	or	a1, a1, a3
	lbu	a3, 61(a0)
	lbu	a4, 60(a0)
	lbu	s1, 62(a0)
	lbu	a2, 63(a0)
	slli	a3, a3, 8
	or	a3, a3, a4
	slli	s1, s1, 16
	slli	a2, a2, 24
	or	a2, a2, s1
	or	a4, t1, t0
	or	a5, a5, a6
	or	a1, a1, a7
	or	a2, a2, a3
	slli	a5, a5, 32
	slli	a2, a2, 32
	or	s1, a5, a4
	or	s2, a2, a1
	call	tlsf_memory_dealloc
	mv	a0, s1
	call	tlsf_memory_dealloc
	mv	a0, s2
	.cfi_def_cfa sp, 32
	ld	ra, 24(sp)
	ld	s0, 16(sp)
	ld	s1, 8(sp)
	ld	s2, 0(sp)
	.cfi_restore ra
	.cfi_restore s0
	.cfi_restore s1
	.cfi_restore s2
	addi	sp, sp, 32
	.cfi_def_cfa_offset 0
	tail	tlsf_memory_dealloc
.LBB44_2:
	ret
.Lfunc_end44:
	.size	std_alloc.arc.Arc.drop.f29941b0e8355977, .Lfunc_end44-std_alloc.arc.Arc.drop.f29941b0e8355977
	.cfi_endproc
	.p2align	1
	.type	std_alloc.vec.Vec.drop.05316b64237a7125,@function
std_alloc.vec.Vec.drop.05316b64237a7125:
	.cfi_startproc
	addi	sp, sp, -80
	.cfi_def_cfa_offset 80
	sd	ra, 72(sp)
	sd	s0, 64(sp)
	sd	s1, 56(sp)
	sd	s2, 48(sp)
	sd	s3, 40(sp)
	sd	s4, 32(sp)
	sd	s5, 24(sp)
	sd	s6, 16(sp)
	sd	s7, 8(sp)
	sd	s8, 0(sp)
	.cfi_offset ra, -8
	.cfi_offset s0, -16
	.cfi_offset s1, -24
	.cfi_offset s2, -32
	.cfi_offset s3, -40
	.cfi_offset s4, -48
	.cfi_offset s5, -56
	.cfi_offset s6, -64
	.cfi_offset s7, -72
	.cfi_offset s8, -80
	addi	s0, sp, 80
	.cfi_def_cfa s0, 0
	.cfi_remember_state
	lbu	a6, 0(a0)
	lbu	t2, 1(a0)
	lbu	t3, 2(a0)
	lbu	a4, 3(a0)
	lbu	t4, 4(a0)
	lbu	s1, 5(a0)
	lbu	a7, 6(a0)
	lbu	t1, 7(a0)
	lbu	t0, 8(a0)
	lbu	t5, 9(a0)
	lbu	a2, 10(a0)
	lbu	a3, 11(a0)
	slli	t2, t2, 8
	slli	t3, t3, 16
	slli	a4, a4, 24
	slli	a5, s1, 8
	or	a6, t2, a6
	or	t3, a4, t3
	or	t2, a5, t4
	lbu	a4, 12(a0)
	lbu	a5, 13(a0)
	lbu	s1, 14(a0)
	lbu	a1, 15(a0)
	slli	a7, a7, 16
	slli	t1, t1, 24
	slli	t5, t5, 8
	slli	a2, a2, 16
	slli	a3, a3, 24
	slli	a5, a5, 8
	or	a7, t1, a7
	or	t0, t5, t0
	or	t1, a3, a2
	or	t4, a5, a4
	lbu	a3, 16(a0)
	lbu	a5, 17(a0)
	lbu	a2, 18(a0)
	lbu	a4, 19(a0)
	slli	s1, s1, 16
	slli	a1, a1, 24
	slli	a5, a5, 8
	slli	a2, a2, 16
	slli	a4, a4, 24
	or	t5, a1, s1
	or	t6, a5, a3
	or	a2, a2, a4
	lbu	a4, 21(a0)
	lbu	a5, 20(a0)
	lbu	s1, 22(a0)
	lbu	a0, 23(a0)
	slli	a4, a4, 8
	or	a4, a4, a5
	slli	s1, s1, 16
	slli	a0, a0, 24
	or	a0, a0, s1
	or	a5, t3, a6
	or	s1, a7, t2
	or	a1, t1, t0
	or	a3, t5, t4
	or	a2, a2, t6
	or	a0, a0, a4
	slli	s1, s1, 32
	slli	a3, a3, 32
	or	s2, s1, a5
	or	s8, a3, a1
	slli	a0, a0, 32
	or	s5, a0, a2
	beqz	s8, .LBB45_5
	li	s6, -1
	li	s7, 1
	mv	s1, s2
	j	.LBB45_3
.LBB45_2:
	addi	s8, s8, -1
	addi	s1, s1, 16
	beqz	s8, .LBB45_5
.LBB45_3:
	lbu	a0, 1(s1)
	lbu	a1, 2(s1)
	lbu	a2, 3(s1)
	lbu	a3, 0(s1)
	slli	a0, a0, 8
	slli	a1, a1, 16
	slli	a2, a2, 24
	or	a0, a0, a3
	or	a1, a1, a2
	lbu	a2, 5(s1)
	lbu	a3, 4(s1)
	lbu	a4, 6(s1)
	lbu	a5, 7(s1)
	slli	a2, a2, 8
	or	a2, a2, a3
	slli	a4, a4, 16
	slli	a5, a5, 24
	or	a4, a4, a5
	or	a0, a0, a1
	or	a2, a2, a4
	slli	a2, a2, 32
	or	a0, a0, a2
	amoadd.d.aqrl	a1, s6, (a0)
	bne	a1, s7, .LBB45_2
	lbu	a1, 40(a0)
	lbu	a2, 41(a0)
	lbu	a3, 42(a0)
	lbu	a4, 43(a0)
	lbu	a6, 44(a0)
	lbu	a7, 45(a0)
	lbu	t0, 46(a0)
	lbu	a5, 47(a0)
	slli	a2, a2, 8
	slli	a3, a3, 16
	slli	a4, a4, 24
	or	t1, a2, a1
	or	t2, a4, a3
	lbu	a2, 56(a0)
	lbu	a4, 57(a0)
	lbu	a1, 58(a0)
	lbu	a3, 59(a0)
	slli	a7, a7, 8
	slli	t0, t0, 16
	slli	a5, a5, 24
	slli	a4, a4, 8
	slli	a1, a1, 16
	slli	a3, a3, 24
	or	a6, a7, a6
	or	t0, a5, t0
	or	a7, a4, a2
	or	a1, a1, a3
	lbu	a3, 61(a0)
	lbu	a4, 60(a0)
	lbu	a2, 62(a0)
	lbu	a5, 63(a0)
	slli	a3, a3, 8
	or	a3, a3, a4
	slli	a2, a2, 16
	slli	a5, a5, 24
	or	a2, a2, a5
	or	a4, t2, t1
	or	a5, t0, a6
	or	a1, a1, a7
	or	a2, a2, a3
	slli	a5, a5, 32
	slli	a2, a2, 32
	or	s4, a5, a4
	or	s3, a2, a1
	call	tlsf_memory_dealloc
	mv	a0, s4
	call	tlsf_memory_dealloc
	mv	a0, s3
	call	tlsf_memory_dealloc
	j	.LBB45_2
.LBB45_5:
	beqz	s5, .LBB45_7
	mv	a0, s2
	.cfi_def_cfa sp, 80
	ld	ra, 72(sp)
	ld	s0, 64(sp)
	ld	s1, 56(sp)
	ld	s2, 48(sp)
	ld	s3, 40(sp)
	ld	s4, 32(sp)
	ld	s5, 24(sp)
	ld	s6, 16(sp)
	ld	s7, 8(sp)
	ld	s8, 0(sp)
	.cfi_restore ra
	.cfi_restore s0
	.cfi_restore s1
	.cfi_restore s2
	.cfi_restore s3
	.cfi_restore s4
	.cfi_restore s5
	.cfi_restore s6
	.cfi_restore s7
	.cfi_restore s8
	addi	sp, sp, 80
	.cfi_def_cfa_offset 0
	tail	tlsf_memory_dealloc
.LBB45_7:
	.cfi_restore_state
	.cfi_def_cfa sp, 80
	ld	ra, 72(sp)
	ld	s0, 64(sp)
	ld	s1, 56(sp)
	ld	s2, 48(sp)
	ld	s3, 40(sp)
	ld	s4, 32(sp)
	ld	s5, 24(sp)
	ld	s6, 16(sp)
	ld	s7, 8(sp)
	ld	s8, 0(sp)
	.cfi_restore ra
	.cfi_restore s0
	.cfi_restore s1
	.cfi_restore s2
	.cfi_restore s3
	.cfi_restore s4
	.cfi_restore s5
	.cfi_restore s6
	.cfi_restore s7
	.cfi_restore s8
	addi	sp, sp, 80
	.cfi_def_cfa_offset 0
	ret
.Lfunc_end45:
	.size	std_alloc.vec.Vec.drop.05316b64237a7125, .Lfunc_end45-std_alloc.vec.Vec.drop.05316b64237a7125
	.cfi_endproc
	.p2align	1
	.type	std_alloc.vec.deque.VecDeque.drop.ca3d8856d46a41b8,@function
std_alloc.vec.deque.VecDeque.drop.ca3d8856d46a41b8:
	.cfi_startproc
	addi	sp, sp, -96
	.cfi_def_cfa_offset 96
	sd	ra, 88(sp)
	sd	s0, 80(sp)
	sd	s1, 72(sp)
	sd	s2, 64(sp)
	sd	s3, 56(sp)
	sd	s4, 48(sp)
	sd	s5, 40(sp)
	sd	s6, 32(sp)
	sd	s7, 24(sp)
	sd	s8, 16(sp)
	sd	s9, 8(sp)
	.cfi_offset ra, -8
	.cfi_offset s0, -16
	.cfi_offset s1, -24
	.cfi_offset s2, -32
	.cfi_offset s3, -40
	.cfi_offset s4, -48
	.cfi_offset s5, -56
	.cfi_offset s6, -64
	.cfi_offset s7, -72
	.cfi_offset s8, -80
	.cfi_offset s9, -88
	addi	s0, sp, 96
	.cfi_def_cfa s0, 0
	.cfi_remember_state
	lbu	t0, 0(a0)
	lbu	a4, 1(a0)
	lbu	a3, 2(a0)
	lbu	a2, 3(a0)
	lbu	a6, 4(a0)
	lbu	a7, 5(a0)
	lbu	t1, 6(a0)
	lbu	t3, 7(a0)
	lbu	t2, 8(a0)
	lbu	a5, 9(a0)
	lbu	a1, 10(a0)
	lbu	s1, 11(a0)
	slli	a4, a4, 8
	slli	a3, a3, 16
	slli	a2, a2, 24
	or	t0, a4, t0
	or	t4, a2, a3
	lbu	t5, 12(a0)
	lbu	t6, 13(a0)
	lbu	a2, 14(a0)
	lbu	a3, 15(a0)
	slli	a7, a7, 8
	slli	t1, t1, 16
	slli	t3, t3, 24
	slli	a5, a5, 8
	slli	a1, a1, 16
	slli	s1, s1, 24
	or	a6, a7, a6
	or	a7, t3, t1
	or	t1, a5, t2
	or	t2, s1, a1
	lbu	s1, 16(a0)
	lbu	a5, 17(a0)
	lbu	a1, 18(a0)
	lbu	a4, 19(a0)
	slli	t6, t6, 8
	slli	a2, a2, 16
	slli	a3, a3, 24
	slli	a5, a5, 8
	slli	a1, a1, 16
	slli	a4, a4, 24
	or	t3, t6, t5
	or	t5, a3, a2
	or	t6, a5, s1
	or	s2, a4, a1
	lbu	a3, 21(a0)
	lbu	a4, 20(a0)
	lbu	s1, 22(a0)
	lbu	a2, 23(a0)
	slli	a3, a3, 8
	or	s3, a3, a4
	slli	s1, s1, 16
	slli	a2, a2, 24
	or	a2, a2, s1
	or	a4, t4, t0
	or	s1, a7, a6
	or	a5, t2, t1
	or	a1, t5, t3
	or	a3, s2, t6
	or	a2, a2, s3
	slli	s1, s1, 32
	slli	a1, a1, 32
	or	s2, s1, a4
	or	a6, a1, a5
	slli	a2, a2, 32
	or	s4, a2, a3
	beqz	a6, .LBB46_11
	lbu	a2, 32(a0)
	lbu	a3, 33(a0)
	lbu	a4, 34(a0)
	lbu	a5, 35(a0)
	lbu	s1, 36(a0)
	lbu	a1, 37(a0)
	lbu	a7, 38(a0)
	lbu	t0, 39(a0)
	slli	a3, a3, 8
	slli	a4, a4, 16
	slli	a5, a5, 24
	slli	a1, a1, 8
	or	t1, a3, a2
	or	t3, a5, a4
	or	t2, a1, s1
	lbu	a3, 24(a0)
	lbu	a5, 25(a0)
	lbu	s1, 26(a0)
	lbu	a2, 27(a0)
	slli	a7, a7, 16
	slli	t0, t0, 24
	slli	a5, a5, 8
	slli	s1, s1, 16
	slli	a2, a2, 24
	or	a1, t0, a7
	or	a3, a3, a5
	or	a2, a2, s1
	lbu	a5, 29(a0)
	lbu	s1, 28(a0)
	lbu	a4, 30(a0)
	lbu	a0, 31(a0)
	slli	a5, a5, 8
	or	a5, a5, s1
	slli	a4, a4, 16
	slli	a0, a0, 24
	or	a0, a0, a4
	or	a4, t3, t1
	or	a1, a1, t2
	or	a2, a2, a3
	or	a0, a0, a5
	slli	a1, a1, 32
	slli	a0, a0, 32
	or	s5, a1, a4
	or	a0, a0, a2
	sub	s8, a6, s5
	add	a1, a0, s8
	bgeu	a0, a1, .LBB46_6
	slli	a0, a0, 4
	li	s7, -1
	add	s1, s2, a0
	li	s9, 1
	j	.LBB46_4
.LBB46_3:
	addi	s8, s8, -1
	addi	s1, s1, 16
	beqz	s8, .LBB46_6
.LBB46_4:
	lbu	a0, 1(s1)
	lbu	a1, 2(s1)
	lbu	a2, 3(s1)
	lbu	a3, 0(s1)
	slli	a0, a0, 8
	slli	a1, a1, 16
	slli	a2, a2, 24
	or	a0, a0, a3
	or	a1, a1, a2
	lbu	a2, 5(s1)
	lbu	a3, 4(s1)
	lbu	a4, 6(s1)
	lbu	a5, 7(s1)
	slli	a2, a2, 8
	or	a2, a2, a3
	slli	a4, a4, 16
	slli	a5, a5, 24
	or	a4, a4, a5
	or	a0, a0, a1
	or	a2, a2, a4
	slli	a2, a2, 32
	or	a0, a0, a2
	amoadd.d.aqrl	a1, s7, (a0)
	bne	a1, s9, .LBB46_3
	lbu	a1, 40(a0)
	lbu	a2, 41(a0)
	lbu	a3, 42(a0)
	lbu	a4, 43(a0)
	lbu	a6, 44(a0)
	lbu	a7, 45(a0)
	lbu	t0, 46(a0)
	lbu	a5, 47(a0)
	slli	a2, a2, 8
	slli	a3, a3, 16
	slli	a4, a4, 24
	or	t1, a2, a1
	or	t2, a4, a3
	lbu	a2, 56(a0)
	lbu	a4, 57(a0)
	lbu	a1, 58(a0)
	lbu	a3, 59(a0)
	slli	a7, a7, 8
	slli	t0, t0, 16
	slli	a5, a5, 24
	slli	a4, a4, 8
	slli	a1, a1, 16
	slli	a3, a3, 24
	or	a6, a7, a6
	or	t0, a5, t0
	or	a7, a4, a2
	or	a1, a1, a3
	lbu	a3, 61(a0)
	lbu	a4, 60(a0)
	lbu	a2, 62(a0)
	lbu	a5, 63(a0)
	slli	a3, a3, 8
	or	a3, a3, a4
	slli	a2, a2, 16
	slli	a5, a5, 24
	or	a2, a2, a5
	or	a4, t2, t1
	or	a5, t0, a6
	or	a1, a1, a7
	or	a2, a2, a3
	slli	a5, a5, 32
	slli	a2, a2, 32
	or	s6, a5, a4
	or	s3, a2, a1
	call	tlsf_memory_dealloc
	mv	a0, s6
	call	tlsf_memory_dealloc
	mv	a0, s3
	call	tlsf_memory_dealloc
	j	.LBB46_3
.LBB46_6:
	beqz	s5, .LBB46_11
	li	s6, -1
	li	s7, 1
	mv	s1, s2
	j	.LBB46_9
.LBB46_8:
	addi	s5, s5, -1
	addi	s1, s1, 16
	beqz	s5, .LBB46_11
.LBB46_9:
	lbu	a0, 1(s1)
	lbu	a1, 2(s1)
	lbu	a2, 3(s1)
	lbu	a3, 0(s1)
	slli	a0, a0, 8
	slli	a1, a1, 16
	slli	a2, a2, 24
	or	a0, a0, a3
	or	a1, a1, a2
	lbu	a2, 5(s1)
	lbu	a3, 4(s1)
	lbu	a4, 6(s1)
	lbu	a5, 7(s1)
	slli	a2, a2, 8
	or	a2, a2, a3
	slli	a4, a4, 16
	slli	a5, a5, 24
	or	a4, a4, a5
	or	a0, a0, a1
	or	a2, a2, a4
	slli	a2, a2, 32
	or	a0, a0, a2
	amoadd.d.aqrl	a1, s6, (a0)
	bne	a1, s7, .LBB46_8
	lbu	a1, 40(a0)
	lbu	a2, 41(a0)
	lbu	a3, 42(a0)
	lbu	a4, 43(a0)
	lbu	a6, 44(a0)
	lbu	a7, 45(a0)
	lbu	t0, 46(a0)
	lbu	a5, 47(a0)
	slli	a2, a2, 8
	slli	a3, a3, 16
	slli	a4, a4, 24
	or	t1, a2, a1
	or	t2, a4, a3
	lbu	a2, 56(a0)
	lbu	a4, 57(a0)
	lbu	a1, 58(a0)
	lbu	a3, 59(a0)
	slli	a7, a7, 8
	slli	t0, t0, 16
	slli	a5, a5, 24
	slli	a4, a4, 8
	slli	a1, a1, 16
	slli	a3, a3, 24
	or	a6, a7, a6
	or	t0, a5, t0
	or	a7, a4, a2
	or	a1, a1, a3
	lbu	a3, 61(a0)
	lbu	a4, 60(a0)
	lbu	a2, 62(a0)
	lbu	a5, 63(a0)
	slli	a3, a3, 8
	or	a3, a3, a4
	slli	a2, a2, 16
	slli	a5, a5, 24
	or	a2, a2, a5
	or	a4, t2, t1
	or	a5, t0, a6
	or	a1, a1, a7
	or	a2, a2, a3
	slli	a5, a5, 32
	slli	a2, a2, 32
	or	s8, a5, a4
	or	s3, a2, a1
	call	tlsf_memory_dealloc
	mv	a0, s8
	call	tlsf_memory_dealloc
	mv	a0, s3
	call	tlsf_memory_dealloc
	j	.LBB46_8
.LBB46_11:
	beqz	s4, .LBB46_13
	mv	a0, s2
	.cfi_def_cfa sp, 96
	ld	ra, 88(sp)
	ld	s0, 80(sp)
	ld	s1, 72(sp)
	ld	s2, 64(sp)
	ld	s3, 56(sp)
	ld	s4, 48(sp)
	ld	s5, 40(sp)
	ld	s6, 32(sp)
	ld	s7, 24(sp)
	ld	s8, 16(sp)
	ld	s9, 8(sp)
	.cfi_restore ra
	.cfi_restore s0
	.cfi_restore s1
	.cfi_restore s2
	.cfi_restore s3
	.cfi_restore s4
	.cfi_restore s5
	.cfi_restore s6
	.cfi_restore s7
	.cfi_restore s8
	.cfi_restore s9
	addi	sp, sp, 96
	.cfi_def_cfa_offset 0
	tail	tlsf_memory_dealloc
.LBB46_13:
	.cfi_restore_state
	.cfi_def_cfa sp, 96
	ld	ra, 88(sp)
	ld	s0, 80(sp)
	ld	s1, 72(sp)
	ld	s2, 64(sp)
	ld	s3, 56(sp)
	ld	s4, 48(sp)
	ld	s5, 40(sp)
	ld	s6, 32(sp)
	ld	s7, 24(sp)
	ld	s8, 16(sp)
	ld	s9, 8(sp)
	.cfi_restore ra
	.cfi_restore s0
	.cfi_restore s1
	.cfi_restore s2
	.cfi_restore s3
	.cfi_restore s4
	.cfi_restore s5
	.cfi_restore s6
	.cfi_restore s7
	.cfi_restore s8
	.cfi_restore s9
	addi	sp, sp, 96
	.cfi_def_cfa_offset 0
	ret
.Lfunc_end46:
	.size	std_alloc.vec.deque.VecDeque.drop.ca3d8856d46a41b8, .Lfunc_end46-std_alloc.vec.deque.VecDeque.drop.ca3d8856d46a41b8
	.cfi_endproc
	.p2align	1
	.type	tlsf_words.cells.copy_run,@function
tlsf_words.cells.copy_run:
	.cfi_startproc
	mv	a4, a2
	slli	a6, a2, 3
	slli	a7, a1, 3
	sub	a5, a6, a7
	slli	a2, a3, 3
	bgeu	a5, a2, .LBB47_2
.LBB47_1:
	ret
.LBB47_2:
	add	a5, a3, a1
	bgeu	a4, a5, .LBB47_5
	add	a3, a3, a4
	bltu	a1, a3, .LBB47_1
	add	a3, a0, a6
	add	a1, a0, a7
	mv	a0, a3
	tail	tlsf_memory_move
.LBB47_5:
	add	a1, a0, a7
	add	a0, a0, a6
	tail	tlsf_memory_move
.Lfunc_end47:
	.size	tlsf_words.cells.copy_run, .Lfunc_end47-tlsf_words.cells.copy_run
	.cfi_endproc
	.p2align	1
	.type	tlsf_heap.region.Region.write.4,@function
tlsf_heap.region.Region.write.4:
	.cfi_startproc
	slli	a1, a1, 32
	slli	a5, a2, 32
	or	a2, a2, a4
	srli	a1, a1, 29
	srli	a5, a5, 32
	add	a1, a1, a5
	andi	a2, a2, 7
	addi	a1, a1, 24
	beqz	a2, .LBB48_3
	li	a2, 7
	bltu	a2, a4, .LBB48_8
	mv	a2, a3
	mv	a3, a4
	tail	tlsf_words.words.Words.write_few
.LBB48_3:
	ld	a0, 0(a0)
	li	a2, 63
	add	a0, a0, a1
	bltu	a2, a4, .LBB48_9
	andi	a1, a4, 8
	bnez	a1, .LBB48_10
	andi	a1, a4, 16
	bnez	a1, .LBB48_11
.LBB48_6:
	li	a1, 25
	bgeu	a4, a1, .LBB48_12
.LBB48_7:
	ret
.LBB48_8:
	mv	a2, a3
	mv	a3, a4
	tail	tlsf_words.words.Words.write_run
.LBB48_9:
	srli	a1, a4, 3
	mv	a2, a3
	tail	tlsf_words.cells.pack_many
.LBB48_10:
	add	a1, a3, a4
	lbu	a6, -7(a1)
	lbu	a7, -6(a1)
	lbu	a2, -5(a1)
	lbu	a5, -8(a1)
	slli	a6, a6, 8
	slli	a7, a7, 16
	slli	a2, a2, 24
	or	a6, a6, a5
	or	a7, a2, a7
	lbu	a5, -3(a1)
	lbu	t0, -4(a1)
	lbu	a2, -2(a1)
	lbu	a1, -1(a1)
	slli	a5, a5, 8
	or	a5, a5, t0
	slli	a2, a2, 16
	slli	a1, a1, 24
	or	a1, a1, a2
	or	a2, a7, a6
	or	a1, a1, a5
	slli	a1, a1, 32
	or	a1, a1, a2
	add	a2, a0, a4
	sd	a1, -8(a2)
	andi	a1, a4, 16
	beqz	a1, .LBB48_6
.LBB48_11:
	andi	a1, a4, 32
	add	a2, a3, a1
	lbu	a6, 1(a2)
	lbu	a7, 2(a2)
	lbu	a5, 3(a2)
	lbu	t0, 0(a2)
	slli	a6, a6, 8
	slli	a7, a7, 16
	slli	a5, a5, 24
	or	a6, a6, t0
	or	a7, a5, a7
	lbu	a5, 5(a2)
	lbu	t0, 4(a2)
	lbu	t1, 6(a2)
	lbu	a2, 7(a2)
	slli	a5, a5, 8
	or	t0, a5, t0
	add	t3, a0, a1
	addiw	t2, a1, 8
	slli	t1, t1, 16
	slli	a2, a2, 24
	or	a2, a2, t1
	add	a1, a3, t2
	or	a5, a7, a6
	or	a2, a2, t0
	slli	a2, a2, 32
	or	a2, a2, a5
	sd	a2, 0(t3)
	lbu	a6, 1(a1)
	lbu	a7, 2(a1)
	lbu	a2, 3(a1)
	lbu	a5, 0(a1)
	slli	a6, a6, 8
	slli	a7, a7, 16
	slli	a2, a2, 24
	or	a6, a6, a5
	or	a7, a2, a7
	lbu	a5, 5(a1)
	lbu	t0, 4(a1)
	lbu	a2, 6(a1)
	lbu	a1, 7(a1)
	slli	a5, a5, 8
	or	a5, a5, t0
	slli	a2, a2, 16
	slli	a1, a1, 24
	or	a1, a1, a2
	or	a2, a7, a6
	or	a1, a1, a5
	slli	a1, a1, 32
	or	a1, a1, a2
	add	t2, t2, a0
	sd	a1, 0(t2)
	li	a1, 25
	bltu	a4, a1, .LBB48_7
.LBB48_12:
	lbu	a1, 1(a3)
	lbu	a2, 0(a3)
	lbu	a7, 2(a3)
	lbu	t0, 3(a3)
	slli	a1, a1, 8
	or	a6, a1, a2
	lbu	t1, 4(a3)
	lbu	a1, 5(a3)
	lbu	a4, 6(a3)
	lbu	a5, 7(a3)
	slli	a7, a7, 16
	slli	t0, t0, 24
	slli	a1, a1, 8
	slli	a4, a4, 16
	slli	a5, a5, 24
	or	a2, t0, a7
	or	a1, a1, t1
	or	a4, a4, a5
	or	a2, a2, a6
	or	a1, a1, a4
	slli	a1, a1, 32
	or	a1, a1, a2
	sd	a1, 0(a0)
	lbu	a1, 9(a3)
	lbu	a2, 8(a3)
	lbu	a7, 10(a3)
	lbu	t0, 11(a3)
	slli	a1, a1, 8
	or	a6, a1, a2
	lbu	t1, 12(a3)
	lbu	a1, 13(a3)
	lbu	a4, 14(a3)
	lbu	a5, 15(a3)
	slli	a7, a7, 16
	slli	t0, t0, 24
	or	a2, t0, a7
	slli	a1, a1, 8
	slli	a4, a4, 16
	slli	a5, a5, 24
	or	a1, a1, t1
	or	a4, a4, a5
	or	a2, a2, a6
	or	a1, a1, a4
	slli	a1, a1, 32
	or	a1, a1, a2
	sd	a1, 8(a0)
	lbu	a1, 17(a3)
	lbu	a2, 18(a3)
	lbu	a4, 19(a3)
	lbu	a5, 16(a3)
	slli	a1, a1, 8
	slli	a2, a2, 16
	slli	a4, a4, 24
	or	a6, a1, a5
	or	a7, a4, a2
	lbu	a4, 21(a3)
	lbu	a5, 20(a3)
	lbu	a1, 22(a3)
	lbu	a2, 23(a3)
	slli	a4, a4, 8
	or	a4, a4, a5
	slli	a1, a1, 16
	slli	a2, a2, 24
	or	a1, a1, a2
	or	a2, a7, a6
	or	a1, a1, a4
	slli	a1, a1, 32
	or	a1, a1, a2
	sd	a1, 16(a0)
	lbu	a1, 25(a3)
	lbu	a2, 26(a3)
	lbu	a4, 27(a3)
	lbu	a5, 24(a3)
	slli	a1, a1, 8
	slli	a2, a2, 16
	slli	a4, a4, 24
	or	a6, a1, a5
	or	a2, a2, a4
	lbu	a4, 29(a3)
	lbu	a5, 28(a3)
	lbu	a1, 30(a3)
	lbu	a3, 31(a3)
	slli	a4, a4, 8
	or	a4, a4, a5
	slli	a1, a1, 16
	slli	a3, a3, 24
	or	a1, a1, a3
	or	a2, a2, a6
	or	a1, a1, a4
	slli	a1, a1, 32
	or	a1, a1, a2
	sd	a1, 24(a0)
	ret
.Lfunc_end48:
	.size	tlsf_heap.region.Region.write.4, .Lfunc_end48-tlsf_heap.region.Region.write.4
	.cfi_endproc
	.p2align	1
	.type	tlsf_words.cells.pack_many,@function
tlsf_words.cells.pack_many:
	.cfi_startproc
	andi	t5, a1, -4
	andi	a4, a1, 1
	slli	a5, t5, 3
	add	a6, a0, a5
	add	a5, a5, a2
	beqz	a4, .LBB49_2
	slli	a4, a1, 3
	andi	a7, a4, 24
	add	a4, a5, a7
	lbu	t0, -7(a4)
	lbu	t1, -6(a4)
	lbu	t2, -5(a4)
	lbu	t3, -8(a4)
	slli	t0, t0, 8
	slli	t1, t1, 16
	slli	t2, t2, 24
	or	t0, t0, t3
	or	t1, t2, t1
	lbu	t2, -3(a4)
	lbu	t3, -4(a4)
	lbu	t4, -2(a4)
	lbu	a4, -1(a4)
	slli	t2, t2, 8
	or	t2, t2, t3
	slli	t4, t4, 16
	slli	a4, a4, 24
	or	a4, a4, t4
	or	t0, t1, t0
	or	a4, a4, t2
	slli	a4, a4, 32
	or	a4, a4, t0
	add	a7, a7, a6
	sd	a4, -8(a7)
.LBB49_2:
	andi	a1, a1, 2
	beqz	a1, .LBB49_4
	lbu	a7, 1(a5)
	lbu	t0, 2(a5)
	lbu	a1, 3(a5)
	lbu	a4, 0(a5)
	slli	a7, a7, 8
	slli	t0, t0, 16
	slli	a1, a1, 24
	or	a7, a7, a4
	or	t0, a1, t0
	lbu	t2, 5(a5)
	lbu	t1, 4(a5)
	lbu	a1, 6(a5)
	lbu	a4, 7(a5)
	slli	t2, t2, 8
	or	t1, t2, t1
	slli	a1, a1, 16
	slli	a4, a4, 24
	or	a1, a1, a4
	or	a4, t0, a7
	or	a1, a1, t1
	slli	a1, a1, 32
	or	a1, a1, a4
	sd	a1, 0(a6)
	lbu	a7, 9(a5)
	lbu	t0, 10(a5)
	lbu	a1, 11(a5)
	lbu	a4, 8(a5)
	slli	a7, a7, 8
	slli	t0, t0, 16
	slli	a1, a1, 24
	or	a7, a7, a4
	or	t0, a1, t0
	lbu	a4, 13(a5)
	lbu	t1, 12(a5)
	lbu	a1, 14(a5)
	lbu	a5, 15(a5)
	slli	a4, a4, 8
	or	a4, a4, t1
	slli	a1, a1, 16
	slli	a5, a5, 24
	or	a1, a1, a5
	or	a5, t0, a7
	or	a1, a1, a4
	slli	a1, a1, 32
	or	a1, a1, a5
	sd	a1, 8(a6)
.LBB49_4:
	lbu	a1, 1(a2)
	lbu	a4, 2(a2)
	lbu	a5, 3(a2)
	lbu	a3, 0(a2)
	slli	a1, a1, 8
	slli	a4, a4, 16
	slli	a5, a5, 24
	or	a6, a1, a3
	or	a7, a5, a4
	lbu	a3, 5(a2)
	lbu	a5, 4(a2)
	lbu	a1, 6(a2)
	lbu	a4, 7(a2)
	slli	a3, a3, 8
	or	a3, a3, a5
	slli	a1, a1, 16
	slli	a4, a4, 24
	or	a1, a1, a4
	addi	t5, t5, -1
	or	a4, a7, a6
	or	a1, a1, a3
	slli	a1, a1, 32
	or	a1, a1, a4
	sd	a1, 0(a0)
	addi	a0, a0, 8
	addi	a2, a2, 8
	bnez	t5, .LBB49_4
	ret
.Lfunc_end49:
	.size	tlsf_words.cells.pack_many, .Lfunc_end49-tlsf_words.cells.pack_many
	.cfi_endproc
	.p2align	1
	.type	tlsf_words.words.Words.write_few,@function
tlsf_words.words.Words.write_few:
	.cfi_startproc
	addi	sp, sp, -80
	.cfi_def_cfa_offset 80
	sd	ra, 72(sp)
	sd	s0, 64(sp)
	sd	s1, 56(sp)
	sd	s2, 48(sp)
	sd	s3, 40(sp)
	sd	s4, 32(sp)
	sd	s5, 24(sp)
	sd	s6, 16(sp)
	sd	s7, 8(sp)
	.cfi_offset ra, -8
	.cfi_offset s0, -16
	.cfi_offset s1, -24
	.cfi_offset s2, -32
	.cfi_offset s3, -40
	.cfi_offset s4, -48
	.cfi_offset s5, -56
	.cfi_offset s6, -64
	.cfi_offset s7, -72
	addi	s0, sp, 80
	.cfi_def_cfa s0, 0
	mv	s5, a3
	mv	s2, a2
	mv	s3, a0
	andi	a0, a1, 7
	li	s1, 8
	sub	s1, s1, a0
	mv	s4, s1
	bltu	s1, a3, .LBB50_2
	mv	s4, s5
.LBB50_2:
	lui	a2, 524288
	srli	a2, a2, 28
	and	s6, a1, a2
	beqz	s5, .LBB50_4
	ld	a1, 0(s3)
	add	s7, a1, s6
	ld	a1, 0(s7)
	sd	a1, -80(s0)
	addi	a1, s0, -80
	or	a0, a0, a1
	mv	a1, s2
	mv	a2, s4
	call	tlsf_memory_cpy
	ld	a0, -80(s0)
	sd	a0, 0(s7)
.LBB50_4:
	bgeu	s1, s5, .LBB50_6
	ld	a0, 0(s3)
	add	s6, s6, a0
	ld	a0, 8(s6)
	sub	a2, s5, s4
	add	a1, s2, s4
	sd	a0, -80(s0)
	addi	a0, s0, -80
	call	tlsf_memory_cpy
	ld	a0, -80(s0)
	sd	a0, 8(s6)
.LBB50_6:
	.cfi_def_cfa sp, 80
	ld	ra, 72(sp)
	ld	s0, 64(sp)
	ld	s1, 56(sp)
	ld	s2, 48(sp)
	ld	s3, 40(sp)
	ld	s4, 32(sp)
	ld	s5, 24(sp)
	ld	s6, 16(sp)
	ld	s7, 8(sp)
	.cfi_restore ra
	.cfi_restore s0
	.cfi_restore s1
	.cfi_restore s2
	.cfi_restore s3
	.cfi_restore s4
	.cfi_restore s5
	.cfi_restore s6
	.cfi_restore s7
	addi	sp, sp, 80
	.cfi_def_cfa_offset 0
	ret
.Lfunc_end50:
	.size	tlsf_words.words.Words.write_few, .Lfunc_end50-tlsf_words.words.Words.write_few
	.cfi_endproc
	.p2align	1
	.type	tlsf_words.words.Words.write_run,@function
tlsf_words.words.Words.write_run:
	.cfi_startproc
	addi	sp, sp, -32
	.cfi_def_cfa_offset 32
	sd	s0, 24(sp)
	sd	s1, 16(sp)
	sd	s2, 8(sp)
	.cfi_offset s0, -8
	.cfi_offset s1, -16
	.cfi_offset s2, -24
	.cfi_remember_state
	neg	a4, a1
	andi	t0, a4, 7
	sub	a6, a3, t0
	andi	a7, a6, -8
	andi	s0, a1, 7
	or	t2, a7, t0
	beqz	s0, .LBB51_2
	lui	t1, 524288
	ld	t4, 0(a0)
	lbu	t3, 0(a2)
	lbu	t5, 1(a2)
	lbu	t6, 2(a2)
	lbu	a4, 3(a2)
	srli	a5, t1, 28
	and	a5, a5, a1
	add	t4, t4, a5
	slli	t5, t5, 8
	slli	t6, t6, 16
	slli	a4, a4, 24
	or	t1, t5, t3
	or	t3, a4, t6
	lbu	a4, 5(a2)
	lbu	a5, 4(a2)
	lbu	t5, 6(a2)
	lbu	t6, 7(a2)
	slli	a4, a4, 8
	or	s2, a4, a5
	slli	s0, s0, 3
	slli	t5, t5, 16
	slli	t6, t6, 24
	or	a5, t6, t5
	li	a4, -1
	sll	a4, a4, s0
	not	t5, a4
	or	s1, t3, t1
	ld	a4, 0(t4)
	or	a5, a5, s2
	slli	a5, a5, 32
	or	a5, a5, s1
	and	a4, a4, t5
	sll	a5, a5, s0
	add	a4, a4, a5
	sd	a4, 0(t4)
.LBB51_2:
	addi	t3, a1, 7
	beq	a3, t2, .LBB51_4
	sub	t1, a3, t2
	add	a3, a3, a2
	ld	a5, 0(a0)
	add	a7, a7, t3
	lbu	t2, -8(a3)
	lbu	s0, -7(a3)
	lbu	a4, -6(a3)
	lbu	a1, -5(a3)
	andi	s1, a7, -8
	add	a5, a5, s1
	slli	s0, s0, 8
	slli	a4, a4, 16
	slli	a1, a1, 24
	or	a7, s0, t2
	or	a1, a1, a4
	lbu	a4, -3(a3)
	lbu	s0, -4(a3)
	lbu	s1, -2(a3)
	lbu	a3, -1(a3)
	slli	a4, a4, 8
	or	a4, a4, s0
	slli	s1, s1, 16
	slli	a3, a3, 24
	or	a3, a3, s1
	slli	t1, t1, 3
	or	a1, a1, a7
	ld	s1, 0(a5)
	or	a3, a3, a4
	slli	a3, a3, 32
	or	a1, a1, a3
	neg	a3, t1
	srl	a1, a1, a3
	xor	s1, s1, a1
	srl	a3, s1, t1
	sll	a3, a3, t1
	xor	a1, a1, a3
	sd	a1, 0(a5)
.LBB51_4:
	add	a2, a2, t0
	ld	a0, 0(a0)
	lui	a1, 786432
	srli	a1, a1, 27
	and	a1, t3, a1
	li	a3, 63
	add	a0, a0, a1
	bltu	a3, a6, .LBB51_9
	andi	a1, a6, 8
	bnez	a1, .LBB51_10
	andi	a1, a6, 16
	bnez	a1, .LBB51_11
.LBB51_7:
	li	a1, 32
	bgeu	a6, a1, .LBB51_12
.LBB51_8:
	ld	s0, 24(sp)
	ld	s1, 16(sp)
	ld	s2, 8(sp)
	.cfi_restore s0
	.cfi_restore s1
	.cfi_restore s2
	addi	sp, sp, 32
	.cfi_def_cfa_offset 0
	ret
.LBB51_9:
	.cfi_restore_state
	.cfi_remember_state
	srli	a1, a6, 3
	ld	s0, 24(sp)
	ld	s1, 16(sp)
	ld	s2, 8(sp)
	.cfi_restore s0
	.cfi_restore s1
	.cfi_restore s2
	addi	sp, sp, 32
	.cfi_def_cfa_offset 0
	tail	tlsf_words.cells.pack_many
.LBB51_10:
	.cfi_restore_state
	andi	a1, a6, 56
	add	a3, a2, a1
	lbu	a4, -7(a3)
	lbu	a5, -6(a3)
	lbu	s1, -5(a3)
	lbu	s0, -8(a3)
	slli	a4, a4, 8
	slli	a5, a5, 16
	slli	s1, s1, 24
	or	a7, a4, s0
	or	a5, a5, s1
	lbu	s1, -3(a3)
	lbu	s0, -4(a3)
	lbu	a4, -2(a3)
	lbu	a3, -1(a3)
	slli	s1, s1, 8
	or	s0, s0, s1
	slli	a4, a4, 16
	slli	a3, a3, 24
	or	a3, a3, a4
	or	a4, a5, a7
	or	a3, a3, s0
	slli	a3, a3, 32
	or	a3, a3, a4
	add	a1, a1, a0
	sd	a3, -8(a1)
	andi	a1, a6, 16
	beqz	a1, .LBB51_7
.LBB51_11:
	andi	a1, a6, 32
	add	a3, a2, a1
	lbu	a4, 1(a3)
	lbu	a5, 2(a3)
	lbu	s1, 3(a3)
	lbu	s0, 0(a3)
	slli	a4, a4, 8
	slli	a5, a5, 16
	slli	s1, s1, 24
	or	a7, a4, s0
	or	a5, a5, s1
	lbu	s1, 5(a3)
	lbu	s0, 4(a3)
	lbu	a4, 6(a3)
	lbu	a3, 7(a3)
	slli	s1, s1, 8
	or	s0, s0, s1
	add	s1, a0, a1
	addiw	t0, a1, 8
	slli	a4, a4, 16
	slli	a3, a3, 24
	or	a3, a3, a4
	add	a4, a2, t0
	or	a5, a5, a7
	or	a3, a3, s0
	slli	a3, a3, 32
	or	a3, a3, a5
	sd	a3, 0(s1)
	lbu	a3, 1(a4)
	lbu	a5, 2(a4)
	lbu	s1, 3(a4)
	lbu	s0, 0(a4)
	slli	a3, a3, 8
	slli	a5, a5, 16
	slli	s1, s1, 24
	or	a3, a3, s0
	or	a5, a5, s1
	lbu	s1, 5(a4)
	lbu	s0, 4(a4)
	lbu	a1, 6(a4)
	lbu	a4, 7(a4)
	slli	s1, s1, 8
	or	s0, s0, s1
	slli	a1, a1, 16
	slli	a4, a4, 24
	or	a1, a1, a4
	or	a3, a3, a5
	or	a1, a1, s0
	slli	a1, a1, 32
	or	a1, a1, a3
	add	t0, t0, a0
	sd	a1, 0(t0)
	li	a1, 32
	bltu	a6, a1, .LBB51_8
.LBB51_12:
	lbu	a1, 1(a2)
	lbu	a3, 0(a2)
	lbu	a4, 2(a2)
	lbu	a5, 3(a2)
	slli	a1, a1, 8
	or	a6, a1, a3
	lbu	a3, 4(a2)
	lbu	s1, 5(a2)
	lbu	s0, 6(a2)
	lbu	a1, 7(a2)
	slli	a4, a4, 16
	slli	a5, a5, 24
	slli	s1, s1, 8
	slli	s0, s0, 16
	slli	a1, a1, 24
	or	a4, a4, a5
	or	a3, a3, s1
	or	a1, a1, s0
	or	a4, a4, a6
	or	a1, a1, a3
	slli	a1, a1, 32
	or	a1, a1, a4
	sd	a1, 0(a0)
	lbu	a1, 9(a2)
	lbu	a3, 8(a2)
	lbu	a4, 10(a2)
	lbu	a5, 11(a2)
	slli	a1, a1, 8
	or	a6, a1, a3
	lbu	a3, 12(a2)
	lbu	s1, 13(a2)
	lbu	s0, 14(a2)
	lbu	a1, 15(a2)
	slli	a4, a4, 16
	slli	a5, a5, 24
	or	a4, a4, a5
	slli	s1, s1, 8
	slli	s0, s0, 16
	slli	a1, a1, 24
	or	a3, a3, s1
	or	a1, a1, s0
	or	a4, a4, a6
	or	a1, a1, a3
	slli	a1, a1, 32
	or	a1, a1, a4
	sd	a1, 8(a0)
	lbu	a1, 17(a2)
	lbu	a3, 18(a2)
	lbu	a4, 19(a2)
	lbu	a5, 16(a2)
	slli	a1, a1, 8
	slli	a3, a3, 16
	slli	a4, a4, 24
	or	a1, a1, a5
	or	a3, a3, a4
	lbu	a4, 21(a2)
	lbu	a5, 20(a2)
	lbu	s1, 22(a2)
	lbu	s0, 23(a2)
	slli	a4, a4, 8
	or	a4, a4, a5
	slli	s1, s1, 16
	slli	s0, s0, 24
	or	s0, s0, s1
	or	a1, a1, a3
	or	a4, a4, s0
	slli	a4, a4, 32
	or	a1, a1, a4
	sd	a1, 16(a0)
	lbu	a1, 25(a2)
	lbu	a3, 26(a2)
	lbu	a4, 27(a2)
	lbu	a5, 24(a2)
	slli	a1, a1, 8
	slli	a3, a3, 16
	slli	a4, a4, 24
	or	a1, a1, a5
	or	a3, a3, a4
	lbu	a4, 29(a2)
	lbu	a5, 28(a2)
	lbu	s1, 30(a2)
	lbu	a2, 31(a2)
	slli	a4, a4, 8
	or	a4, a4, a5
	slli	s1, s1, 16
	slli	a2, a2, 24
	or	a2, a2, s1
	or	a1, a1, a3
	or	a2, a2, a4
	slli	a2, a2, 32
	or	a1, a1, a2
	sd	a1, 24(a0)
	ld	s0, 24(sp)
	ld	s1, 16(sp)
	ld	s2, 8(sp)
	.cfi_restore s0
	.cfi_restore s1
	.cfi_restore s2
	addi	sp, sp, 32
	.cfi_def_cfa_offset 0
	ret
.Lfunc_end51:
	.size	tlsf_words.words.Words.write_run, .Lfunc_end51-tlsf_words.words.Words.write_run
	.cfi_endproc
	.p2align	1
	.type	tlsf_heap.region.Region.write.5,@function
tlsf_heap.region.Region.write.5:
	.cfi_startproc
	slli	a1, a1, 32
	slli	a5, a2, 32
	or	a2, a2, a4
	srli	a1, a1, 29
	srli	a5, a5, 32
	add	a1, a1, a5
	andi	a2, a2, 7
	addi	a1, a1, 24
	beqz	a2, .LBB52_3
	li	a2, 7
	bltu	a2, a4, .LBB52_8
	mv	a2, a3
	mv	a3, a4
	tail	tlsf_words.words.Words.write_few
.LBB52_3:
	ld	a0, 0(a0)
	li	a2, 63
	add	a0, a0, a1
	bltu	a2, a4, .LBB52_9
	andi	a1, a4, 8
	bnez	a1, .LBB52_10
	andi	a1, a4, 16
	bnez	a1, .LBB52_11
.LBB52_6:
	li	a1, 25
	bgeu	a4, a1, .LBB52_12
.LBB52_7:
	ret
.LBB52_8:
	mv	a2, a3
	mv	a3, a4
	tail	tlsf_words.words.Words.write_run
.LBB52_9:
	srli	a1, a4, 3
	mv	a2, a3
	tail	tlsf_words.cells.pack_many
.LBB52_10:
	add	a1, a3, a4
	lbu	a6, -7(a1)
	lbu	a7, -6(a1)
	lbu	a2, -5(a1)
	lbu	a5, -8(a1)
	slli	a6, a6, 8
	slli	a7, a7, 16
	slli	a2, a2, 24
	or	a6, a6, a5
	or	a7, a2, a7
	lbu	a5, -3(a1)
	lbu	t0, -4(a1)
	lbu	a2, -2(a1)
	lbu	a1, -1(a1)
	slli	a5, a5, 8
	or	a5, a5, t0
	slli	a2, a2, 16
	slli	a1, a1, 24
	or	a1, a1, a2
	or	a2, a7, a6
	or	a1, a1, a5
	slli	a1, a1, 32
	or	a1, a1, a2
	add	a2, a0, a4
	sd	a1, -8(a2)
	andi	a1, a4, 16
	beqz	a1, .LBB52_6
.LBB52_11:
	andi	a1, a4, 32
	add	a2, a3, a1
	lbu	a6, 1(a2)
	lbu	a7, 2(a2)
	lbu	a5, 3(a2)
	lbu	t0, 0(a2)
	slli	a6, a6, 8
	slli	a7, a7, 16
	slli	a5, a5, 24
	or	a6, a6, t0
	or	a7, a5, a7
	lbu	a5, 5(a2)
	lbu	t0, 4(a2)
	lbu	t1, 6(a2)
	lbu	a2, 7(a2)
	slli	a5, a5, 8
	or	t0, a5, t0
	add	t3, a0, a1
	addiw	t2, a1, 8
	slli	t1, t1, 16
	slli	a2, a2, 24
	or	a2, a2, t1
	add	a1, a3, t2
	or	a5, a7, a6
	or	a2, a2, t0
	slli	a2, a2, 32
	or	a2, a2, a5
	sd	a2, 0(t3)
	lbu	a6, 1(a1)
	lbu	a7, 2(a1)
	lbu	a2, 3(a1)
	lbu	a5, 0(a1)
	slli	a6, a6, 8
	slli	a7, a7, 16
	slli	a2, a2, 24
	or	a6, a6, a5
	or	a7, a2, a7
	lbu	a5, 5(a1)
	lbu	t0, 4(a1)
	lbu	a2, 6(a1)
	lbu	a1, 7(a1)
	slli	a5, a5, 8
	or	a5, a5, t0
	slli	a2, a2, 16
	slli	a1, a1, 24
	or	a1, a1, a2
	or	a2, a7, a6
	or	a1, a1, a5
	slli	a1, a1, 32
	or	a1, a1, a2
	add	t2, t2, a0
	sd	a1, 0(t2)
	li	a1, 25
	bltu	a4, a1, .LBB52_7
.LBB52_12:
	lbu	a1, 1(a3)
	lbu	a2, 0(a3)
	lbu	a7, 2(a3)
	lbu	t0, 3(a3)
	slli	a1, a1, 8
	or	a6, a1, a2
	lbu	t1, 4(a3)
	lbu	a1, 5(a3)
	lbu	a4, 6(a3)
	lbu	a5, 7(a3)
	slli	a7, a7, 16
	slli	t0, t0, 24
	slli	a1, a1, 8
	slli	a4, a4, 16
	slli	a5, a5, 24
	or	a2, t0, a7
	or	a1, a1, t1
	or	a4, a4, a5
	or	a2, a2, a6
	or	a1, a1, a4
	slli	a1, a1, 32
	or	a1, a1, a2
	sd	a1, 0(a0)
	lbu	a1, 9(a3)
	lbu	a2, 8(a3)
	lbu	a7, 10(a3)
	lbu	t0, 11(a3)
	slli	a1, a1, 8
	or	a6, a1, a2
	lbu	t1, 12(a3)
	lbu	a1, 13(a3)
	lbu	a4, 14(a3)
	lbu	a5, 15(a3)
	slli	a7, a7, 16
	slli	t0, t0, 24
	or	a2, t0, a7
	slli	a1, a1, 8
	slli	a4, a4, 16
	slli	a5, a5, 24
	or	a1, a1, t1
	or	a4, a4, a5
	or	a2, a2, a6
	or	a1, a1, a4
	slli	a1, a1, 32
	or	a1, a1, a2
	sd	a1, 8(a0)
	lbu	a1, 17(a3)
	lbu	a2, 18(a3)
	lbu	a4, 19(a3)
	lbu	a5, 16(a3)
	slli	a1, a1, 8
	slli	a2, a2, 16
	slli	a4, a4, 24
	or	a6, a1, a5
	or	a7, a4, a2
	lbu	a4, 21(a3)
	lbu	a5, 20(a3)
	lbu	a1, 22(a3)
	lbu	a2, 23(a3)
	slli	a4, a4, 8
	or	a4, a4, a5
	slli	a1, a1, 16
	slli	a2, a2, 24
	or	a1, a1, a2
	or	a2, a7, a6
	or	a1, a1, a4
	slli	a1, a1, 32
	or	a1, a1, a2
	sd	a1, 16(a0)
	lbu	a1, 25(a3)
	lbu	a2, 26(a3)
	lbu	a4, 27(a3)
	lbu	a5, 24(a3)
	slli	a1, a1, 8
	slli	a2, a2, 16
	slli	a4, a4, 24
	or	a6, a1, a5
	or	a2, a2, a4
	lbu	a4, 29(a3)
	lbu	a5, 28(a3)
	lbu	a1, 30(a3)
	lbu	a3, 31(a3)
	slli	a4, a4, 8
	or	a4, a4, a5
	slli	a1, a1, 16
	slli	a3, a3, 24
	or	a1, a1, a3
	or	a2, a2, a6
	or	a1, a1, a4
	slli	a1, a1, 32
	or	a1, a1, a2
	sd	a1, 24(a0)
	ret
.Lfunc_end52:
	.size	tlsf_heap.region.Region.write.5, .Lfunc_end52-tlsf_heap.region.Region.write.5
	.cfi_endproc
	.section	.rodata.cst32,"aM",@progbits,32
.LCPI53_0:
	.ascii	"\000\001\034\002\035\016\030\003\036\026\024\017\031\021\004\b\037\033\r\027\025\023\020\007\032\f\022\006\013\005\n\t"
	.text
	.globl	tlsf_allocate
	.p2align	1
	.type	tlsf_allocate,@function
tlsf_allocate:
	.cfi_startproc
	addi	sp, sp, -48
	.cfi_def_cfa_offset 48
	sd	ra, 40(sp)
	sd	s0, 32(sp)
	sd	s1, 24(sp)
	sd	s2, 16(sp)
	sd	s3, 8(sp)
	sd	s4, 0(sp)
	.cfi_offset ra, -8
	.cfi_offset s0, -16
	.cfi_offset s1, -24
	.cfi_offset s2, -32
	.cfi_offset s3, -40
	.cfi_offset s4, -48
	addi	s0, sp, 48
	.cfi_def_cfa s0, 0
	.cfi_remember_state
	lbu	a3, 8(a0)
	beqz	a3, .LBB53_16
	ld	s1, 0(a0)
	lbu	a3, 0(s1)
	beqz	a3, .LBB53_16
	li	a3, -1
	srli	a3, a3, 32
	mv	t5, a1
	bltu	a1, a3, .LBB53_4
	mv	t5, a3
.LBB53_4:
	sb	zero, 0(s1)
	lbu	a3, 16(s1)
	seqz	a1, a1
	add	a1, a1, t5
	addi	a1, a1, 31
	srli	t3, a1, 3
	beqz	a3, .LBB53_10
	lui	a3, 32768
	addi	a3, a3, 7
	bltu	a3, a1, .LBB53_11
	ori	a1, t3, 32
	lui	a3, 349525
	lui	a4, 209715
	srliw	a5, a1, 1
	addi	a3, a3, 1365
	or	a1, a1, a5
	srliw	a5, a1, 2
	or	a1, a1, a5
	srliw	a5, a1, 4
	or	a1, a1, a5
	srliw	a5, a1, 8
	or	a1, a1, a5
	srliw	a5, a1, 16
	or	a1, a1, a5
	not	a1, a1
	srli	a5, a1, 1
	and	a3, a3, a5
	lui	a5, 61681
	addi	a4, a4, 819
	sub	a1, a1, a3
	and	a3, a1, a4
	srli	a1, a1, 2
	and	a1, a1, a4
	lui	a4, 4112
	add	a1, a1, a3
	srli	a3, a1, 4
	add	a1, a1, a3
	li	a3, 26
	addi	a5, a5, -241
	and	a1, a1, a5
	addi	a5, t3, -1
	addi	a4, a4, 257
	mul	a1, a1, a4
	srliw	a1, a1, 24
	sub	a3, a3, a1
	srlw	a5, a5, a3
	slli	a3, a3, 5
	add	a3, a3, a5
	addiw	a3, a3, 1
	addi	a4, a3, -1
	srli	a1, a4, 5
	slli	a3, a1, 2
	add	a3, a3, s1
	lw	a3, 108(a3)
	srlw	a3, a3, a5
	andi	a3, a3, -2
	beqz	a3, .LBB53_17
	neg	a1, a3
	and	a1, a1, a3
	lui	a3, 30667
	addi	a3, a3, 1329
	mul	a1, a1, a3
.Lpcrel_hi4:
	auipc	a3, %pcrel_hi(.LCPI53_0)
	srliw	a1, a1, 27
	addi	a3, a3, %pcrel_lo(.Lpcrel_hi4)
	add	a1, a1, a3
	lbu	a1, 0(a1)
	add	a4, a4, a1
	ld	t4, 32(s1)
	li	a3, -1
	beq	t4, a3, .LBB53_35
.LBB53_8:
	slli	a5, a4, 2
	add	a5, a5, s1
	lwu	t2, 192(a5)
	ld	t1, 48(s1)
	slli	a6, t2, 3
	add	a1, t1, a6
	lw	a1, 16(a1)
	beq	a1, a3, .LBB53_23
	slli	a3, a1, 32
	srli	a3, a3, 29
	add	a3, a3, t1
	ld	a7, 16(a3)
	li	a4, -1
	slli	a4, a4, 32
	or	a4, a7, a4
	sd	a4, 16(a3)
	ld	t1, 48(s1)
	sw	a1, 192(a5)
	j	.LBB53_25
.LBB53_10:
	lui	a3, 2048
	addi	a3, a3, 7
	bgeu	a3, a1, .LBB53_14
.LBB53_11:
	lw	a1, 8(s1)
	lw	a0, 12(s1)
	addiw	a1, a1, 1
	snez	a2, a1
	addi	a2, a2, -1
	or	a1, a1, a2
	sext.w	t5, t5
	sw	a1, 8(s1)
	bltu	a0, t5, .LBB53_13
	mv	t5, a0
.LBB53_13:
	sw	t5, 12(s1)
	li	a0, 1
	j	.LBB53_53
.LBB53_14:
	ori	a1, t3, 16
	lui	a3, 349525
	lui	a4, 209715
	srliw	a5, a1, 1
	addi	a3, a3, 1365
	or	a1, a1, a5
	srliw	a5, a1, 2
	or	a1, a1, a5
	srliw	a5, a1, 4
	or	a1, a1, a5
	srliw	a5, a1, 8
	or	a1, a1, a5
	srliw	a5, a1, 16
	or	a1, a1, a5
	not	a1, a1
	srli	a5, a1, 1
	and	a3, a3, a5
	lui	a5, 61681
	addi	a4, a4, 819
	sub	a1, a1, a3
	and	a3, a1, a4
	srli	a1, a1, 2
	and	a1, a1, a4
	lui	a4, 4112
	add	a1, a1, a3
	srli	a3, a1, 4
	add	a1, a1, a3
	li	a3, 27
	addi	a5, a5, -241
	and	a1, a1, a5
	addi	a5, t3, -1
	addi	a4, a4, 257
	mul	a1, a1, a4
	srliw	a1, a1, 24
	sub	a3, a3, a1
	srlw	a4, a5, a3
	slli	a3, a3, 4
	add	a3, a3, a4
	addiw	a3, a3, 1
	addi	a3, a3, -1
	srli	a1, a3, 4
	slli	a5, a1, 2
	add	a5, a5, s1
	lw	a5, 108(a5)
	andi	a4, a4, 15
	srlw	a4, a5, a4
	andi	a4, a4, -2
	beqz	a4, .LBB53_20
	neg	a1, a4
	and	a1, a1, a4
	lui	a4, 30667
	addi	a4, a4, 1329
	mul	a1, a1, a4
.Lpcrel_hi2:
	auipc	a4, %pcrel_hi(.LCPI53_0)
	srliw	a1, a1, 27
	addi	a4, a4, %pcrel_lo(.Lpcrel_hi2)
	add	a1, a1, a4
	lbu	a1, 0(a1)
	add	a3, a3, a1
	ld	t4, 32(s1)
	li	a1, -1
	bne	t4, a1, .LBB53_33
	j	.LBB53_35
.LBB53_16:
	li	a0, 0
	call	tlsf_c.call_fault.CallFault.refusal
	j	.LBB53_54
.LBB53_17:
	lw	a3, 104(s1)
	li	a4, -2
	sllw	a1, a4, a1
	and	a1, a1, a3
	beqz	a1, .LBB53_11
	neg	a3, a1
	lui	a4, 30667
.Lpcrel_hi5:
	auipc	a5, %pcrel_hi(.LCPI53_0)
	and	a1, a1, a3
	addi	a3, a4, 1329
	mul	a1, a1, a3
	srliw	a1, a1, 27
	addi	a4, a5, %pcrel_lo(.Lpcrel_hi5)
	add	a1, a1, a4
	lbu	a6, 0(a1)
	slli	a5, a6, 2
	add	a5, a5, s1
	lw	a5, 108(a5)
	beqz	a5, .LBB53_31
	neg	a1, a5
	and	a1, a1, a5
	mul	a1, a1, a3
	srliw	a1, a1, 27
	add	a1, a1, a4
	lbu	a4, 0(a1)
	slli	a6, a6, 5
	add	a4, a4, a6
	ld	t4, 32(s1)
	li	a3, -1
	bne	t4, a3, .LBB53_8
	j	.LBB53_35
.LBB53_20:
	lw	a3, 104(s1)
	li	a4, -2
	sllw	a1, a4, a1
	and	a1, a1, a3
	beqz	a1, .LBB53_11
	neg	a3, a1
	lui	a4, 30667
.Lpcrel_hi3:
	auipc	a5, %pcrel_hi(.LCPI53_0)
	and	a1, a1, a3
	addi	a3, a4, 1329
	mul	a1, a1, a3
	srliw	a1, a1, 27
	addi	a4, a5, %pcrel_lo(.Lpcrel_hi3)
	add	a1, a1, a4
	lbu	a6, 0(a1)
	slli	a5, a6, 2
	add	a5, a5, s1
	lw	a5, 108(a5)
	beqz	a5, .LBB53_32
	neg	a1, a5
	and	a1, a1, a5
	mul	a1, a1, a3
	srliw	a1, a1, 27
	add	a1, a1, a4
	lbu	a3, 0(a1)
	slli	a6, a6, 4
	add	a3, a3, a6
	ld	t4, 32(s1)
	li	a1, -1
	bne	t4, a1, .LBB53_33
	j	.LBB53_35
.LBB53_23:
	li	a3, -1
	srli	a1, a4, 5
	sw	a3, 192(a5)
	slli	a3, a1, 2
	add	a5, s1, a3
	lw	a3, 108(a5)
	li	a7, 1
	sllw	a4, a7, a4
	not	a4, a4
	and	a3, a3, a4
	sw	a3, 108(a5)
	bnez	a3, .LBB53_25
	lw	a3, 104(s1)
	sllw	a1, a7, a1
	not	a1, a1
	and	a1, a1, a3
	sw	a1, 104(s1)
.LBB53_25:
	add	a1, t1, a6
	ld	a4, 0(a1)
	slli	a3, t3, 2
	subw	a5, a4, a3
	li	a3, 15
	bltu	a3, a5, .LBB53_27
	addi	a4, a4, -1
	sd	a4, 0(a1)
	sd	t4, 8(a1)
	sd	t5, 16(a1)
	srliw	a1, a4, 2
	j	.LBB53_45
.LBB53_27:
	srliw	a7, a5, 2
	li	t6, -1
	slli	a3, a5, 32
	slli	t0, t2, 32
	add	a6, t2, t3
	li	s2, 1
	srli	a3, a3, 32
	slli	s3, a6, 32
	or	s4, t0, a3
	sub	a4, a4, a3
	srli	t0, s3, 29
	sd	a4, 0(a1)
	sd	t4, 8(a1)
	sd	t5, 16(a1)
	add	t1, t1, t0
	sd	s4, 0(t1)
	sd	t4, 8(t1)
	ld	a1, 72(s1)
	andi	a5, a5, 2
	srliw	a3, a6, 6
	slli	a3, a3, 3
	add	a1, a1, a3
	ld	a3, 0(a1)
	srli	t1, t6, 32
	sll	a4, s2, a6
	srli	t5, s3, 32
	or	a3, a3, a4
	sd	a3, 0(a1)
	slli	t5, t5, 32
	bnez	a5, .LBB53_29
	ld	a1, 48(s1)
	add	a3, a7, a6
	slli	a3, a3, 32
	srli	a3, a3, 29
	add	a1, a1, a3
	ld	a3, 0(a1)
	and	a3, a3, t1
	or	a3, a3, t5
	sd	a3, 0(a1)
.LBB53_29:
	ori	a1, a7, 32
	lui	a3, 349525
	lui	a4, 209715
	srli	a5, a1, 1
	addi	a3, a3, 1365
	or	a1, a1, a5
	srli	a5, a1, 2
	or	a1, a1, a5
	srli	a5, a1, 4
	or	a1, a1, a5
	slli	a5, a1, 34
	srli	a5, a5, 42
	or	a1, a1, a5
	slli	a5, a1, 33
	srli	a5, a5, 49
	or	a1, a1, a5
	not	a1, a1
	srli	a5, a1, 1
	and	a3, a3, a5
	lui	a5, 61681
	addi	a4, a4, 819
	sub	a1, a1, a3
	and	a3, a1, a4
	srli	a1, a1, 2
	and	a1, a1, a4
	lui	a4, 4112
	add	a1, a1, a3
	srli	a3, a1, 4
	add	a1, a1, a3
	li	a3, 26
	addi	a5, a5, -241
	addi	a4, a4, 257
	and	a1, a1, a5
	mul	a1, a1, a4
	srliw	a1, a1, 24
	sub	a3, a3, a1
	srlw	a7, a7, a3
	slli	a1, a3, 5
	add	a1, a1, a7
	slli	a3, a1, 2
	add	a3, a3, s1
	lw	a5, 192(a3)
	ld	a4, 48(s1)
	sw	a6, 192(a3)
	bgez	a5, .LBB53_43
	add	a4, a4, t0
	li	a3, -1
	srli	a1, a1, 5
	li	a6, 1
	sd	a3, 16(a4)
	slli	a3, a1, 2
	add	a3, a3, s1
	lw	t0, 104(s1)
	lw	a5, 108(a3)
	sllw	a1, a6, a1
	sllw	a4, a6, a7
	or	a1, t0, a1
	or	a4, a4, a5
	sw	a1, 104(s1)
	sw	a4, 108(a3)
	j	.LBB53_44
.LBB53_31:
	li	a4, 32
	slli	a6, a6, 5
	add	a4, a4, a6
	ld	t4, 32(s1)
	li	a3, -1
	bne	t4, a3, .LBB53_8
	j	.LBB53_35
.LBB53_32:
	li	a3, 32
	slli	a6, a6, 4
	add	a3, a3, a6
	ld	t4, 32(s1)
	li	a1, -1
	beq	t4, a1, .LBB53_35
.LBB53_33:
	slli	a4, a3, 2
	add	a4, a4, s1
	lwu	t2, 192(a4)
	ld	t1, 48(s1)
	slli	a6, t2, 3
	add	a5, t1, a6
	lw	a5, 16(a5)
	beq	a5, a1, .LBB53_36
	slli	a1, a5, 32
	srli	a1, a1, 29
	add	a1, a1, t1
	ld	a7, 16(a1)
	li	a3, -1
	slli	a3, a3, 32
	or	a3, a7, a3
	sd	a3, 16(a1)
	ld	t1, 48(s1)
	sw	a5, 192(a4)
	j	.LBB53_38
.LBB53_35:
	li	a0, 2
	j	.LBB53_53
.LBB53_36:
	li	a1, -1
	srli	a5, a3, 4
	sw	a1, 192(a4)
	slli	a1, a5, 2
	add	a4, s1, a1
	lw	a1, 108(a4)
	andi	a3, a3, 15
	li	a7, 1
	sllw	a3, a7, a3
	not	a3, a3
	and	a1, a1, a3
	sw	a1, 108(a4)
	bnez	a1, .LBB53_38
	lw	a1, 104(s1)
	sllw	a3, a7, a5
	not	a3, a3
	and	a1, a1, a3
	sw	a1, 104(s1)
.LBB53_38:
	add	a1, t1, a6
	ld	a3, 0(a1)
	slli	a4, t3, 2
	subw	a5, a3, a4
	li	a4, 15
	bltu	a4, a5, .LBB53_40
	addi	a3, a3, -1
	sd	a3, 0(a1)
	sd	t4, 8(a1)
	sd	t5, 16(a1)
	srliw	a1, a3, 2
	j	.LBB53_45
.LBB53_40:
	srliw	a7, a5, 2
	li	t6, -1
	slli	a4, a5, 32
	slli	t0, t2, 32
	add	a6, t2, t3
	li	s2, 1
	srli	a4, a4, 32
	slli	s3, a6, 32
	or	s4, t0, a4
	sub	a3, a3, a4
	srli	t0, s3, 29
	sd	a3, 0(a1)
	sd	t4, 8(a1)
	sd	t5, 16(a1)
	add	t1, t1, t0
	sd	s4, 0(t1)
	sd	t4, 8(t1)
	ld	a1, 72(s1)
	andi	a5, a5, 2
	srliw	a3, a6, 6
	slli	a3, a3, 3
	add	a1, a1, a3
	ld	a3, 0(a1)
	srli	t1, t6, 32
	sll	a4, s2, a6
	srli	t5, s3, 32
	or	a3, a3, a4
	sd	a3, 0(a1)
	slli	t5, t5, 32
	bnez	a5, .LBB53_42
	ld	a1, 48(s1)
	add	a3, a7, a6
	slli	a3, a3, 32
	srli	a3, a3, 29
	add	a1, a1, a3
	ld	a3, 0(a1)
	and	a3, a3, t1
	or	a3, a3, t5
	sd	a3, 0(a1)
.LBB53_42:
	ori	a1, a7, 16
	lui	a3, 349525
	lui	a4, 209715
	srli	a5, a1, 1
	addi	a3, a3, 1365
	or	a1, a1, a5
	srli	a5, a1, 2
	or	a1, a1, a5
	srli	a5, a1, 4
	or	a1, a1, a5
	slli	a5, a1, 34
	srli	a5, a5, 42
	or	a1, a1, a5
	slli	a5, a1, 33
	srli	a5, a5, 49
	or	a1, a1, a5
	not	a1, a1
	srli	a5, a1, 1
	and	a3, a3, a5
	lui	a5, 61681
	addi	a4, a4, 819
	sub	a1, a1, a3
	and	a3, a1, a4
	srli	a1, a1, 2
	and	a1, a1, a4
	lui	a4, 4112
	add	a1, a1, a3
	srli	a3, a1, 4
	add	a1, a1, a3
	li	a3, 27
	addi	a5, a5, -241
	addi	a4, a4, 257
	and	a1, a1, a5
	mul	a1, a1, a4
	srliw	a1, a1, 24
	sub	a3, a3, a1
	srlw	a7, a7, a3
	slli	a1, a3, 4
	add	a1, a1, a7
	slli	a3, a1, 2
	add	a3, a3, s1
	lw	a5, 192(a3)
	ld	a4, 48(s1)
	sw	a6, 192(a3)
	bltz	a5, .LBB53_55
.LBB53_43:
	li	a1, -1
	add	t0, t0, a4
	slli	a1, a1, 32
	or	a1, a1, a5
	slli	a5, a5, 3
	sd	a1, 16(t0)
	add	a4, a4, a5
	ld	a1, 16(a4)
	and	a1, a1, t1
	or	a1, a1, t5
	sd	a1, 16(a4)
.LBB53_44:
	mv	a1, t3
.LBB53_45:
	lw	a3, 40(s1)
	lw	a4, 44(s1)
	addw	a1, a1, a3
	sw	a1, 40(s1)
	bgeu	a4, a1, .LBB53_47
	sw	a1, 44(s1)
.LBB53_47:
	ld	a3, 32(s1)
	lw	a1, 24(s1)
	addi	a3, a3, 1
	andi	a4, t3, 1
	sd	a3, 32(s1)
	beqz	a4, .LBB53_50
	lbu	a3, 28(a0)
	bnez	a3, .LBB53_50
	li	a3, 1
	sb	a3, 28(a0)
.LBB53_50:
	srli	a6, a1, 24
	srli	t1, a1, 16
	srli	a4, a1, 8
	srli	a7, t2, 24
	srli	t5, t2, 16
	srli	a5, t2, 8
	srli	t0, t4, 56
	srli	t6, t4, 48
	srli	a0, t4, 40
	srli	a3, t4, 32
	sb	a1, 0(a2)
	sb	a4, 1(a2)
	sb	t1, 2(a2)
	sb	a6, 3(a2)
	srli	a1, t4, 24
	sb	t2, 4(a2)
	sb	a5, 5(a2)
	sb	t5, 6(a2)
	sb	a7, 7(a2)
	srli	a4, t4, 16
	sb	a3, 12(a2)
	sb	a0, 13(a2)
	sb	t6, 14(a2)
	sb	t0, 15(a2)
	srli	a0, t4, 8
	addiw	t3, t3, -3
	sb	t4, 8(a2)
	sb	a0, 9(a2)
	sb	a4, 10(a2)
	sb	a1, 11(a2)
	beqz	t3, .LBB53_52
	ld	a0, 48(s1)
	addi	t2, t2, 3
	slli	t2, t2, 32
	srli	a1, t2, 29
	add	a0, a0, a1
	slli	a2, t3, 3
	li	a1, 0
	call	tlsf_memory_set
.LBB53_52:
	li	a0, 0
.LBB53_53:
	li	a1, 1
	sb	a1, 0(s1)
.LBB53_54:
	sext.w	a0, a0
	.cfi_def_cfa sp, 48
	ld	ra, 40(sp)
	ld	s0, 32(sp)
	ld	s1, 24(sp)
	ld	s2, 16(sp)
	ld	s3, 8(sp)
	ld	s4, 0(sp)
	.cfi_restore ra
	.cfi_restore s0
	.cfi_restore s1
	.cfi_restore s2
	.cfi_restore s3
	.cfi_restore s4
	addi	sp, sp, 48
	.cfi_def_cfa_offset 0
	ret
.LBB53_55:
	.cfi_restore_state
	add	a4, a4, t0
	li	a6, -1
	srli	a1, a1, 4
	li	t0, 1
	andi	a7, a7, 15
	sd	a6, 16(a4)
	slli	a4, a1, 2
	add	a4, a4, s1
	lw	a5, 104(s1)
	lw	a6, 108(a4)
	sllw	a1, t0, a1
	sllw	a3, t0, a7
	or	a1, a1, a5
	or	a3, a6, a3
	sw	a1, 104(s1)
	sw	a3, 108(a4)
	j	.LBB53_44
.Lfunc_end53:
	.size	tlsf_allocate, .Lfunc_end53-tlsf_allocate
	.cfi_endproc
	.section	.rodata.cst32,"aM",@progbits,32
.LCPI54_0:
	.ascii	"\000\001\034\002\035\016\030\003\036\026\024\017\031\021\004\b\037\033\r\027\025\023\020\007\032\f\022\006\013\005\n\t"
	.text
	.globl	tlsf_allocate_aligned
	.p2align	1
	.type	tlsf_allocate_aligned,@function
tlsf_allocate_aligned:
	.cfi_startproc
	addi	sp, sp, -112
	.cfi_def_cfa_offset 112
	sd	ra, 104(sp)
	sd	s0, 96(sp)
	sd	s1, 88(sp)
	sd	s2, 80(sp)
	sd	s3, 72(sp)
	sd	s4, 64(sp)
	sd	s5, 56(sp)
	sd	s6, 48(sp)
	sd	s7, 40(sp)
	sd	s8, 32(sp)
	sd	s9, 24(sp)
	sd	s10, 16(sp)
	.cfi_offset ra, -8
	.cfi_offset s0, -16
	.cfi_offset s1, -24
	.cfi_offset s2, -32
	.cfi_offset s3, -40
	.cfi_offset s4, -48
	.cfi_offset s5, -56
	.cfi_offset s6, -64
	.cfi_offset s7, -72
	.cfi_offset s8, -80
	.cfi_offset s9, -88
	.cfi_offset s10, -96
	addi	s0, sp, 112
	.cfi_def_cfa s0, 0
	.cfi_remember_state
	lbu	a4, 8(a0)
	beqz	a4, .LBB54_16
	ld	s1, 0(a0)
	lbu	a0, 0(s1)
	beqz	a0, .LBB54_16
	li	a0, -1
	srli	a0, a0, 32
	mv	s7, a1
	bltu	a1, a0, .LBB54_4
	mv	s7, a0
.LBB54_4:
	lbu	a0, 16(s1)
	ld	t5, 32(s1)
	sb	zero, 0(s1)
	addi	s2, s1, 24
	beqz	a0, .LBB54_10
	li	a0, -5
	bltu	a0, t5, .LBB54_11
	sext.w	t3, a2
	lui	a2, 4096
	bltu	a2, t3, .LBB54_74
	seqz	a0, t3
	seqz	a1, a1
	add	t3, t3, a0
	add	a1, a1, s7
	addi	a1, a1, 31
	srli	s3, a1, 3
	add	t4, t3, s3
	addiw	t4, t4, 4
	bltu	a2, t4, .LBB54_74
	ori	a0, t4, 32
	lui	a1, 349525
	lui	a2, 209715
	lui	a4, 61681
	srliw	a5, a0, 1
	addi	a1, a1, 1365
	or	a0, a0, a5
	srliw	a5, a0, 2
	or	a0, a0, a5
	srliw	a5, a0, 4
	or	a0, a0, a5
	srliw	a5, a0, 8
	or	a0, a0, a5
	srliw	a5, a0, 16
	or	a0, a0, a5
	not	a0, a0
	srli	a5, a0, 1
	and	a1, a1, a5
	lui	a5, 4112
	addi	a2, a2, 819
	sub	a0, a0, a1
	and	a1, a0, a2
	srli	a0, a0, 2
	and	a0, a0, a2
	li	a2, 26
	add	a0, a0, a1
	srli	a1, a0, 4
	add	a0, a0, a1
	addi	a1, t4, -1
	addi	a4, a4, -241
	addi	a5, a5, 257
	and	a0, a0, a4
	mul	a0, a0, a5
	srliw	a0, a0, 24
	sub	a2, a2, a0
	srlw	a0, a1, a2
	slli	a2, a2, 5
	add	a2, a2, a0
	addiw	a1, a2, 1
	addi	a1, a1, -1
	srli	a2, a1, 5
	slli	a4, a2, 2
	add	a4, a4, s1
	lw	a4, 108(a4)
	lw	s8, 44(s1)
	srlw	a0, a4, a0
	andi	a0, a0, -2
	beqz	a0, .LBB54_17
	neg	a2, a0
	and	a0, a0, a2
	lui	a2, 30667
	addi	a2, a2, 1329
	mul	a0, a0, a2
.Lpcrel_hi8:
	auipc	a2, %pcrel_hi(.LCPI54_0)
	srliw	a0, a0, 27
	addi	a2, a2, %pcrel_lo(.Lpcrel_hi8)
	add	a0, a0, a2
	lbu	a0, 0(a0)
	add	a1, a1, a0
	j	.LBB54_25
.LBB54_10:
	li	a0, -5
	bgeu	a0, t5, .LBB54_12
.LBB54_11:
	li	a1, 0
	li	a0, 1
	sb	a0, 0(s1)
	slli	a0, a0, 33
	j	.LBB54_78
.LBB54_12:
	sext.w	t3, a2
	lui	a2, 256
	bltu	a2, t3, .LBB54_74
	seqz	a0, t3
	seqz	a1, a1
	add	t3, t3, a0
	add	a1, a1, s7
	addi	a1, a1, 31
	srli	s3, a1, 3
	add	t4, t3, s3
	addiw	t4, t4, 4
	bltu	a2, t4, .LBB54_74
	ori	a0, t4, 16
	lui	a1, 349525
	lui	a2, 209715
	lui	a4, 61681
	srliw	a5, a0, 1
	addi	a1, a1, 1365
	or	a0, a0, a5
	srliw	a5, a0, 2
	or	a0, a0, a5
	srliw	a5, a0, 4
	or	a0, a0, a5
	srliw	a5, a0, 8
	or	a0, a0, a5
	srliw	a5, a0, 16
	or	a0, a0, a5
	not	a0, a0
	srli	a5, a0, 1
	and	a1, a1, a5
	lui	a5, 4112
	addi	a2, a2, 819
	sub	a0, a0, a1
	and	a1, a0, a2
	srli	a0, a0, 2
	and	a0, a0, a2
	li	a2, 27
	add	a0, a0, a1
	srli	a1, a0, 4
	add	a0, a0, a1
	addi	a1, t4, -1
	addi	a4, a4, -241
	addi	a5, a5, 257
	and	a0, a0, a4
	mul	a0, a0, a5
	srliw	a0, a0, 24
	sub	a2, a2, a0
	srlw	a0, a1, a2
	slli	a2, a2, 4
	add	a2, a2, a0
	addiw	a1, a2, 1
	addi	a1, a1, -1
	srli	a2, a1, 4
	slli	a4, a2, 2
	add	a4, a4, s1
	lw	a4, 108(a4)
	lw	s8, 44(s1)
	andi	a0, a0, 15
	srlw	a0, a4, a0
	andi	a0, a0, -2
	beqz	a0, .LBB54_20
	neg	a2, a0
	and	a0, a0, a2
	lui	a2, 30667
	addi	a2, a2, 1329
	mul	a0, a0, a2
.Lpcrel_hi6:
	auipc	a2, %pcrel_hi(.LCPI54_0)
	srliw	a0, a0, 27
	addi	a2, a2, %pcrel_lo(.Lpcrel_hi6)
	add	a0, a0, a2
	lbu	a0, 0(a0)
	add	a1, a1, a0
	j	.LBB54_50
.LBB54_16:
	li	a0, 0
	call	tlsf_c.call_fault.CallFault.refusal
	li	a1, 0
	j	.LBB54_77
.LBB54_17:
	lw	a0, 104(s1)
	li	a1, -2
	sllw	a1, a1, a2
	and	a1, a1, a0
	beqz	a1, .LBB54_74
	neg	a0, a1
	lui	a2, 30667
.Lpcrel_hi9:
	auipc	a4, %pcrel_hi(.LCPI54_0)
	and	a0, a0, a1
	addi	a2, a2, 1329
	mul	a0, a0, a2
	srliw	a0, a0, 27
	addi	a4, a4, %pcrel_lo(.Lpcrel_hi9)
	add	a0, a0, a4
	lbu	a1, 0(a0)
	slli	a0, a1, 2
	add	a0, a0, s1
	lw	a0, 108(a0)
	beqz	a0, .LBB54_23
	neg	a5, a0
	and	a0, a0, a5
	mul	a0, a0, a2
	srliw	a0, a0, 27
	add	a0, a0, a4
	lbu	a0, 0(a0)
	j	.LBB54_24
.LBB54_20:
	lw	a0, 104(s1)
	li	a1, -2
	sllw	a1, a1, a2
	and	a1, a1, a0
	beqz	a1, .LBB54_74
	neg	a0, a1
	lui	a2, 30667
.Lpcrel_hi7:
	auipc	a4, %pcrel_hi(.LCPI54_0)
	and	a0, a0, a1
	addi	a2, a2, 1329
	mul	a0, a0, a2
	srliw	a0, a0, 27
	addi	a4, a4, %pcrel_lo(.Lpcrel_hi7)
	add	a0, a0, a4
	lbu	a1, 0(a0)
	slli	a0, a1, 2
	add	a0, a0, s1
	lw	a0, 108(a0)
	beqz	a0, .LBB54_48
	neg	a5, a0
	and	a0, a0, a5
	mul	a0, a0, a2
	srliw	a0, a0, 27
	add	a0, a0, a4
	lbu	a0, 0(a0)
	j	.LBB54_49
.LBB54_23:
	li	a0, 32
.LBB54_24:
	slli	a1, a1, 5
	add	a1, a1, a0
.LBB54_25:
	slli	a2, a1, 2
	add	a2, a2, s1
	lwu	s5, 192(a2)
	ld	a4, 48(s1)
	slli	s6, s5, 3
	add	a0, a4, s6
	lw	a5, 16(a0)
	li	a0, -1
	addi	s4, s1, 48
	beq	a5, a0, .LBB54_27
	slli	a1, a5, 32
	srli	a1, a1, 29
	add	a1, a1, a4
	ld	a4, 16(a1)
	slli	a0, a0, 32
	or	a0, a0, a4
	sd	a0, 16(a1)
	ld	a4, 0(s4)
	sw	a5, 192(a2)
	j	.LBB54_29
.LBB54_27:
	sw	a0, 192(a2)
	srli	a2, a1, 5
	slli	a0, a2, 2
	add	a5, s1, a0
	lw	a0, 108(a5)
	li	a6, 1
	sllw	a1, a6, a1
	not	a1, a1
	and	a0, a0, a1
	sw	a0, 108(a5)
	bnez	a0, .LBB54_29
	lw	a0, 104(s1)
	sllw	a1, a6, a2
	not	a1, a1
	and	a0, a0, a1
	sw	a0, 104(s1)
.LBB54_29:
	add	a5, a4, s6
	ld	a2, 0(a5)
	slli	a0, t4, 2
	subw	a1, a2, a0
	li	a0, 15
	bltu	a0, a1, .LBB54_31
	addi	a2, a2, -1
	sd	a2, 0(a5)
	sd	t5, 8(a5)
	sd	zero, 16(a5)
	srliw	t4, a2, 2
	j	.LBB54_36
.LBB54_31:
	srliw	t1, a1, 2
	li	a7, -1
	slli	a0, a1, 32
	slli	a6, s5, 32
	add	t2, s5, t4
	li	t0, 1
	srli	a0, a0, 32
	slli	t6, t2, 32
	or	s9, a6, a0
	sub	a2, a2, a0
	srli	a6, t6, 29
	sd	a2, 0(a5)
	sd	t5, 8(a5)
	sd	zero, 16(a5)
	add	a4, a4, a6
	sd	s9, 0(a4)
	sd	t5, 8(a4)
	ld	a0, 72(s1)
	andi	a1, a1, 2
	srliw	a2, t2, 6
	slli	a2, a2, 3
	add	a0, a0, a2
	ld	a2, 0(a0)
	srli	a7, a7, 32
	sll	a4, t0, t2
	srli	t0, t6, 32
	or	a2, a2, a4
	sd	a2, 0(a0)
	slli	t0, t0, 32
	bnez	a1, .LBB54_33
	ld	a0, 0(s4)
	add	a1, t1, t2
	slli	a1, a1, 32
	srli	a1, a1, 29
	add	a0, a0, a1
	ld	a1, 0(a0)
	and	a1, a1, a7
	or	a1, a1, t0
	sd	a1, 0(a0)
.LBB54_33:
	ori	a0, t1, 32
	lui	a1, 349525
	lui	a2, 209715
	srli	a4, a0, 1
	addi	a1, a1, 1365
	or	a0, a0, a4
	srli	a4, a0, 2
	or	a0, a0, a4
	srli	a4, a0, 4
	or	a0, a0, a4
	slli	a4, a0, 34
	srli	a4, a4, 42
	or	a0, a0, a4
	slli	a4, a0, 33
	srli	a4, a4, 49
	or	a0, a0, a4
	not	a0, a0
	srli	a4, a0, 1
	and	a1, a1, a4
	lui	a4, 61681
	addi	a2, a2, 819
	sub	a0, a0, a1
	and	a1, a0, a2
	srli	a0, a0, 2
	and	a0, a0, a2
	lui	a2, 4112
	add	a0, a0, a1
	srli	a1, a0, 4
	add	a0, a0, a1
	li	a1, 26
	addi	a4, a4, -241
	addi	a2, a2, 257
	and	a0, a0, a4
	mul	a0, a0, a2
	srliw	a0, a0, 24
	sub	a0, a1, a0
	srlw	a1, t1, a0
	slli	a0, a0, 5
	add	a5, a1, a0
	slli	a0, a5, 2
	add	a0, a0, s1
	lw	a4, 192(a0)
	ld	a2, 0(s4)
	sw	t2, 192(a0)
	bltz	a4, .LBB54_35
	li	a0, -1
	add	a6, a6, a2
	slli	a0, a0, 32
	or	a0, a0, a4
	slli	a4, a4, 3
	sd	a0, 16(a6)
	add	a2, a2, a4
	ld	a0, 16(a2)
	and	a0, a0, a7
	or	a0, a0, t0
	sd	a0, 16(a2)
	j	.LBB54_36
.LBB54_35:
	add	a2, a2, a6
	li	a0, -1
	srli	a5, a5, 5
	li	a6, 1
	sd	a0, 16(a2)
	slli	a0, a5, 2
	add	a0, a0, s1
	lw	a2, 104(s1)
	lw	a4, 108(a0)
	sllw	a5, a6, a5
	sllw	a1, a6, a1
	or	a2, a2, a5
	or	a1, a1, a4
	sw	a2, 104(s1)
	sw	a1, 108(a0)
.LBB54_36:
	lw	a0, 40(s1)
	lw	a1, 44(s1)
	addw	a0, a0, t4
	sw	a0, 40(s1)
	bgeu	a1, a0, .LBB54_38
	sw	a0, 44(s1)
.LBB54_38:
	remuw	a0, a3, t3
	add	a0, a0, s5
	addi	a0, a0, 3
	remuw	a0, a0, t3
	ld	a2, 32(s1)
	lw	a1, 24(s1)
	addi	a2, a2, 1
	sd	a2, 32(s1)
	beqz	a0, .LBB54_47
	slli	a2, t3, 2
	add	a2, a2, t3
	sub	a2, a2, a0
	addi	a2, a2, -4
	remuw	s6, a2, t3
	addiw	s6, s6, 4
	sw	a1, -112(s0)
	sw	s5, -108(s0)
	sd	t5, -104(s0)
	addi	a1, s0, -112
	mv	a0, s2
	mv	a2, s6
	call	tlsf_heap.heap.Heap.resize_live.5
	zext.b	a0, a0
	bnez	a0, .LBB54_72
	lw	a0, 56(s1)
	addw	s5, s6, s5
	li	a1, 3
	bgeu	s5, a0, .LBB54_73
	ld	a0, 72(s1)
	srliw	a2, s5, 6
	slli	a2, a2, 3
	add	a0, a0, a2
	ld	a0, 0(a0)
	srl	a0, a0, s5
	andi	a0, a0, 1
	beqz	a0, .LBB54_73
	ld	a0, 0(s4)
	slli	s10, s5, 32
	srli	s6, s10, 29
	add	a0, a0, s6
	ld	s9, 0(a0)
	andi	a0, s9, 1
	beqz	a0, .LBB54_73
	sext.w	a0, s3
	srliw	a1, s9, 2
	bltu	a1, a0, .LBB54_69
	ld	a0, 32(s1)
	li	a2, -1
	beq	a0, a2, .LBB54_82
	mv	a0, s4
	mv	a2, s5
	call	tlsf_heap.region.Region.remove.5
	ld	t5, 32(s1)
	slli	a1, s3, 2
	subw	a3, s9, a1
	li	a1, 15
	bltu	a1, a3, .LBB54_83
	ld	a1, 0(s4)
	addi	s9, s9, -1
	add	a1, a1, s6
	sd	s9, 0(a1)
	sd	t5, 8(a1)
	sd	zero, 16(a1)
	srliw	s3, s9, 2
	j	.LBB54_92
.LBB54_47:
	sw	a1, -112(s0)
	sw	s5, -108(s0)
	mv	s4, t5
	sd	t5, -104(s0)
	addi	a1, s0, -112
	mv	a0, s2
	mv	a2, s3
	call	tlsf_heap.heap.Heap.resize_live.5
	j	.LBB54_71
.LBB54_48:
	li	a0, 32
.LBB54_49:
	slli	a1, a1, 4
	add	a1, a1, a0
.LBB54_50:
	slli	a2, a1, 2
	add	a2, a2, s1
	lwu	s5, 192(a2)
	ld	a4, 48(s1)
	slli	s6, s5, 3
	add	a0, a4, s6
	lw	a5, 16(a0)
	li	a0, -1
	addi	s4, s1, 48
	beq	a5, a0, .LBB54_52
	slli	a1, a5, 32
	srli	a1, a1, 29
	add	a1, a1, a4
	ld	a4, 16(a1)
	slli	a0, a0, 32
	or	a0, a0, a4
	sd	a0, 16(a1)
	ld	a4, 0(s4)
	sw	a5, 192(a2)
	j	.LBB54_54
.LBB54_52:
	sw	a0, 192(a2)
	srli	a2, a1, 4
	slli	a0, a2, 2
	add	a5, s1, a0
	lw	a0, 108(a5)
	andi	a1, a1, 15
	li	a6, 1
	sllw	a1, a6, a1
	not	a1, a1
	and	a0, a0, a1
	sw	a0, 108(a5)
	bnez	a0, .LBB54_54
	lw	a0, 104(s1)
	sllw	a1, a6, a2
	not	a1, a1
	and	a0, a0, a1
	sw	a0, 104(s1)
.LBB54_54:
	add	a5, a4, s6
	ld	a2, 0(a5)
	slli	a0, t4, 2
	subw	a1, a2, a0
	li	a0, 15
	bltu	a0, a1, .LBB54_56
	addi	a2, a2, -1
	sd	a2, 0(a5)
	sd	t5, 8(a5)
	sd	zero, 16(a5)
	srliw	t4, a2, 2
	j	.LBB54_61
.LBB54_56:
	srliw	t1, a1, 2
	li	a7, -1
	slli	a0, a1, 32
	slli	a6, s5, 32
	add	t2, s5, t4
	li	t0, 1
	srli	a0, a0, 32
	slli	t6, t2, 32
	or	s9, a6, a0
	sub	a2, a2, a0
	srli	a6, t6, 29
	sd	a2, 0(a5)
	sd	t5, 8(a5)
	sd	zero, 16(a5)
	add	a4, a4, a6
	sd	s9, 0(a4)
	sd	t5, 8(a4)
	ld	a0, 72(s1)
	andi	a1, a1, 2
	srliw	a2, t2, 6
	slli	a2, a2, 3
	add	a0, a0, a2
	ld	a2, 0(a0)
	srli	a7, a7, 32
	sll	a4, t0, t2
	srli	t0, t6, 32
	or	a2, a2, a4
	sd	a2, 0(a0)
	slli	t0, t0, 32
	bnez	a1, .LBB54_58
	ld	a0, 0(s4)
	add	a1, t1, t2
	slli	a1, a1, 32
	srli	a1, a1, 29
	add	a0, a0, a1
	ld	a1, 0(a0)
	and	a1, a1, a7
	or	a1, a1, t0
	sd	a1, 0(a0)
.LBB54_58:
	ori	a0, t1, 16
	lui	a1, 349525
	lui	a2, 209715
	srli	a4, a0, 1
	addi	a1, a1, 1365
	or	a0, a0, a4
	srli	a4, a0, 2
	or	a0, a0, a4
	srli	a4, a0, 4
	or	a0, a0, a4
	slli	a4, a0, 34
	srli	a4, a4, 42
	or	a0, a0, a4
	slli	a4, a0, 33
	srli	a4, a4, 49
	or	a0, a0, a4
	not	a0, a0
	srli	a4, a0, 1
	and	a1, a1, a4
	lui	a4, 61681
	addi	a2, a2, 819
	sub	a0, a0, a1
	and	a1, a0, a2
	srli	a0, a0, 2
	and	a0, a0, a2
	lui	a2, 4112
	add	a0, a0, a1
	srli	a1, a0, 4
	add	a0, a0, a1
	li	a1, 27
	addi	a4, a4, -241
	addi	a2, a2, 257
	and	a0, a0, a4
	mul	a0, a0, a2
	srliw	a0, a0, 24
	sub	a0, a1, a0
	srlw	a1, t1, a0
	slli	a0, a0, 4
	add	a5, a1, a0
	slli	a0, a5, 2
	add	a0, a0, s1
	lw	a4, 192(a0)
	ld	a2, 0(s4)
	sw	t2, 192(a0)
	bltz	a4, .LBB54_60
	li	a0, -1
	add	a6, a6, a2
	slli	a0, a0, 32
	or	a0, a0, a4
	slli	a4, a4, 3
	sd	a0, 16(a6)
	add	a2, a2, a4
	ld	a0, 16(a2)
	and	a0, a0, a7
	or	a0, a0, t0
	sd	a0, 16(a2)
	j	.LBB54_61
.LBB54_60:
	add	a2, a2, a6
	li	a0, -1
	srli	a5, a5, 4
	li	a6, 1
	andi	a1, a1, 15
	sd	a0, 16(a2)
	slli	a0, a5, 2
	add	a0, a0, s1
	lw	a2, 104(s1)
	lw	a4, 108(a0)
	sllw	a5, a6, a5
	sllw	a1, a6, a1
	or	a2, a2, a5
	or	a1, a1, a4
	sw	a2, 104(s1)
	sw	a1, 108(a0)
.LBB54_61:
	lw	a0, 40(s1)
	lw	a1, 44(s1)
	addw	a0, a0, t4
	sw	a0, 40(s1)
	bgeu	a1, a0, .LBB54_63
	sw	a0, 44(s1)
.LBB54_63:
	remuw	a0, a3, t3
	add	a0, a0, s5
	addi	a0, a0, 3
	remuw	a0, a0, t3
	ld	a2, 32(s1)
	lw	a1, 24(s1)
	addi	a2, a2, 1
	sd	a2, 32(s1)
	beqz	a0, .LBB54_70
	slli	a2, t3, 2
	add	a2, a2, t3
	sub	a2, a2, a0
	addi	a2, a2, -4
	remuw	s6, a2, t3
	addiw	s6, s6, 4
	sw	a1, -112(s0)
	sw	s5, -108(s0)
	sd	t5, -104(s0)
	addi	a1, s0, -112
	mv	a0, s2
	mv	a2, s6
	call	tlsf_heap.heap.Heap.resize_live.4
	zext.b	a0, a0
	bnez	a0, .LBB54_72
	lw	a0, 56(s1)
	addw	s5, s6, s5
	li	a1, 3
	bgeu	s5, a0, .LBB54_73
	ld	a0, 72(s1)
	srliw	a2, s5, 6
	slli	a2, a2, 3
	add	a0, a0, a2
	ld	a0, 0(a0)
	srl	a0, a0, s5
	andi	a0, a0, 1
	beqz	a0, .LBB54_73
	ld	a0, 0(s4)
	slli	s10, s5, 32
	srli	s6, s10, 29
	add	a0, a0, s6
	ld	s9, 0(a0)
	andi	a0, s9, 1
	beqz	a0, .LBB54_73
	sext.w	a0, s3
	srliw	a1, s9, 2
	bgeu	a1, a0, .LBB54_79
.LBB54_69:
	li	a1, 5
	j	.LBB54_73
.LBB54_70:
	sw	a1, -112(s0)
	sw	s5, -108(s0)
	mv	s4, t5
	sd	t5, -104(s0)
	addi	a1, s0, -112
	mv	a0, s2
	mv	a2, s3
	call	tlsf_heap.heap.Heap.resize_live.4
.LBB54_71:
	zext.b	a0, a0
	beqz	a0, .LBB54_99
.LBB54_72:
	zext.b	a0, a1
	beqz	a0, .LBB54_74
.LBB54_73:
	li	a0, 1
	slli	a1, a1, 56
	sb	a0, 0(s1)
.Lpcrel_hi10:
	auipc	a0, %pcrel_hi(.Lswitch.table.tlsf_allocate_aligned)
	srai	a1, a1, 56
	slli	a1, a1, 3
	addi	a0, a0, %pcrel_lo(.Lpcrel_hi10)
	add	a0, a0, a1
	ld	a0, -8(a0)
	li	a1, 0
	j	.LBB54_78
.LBB54_74:
	lw	a1, 8(s1)
	lw	a0, 12(s1)
	addiw	a1, a1, 1
	snez	a2, a1
	addi	a2, a2, -1
	or	a1, a1, a2
	sext.w	s7, s7
	sw	a1, 8(s1)
	bltu	a0, s7, .LBB54_76
	mv	s7, a0
.LBB54_76:
	li	a1, 0
	li	a0, 1
	sb	a0, 0(s1)
	sw	s7, 12(s1)
.LBB54_77:
	slli	a0, a0, 32
.LBB54_78:
	.cfi_def_cfa sp, 112
	ld	ra, 104(sp)
	ld	s0, 96(sp)
	ld	s1, 88(sp)
	ld	s2, 80(sp)
	ld	s3, 72(sp)
	ld	s4, 64(sp)
	ld	s5, 56(sp)
	ld	s6, 48(sp)
	ld	s7, 40(sp)
	ld	s8, 32(sp)
	ld	s9, 24(sp)
	ld	s10, 16(sp)
	.cfi_restore ra
	.cfi_restore s0
	.cfi_restore s1
	.cfi_restore s2
	.cfi_restore s3
	.cfi_restore s4
	.cfi_restore s5
	.cfi_restore s6
	.cfi_restore s7
	.cfi_restore s8
	.cfi_restore s9
	.cfi_restore s10
	addi	sp, sp, 112
	.cfi_def_cfa_offset 0
	ret
.LBB54_79:
	.cfi_restore_state
	ld	a0, 32(s1)
	li	a2, -1
	beq	a0, a2, .LBB54_82
	mv	a0, s4
	mv	a2, s5
	call	tlsf_heap.region.Region.remove.4
	ld	t5, 32(s1)
	slli	a1, s3, 2
	subw	a3, s9, a1
	li	a1, 15
	bltu	a1, a3, .LBB54_87
	ld	a1, 0(s4)
	addi	s9, s9, -1
	add	a1, a1, s6
	sd	s9, 0(a1)
	sd	t5, 8(a1)
	sd	zero, 16(a1)
	srliw	s3, s9, 2
	j	.LBB54_96
.LBB54_82:
	li	a1, 1
	j	.LBB54_73
.LBB54_83:
	lui	a7, 131072
	srli	a5, s10, 32
	srliw	t1, a3, 2
	li	a6, -1
	slli	a4, a3, 32
	add	t2, s5, s3
	add	t4, s5, s3
	ld	a0, 48(s1)
	li	t3, 1
	andi	a3, a3, 2
	srli	a4, a4, 32
	slli	a5, a5, 32
	slli	a2, t2, 32
	or	a5, a5, a4
	sub	a4, s9, a4
	srli	t0, a2, 29
	add	a1, a0, s6
	add	a0, a0, t0
	sd	a4, 0(a1)
	sd	t5, 8(a1)
	sd	zero, 16(a1)
	sd	a5, 0(a0)
	sd	t5, 8(a0)
	ld	a0, 72(s1)
	addi	a7, a7, -8
	srli	a1, t4, 3
	and	a1, a1, a7
	add	a0, a0, a1
	ld	a1, 0(a0)
	srli	a6, a6, 32
	sll	a4, t3, t2
	srli	a2, a2, 32
	or	a1, a1, a4
	sd	a1, 0(a0)
	slli	a7, a2, 32
	bnez	a3, .LBB54_85
	ld	a0, 0(s4)
	add	a1, t1, t2
	slli	a1, a1, 32
	srli	a1, a1, 29
	add	a0, a0, a1
	ld	a1, 0(a0)
	and	a1, a1, a6
	or	a1, a1, a7
	sd	a1, 0(a0)
.LBB54_85:
	ori	a0, t1, 32
	lui	a1, 349525
	srli	a2, a0, 1
	addi	a1, a1, 1365
	or	a0, a0, a2
	srli	a2, a0, 2
	or	a0, a0, a2
	srli	a2, a0, 4
	or	a0, a0, a2
	slli	a2, a0, 34
	srli	a2, a2, 42
	or	a0, a0, a2
	slli	a2, a0, 33
	srli	a2, a2, 49
	or	a0, a0, a2
	not	a0, a0
	srli	a2, a0, 1
	and	a1, a1, a2
	lui	a2, 209715
	addi	a2, a2, 819
	sub	a0, a0, a1
	and	a1, a0, a2
	srli	a0, a0, 2
	and	a0, a0, a2
	lui	a2, 61681
	add	a0, a0, a1
	srli	a1, a0, 4
	add	a0, a0, a1
	lui	a1, 4112
	addi	a2, a2, -241
	and	a0, a0, a2
	li	a2, 26
	addi	a1, a1, 257
	mul	a0, a0, a1
	srliw	a0, a0, 24
	sub	a2, a2, a0
	srlw	a3, t1, a2
	slli	a2, a2, 5
	add	a2, a2, a3
	slli	a0, a2, 2
	add	a0, a0, s1
	lw	a5, 192(a0)
	ld	a4, 0(s4)
	sw	t2, 192(a0)
	bltz	a5, .LBB54_91
	li	a0, -1
	add	t0, t0, a4
	slli	a0, a0, 32
	or	a0, a0, a5
	slli	a5, a5, 3
	sd	a0, 16(t0)
	add	a4, a4, a5
	ld	a0, 16(a4)
	and	a0, a0, a6
	or	a0, a0, a7
	sd	a0, 16(a4)
	j	.LBB54_92
.LBB54_87:
	lui	a7, 131072
	srli	a5, s10, 32
	srliw	t1, a3, 2
	li	a6, -1
	slli	a4, a3, 32
	add	t2, s5, s3
	add	t4, s5, s3
	ld	a0, 48(s1)
	li	t3, 1
	andi	a3, a3, 2
	srli	a4, a4, 32
	slli	a5, a5, 32
	slli	a2, t2, 32
	or	a5, a5, a4
	sub	a4, s9, a4
	srli	t0, a2, 29
	add	a1, a0, s6
	add	a0, a0, t0
	sd	a4, 0(a1)
	sd	t5, 8(a1)
	sd	zero, 16(a1)
	sd	a5, 0(a0)
	sd	t5, 8(a0)
	ld	a0, 72(s1)
	addi	a7, a7, -8
	srli	a1, t4, 3
	and	a1, a1, a7
	add	a0, a0, a1
	ld	a1, 0(a0)
	srli	a6, a6, 32
	sll	a4, t3, t2
	srli	a2, a2, 32
	or	a1, a1, a4
	sd	a1, 0(a0)
	slli	a7, a2, 32
	bnez	a3, .LBB54_89
	ld	a0, 0(s4)
	add	a1, t1, t2
	slli	a1, a1, 32
	srli	a1, a1, 29
	add	a0, a0, a1
	ld	a1, 0(a0)
	and	a1, a1, a6
	or	a1, a1, a7
	sd	a1, 0(a0)
.LBB54_89:
	ori	a0, t1, 16
	lui	a1, 349525
	srli	a2, a0, 1
	addi	a1, a1, 1365
	or	a0, a0, a2
	srli	a2, a0, 2
	or	a0, a0, a2
	srli	a2, a0, 4
	or	a0, a0, a2
	slli	a2, a0, 34
	srli	a2, a2, 42
	or	a0, a0, a2
	slli	a2, a0, 33
	srli	a2, a2, 49
	or	a0, a0, a2
	not	a0, a0
	srli	a2, a0, 1
	and	a1, a1, a2
	lui	a2, 209715
	addi	a2, a2, 819
	sub	a0, a0, a1
	and	a1, a0, a2
	srli	a0, a0, 2
	and	a0, a0, a2
	lui	a2, 61681
	add	a0, a0, a1
	srli	a1, a0, 4
	add	a0, a0, a1
	lui	a1, 4112
	addi	a2, a2, -241
	and	a0, a0, a2
	li	a2, 27
	addi	a1, a1, 257
	mul	a0, a0, a1
	srliw	a0, a0, 24
	sub	a2, a2, a0
	srlw	a3, t1, a2
	slli	a2, a2, 4
	add	a2, a2, a3
	slli	a0, a2, 2
	add	a0, a0, s1
	lw	a5, 192(a0)
	ld	a4, 0(s4)
	sw	t2, 192(a0)
	bltz	a5, .LBB54_95
	li	a0, -1
	add	t0, t0, a4
	slli	a0, a0, 32
	or	a0, a0, a5
	slli	a5, a5, 3
	sd	a0, 16(t0)
	add	a4, a4, a5
	ld	a0, 16(a4)
	and	a0, a0, a6
	or	a0, a0, a7
	sd	a0, 16(a4)
	j	.LBB54_96
.LBB54_91:
	add	a4, a4, t0
	li	a0, -1
	srli	a2, a2, 5
	li	a1, 1
	sd	a0, 16(a4)
	slli	a0, a2, 2
	add	a0, a0, s1
	lw	a4, 104(s1)
	lw	a5, 108(a0)
	sllw	a2, a1, a2
	sllw	a1, a1, a3
	or	a2, a2, a4
	or	a1, a1, a5
	sw	a2, 104(s1)
	sw	a1, 108(a0)
.LBB54_92:
	lw	a0, 40(s1)
	lw	a2, 44(s1)
	addw	a1, a0, s3
	sw	a1, 40(s1)
	bgeu	a2, a1, .LBB54_94
	sw	a1, 44(s1)
.LBB54_94:
	mv	s4, t5
	addi	t5, t5, 1
	sd	t5, 32(s1)
	addi	a1, s0, -112
	mv	a0, s2
	call	tlsf_heap.heap.Heap.release_live.5
	j	.LBB54_99
.LBB54_95:
	add	a4, a4, t0
	li	a0, -1
	srli	a2, a2, 4
	li	a1, 1
	andi	a3, a3, 15
	sd	a0, 16(a4)
	slli	a0, a2, 2
	add	a0, a0, s1
	lw	a4, 104(s1)
	lw	a5, 108(a0)
	sllw	a2, a1, a2
	sllw	a1, a1, a3
	or	a2, a2, a4
	or	a1, a1, a5
	sw	a2, 104(s1)
	sw	a1, 108(a0)
.LBB54_96:
	lw	a0, 40(s1)
	lw	a2, 44(s1)
	addw	a1, a0, s3
	sw	a1, 40(s1)
	bgeu	a2, a1, .LBB54_98
	sw	a1, 44(s1)
.LBB54_98:
	mv	s4, t5
	addi	t5, t5, 1
	sd	t5, 32(s1)
	addi	a1, s0, -112
	mv	a0, s2
	call	tlsf_heap.heap.Heap.release_live.4
.LBB54_99:
	lw	a0, 40(s1)
	bltu	s8, a0, .LBB54_101
	mv	a0, s8
.LBB54_101:
	ld	a1, 48(s1)
	sw	a0, 44(s1)
	add	s6, s6, a1
	mv	a1, s4
	sd	s7, 16(s6)
	li	a0, 1
	slli	s5, s5, 32
	sb	a0, 0(s1)
	srli	a0, s5, 32
	j	.LBB54_78
.Lfunc_end54:
	.size	tlsf_allocate_aligned, .Lfunc_end54-tlsf_allocate_aligned
	.cfi_endproc
	.section	.rodata.cst32,"aM",@progbits,32
.LCPI55_0:
	.ascii	"\000\001\034\002\035\016\030\003\036\026\024\017\031\021\004\b\037\033\r\027\025\023\020\007\032\f\022\006\013\005\n\t"
	.text
	.globl	tlsf_allocate_payload
	.p2align	1
	.type	tlsf_allocate_payload,@function
tlsf_allocate_payload:
	.cfi_startproc
	mv	a2, a0
	lbu	a0, 8(a0)
	beqz	a0, .LBB55_50
	lui	a3, 32768
	li	a0, 0
	bltu	a3, a1, .LBB55_50
	addi	sp, sp, -32
	.cfi_def_cfa_offset 32
	sd	s0, 24(sp)
	sd	s1, 16(sp)
	sd	s2, 8(sp)
	sd	s3, 0(sp)
	.cfi_offset s0, -8
	.cfi_offset s1, -16
	.cfi_offset s2, -24
	.cfi_offset s3, -32
	ld	a2, 0(a2)
	lbu	a3, 0(a2)
	andi	a3, a3, 1
	beqz	a3, .LBB55_49
	lui	t4, 131072
	addi	a1, a1, 7
	sb	zero, 0(a2)
	lbu	a3, 16(a2)
	addi	t4, t4, -8
	addi	a0, t4, -8
	and	a0, a0, a1
	addiw	t5, a0, 8
	addi	a1, a0, 39
	srli	t2, a1, 3
	beqz	a3, .LBB55_7
	lui	a1, 32768
	addi	a1, a1, -32
	bltu	a1, a0, .LBB55_8
	ori	a0, t2, 32
	lui	a1, 349525
	lui	a3, 209715
	srli	a4, a0, 1
	addi	a1, a1, 1365
	or	a0, a0, a4
	srli	a4, a0, 2
	or	a0, a0, a4
	srli	a4, a0, 4
	or	a0, a0, a4
	slli	a4, a0, 37
	srli	a4, a4, 45
	or	a0, a0, a4
	slli	a4, a0, 33
	srli	a4, a4, 49
	or	a0, a0, a4
	not	a0, a0
	srli	a4, a0, 1
	and	a1, a1, a4
	lui	a4, 61681
	addi	a3, a3, 819
	sub	a0, a0, a1
	and	a1, a0, a3
	srli	a0, a0, 2
	and	a0, a0, a3
	lui	a3, 4112
	add	a0, a0, a1
	srli	a1, a0, 4
	add	a0, a0, a1
	li	a1, 26
	addi	a4, a4, -241
	and	a0, a0, a4
	addi	a4, t2, -1
	addi	a3, a3, 257
	mul	a0, a0, a3
	srliw	a0, a0, 24
	sub	a1, a1, a0
	srlw	a3, a4, a1
	slli	a1, a1, 5
	add	a1, a1, a3
	addiw	a1, a1, 1
	addi	a1, a1, -1
	srli	a0, a1, 5
	slli	a4, a0, 2
	add	a4, a4, a2
	lw	a4, 108(a4)
	srlw	a3, a4, a3
	andi	a3, a3, -2
	beqz	a3, .LBB55_14
	neg	a0, a3
	and	a0, a0, a3
	lui	a3, 30667
	addi	a3, a3, 1329
	mul	a0, a0, a3
.Lpcrel_hi13:
	auipc	a3, %pcrel_hi(.LCPI55_0)
	srliw	a0, a0, 27
	addi	a3, a3, %pcrel_lo(.Lpcrel_hi13)
	add	a0, a0, a3
	lbu	a0, 0(a0)
	add	a1, a1, a0
	ld	t3, 32(a2)
	li	a0, -1
	bne	t3, a0, .LBB55_22
	j	.LBB55_11
.LBB55_7:
	lui	a1, 2048
	addi	a1, a1, -32
	bgeu	a1, a0, .LBB55_12
.LBB55_8:
	lw	a1, 8(a2)
	lw	a0, 12(a2)
	addiw	a1, a1, 1
	snez	a3, a1
	addi	a3, a3, -1
	or	a1, a1, a3
	sw	a1, 8(a2)
	bltu	a0, t5, .LBB55_10
	mv	t5, a0
.LBB55_10:
	sw	t5, 12(a2)
.LBB55_11:
	li	a0, 0
	li	a1, 1
	sb	a1, 0(a2)
	j	.LBB55_49
.LBB55_12:
	ori	a0, t2, 16
	lui	a1, 349525
	lui	a3, 209715
	srli	a4, a0, 1
	addi	a1, a1, 1365
	or	a0, a0, a4
	srli	a4, a0, 2
	or	a0, a0, a4
	srli	a4, a0, 4
	or	a0, a0, a4
	slli	a4, a0, 37
	srli	a4, a4, 45
	or	a0, a0, a4
	slli	a4, a0, 33
	srli	a4, a4, 49
	or	a0, a0, a4
	not	a0, a0
	srli	a4, a0, 1
	and	a1, a1, a4
	lui	a4, 61681
	addi	a3, a3, 819
	sub	a0, a0, a1
	and	a1, a0, a3
	srli	a0, a0, 2
	and	a0, a0, a3
	lui	a3, 4112
	add	a0, a0, a1
	srli	a1, a0, 4
	add	a0, a0, a1
	li	a1, 27
	addi	a4, a4, -241
	and	a0, a0, a4
	addi	a4, t2, -1
	addi	a3, a3, 257
	mul	a0, a0, a3
	srliw	a0, a0, 24
	sub	a1, a1, a0
	srlw	a4, a4, a1
	slli	a1, a1, 4
	add	a1, a1, a4
	addiw	a1, a1, 1
	addi	a3, a1, -1
	srli	a0, a3, 4
	slli	a1, a0, 2
	add	a1, a1, a2
	lw	a1, 108(a1)
	andi	a4, a4, 15
	srlw	a1, a1, a4
	andi	a1, a1, -2
	beqz	a1, .LBB55_17
	neg	a0, a1
	and	a0, a0, a1
	lui	a1, 30667
	addi	a1, a1, 1329
	mul	a0, a0, a1
.Lpcrel_hi11:
	auipc	a1, %pcrel_hi(.LCPI55_0)
	srliw	a0, a0, 27
	addi	a1, a1, %pcrel_lo(.Lpcrel_hi11)
	add	a0, a0, a1
	lbu	a0, 0(a0)
	add	a3, a3, a0
	ld	t3, 32(a2)
	li	a0, -1
	bne	t3, a0, .LBB55_34
	j	.LBB55_11
.LBB55_14:
	lw	a1, 104(a2)
	li	a3, -2
	sllw	a0, a3, a0
	and	a0, a0, a1
	beqz	a0, .LBB55_8
	neg	a1, a0
	lui	a3, 30667
.Lpcrel_hi14:
	auipc	a4, %pcrel_hi(.LCPI55_0)
	and	a0, a0, a1
	addi	a1, a3, 1329
	mul	a0, a0, a1
	srliw	a0, a0, 27
	addi	a3, a4, %pcrel_lo(.Lpcrel_hi14)
	add	a0, a0, a3
	lbu	a0, 0(a0)
	slli	a4, a0, 2
	add	a4, a4, a2
	lw	a4, 108(a4)
	beqz	a4, .LBB55_20
	neg	a5, a4
	and	a4, a4, a5
	mul	a1, a4, a1
	srliw	a1, a1, 27
	add	a1, a1, a3
	lbu	a1, 0(a1)
	j	.LBB55_21
.LBB55_17:
	lw	a1, 104(a2)
	li	a3, -2
	sllw	a0, a3, a0
	and	a0, a0, a1
	beqz	a0, .LBB55_8
	neg	a1, a0
	lui	a3, 30667
.Lpcrel_hi12:
	auipc	a4, %pcrel_hi(.LCPI55_0)
	and	a0, a0, a1
	addi	a1, a3, 1329
	mul	a0, a0, a1
	srliw	a0, a0, 27
	addi	a3, a4, %pcrel_lo(.Lpcrel_hi12)
	add	a0, a0, a3
	lbu	a0, 0(a0)
	slli	a4, a0, 2
	add	a4, a4, a2
	lw	a4, 108(a4)
	beqz	a4, .LBB55_32
	neg	a5, a4
	and	a4, a4, a5
	mul	a1, a4, a1
	srliw	a1, a1, 27
	add	a1, a1, a3
	lbu	a3, 0(a1)
	j	.LBB55_33
.LBB55_20:
	li	a1, 32
.LBB55_21:
	slli	a0, a0, 5
	add	a1, a1, a0
	ld	t3, 32(a2)
	li	a0, -1
	beq	t3, a0, .LBB55_11
.LBB55_22:
	slli	a4, a1, 2
	add	a4, a4, a2
	lwu	a7, 192(a4)
	ld	a3, 48(a2)
	slli	t1, a7, 3
	add	a5, a3, t1
	lw	a5, 16(a5)
	beq	a5, a0, .LBB55_24
	slli	a0, a5, 32
	srli	a0, a0, 29
	add	a0, a0, a3
	ld	a1, 16(a0)
	li	a3, -1
	slli	a3, a3, 32
	or	a1, a1, a3
	sd	a1, 16(a0)
	ld	a3, 48(a2)
	sw	a5, 192(a4)
	j	.LBB55_26
.LBB55_24:
	li	a0, -1
	srli	a5, a1, 5
	sw	a0, 192(a4)
	slli	a0, a5, 2
	add	a4, a2, a0
	lw	s1, 108(a4)
	li	a0, 1
	sllw	a1, a0, a1
	not	a1, a1
	and	a1, a1, s1
	sw	a1, 108(a4)
	bnez	a1, .LBB55_26
	lw	a1, 104(a2)
	sllw	a0, a0, a5
	not	a0, a0
	and	a0, a0, a1
	sw	a0, 104(a2)
.LBB55_26:
	add	a5, a3, t1
	ld	a1, 0(a5)
	slli	a0, t2, 2
	subw	a4, a1, a0
	li	a0, 15
	bltu	a0, a4, .LBB55_28
	addi	a1, a1, -1
	sd	a1, 0(a5)
	sd	t3, 8(a5)
	sd	t5, 16(a5)
	srliw	t2, a1, 2
	j	.LBB55_46
.LBB55_28:
	srliw	a6, a4, 2
	li	t6, -1
	slli	s1, a4, 32
	slli	s0, a7, 32
	add	t0, a7, t2
	add	s3, a7, t2
	li	s2, 1
	srli	s1, s1, 32
	slli	a0, t0, 32
	or	s0, s0, s1
	sub	a1, a1, s1
	srli	a7, a0, 29
	sd	a1, 0(a5)
	sd	t3, 8(a5)
	sd	t5, 16(a5)
	add	a3, a3, a7
	sd	s0, 0(a3)
	sd	t3, 8(a3)
	ld	a1, 72(a2)
	andi	a3, a4, 2
	srli	a4, s3, 3
	and	a4, a4, t4
	add	a1, a1, a4
	ld	a4, 0(a1)
	srli	t3, t6, 32
	sll	a5, s2, t0
	srli	a0, a0, 32
	or	a4, a4, a5
	sd	a4, 0(a1)
	slli	a4, a0, 32
	bnez	a3, .LBB55_30
	ld	a0, 48(a2)
	add	a1, a6, t0
	slli	a1, a1, 32
	srli	a1, a1, 29
	add	a0, a0, a1
	ld	a1, 0(a0)
	and	a1, a1, t3
	or	a1, a1, a4
	sd	a1, 0(a0)
.LBB55_30:
	ori	a0, a6, 32
	lui	a1, 349525
	lui	a3, 209715
	srli	a5, a0, 1
	addi	a1, a1, 1365
	or	a0, a0, a5
	srli	a5, a0, 2
	or	a0, a0, a5
	srli	a5, a0, 4
	or	a0, a0, a5
	slli	a5, a0, 34
	srli	a5, a5, 42
	or	a0, a0, a5
	slli	a5, a0, 33
	srli	a5, a5, 49
	or	a0, a0, a5
	not	a0, a0
	srli	a5, a0, 1
	and	a1, a1, a5
	lui	a5, 61681
	addi	a3, a3, 819
	sub	a0, a0, a1
	and	a1, a0, a3
	srli	a0, a0, 2
	and	a0, a0, a3
	lui	a3, 4112
	add	a0, a0, a1
	srli	a1, a0, 4
	add	a0, a0, a1
	li	a1, 26
	addi	a5, a5, -241
	addi	a3, a3, 257
	and	a0, a0, a5
	mul	a0, a0, a3
	srliw	a0, a0, 24
	sub	a1, a1, a0
	srlw	a3, a6, a1
	slli	a0, a1, 5
	add	a0, a0, a3
	slli	a1, a0, 2
	add	a1, a1, a2
	lw	a5, 192(a1)
	ld	s1, 48(a2)
	sw	t0, 192(a1)
	bgez	a5, .LBB55_43
	add	a7, a7, s1
	li	a1, -1
	srli	a0, a0, 5
	li	a4, 1
	j	.LBB55_45
.LBB55_32:
	li	a3, 32
.LBB55_33:
	slli	a0, a0, 4
	add	a3, a3, a0
	ld	t3, 32(a2)
	li	a0, -1
	beq	t3, a0, .LBB55_11
.LBB55_34:
	slli	a4, a3, 2
	add	a4, a4, a2
	lwu	a7, 192(a4)
	ld	a1, 48(a2)
	slli	t1, a7, 3
	add	a5, a1, t1
	lw	a5, 16(a5)
	beq	a5, a0, .LBB55_36
	slli	a0, a5, 32
	srli	a0, a0, 29
	add	a0, a0, a1
	ld	a1, 16(a0)
	li	a3, -1
	slli	a3, a3, 32
	or	a1, a1, a3
	sd	a1, 16(a0)
	ld	a1, 48(a2)
	sw	a5, 192(a4)
	j	.LBB55_38
.LBB55_36:
	li	a0, -1
	srli	a5, a3, 4
	sw	a0, 192(a4)
	slli	a0, a5, 2
	add	a4, a2, a0
	lw	a0, 108(a4)
	andi	a3, a3, 15
	li	a6, 1
	sllw	a3, a6, a3
	not	a3, a3
	and	a0, a0, a3
	sw	a0, 108(a4)
	bnez	a0, .LBB55_38
	lw	a0, 104(a2)
	sllw	a3, a6, a5
	not	a3, a3
	and	a0, a0, a3
	sw	a0, 104(a2)
.LBB55_38:
	add	a4, a1, t1
	ld	a3, 0(a4)
	slli	a0, t2, 2
	subw	a5, a3, a0
	li	a0, 15
	bltu	a0, a5, .LBB55_40
	addi	a3, a3, -1
	sd	a3, 0(a4)
	sd	t3, 8(a4)
	sd	t5, 16(a4)
	srliw	t2, a3, 2
	j	.LBB55_46
.LBB55_40:
	srliw	a6, a5, 2
	li	t6, -1
	slli	a0, a5, 32
	slli	s0, a7, 32
	add	t0, a7, t2
	add	s3, a7, t2
	li	s2, 1
	srli	a0, a0, 32
	slli	s1, t0, 32
	or	s0, s0, a0
	sub	a3, a3, a0
	srli	a7, s1, 29
	sd	a3, 0(a4)
	sd	t3, 8(a4)
	sd	t5, 16(a4)
	add	a1, a1, a7
	sd	s0, 0(a1)
	sd	t3, 8(a1)
	ld	a0, 72(a2)
	andi	a5, a5, 2
	srli	a1, s3, 3
	and	a1, a1, t4
	add	a0, a0, a1
	ld	a1, 0(a0)
	srli	t3, t6, 32
	sll	a3, s2, t0
	srli	a4, s1, 32
	or	a1, a1, a3
	sd	a1, 0(a0)
	slli	a4, a4, 32
	bnez	a5, .LBB55_42
	ld	a0, 48(a2)
	add	a1, a6, t0
	slli	a1, a1, 32
	srli	a1, a1, 29
	add	a0, a0, a1
	ld	a1, 0(a0)
	and	a1, a1, t3
	or	a1, a1, a4
	sd	a1, 0(a0)
.LBB55_42:
	ori	a0, a6, 16
	lui	a1, 349525
	lui	a3, 209715
	srli	a5, a0, 1
	addi	a1, a1, 1365
	or	a0, a0, a5
	srli	a5, a0, 2
	or	a0, a0, a5
	srli	a5, a0, 4
	or	a0, a0, a5
	slli	a5, a0, 34
	srli	a5, a5, 42
	or	a0, a0, a5
	slli	a5, a0, 33
	srli	a5, a5, 49
	or	a0, a0, a5
	not	a0, a0
	srli	a5, a0, 1
	and	a1, a1, a5
	lui	a5, 61681
	addi	a3, a3, 819
	sub	a0, a0, a1
	and	a1, a0, a3
	srli	a0, a0, 2
	and	a0, a0, a3
	lui	a3, 4112
	add	a0, a0, a1
	srli	a1, a0, 4
	add	a0, a0, a1
	li	a1, 27
	addi	a5, a5, -241
	addi	a3, a3, 257
	and	a0, a0, a5
	mul	a0, a0, a3
	srliw	a0, a0, 24
	sub	a1, a1, a0
	srlw	a3, a6, a1
	slli	a0, a1, 4
	add	a0, a0, a3
	slli	a1, a0, 2
	add	a1, a1, a2
	lw	a5, 192(a1)
	ld	s1, 48(a2)
	sw	t0, 192(a1)
	bltz	a5, .LBB55_44
.LBB55_43:
	li	a0, -1
	add	a7, a7, s1
	slli	a0, a0, 32
	or	a0, a0, a5
	slli	a5, a5, 3
	sd	a0, 16(a7)
	add	a5, a5, s1
	ld	a0, 16(a5)
	and	a0, a0, t3
	or	a0, a0, a4
	sd	a0, 16(a5)
	j	.LBB55_46
.LBB55_44:
	add	a7, a7, s1
	li	a1, -1
	srli	a0, a0, 4
	li	a4, 1
	andi	a3, a3, 15
.LBB55_45:
	sd	a1, 16(a7)
	slli	a1, a0, 2
	add	a1, a1, a2
	lw	a5, 104(a2)
	lw	s1, 108(a1)
	sllw	a0, a4, a0
	sllw	a3, a4, a3
	or	a0, a0, a5
	or	a3, a3, s1
	sw	a0, 104(a2)
	sw	a3, 108(a1)
.LBB55_46:
	lw	a0, 40(a2)
	lw	a1, 44(a2)
	addw	a0, a0, t2
	sw	a0, 40(a2)
	bgeu	a1, a0, .LBB55_48
	sw	a0, 44(a2)
.LBB55_48:
	ld	a0, 32(a2)
	addi	a0, a0, 1
	sd	a0, 32(a2)
	li	a0, 1
	sb	a0, 0(a2)
	addi	a0, t1, 24
.LBB55_49:
	ld	s0, 24(sp)
	ld	s1, 16(sp)
	ld	s2, 8(sp)
	ld	s3, 0(sp)
	.cfi_restore s0
	.cfi_restore s1
	.cfi_restore s2
	.cfi_restore s3
	addi	sp, sp, 32
	.cfi_def_cfa_offset 0
.LBB55_50:
	ret
.Lfunc_end55:
	.size	tlsf_allocate_payload, .Lfunc_end55-tlsf_allocate_payload
	.cfi_endproc
	.section	.rodata.cst32,"aM",@progbits,32
.LCPI56_0:
	.ascii	"\000\001\034\002\035\016\030\003\036\026\024\017\031\021\004\b\037\033\r\027\025\023\020\007\032\f\022\006\013\005\n\t"
	.text
	.globl	tlsf_allocate_place
	.p2align	1
	.type	tlsf_allocate_place,@function
tlsf_allocate_place:
	.cfi_startproc
	mv	a2, a0
	lbu	a3, 8(a0)
	li	a0, 1
	slli	a0, a0, 37
	beqz	a3, .LBB56_8
	ld	a2, 0(a2)
	lbu	a3, 0(a2)
	beqz	a3, .LBB56_8
	li	a0, -1
	srli	a0, a0, 32
	mv	t4, a1
	bltu	a1, a0, .LBB56_4
	mv	t4, a0
.LBB56_4:
	addi	sp, sp, -16
	.cfi_def_cfa_offset 16
	sd	s0, 8(sp)
	sd	s1, 0(sp)
	.cfi_offset s0, -8
	.cfi_offset s1, -16
	.cfi_remember_state
	sb	zero, 0(a2)
	lbu	a3, 16(a2)
	seqz	a0, a1
	add	a0, a0, t4
	addi	a0, a0, 31
	srli	t2, a0, 3
	beqz	a3, .LBB56_9
	lui	a1, 32768
	addi	a1, a1, 7
	bltu	a1, a0, .LBB56_10
	ori	a0, t2, 32
	lui	a1, 349525
	lui	a3, 209715
	srliw	a4, a0, 1
	addi	a1, a1, 1365
	or	a0, a0, a4
	srliw	a4, a0, 2
	or	a0, a0, a4
	srliw	a4, a0, 4
	or	a0, a0, a4
	srliw	a4, a0, 8
	or	a0, a0, a4
	srliw	a4, a0, 16
	or	a0, a0, a4
	not	a0, a0
	srli	a4, a0, 1
	and	a1, a1, a4
	lui	a4, 61681
	addi	a3, a3, 819
	sub	a0, a0, a1
	and	a1, a0, a3
	srli	a0, a0, 2
	and	a0, a0, a3
	lui	a3, 4112
	add	a0, a0, a1
	srli	a1, a0, 4
	add	a0, a0, a1
	li	a1, 26
	addi	a4, a4, -241
	and	a0, a0, a4
	addi	a4, t2, -1
	addi	a3, a3, 257
	mul	a0, a0, a3
	srliw	a0, a0, 24
	sub	a1, a1, a0
	srlw	a3, a4, a1
	slli	a1, a1, 5
	add	a1, a1, a3
	addiw	a0, a1, 1
	addi	a0, a0, -1
	srli	a1, a0, 5
	slli	a4, a1, 2
	add	a4, a4, a2
	lw	a4, 108(a4)
	srlw	a3, a4, a3
	andi	a3, a3, -2
	beqz	a3, .LBB56_15
	neg	a1, a3
	and	a1, a1, a3
	lui	a3, 30667
	addi	a3, a3, 1329
	mul	a1, a1, a3
.Lpcrel_hi17:
	auipc	a3, %pcrel_hi(.LCPI56_0)
	srliw	a1, a1, 27
	addi	a3, a3, %pcrel_lo(.Lpcrel_hi17)
	add	a1, a1, a3
	lbu	a1, 0(a1)
	add	a0, a0, a1
	ld	a1, 32(a2)
	li	a5, -1
	bne	a1, a5, .LBB56_23
	j	.LBB56_37
.LBB56_8:
	li	a1, 0
	ret
.LBB56_9:
	.cfi_restore_state
	lui	a1, 2048
	addi	a1, a1, 7
	bgeu	a1, a0, .LBB56_13
.LBB56_10:
	lw	a1, 8(a2)
	lw	a0, 12(a2)
	addiw	a1, a1, 1
	snez	a3, a1
	addi	a3, a3, -1
	or	a1, a1, a3
	sext.w	t4, t4
	sw	a1, 8(a2)
	bltu	a0, t4, .LBB56_12
	mv	t4, a0
.LBB56_12:
	li	t3, 0
	li	a1, 0
	sw	t4, 12(a2)
	li	a0, 1
	slli	a0, a0, 32
	j	.LBB56_51
.LBB56_13:
	ori	a0, t2, 16
	lui	a1, 349525
	lui	a3, 209715
	srliw	a4, a0, 1
	addi	a1, a1, 1365
	or	a0, a0, a4
	srliw	a4, a0, 2
	or	a0, a0, a4
	srliw	a4, a0, 4
	or	a0, a0, a4
	srliw	a4, a0, 8
	or	a0, a0, a4
	srliw	a4, a0, 16
	or	a0, a0, a4
	not	a0, a0
	srli	a4, a0, 1
	and	a1, a1, a4
	lui	a4, 61681
	addi	a3, a3, 819
	sub	a0, a0, a1
	and	a1, a0, a3
	srli	a0, a0, 2
	and	a0, a0, a3
	lui	a3, 4112
	add	a0, a0, a1
	srli	a1, a0, 4
	add	a0, a0, a1
	li	a1, 27
	addi	a4, a4, -241
	and	a0, a0, a4
	addi	a4, t2, -1
	addi	a3, a3, 257
	mul	a0, a0, a3
	srliw	a0, a0, 24
	sub	a1, a1, a0
	srlw	a3, a4, a1
	slli	a1, a1, 4
	add	a1, a1, a3
	addiw	a0, a1, 1
	addi	a0, a0, -1
	srli	a1, a0, 4
	slli	a4, a1, 2
	add	a4, a4, a2
	lw	a4, 108(a4)
	andi	a3, a3, 15
	srlw	a3, a4, a3
	andi	a3, a3, -2
	beqz	a3, .LBB56_18
	neg	a1, a3
	and	a1, a1, a3
	lui	a3, 30667
	addi	a3, a3, 1329
	mul	a1, a1, a3
.Lpcrel_hi15:
	auipc	a3, %pcrel_hi(.LCPI56_0)
	srliw	a1, a1, 27
	addi	a3, a3, %pcrel_lo(.Lpcrel_hi15)
	add	a1, a1, a3
	lbu	a1, 0(a1)
	add	a0, a0, a1
	ld	a1, 32(a2)
	li	a3, -1
	bne	a1, a3, .LBB56_35
	j	.LBB56_37
.LBB56_15:
	lw	a0, 104(a2)
	li	a3, -2
	sllw	a1, a3, a1
	and	a0, a0, a1
	beqz	a0, .LBB56_10
	neg	a1, a0
	lui	a3, 30667
.Lpcrel_hi18:
	auipc	a4, %pcrel_hi(.LCPI56_0)
	and	a0, a0, a1
	addi	a1, a3, 1329
	mul	a0, a0, a1
	srliw	a0, a0, 27
	addi	a3, a4, %pcrel_lo(.Lpcrel_hi18)
	add	a0, a0, a3
	lbu	a0, 0(a0)
	slli	a4, a0, 2
	add	a4, a4, a2
	lw	a4, 108(a4)
	beqz	a4, .LBB56_21
	neg	a5, a4
	and	a4, a4, a5
	mul	a1, a4, a1
	srliw	a1, a1, 27
	add	a1, a1, a3
	lbu	a1, 0(a1)
	j	.LBB56_22
.LBB56_18:
	lw	a0, 104(a2)
	li	a3, -2
	sllw	a1, a3, a1
	and	a0, a0, a1
	beqz	a0, .LBB56_10
	neg	a1, a0
	lui	a3, 30667
.Lpcrel_hi16:
	auipc	a4, %pcrel_hi(.LCPI56_0)
	and	a0, a0, a1
	addi	a1, a3, 1329
	mul	a0, a0, a1
	srliw	a0, a0, 27
	addi	a3, a4, %pcrel_lo(.Lpcrel_hi16)
	add	a0, a0, a3
	lbu	a0, 0(a0)
	slli	a4, a0, 2
	add	a4, a4, a2
	lw	a4, 108(a4)
	beqz	a4, .LBB56_33
	neg	a5, a4
	and	a4, a4, a5
	mul	a1, a4, a1
	srliw	a1, a1, 27
	add	a1, a1, a3
	lbu	a1, 0(a1)
	j	.LBB56_34
.LBB56_21:
	li	a1, 32
.LBB56_22:
	slli	a0, a0, 5
	add	a0, a0, a1
	ld	a1, 32(a2)
	li	a5, -1
	beq	a1, a5, .LBB56_37
.LBB56_23:
	slli	a4, a0, 2
	add	a4, a4, a2
	lwu	t3, 192(a4)
	ld	t0, 48(a2)
	slli	a6, t3, 3
	add	a3, t0, a6
	lw	a3, 16(a3)
	beq	a3, a5, .LBB56_25
	slli	a0, a3, 32
	srli	a0, a0, 29
	add	a0, a0, t0
	ld	a5, 16(a0)
	li	s1, -1
	slli	s1, s1, 32
	or	a5, a5, s1
	sd	a5, 16(a0)
	ld	t0, 48(a2)
	sw	a3, 192(a4)
	j	.LBB56_27
.LBB56_25:
	li	a5, -1
	srli	a3, a0, 5
	sw	a5, 192(a4)
	slli	a4, a3, 2
	add	a5, a2, a4
	lw	s1, 108(a5)
	li	a4, 1
	sllw	a0, a4, a0
	not	a0, a0
	and	a0, a0, s1
	sw	a0, 108(a5)
	bnez	a0, .LBB56_27
	lw	a0, 104(a2)
	sllw	a3, a4, a3
	not	a3, a3
	and	a0, a0, a3
	sw	a0, 104(a2)
.LBB56_27:
	add	a0, t0, a6
	ld	a4, 0(a0)
	slli	a3, t2, 2
	subw	a3, a4, a3
	li	a5, 15
	bltu	a5, a3, .LBB56_29
	addi	a4, a4, -1
	sd	a4, 0(a0)
	sd	a1, 8(a0)
	sd	t4, 16(a0)
	srliw	t2, a4, 2
	j	.LBB56_48
.LBB56_29:
	srliw	a6, a3, 2
	li	t5, -1
	slli	s1, a3, 32
	slli	s0, t3, 32
	add	t1, t3, t2
	li	t6, 1
	srli	s1, s1, 32
	slli	a5, t1, 32
	or	s0, s0, s1
	sub	a4, a4, s1
	srli	a7, a5, 29
	sd	a4, 0(a0)
	sd	a1, 8(a0)
	sd	t4, 16(a0)
	add	t0, t0, a7
	sd	s0, 0(t0)
	sd	a1, 8(t0)
	ld	a0, 72(a2)
	andi	a3, a3, 2
	srliw	a4, t1, 6
	slli	a4, a4, 3
	add	a0, a0, a4
	ld	a4, 0(a0)
	srli	t0, t5, 32
	sll	s1, t6, t1
	srli	a5, a5, 32
	or	a4, a4, s1
	sd	a4, 0(a0)
	slli	t4, a5, 32
	bnez	a3, .LBB56_31
	ld	a0, 48(a2)
	add	a3, a6, t1
	slli	a3, a3, 32
	srli	a3, a3, 29
	add	a0, a0, a3
	ld	a3, 0(a0)
	and	a3, a3, t0
	or	a3, a3, t4
	sd	a3, 0(a0)
.LBB56_31:
	ori	a0, a6, 32
	lui	a3, 349525
	lui	a4, 209715
	srli	a5, a0, 1
	addi	a3, a3, 1365
	or	a0, a0, a5
	srli	a5, a0, 2
	or	a0, a0, a5
	srli	a5, a0, 4
	or	a0, a0, a5
	slli	a5, a0, 34
	srli	a5, a5, 42
	or	a0, a0, a5
	slli	a5, a0, 33
	srli	a5, a5, 49
	or	a0, a0, a5
	not	a0, a0
	srli	a5, a0, 1
	and	a3, a3, a5
	lui	a5, 61681
	addi	a4, a4, 819
	sub	a0, a0, a3
	and	a3, a0, a4
	srli	a0, a0, 2
	and	a0, a0, a4
	lui	a4, 4112
	add	a0, a0, a3
	srli	a3, a0, 4
	add	a0, a0, a3
	li	a3, 26
	addi	a5, a5, -241
	addi	a4, a4, 257
	and	a0, a0, a5
	mul	a0, a0, a4
	srliw	a0, a0, 24
	sub	a3, a3, a0
	srlw	a4, a6, a3
	slli	a0, a3, 5
	add	a0, a0, a4
	slli	a3, a0, 2
	add	a3, a3, a2
	lw	a5, 192(a3)
	ld	s1, 48(a2)
	sw	t1, 192(a3)
	bgez	a5, .LBB56_45
	add	a7, a7, s1
	li	a3, -1
	srli	a0, a0, 5
	li	a5, 1
	j	.LBB56_47
.LBB56_33:
	li	a1, 32
.LBB56_34:
	slli	a0, a0, 4
	add	a0, a0, a1
	ld	a1, 32(a2)
	li	a3, -1
	beq	a1, a3, .LBB56_37
.LBB56_35:
	slli	a4, a0, 2
	add	a4, a4, a2
	lwu	t3, 192(a4)
	ld	t0, 48(a2)
	slli	a6, t3, 3
	add	a5, t0, a6
	lw	a5, 16(a5)
	beq	a5, a3, .LBB56_38
	slli	a0, a5, 32
	srli	a0, a0, 29
	add	a0, a0, t0
	ld	a7, 16(a0)
	li	a3, -1
	slli	a3, a3, 32
	or	a3, a7, a3
	sd	a3, 16(a0)
	ld	t0, 48(a2)
	sw	a5, 192(a4)
	j	.LBB56_40
.LBB56_37:
	li	t3, 0
	li	a1, 0
	li	a0, 1
	slli	a0, a0, 33
	j	.LBB56_51
.LBB56_38:
	li	a3, -1
	srli	a5, a0, 4
	sw	a3, 192(a4)
	slli	a3, a5, 2
	add	a3, a3, a2
	lw	a4, 108(a3)
	andi	a0, a0, 15
	li	a7, 1
	sllw	a0, a7, a0
	not	a0, a0
	and	a0, a0, a4
	sw	a0, 108(a3)
	bnez	a0, .LBB56_40
	lw	a0, 104(a2)
	sllw	a3, a7, a5
	not	a3, a3
	and	a0, a0, a3
	sw	a0, 104(a2)
.LBB56_40:
	add	a3, t0, a6
	ld	a5, 0(a3)
	slli	a0, t2, 2
	subw	a0, a5, a0
	li	a4, 15
	bltu	a4, a0, .LBB56_42
	addi	a5, a5, -1
	sd	a5, 0(a3)
	sd	a1, 8(a3)
	sd	t4, 16(a3)
	srliw	t2, a5, 2
	j	.LBB56_48
.LBB56_42:
	srliw	a6, a0, 2
	li	t5, -1
	slli	a4, a0, 32
	slli	a7, t3, 32
	add	t1, t3, t2
	li	t6, 1
	srli	a4, a4, 32
	slli	s0, t1, 32
	or	s1, a7, a4
	sub	a5, a5, a4
	srli	a7, s0, 29
	sd	a5, 0(a3)
	sd	a1, 8(a3)
	sd	t4, 16(a3)
	add	t0, t0, a7
	sd	s1, 0(t0)
	sd	a1, 8(t0)
	ld	a3, 72(a2)
	andi	a0, a0, 2
	srliw	a4, t1, 6
	slli	a4, a4, 3
	add	a3, a3, a4
	ld	a4, 0(a3)
	srli	t0, t5, 32
	sll	a5, t6, t1
	srli	t4, s0, 32
	or	a4, a4, a5
	sd	a4, 0(a3)
	slli	t4, t4, 32
	bnez	a0, .LBB56_44
	ld	a0, 48(a2)
	add	a3, a6, t1
	slli	a3, a3, 32
	srli	a3, a3, 29
	add	a0, a0, a3
	ld	a3, 0(a0)
	and	a3, a3, t0
	or	a3, a3, t4
	sd	a3, 0(a0)
.LBB56_44:
	ori	a0, a6, 16
	lui	a3, 349525
	lui	a4, 209715
	srli	a5, a0, 1
	addi	a3, a3, 1365
	or	a0, a0, a5
	srli	a5, a0, 2
	or	a0, a0, a5
	srli	a5, a0, 4
	or	a0, a0, a5
	slli	a5, a0, 34
	srli	a5, a5, 42
	or	a0, a0, a5
	slli	a5, a0, 33
	srli	a5, a5, 49
	or	a0, a0, a5
	not	a0, a0
	srli	a5, a0, 1
	and	a3, a3, a5
	lui	a5, 61681
	addi	a4, a4, 819
	sub	a0, a0, a3
	and	a3, a0, a4
	srli	a0, a0, 2
	and	a0, a0, a4
	lui	a4, 4112
	add	a0, a0, a3
	srli	a3, a0, 4
	add	a0, a0, a3
	li	a3, 27
	addi	a5, a5, -241
	addi	a4, a4, 257
	and	a0, a0, a5
	mul	a0, a0, a4
	srliw	a0, a0, 24
	sub	a3, a3, a0
	srlw	a4, a6, a3
	slli	a0, a3, 4
	add	a0, a0, a4
	slli	a3, a0, 2
	add	a3, a3, a2
	lw	a5, 192(a3)
	ld	s1, 48(a2)
	sw	t1, 192(a3)
	bltz	a5, .LBB56_46
.LBB56_45:
	li	a0, -1
	add	a7, a7, s1
	slli	a0, a0, 32
	or	a0, a0, a5
	slli	a5, a5, 3
	sd	a0, 16(a7)
	add	a5, a5, s1
	ld	a0, 16(a5)
	and	a0, a0, t0
	or	a0, a0, t4
	sd	a0, 16(a5)
	j	.LBB56_48
.LBB56_46:
	add	a7, a7, s1
	li	a3, -1
	srli	a0, a0, 4
	li	a5, 1
	andi	a4, a4, 15
.LBB56_47:
	sd	a3, 16(a7)
	slli	a3, a0, 2
	add	a3, a3, a2
	lw	s1, 104(a2)
	lw	s0, 108(a3)
	sllw	a0, a5, a0
	sllw	a4, a5, a4
	or	a0, a0, s1
	or	a4, a4, s0
	sw	a0, 104(a2)
	sw	a4, 108(a3)
.LBB56_48:
	lw	a0, 40(a2)
	lw	a3, 44(a2)
	addw	a0, a0, t2
	sw	a0, 40(a2)
	bgeu	a3, a0, .LBB56_50
	sw	a0, 44(a2)
.LBB56_50:
	li	a0, 0
	ld	a3, 32(a2)
	addi	a3, a3, 1
	sd	a3, 32(a2)
.LBB56_51:
	li	a3, 1
	sb	a3, 0(a2)
	or	a0, a0, t3
	ld	s0, 8(sp)
	ld	s1, 0(sp)
	.cfi_restore s0
	.cfi_restore s1
	addi	sp, sp, 16
	.cfi_def_cfa_offset 0
	ret
.Lfunc_end56:
	.size	tlsf_allocate_place, .Lfunc_end56-tlsf_allocate_place
	.cfi_endproc
	.globl	tlsf_block_at
	.p2align	1
	.type	tlsf_block_at,@function
tlsf_block_at:
	.cfi_startproc
	addi	sp, sp, -64
	.cfi_def_cfa_offset 64
	sd	ra, 56(sp)
	sd	s0, 48(sp)
	sd	s1, 40(sp)
	sd	s2, 32(sp)
	sd	s3, 24(sp)
	sd	s4, 16(sp)
	sd	s5, 8(sp)
	.cfi_offset ra, -8
	.cfi_offset s0, -16
	.cfi_offset s1, -24
	.cfi_offset s2, -32
	.cfi_offset s3, -40
	.cfi_offset s4, -48
	.cfi_offset s5, -56
	addi	s0, sp, 64
	.cfi_def_cfa s0, 0
	lbu	a3, 8(a0)
	beqz	a3, .LBB57_9
	ld	a3, 0(a0)
	lbu	a0, 0(a3)
	beqz	a0, .LBB57_9
	lbu	a4, 16(a3)
	lw	a0, 56(a3)
	sb	zero, 0(a3)
	sext.w	a4, a1
	bgeu	a4, a0, .LBB57_6
	ld	a0, 72(a3)
	srliw	a4, a1, 6
	slli	a4, a4, 3
	add	a0, a0, a4
	ld	a0, 0(a0)
	srl	a0, a0, a1
	andi	a0, a0, 1
	beqz	a0, .LBB57_6
	ld	a0, 48(a3)
	slli	a4, a1, 32
	srli	a4, a4, 29
	add	a0, a0, a4
	ld	a5, 0(a0)
	ld	a4, 8(a0)
	andi	a6, a5, 1
	srliw	a7, a5, 2
	bnez	a6, .LBB57_7
	ld	a5, 16(a0)
	li	a6, 1
	j	.LBB57_8
.LBB57_6:
	li	a0, 1
	sb	a0, 0(a3)
	li	a0, 4
	j	.LBB57_10
.LBB57_7:
	li	a6, 0
	li	a5, 0
.LBB57_8:
	li	a0, 0
	li	t0, 1
	srli	t1, a1, 24
	srli	t2, a1, 16
	srli	t3, a1, 8
	srli	t4, a7, 24
	srli	t5, a7, 16
	srli	t6, a7, 8
	srli	s2, a5, 24
	srli	s3, a5, 16
	srli	s1, a5, 8
	srli	s4, a4, 56
	srli	s5, a4, 48
	sb	t0, 0(a3)
	srli	t0, a4, 40
	srli	a3, a4, 32
	sb	a1, 0(a2)
	sb	t3, 1(a2)
	sb	t2, 2(a2)
	sb	t1, 3(a2)
	srli	t1, a4, 24
	sb	a7, 4(a2)
	sb	t6, 5(a2)
	sb	t5, 6(a2)
	sb	t4, 7(a2)
	srli	a1, a4, 16
	sb	a5, 12(a2)
	sb	s1, 13(a2)
	sb	s3, 14(a2)
	sb	s2, 15(a2)
	srli	a5, a4, 8
	sb	a6, 8(a2)
	sb	zero, 9(a2)
	sb	zero, 10(a2)
	sb	zero, 11(a2)
	sb	a3, 20(a2)
	sb	t0, 21(a2)
	sb	s5, 22(a2)
	sb	s4, 23(a2)
	sb	a4, 16(a2)
	sb	a5, 17(a2)
	sb	a1, 18(a2)
	sb	t1, 19(a2)
	j	.LBB57_10
.LBB57_9:
	li	a0, 0
	call	tlsf_c.call_fault.CallFault.refusal
.LBB57_10:
	sext.w	a0, a0
	.cfi_def_cfa sp, 64
	ld	ra, 56(sp)
	ld	s0, 48(sp)
	ld	s1, 40(sp)
	ld	s2, 32(sp)
	ld	s3, 24(sp)
	ld	s4, 16(sp)
	ld	s5, 8(sp)
	.cfi_restore ra
	.cfi_restore s0
	.cfi_restore s1
	.cfi_restore s2
	.cfi_restore s3
	.cfi_restore s4
	.cfi_restore s5
	addi	sp, sp, 64
	.cfi_def_cfa_offset 0
	ret
.Lfunc_end57:
	.size	tlsf_block_at, .Lfunc_end57-tlsf_block_at
	.cfi_endproc
	.globl	tlsf_check
	.p2align	1
	.type	tlsf_check,@function
tlsf_check:
	.cfi_startproc
	addi	sp, sp, -80
	.cfi_def_cfa_offset 80
	sd	ra, 72(sp)
	sd	s0, 64(sp)
	sd	s1, 56(sp)
	sd	s2, 48(sp)
	sd	s3, 40(sp)
	sd	s4, 32(sp)
	sd	s5, 24(sp)
	sd	s6, 16(sp)
	sd	s7, 8(sp)
	sd	s8, 0(sp)
	.cfi_offset ra, -8
	.cfi_offset s0, -16
	.cfi_offset s1, -24
	.cfi_offset s2, -32
	.cfi_offset s3, -40
	.cfi_offset s4, -48
	.cfi_offset s5, -56
	.cfi_offset s6, -64
	.cfi_offset s7, -72
	.cfi_offset s8, -80
	addi	s0, sp, 80
	.cfi_def_cfa s0, 0
	mv	s1, a2
	mv	a2, a0
	lbu	a5, 8(a0)
	li	a0, 32
	beqz	a5, .LBB58_23
	ld	s3, 0(a2)
	lbu	a2, 0(s3)
	beqz	a2, .LBB58_23
	lbu	a2, 16(s3)
	lw	s4, 56(s3)
	sb	zero, 0(s3)
	addi	s2, s3, 48
	addiw	a0, s4, -4
	beqz	a2, .LBB58_10
	sext.w	a2, a1
	bltu	a0, a2, .LBB58_18
	ld	a0, 72(s3)
	srliw	a2, a1, 6
	slli	a2, a2, 3
	add	a0, a0, a2
	ld	a0, 0(a0)
	srl	a0, a0, a1
	andi	a0, a0, 1
	beqz	a0, .LBB58_18
	sext.w	a0, s1
	beqz	a0, .LBB58_22
	mv	s6, a4
	mv	s5, a3
	li	s7, 1
.LBB58_7:
	mv	a0, s2
	mv	s8, a1
	call	tlsf_heap.check.examine
	zext.b	a0, a0
	bne	a0, s7, .LBB58_19
	mv	a2, a1
	sext.w	a0, a1
	beq	a0, s4, .LBB58_20
	addiw	s1, s1, -1
	mv	a1, a2
	bnez	s1, .LBB58_7
	j	.LBB58_17
.LBB58_10:
	sext.w	a2, a1
	bltu	a0, a2, .LBB58_18
	ld	a0, 72(s3)
	srliw	a2, a1, 6
	slli	a2, a2, 3
	add	a0, a0, a2
	ld	a0, 0(a0)
	srl	a0, a0, a1
	andi	a0, a0, 1
	beqz	a0, .LBB58_18
	sext.w	a0, s1
	beqz	a0, .LBB58_22
	mv	s6, a4
	mv	s5, a3
	li	s7, 1
.LBB58_14:
	mv	a0, s2
	mv	s8, a1
	call	tlsf_heap.check.examine
	zext.b	a0, a0
	bne	a0, s7, .LBB58_19
	mv	a2, a1
	sext.w	a0, a1
	beq	a0, s4, .LBB58_20
	addiw	s1, s1, -1
	mv	a1, a2
	bnez	s1, .LBB58_14
.LBB58_17:
	li	a0, 0
	mv	a1, a2
	j	.LBB58_21
.LBB58_18:
	li	a0, 1
	sb	a0, 0(s3)
	li	a0, 4
	j	.LBB58_23
.LBB58_19:
	li	a0, 36
	mv	a3, s6
	mv	a1, s8
	j	.LBB58_22
.LBB58_20:
	li	a1, 0
	li	a0, 0
.LBB58_21:
	mv	a3, s5
.LBB58_22:
	li	a2, 1
	sb	a2, 0(s3)
	sw	a1, 0(a3)
.LBB58_23:
	.cfi_def_cfa sp, 80
	ld	ra, 72(sp)
	ld	s0, 64(sp)
	ld	s1, 56(sp)
	ld	s2, 48(sp)
	ld	s3, 40(sp)
	ld	s4, 32(sp)
	ld	s5, 24(sp)
	ld	s6, 16(sp)
	ld	s7, 8(sp)
	ld	s8, 0(sp)
	.cfi_restore ra
	.cfi_restore s0
	.cfi_restore s1
	.cfi_restore s2
	.cfi_restore s3
	.cfi_restore s4
	.cfi_restore s5
	.cfi_restore s6
	.cfi_restore s7
	.cfi_restore s8
	addi	sp, sp, 80
	.cfi_def_cfa_offset 0
	ret
.Lfunc_end58:
	.size	tlsf_check, .Lfunc_end58-tlsf_check
	.cfi_endproc
	.globl	tlsf_check_around
	.p2align	1
	.type	tlsf_check_around,@function
tlsf_check_around:
	.cfi_startproc
	mv	a3, a0
	lbu	a4, 8(a0)
	li	a0, 32
	beqz	a4, .LBB59_14
	addi	sp, sp, -64
	.cfi_def_cfa_offset 64
	sd	ra, 56(sp)
	sd	s0, 48(sp)
	sd	s1, 40(sp)
	sd	s2, 32(sp)
	sd	s3, 24(sp)
	sd	s4, 16(sp)
	sd	s5, 8(sp)
	sd	s6, 0(sp)
	.cfi_offset ra, -8
	.cfi_offset s0, -16
	.cfi_offset s1, -24
	.cfi_offset s2, -32
	.cfi_offset s3, -40
	.cfi_offset s4, -48
	.cfi_offset s5, -56
	.cfi_offset s6, -64
	addi	s0, sp, 64
	.cfi_def_cfa s0, 0
	.cfi_remember_state
	ld	s1, 0(a3)
	lbu	a3, 0(s1)
	beqz	a3, .LBB59_13
	lbu	a3, 16(s1)
	lw	s3, 56(s1)
	sb	zero, 0(s1)
	addi	s2, s1, 48
	addiw	a0, s3, -4
	sext.w	s6, a1
	bltu	a0, s6, .LBB59_10
	ld	a0, 72(s1)
	srliw	a3, a1, 6
	slli	a3, a3, 3
	add	a0, a0, a3
	ld	a0, 0(a0)
	srl	a0, a0, a1
	andi	a0, a0, 1
	beqz	a0, .LBB59_10
	mv	s4, a2
	mv	a0, s2
	mv	s5, a1
	call	tlsf_heap.check.examine
	zext.b	a0, a0
	li	a2, 1
	bne	a0, a2, .LBB59_11
	beqz	s6, .LBB59_8
	ld	a0, 0(s2)
	slli	s5, s5, 32
	srli	a2, s5, 29
	add	a0, a0, a2
	ld	a2, 0(a0)
	srli	a2, a2, 32
	mv	a0, s2
	mv	s5, a2
	mv	s6, a1
	mv	a1, a2
	call	tlsf_heap.check.examine
	mv	a1, s6
	zext.b	a0, a0
	li	a2, 1
	bne	a0, a2, .LBB59_11
.LBB59_8:
	sext.w	a0, a1
	bne	a0, s3, .LBB59_15
	li	a0, 0
	li	a1, 1
	sb	a1, 0(s1)
	j	.LBB59_13
.LBB59_10:
	li	a0, 1
	sb	a0, 0(s1)
	li	a0, 4
	j	.LBB59_13
.LBB59_11:
	li	a0, 1
	sb	a0, 0(s1)
.LBB59_12:
	sw	s5, 0(s4)
	li	a0, 36
.LBB59_13:
	.cfi_def_cfa sp, 64
	ld	ra, 56(sp)
	ld	s0, 48(sp)
	ld	s1, 40(sp)
	ld	s2, 32(sp)
	ld	s3, 24(sp)
	ld	s4, 16(sp)
	ld	s5, 8(sp)
	ld	s6, 0(sp)
	.cfi_restore ra
	.cfi_restore s0
	.cfi_restore s1
	.cfi_restore s2
	.cfi_restore s3
	.cfi_restore s4
	.cfi_restore s5
	.cfi_restore s6
	addi	sp, sp, 64
	.cfi_def_cfa_offset 0
.LBB59_14:
	ret
.LBB59_15:
	.cfi_restore_state
	mv	a0, s2
	mv	s5, a1
	call	tlsf_heap.check.examine
	zext.b	a0, a0
	li	a1, 1
	sb	a1, 0(s1)
	bne	a0, a1, .LBB59_12
	li	a0, 0
	j	.LBB59_13
.Lfunc_end59:
	.size	tlsf_check_around, .Lfunc_end59-tlsf_check_around
	.cfi_endproc
	.section	.rodata.cst32,"aM",@progbits,32
.LCPI60_0:
	.ascii	"\000\001\034\002\035\016\030\003\036\026\024\017\031\021\004\b\037\033\r\027\025\023\020\007\032\f\022\006\013\005\n\t"
	.text
	.globl	tlsf_check_request
	.p2align	1
	.type	tlsf_check_request,@function
tlsf_check_request:
	.cfi_startproc
	mv	a3, a0
	lbu	a4, 8(a0)
	li	a0, 32
	beqz	a4, .LBB60_36
	addi	sp, sp, -80
	.cfi_def_cfa_offset 80
	sd	ra, 72(sp)
	sd	s0, 64(sp)
	sd	s1, 56(sp)
	sd	s2, 48(sp)
	sd	s3, 40(sp)
	sd	s4, 32(sp)
	sd	s5, 24(sp)
	sd	s6, 16(sp)
	sd	s7, 8(sp)
	.cfi_offset ra, -8
	.cfi_offset s0, -16
	.cfi_offset s1, -24
	.cfi_offset s2, -32
	.cfi_offset s3, -40
	.cfi_offset s4, -48
	.cfi_offset s5, -56
	.cfi_offset s6, -64
	.cfi_offset s7, -72
	addi	s0, sp, 80
	.cfi_def_cfa s0, 0
	.cfi_remember_state
	ld	s1, 0(a3)
	lbu	a3, 0(s1)
	beqz	a3, .LBB60_35
	li	a3, -1
	srli	a3, a3, 32
	mv	a0, a1
	bltu	a1, a3, .LBB60_4
	mv	a0, a3
.LBB60_4:
	sb	zero, 0(s1)
	lbu	a3, 16(s1)
	seqz	a1, a1
	add	a0, a0, a1
	addi	a1, a0, 31
	srli	a0, a1, 3
	beqz	a3, .LBB60_8
	lui	a3, 32768
	addi	a3, a3, 7
	bltu	a3, a1, .LBB60_31
	ori	a1, a0, 32
	lui	a3, 349525
	lui	a4, 209715
	srliw	a5, a1, 1
	addi	a3, a3, 1365
	or	a1, a1, a5
	srliw	a5, a1, 2
	or	a1, a1, a5
	srliw	a5, a1, 4
	or	a1, a1, a5
	srliw	a5, a1, 8
	or	a1, a1, a5
	srliw	a5, a1, 16
	or	a1, a1, a5
	not	a1, a1
	srli	a5, a1, 1
	and	a3, a3, a5
	lui	a5, 61681
	addi	a4, a4, 819
	sub	a1, a1, a3
	and	a3, a1, a4
	srli	a1, a1, 2
	and	a1, a1, a4
	lui	a4, 4112
	add	a1, a1, a3
	srli	a3, a1, 4
	add	a1, a1, a3
	li	a3, 26
	addi	a5, a5, -241
	and	a1, a1, a5
	addi	a5, a0, -1
	addi	a4, a4, 257
	mul	a1, a1, a4
	srliw	a1, a1, 24
	sub	a3, a3, a1
	srlw	a4, a5, a3
	slli	a3, a3, 5
	add	a3, a3, a4
	addiw	a1, a3, 1
	addi	a1, a1, -1
	srli	a3, a1, 5
	slli	a5, a3, 2
	add	a5, a5, s1
	lw	a5, 108(a5)
	srlw	a4, a5, a4
	andi	a4, a4, -2
	beqz	a4, .LBB60_12
	neg	a3, a4
	and	a3, a3, a4
	lui	a4, 30667
	addi	a4, a4, 1329
	mul	a3, a3, a4
.Lpcrel_hi21:
	auipc	a4, %pcrel_hi(.LCPI60_0)
	srliw	a3, a3, 27
	addi	a4, a4, %pcrel_lo(.Lpcrel_hi21)
	j	.LBB60_11
.LBB60_8:
	lui	a3, 2048
	addi	a3, a3, 7
	bltu	a3, a1, .LBB60_31
	ori	a1, a0, 16
	lui	a3, 349525
	lui	a4, 209715
	srliw	a5, a1, 1
	addi	a3, a3, 1365
	or	a1, a1, a5
	srliw	a5, a1, 2
	or	a1, a1, a5
	srliw	a5, a1, 4
	or	a1, a1, a5
	srliw	a5, a1, 8
	or	a1, a1, a5
	srliw	a5, a1, 16
	or	a1, a1, a5
	not	a1, a1
	srli	a5, a1, 1
	and	a3, a3, a5
	lui	a5, 61681
	addi	a4, a4, 819
	sub	a1, a1, a3
	and	a3, a1, a4
	srli	a1, a1, 2
	and	a1, a1, a4
	lui	a4, 4112
	add	a1, a1, a3
	srli	a3, a1, 4
	add	a1, a1, a3
	li	a3, 27
	addi	a5, a5, -241
	and	a1, a1, a5
	addi	a5, a0, -1
	addi	a4, a4, 257
	mul	a1, a1, a4
	srliw	a1, a1, 24
	sub	a3, a3, a1
	srlw	a4, a5, a3
	slli	a3, a3, 4
	add	a3, a3, a4
	addiw	a1, a3, 1
	addi	a1, a1, -1
	srli	a3, a1, 4
	slli	a5, a3, 2
	add	a5, a5, s1
	lw	a5, 108(a5)
	andi	a4, a4, 15
	srlw	a4, a5, a4
	andi	a4, a4, -2
	beqz	a4, .LBB60_15
	neg	a3, a4
	and	a3, a3, a4
	lui	a4, 30667
	addi	a4, a4, 1329
	mul	a3, a3, a4
.Lpcrel_hi19:
	auipc	a4, %pcrel_hi(.LCPI60_0)
	srliw	a3, a3, 27
	addi	a4, a4, %pcrel_lo(.Lpcrel_hi19)
.LBB60_11:
	add	a3, a3, a4
	lbu	a3, 0(a3)
	add	a1, a1, a3
	slli	a1, a1, 2
	add	a1, a1, s1
	lw	s4, 192(a1)
	li	a1, -1
	bne	s4, a1, .LBB60_22
	j	.LBB60_31
.LBB60_12:
	lw	a1, 104(s1)
	li	a4, -2
	sllw	a3, a4, a3
	and	a1, a1, a3
	beqz	a1, .LBB60_31
	neg	a3, a1
	lui	a4, 30667
.Lpcrel_hi22:
	auipc	a5, %pcrel_hi(.LCPI60_0)
	and	a1, a1, a3
	addi	a3, a4, 1329
	mul	a1, a1, a3
	srliw	a1, a1, 27
	addi	a4, a5, %pcrel_lo(.Lpcrel_hi22)
	add	a1, a1, a4
	lbu	a6, 0(a1)
	slli	a5, a6, 2
	add	a5, a5, s1
	lw	a5, 108(a5)
	beqz	a5, .LBB60_18
	neg	a1, a5
	and	a1, a1, a5
	mul	a1, a1, a3
	srliw	a1, a1, 27
	add	a1, a1, a4
	lbu	a3, 0(a1)
	slli	a1, a6, 5
	j	.LBB60_21
.LBB60_15:
	lw	a1, 104(s1)
	li	a4, -2
	sllw	a3, a4, a3
	and	a1, a1, a3
	beqz	a1, .LBB60_31
	neg	a3, a1
	lui	a4, 30667
.Lpcrel_hi20:
	auipc	a5, %pcrel_hi(.LCPI60_0)
	and	a1, a1, a3
	addi	a3, a4, 1329
	mul	a1, a1, a3
	srliw	a1, a1, 27
	addi	a4, a5, %pcrel_lo(.Lpcrel_hi20)
	add	a1, a1, a4
	lbu	a6, 0(a1)
	slli	a5, a6, 2
	add	a5, a5, s1
	lw	a5, 108(a5)
	beqz	a5, .LBB60_19
	neg	a1, a5
	and	a1, a1, a5
	mul	a1, a1, a3
	srliw	a1, a1, 27
	add	a1, a1, a4
	lbu	a3, 0(a1)
	j	.LBB60_20
.LBB60_18:
	li	a3, 32
	slli	a1, a6, 5
	j	.LBB60_21
.LBB60_19:
	li	a3, 32
.LBB60_20:
	slli	a1, a6, 4
.LBB60_21:
	add	a1, a1, a3
	slli	a1, a1, 2
	add	a1, a1, s1
	lw	s4, 192(a1)
	li	a1, -1
	beq	s4, a1, .LBB60_31
.LBB60_22:
	lw	s5, 56(s1)
	addiw	a1, s5, -4
	bltu	a1, s4, .LBB60_33
	ld	a1, 72(s1)
	srliw	a3, s4, 6
	slli	a3, a3, 3
	add	a1, a1, a3
	ld	a1, 0(a1)
	srl	a1, a1, s4
	andi	a1, a1, 1
	beqz	a1, .LBB60_33
	addi	s2, s1, 48
	ld	a1, 0(s2)
	slli	a3, s4, 32
	srli	a3, a3, 29
	add	a1, a1, a3
	ld	s7, 0(a1)
	andi	a1, s7, 1
	beqz	a1, .LBB60_33
	srliw	a1, s7, 2
	sext.w	a0, a0
	bltu	a1, a0, .LBB60_33
	mv	s6, a2
	mv	a0, s2
	mv	a1, s4
	call	tlsf_heap.check.examine
	zext.b	a0, a0
	li	a2, 1
	bne	a0, a2, .LBB60_32
	mv	s3, a1
	beqz	s4, .LBB60_29
	srli	s4, s7, 32
	mv	a0, s2
	mv	a1, s4
	call	tlsf_heap.check.examine
	mv	a2, s6
	zext.b	a0, a0
	li	a1, 1
	bne	a0, a1, .LBB60_33
.LBB60_29:
	sext.w	a0, s3
	bne	a0, s5, .LBB60_37
	li	a0, 0
	li	a1, 1
	sb	a1, 0(s1)
	j	.LBB60_35
.LBB60_31:
	li	a0, 1
	sb	a0, 0(s1)
	j	.LBB60_35
.LBB60_32:
	mv	a2, s6
.LBB60_33:
	li	a0, 1
	sb	a0, 0(s1)
.LBB60_34:
	sw	s4, 0(a2)
	li	a0, 36
.LBB60_35:
	.cfi_def_cfa sp, 80
	ld	ra, 72(sp)
	ld	s0, 64(sp)
	ld	s1, 56(sp)
	ld	s2, 48(sp)
	ld	s3, 40(sp)
	ld	s4, 32(sp)
	ld	s5, 24(sp)
	ld	s6, 16(sp)
	ld	s7, 8(sp)
	.cfi_restore ra
	.cfi_restore s0
	.cfi_restore s1
	.cfi_restore s2
	.cfi_restore s3
	.cfi_restore s4
	.cfi_restore s5
	.cfi_restore s6
	.cfi_restore s7
	addi	sp, sp, 80
	.cfi_def_cfa_offset 0
.LBB60_36:
	ret
.LBB60_37:
	.cfi_restore_state
	mv	a0, s2
	mv	a1, s3
	call	tlsf_heap.check.examine
	mv	a2, s6
	zext.b	a0, a0
	li	a1, 1
	sb	a1, 0(s1)
	mv	s4, s3
	bne	a0, a1, .LBB60_34
	li	a0, 0
	j	.LBB60_35
.Lfunc_end60:
	.size	tlsf_check_request, .Lfunc_end60-tlsf_check_request
	.cfi_endproc
	.globl	tlsf_close
	.p2align	1
	.type	tlsf_close,@function
tlsf_close:
	.cfi_startproc
	lbu	a2, 8(a0)
	li	a1, 32
	beqz	a2, .LBB61_9
	addi	sp, sp, -112
	.cfi_def_cfa_offset 112
	sd	ra, 104(sp)
	sd	s0, 96(sp)
	sd	s1, 88(sp)
	sd	s2, 80(sp)
	sd	s3, 72(sp)
	sd	s4, 64(sp)
	sd	s5, 56(sp)
	sd	s6, 48(sp)
	sd	s7, 40(sp)
	sd	s8, 32(sp)
	sd	s9, 24(sp)
	sd	s10, 16(sp)
	sd	s11, 8(sp)
	.cfi_offset ra, -8
	.cfi_offset s0, -16
	.cfi_offset s1, -24
	.cfi_offset s2, -32
	.cfi_offset s3, -40
	.cfi_offset s4, -48
	.cfi_offset s5, -56
	.cfi_offset s6, -64
	.cfi_offset s7, -72
	.cfi_offset s8, -80
	.cfi_offset s9, -88
	.cfi_offset s10, -96
	.cfi_offset s11, -104
	addi	s0, sp, 112
	.cfi_def_cfa s0, 0
	ld	a2, 0(a0)
	lbu	a3, 0(a2)
	beqz	a3, .LBB61_8
	sb	zero, 8(a0)
	sb	zero, 0(a2)
	lbu	a6, 0(a0)
	lbu	a7, 1(a0)
	lbu	a3, 2(a0)
	lbu	a4, 3(a0)
	lbu	a5, 4(a0)
	lbu	s1, 5(a0)
	lbu	a1, 6(a0)
	lbu	a2, 7(a0)
	sb	zero, 4(a0)
	sb	zero, 5(a0)
	sb	zero, 6(a0)
	sb	zero, 7(a0)
	sb	zero, 0(a0)
	sb	zero, 1(a0)
	sb	zero, 2(a0)
	sb	zero, 3(a0)
	slli	a7, a7, 8
	slli	a3, a3, 16
	slli	a4, a4, 24
	slli	s1, s1, 8
	slli	a1, a1, 16
	slli	a2, a2, 24
	or	a0, a7, a6
	or	a3, a3, a4
	or	a5, a5, s1
	or	a1, a1, a2
	or	a0, a0, a3
	or	a1, a1, a5
	slli	a1, a1, 32
	or	a0, a0, a1
	lbu	s2, 16(a0)
	lbu	t6, 48(a0)
	lbu	a2, 49(a0)
	lbu	a7, 50(a0)
	lbu	t0, 51(a0)
	lbu	a6, 52(a0)
	lbu	t1, 53(a0)
	lbu	s3, 54(a0)
	lbu	a3, 55(a0)
	lbu	a4, 64(a0)
	lbu	s1, 65(a0)
	lbu	t2, 66(a0)
	lbu	t3, 67(a0)
	lbu	t4, 68(a0)
	lbu	t5, 69(a0)
	lbu	a1, 70(a0)
	slli	a2, a2, 8
	or	t6, a2, t6
	lbu	a2, 71(a0)
	lbu	a5, 72(a0)
	sd	a5, -112(s0)
	lbu	s5, 73(a0)
	lbu	s4, 74(a0)
	slli	a7, a7, 16
	slli	t0, t0, 24
	slli	t1, t1, 8
	slli	a5, s3, 16
	slli	a3, a3, 24
	slli	s1, s1, 8
	or	a7, t0, a7
	or	a6, t1, a6
	or	t0, a3, a5
	or	t1, s1, a4
	lbu	s6, 79(a0)
	lbu	a5, 88(a0)
	lbu	s1, 89(a0)
	lbu	a3, 90(a0)
	slli	t2, t2, 16
	slli	t3, t3, 24
	slli	t5, t5, 8
	slli	a1, a1, 16
	slli	a2, a2, 24
	slli	s1, s1, 8
	or	t3, t3, t2
	or	t2, t5, t4
	or	t4, a2, a1
	or	t5, s1, a5
	lbu	a2, 91(a0)
	lbu	s1, 92(a0)
	lbu	a4, 93(a0)
	lbu	a1, 94(a0)
	slli	a3, a3, 16
	slli	a2, a2, 24
	or	a2, a2, a3
	lbu	a3, 95(a0)
	slli	a4, a4, 8
	or	a4, a4, s1
	slli	a1, a1, 16
	slli	a3, a3, 24
	or	a1, a1, a3
	or	a7, a7, t6
	or	s1, t0, a6
	or	a5, t3, t1
	or	a3, t4, t2
	or	a2, a2, t5
	or	a1, a1, a4
	lbu	s10, 75(a0)
	lbu	s7, 76(a0)
	lbu	s9, 77(a0)
	lbu	s8, 78(a0)
	slli	s1, s1, 32
	slli	a3, a3, 32
	slli	a1, a1, 32
	or	s11, s1, a7
	or	s3, a3, a5
	or	s1, a1, a2
	call	tlsf_memory_dealloc
	beqz	s3, .LBB61_5
	mv	a0, s11
	call	tlsf_memory_dealloc
.LBB61_5:
	beqz	s1, .LBB61_7
	slli	s5, s5, 8
	slli	s4, s4, 16
	slli	s10, s10, 24
	slli	s9, s9, 8
	slli	s8, s8, 16
	slli	s6, s6, 24
	ld	a0, -112(s0)
	or	a0, s5, a0
	or	a1, s10, s4
	or	a2, s9, s7
	or	a3, s6, s8
	or	a0, a0, a1
	or	a2, a2, a3
	slli	a2, a2, 32
	or	a0, a0, a2
	call	tlsf_memory_dealloc
.LBB61_7:
	li	a1, 0
.LBB61_8:
	.cfi_def_cfa sp, 112
	ld	ra, 104(sp)
	ld	s0, 96(sp)
	ld	s1, 88(sp)
	ld	s2, 80(sp)
	ld	s3, 72(sp)
	ld	s4, 64(sp)
	ld	s5, 56(sp)
	ld	s6, 48(sp)
	ld	s7, 40(sp)
	ld	s8, 32(sp)
	ld	s9, 24(sp)
	ld	s10, 16(sp)
	ld	s11, 8(sp)
	.cfi_restore ra
	.cfi_restore s0
	.cfi_restore s1
	.cfi_restore s2
	.cfi_restore s3
	.cfi_restore s4
	.cfi_restore s5
	.cfi_restore s6
	.cfi_restore s7
	.cfi_restore s8
	.cfi_restore s9
	.cfi_restore s10
	.cfi_restore s11
	addi	sp, sp, 112
	.cfi_def_cfa_offset 0
.LBB61_9:
	mv	a0, a1
	ret
.Lfunc_end61:
	.size	tlsf_close, .Lfunc_end61-tlsf_close
	.cfi_endproc
	.globl	tlsf_counts
	.p2align	1
	.type	tlsf_counts,@function
tlsf_counts:
	.cfi_startproc
	lbu	a2, 8(a0)
	beqz	a2, .LBB62_3
	ld	a2, 0(a0)
	lbu	a0, 0(a2)
	beqz	a0, .LBB62_3
	lw	a3, 40(a2)
	lw	a4, 8(a2)
	lw	a5, 12(a2)
	lw	a2, 44(a2)
	srli	a6, a3, 24
	srli	a7, a3, 16
	srli	t0, a3, 8
	srli	t1, a2, 24
	srli	t2, a2, 16
	srli	t3, a2, 8
	srli	t4, a4, 24
	srli	t5, a4, 16
	srli	t6, a4, 8
	sb	a3, 0(a1)
	sb	t0, 1(a1)
	sb	a7, 2(a1)
	sb	a6, 3(a1)
	srli	a3, a5, 24
	sb	a2, 4(a1)
	sb	t3, 5(a1)
	sb	t2, 6(a1)
	sb	t1, 7(a1)
	srli	a2, a5, 16
	sb	a4, 8(a1)
	sb	t6, 9(a1)
	sb	t5, 10(a1)
	sb	t4, 11(a1)
	srli	a4, a5, 8
	sb	a5, 12(a1)
	sb	a4, 13(a1)
	sb	a2, 14(a1)
	sb	a3, 15(a1)
	li	a0, 0
	ret
.LBB62_3:
	addi	sp, sp, -16
	.cfi_def_cfa_offset 16
	sd	ra, 8(sp)
	sd	s0, 0(sp)
	.cfi_offset ra, -8
	.cfi_offset s0, -16
	addi	s0, sp, 16
	.cfi_def_cfa s0, 0
	li	a0, 0
	call	tlsf_c.call_fault.CallFault.refusal
	.cfi_def_cfa sp, 16
	ld	ra, 8(sp)
	ld	s0, 0(sp)
	.cfi_restore ra
	.cfi_restore s0
	addi	sp, sp, 16
	.cfi_def_cfa_offset 0
	sext.w	a0, a0
	ret
.Lfunc_end62:
	.size	tlsf_counts, .Lfunc_end62-tlsf_counts
	.cfi_endproc
	.globl	tlsf_drain
	.p2align	1
	.type	tlsf_drain,@function
tlsf_drain:
	.cfi_startproc
	addi	sp, sp, -880
	.cfi_def_cfa_offset 880
	sd	ra, 872(sp)
	sd	s0, 864(sp)
	sd	s1, 856(sp)
	sd	s2, 848(sp)
	sd	s3, 840(sp)
	sd	s4, 832(sp)
	sd	s5, 824(sp)
	sd	s6, 816(sp)
	sd	s7, 808(sp)
	sd	s8, 800(sp)
	sd	s9, 792(sp)
	sd	s10, 784(sp)
	sd	s11, 776(sp)
	.cfi_offset ra, -8
	.cfi_offset s0, -16
	.cfi_offset s1, -24
	.cfi_offset s2, -32
	.cfi_offset s3, -40
	.cfi_offset s4, -48
	.cfi_offset s5, -56
	.cfi_offset s6, -64
	.cfi_offset s7, -72
	.cfi_offset s8, -80
	.cfi_offset s9, -88
	.cfi_offset s10, -96
	.cfi_offset s11, -104
	addi	s0, sp, 880
	.cfi_def_cfa s0, 0
	.cfi_remember_state
	mv	s10, a0
	lbu	a0, 8(a0)
	beqz	a0, .LBB63_15
	ld	a0, 0(s10)
	lbu	a0, 0(a0)
	beqz	a0, .LBB63_15
	lbu	a0, 8(a1)
	beqz	a0, .LBB63_15
	ld	s7, 0(a1)
	lbu	a0, 1(s7)
	beqz	a0, .LBB63_15
	lbu	a0, 0(s7)
	li	a1, 1
	bne	a0, a1, .LBB63_18
	mv	s2, a3
	mv	s3, a2
	sb	zero, 1(s7)
	sext.w	s1, a2
	addi	a0, s0, -872
	li	a2, 768
	li	a1, 0
	call	tlsf_memory_set
	li	s8, 0
	beqz	s1, .LBB63_14
	addi	s4, s7, 8
	addi	s9, s0, -856
.LBB63_7:
	sext.w	s5, s3
	li	a0, 32
	bltu	s5, a0, .LBB63_9
	li	s5, 32
.LBB63_9:
	addi	a1, s0, -872
	mv	a0, s4
	mv	a2, s5
	call	tlsf_post.take_end.TakeEnd.take_slice
	mv	s6, a0
	beqz	a0, .LBB63_12
	mv	s1, s9
	mv	s11, s6
.LBB63_11:
	lw	a1, -8(s1)
	lw	a3, -4(s1)
	ld	a2, 0(s1)
	mv	a0, s10
	call	tlsf_c.heap_calls.release_named
	addi	s11, s11, -1
	addi	s1, s1, 24
	bnez	s11, .LBB63_11
.LBB63_12:
	add	s8, s8, s6
	bltu	s6, s5, .LBB63_14
	subw	s3, s3, s6
	bnez	s3, .LBB63_7
.LBB63_14:
	li	a0, 0
	sw	s8, 0(s2)
	li	a1, 1
	sb	a1, 1(s7)
	j	.LBB63_17
.LBB63_15:
	li	a0, 0
.LBB63_16:
	call	tlsf_c.call_fault.CallFault.refusal
.LBB63_17:
	sext.w	a0, a0
	.cfi_def_cfa sp, 880
	ld	ra, 872(sp)
	ld	s0, 864(sp)
	ld	s1, 856(sp)
	ld	s2, 848(sp)
	ld	s3, 840(sp)
	ld	s4, 832(sp)
	ld	s5, 824(sp)
	ld	s6, 816(sp)
	ld	s7, 808(sp)
	ld	s8, 800(sp)
	ld	s9, 792(sp)
	ld	s10, 784(sp)
	ld	s11, 776(sp)
	.cfi_restore ra
	.cfi_restore s0
	.cfi_restore s1
	.cfi_restore s2
	.cfi_restore s3
	.cfi_restore s4
	.cfi_restore s5
	.cfi_restore s6
	.cfi_restore s7
	.cfi_restore s8
	.cfi_restore s9
	.cfi_restore s10
	.cfi_restore s11
	addi	sp, sp, 880
	.cfi_def_cfa_offset 0
	ret
.LBB63_18:
	.cfi_restore_state
	li	a0, 2
	j	.LBB63_16
.Lfunc_end63:
	.size	tlsf_drain, .Lfunc_end63-tlsf_drain
	.cfi_endproc
	.globl	tlsf_lane_open
	.p2align	1
	.type	tlsf_lane_open,@function
tlsf_lane_open:
	.cfi_startproc
	addi	sp, sp, -208
	.cfi_def_cfa_offset 208
	sd	ra, 200(sp)
	sd	s0, 192(sp)
	sd	s1, 184(sp)
	sd	s2, 176(sp)
	sd	s3, 168(sp)
	sd	s4, 160(sp)
	sd	s5, 152(sp)
	sd	s6, 144(sp)
	sd	s7, 136(sp)
	.cfi_offset ra, -8
	.cfi_offset s0, -16
	.cfi_offset s1, -24
	.cfi_offset s2, -32
	.cfi_offset s3, -40
	.cfi_offset s4, -48
	.cfi_offset s5, -56
	.cfi_offset s6, -64
	.cfi_offset s7, -72
	addi	s0, sp, 208
	.cfi_def_cfa s0, 0
	mv	s3, a2
	mv	a2, a0
	sd	zero, -128(s0)
	sd	zero, -120(s0)
	sd	zero, -112(s0)
	sd	zero, -104(s0)
	sd	zero, -96(s0)
	sd	zero, -88(s0)
	sd	zero, -80(s0)
	sd	zero, -176(s0)
	sd	zero, -168(s0)
	sd	zero, -160(s0)
	sd	zero, -152(s0)
	sd	zero, -144(s0)
	sd	zero, -136(s0)
	lbu	a3, 8(a0)
	sd	zero, -200(s0)
	sd	zero, -192(s0)
	sd	zero, -184(s0)
	li	a0, 33
	bnez	a3, .LBB64_24
	lbu	a3, 8(a1)
	bnez	a3, .LBB64_24
	addiw	a0, s3, -1025
	li	a3, -1024
	bgeu	a0, a3, .LBB64_4
	li	a0, 5
	j	.LBB64_24
.LBB64_4:
	mv	s6, a2
	mv	s5, a1
	li	a0, 384
	li	a1, 8
	call	tlsf_memory_alloc
	mv	s1, a1
	andi	a1, a0, 1
	li	a0, 6
	beqz	a1, .LBB64_24
	sext.w	s3, s3
	slli	a0, s3, 3
	slli	a1, s3, 4
	add	a0, a0, a1
	li	a1, 8
	call	tlsf_memory_alloc
	andi	a0, a0, 1
	beqz	a0, .LBB64_11
	mv	s4, a1
	sd	zero, 0(s1)
	sd	zero, 128(s1)
	sd	zero, 256(s1)
	li	a0, 48
	li	a1, 8
	call	tlsf_memory_alloc
	andi	a0, a0, 1
	beqz	a0, .LBB64_12
	mv	s2, a1
	li	s7, 1
	srli	a6, s1, 56
	srli	t1, s1, 48
	srli	t2, s1, 40
	srli	t5, s1, 32
	srli	a4, s1, 24
	srli	a5, s1, 16
	srli	t3, s1, 8
	srli	a7, s4, 56
	srli	t0, s4, 48
	srli	t4, s4, 40
	srli	a2, s4, 32
	srli	a0, s4, 24
	srli	a1, s4, 16
	srli	a3, s4, 8
	srli	t6, s3, 56
	sb	a5, 10(s2)
	sb	a4, 11(s2)
	sb	t5, 12(s2)
	sb	t2, 13(s2)
	srli	a4, s3, 48
	sb	zero, 0(s2)
	sb	s7, 1(s2)
	sb	s1, 8(s2)
	sb	t3, 9(s2)
	srli	a5, s3, 40
	sb	a1, 18(s2)
	sb	a0, 19(s2)
	sb	a2, 20(s2)
	sb	t4, 21(s2)
	srli	a0, s3, 32
	sb	t1, 14(s2)
	sb	a6, 15(s2)
	sb	s4, 16(s2)
	sb	a3, 17(s2)
	srli	a1, s3, 24
	sb	a4, 30(s2)
	sb	t6, 31(s2)
	srli	a2, s3, 16
	sb	a2, 26(s2)
	sb	a1, 27(s2)
	sb	a0, 28(s2)
	sb	a5, 29(s2)
	srli	a0, s3, 8
	sb	t0, 22(s2)
	sb	a7, 23(s2)
	sb	s3, 24(s2)
	sb	a0, 25(s2)
	addi	a0, s2, 32
	li	a2, 16
	li	a1, 0
	call	tlsf_memory_set
	li	a0, 257
	sh	a0, -176(s0)
	sd	s1, -168(s0)
	sd	s4, -160(s0)
	sd	s3, -152(s0)
	sd	zero, -144(s0)
	sd	zero, -136(s0)
	addi	a0, s0, -128
	addi	a1, s0, -176
	call	std_alloc.boxed.Box.new.91a8e04f462e8cea
	lbu	a0, -128(s0)
	beqz	a0, .LBB64_16
	lbu	a2, -120(s0)
	ld	a0, -112(s0)
	ld	s1, -96(s0)
	blt	s7, a2, .LBB64_17
	ld	a1, -104(s0)
	bnez	a2, .LBB64_19
	addi	a2, a0, 256
	li	a3, 1
	amoswap.d.aqrl	a2, a3, (a2)
	bnez	a2, .LBB64_20
	j	.LBB64_22
.LBB64_11:
	mv	a0, s1
	call	tlsf_memory_dealloc
	j	.LBB64_23
.LBB64_12:
	addi	s2, s1, 256
	li	s5, 1
	amoswap.d.aqrl	a0, s5, (s2)
	beqz	a0, .LBB64_14
	mv	a0, s1
	mv	a1, s4
	mv	a2, s3
	call	rtrb.release.drop_slow.23d795680250cb0d
.LBB64_14:
	amoswap.d.aqrl	a0, s5, (s2)
	beqz	a0, .LBB64_23
	mv	a0, s1
	mv	a1, s4
	mv	a2, s3
	call	rtrb.release.drop_slow.23d795680250cb0d
	j	.LBB64_23
.LBB64_16:
	ld	a1, -120(s0)
	srli	a2, s2, 56
	srli	a3, s2, 48
	srli	a4, s2, 40
	srli	a5, s2, 32
	srli	a6, s2, 24
	srli	s1, s2, 16
	sb	a5, 4(s6)
	sb	a4, 5(s6)
	sb	a3, 6(s6)
	sb	a2, 7(s6)
	srli	a2, s2, 8
	sb	s7, 8(s6)
	sb	zero, 9(s6)
	sb	zero, 10(s6)
	sb	zero, 11(s6)
	sb	zero, 12(s6)
	sb	zero, 13(s6)
	sb	zero, 14(s6)
	sb	zero, 15(s6)
	sb	s2, 0(s6)
	sb	a2, 1(s6)
	sb	s1, 2(s6)
	sb	a6, 3(s6)
	sb	s7, 8(s5)
	sb	zero, 9(s5)
	sb	zero, 10(s5)
	sb	zero, 11(s5)
	srli	a2, a1, 48
	srli	a3, a1, 56
	srli	a4, a1, 32
	srli	a5, a1, 40
	srli	s1, a1, 16
	srli	a6, a1, 24
	sb	a4, 4(s5)
	sb	a5, 5(s5)
	sb	a2, 6(s5)
	sb	a3, 7(s5)
	srli	a2, a1, 8
	sb	a1, 0(s5)
	sb	a2, 1(s5)
	sb	s1, 2(s5)
	sb	a6, 3(s5)
	sb	zero, 12(s5)
	sb	zero, 13(s5)
	sb	zero, 14(s5)
	sb	zero, 15(s5)
	j	.LBB64_24
.LBB64_17:
	li	a1, 2
	bne	a2, a1, .LBB64_21
	call	std_alloc.arc.Arc.drop.c4a047e811255370
	ld	a0, -88(s0)
	ld	a1, -80(s0)
	sd	s1, -200(s0)
	sd	a0, -192(s0)
	sd	a1, -184(s0)
	addi	a0, s0, -200
	call	std_alloc.vec.Vec.drop.7ac45d8413b9ad54
	j	.LBB64_22
.LBB64_19:
	addi	a2, a0, 256
	li	a3, 1
	amoswap.d.aqrl	a2, a3, (a2)
	beqz	a2, .LBB64_22
.LBB64_20:
	mv	a2, s1
	call	rtrb.release.drop_slow.23d795680250cb0d
	j	.LBB64_22
.LBB64_21:
	call	std_alloc.arc.Arc.drop.c4a047e811255370
.LBB64_22:
	mv	a0, s2
	call	std_alloc.boxed.Box.drop.7d8ec8058c3633cd
.LBB64_23:
	li	a0, 6
.LBB64_24:
	.cfi_def_cfa sp, 208
	ld	ra, 200(sp)
	ld	s0, 192(sp)
	ld	s1, 184(sp)
	ld	s2, 176(sp)
	ld	s3, 168(sp)
	ld	s4, 160(sp)
	ld	s5, 152(sp)
	ld	s6, 144(sp)
	ld	s7, 136(sp)
	.cfi_restore ra
	.cfi_restore s0
	.cfi_restore s1
	.cfi_restore s2
	.cfi_restore s3
	.cfi_restore s4
	.cfi_restore s5
	.cfi_restore s6
	.cfi_restore s7
	addi	sp, sp, 208
	.cfi_def_cfa_offset 0
	ret
.Lfunc_end64:
	.size	tlsf_lane_open, .Lfunc_end64-tlsf_lane_open
	.cfi_endproc
	.globl	tlsf_locate
	.p2align	1
	.type	tlsf_locate,@function
tlsf_locate:
	.cfi_startproc
	addi	sp, sp, -32
	.cfi_def_cfa_offset 32
	sd	ra, 24(sp)
	sd	s0, 16(sp)
	sd	s1, 8(sp)
	.cfi_offset ra, -8
	.cfi_offset s0, -16
	.cfi_offset s1, -24
	addi	s0, sp, 32
	.cfi_def_cfa s0, 0
	.cfi_remember_state
	lbu	a5, 8(a0)
	beqz	a5, .LBB65_13
	ld	s1, 0(a0)
	lbu	a0, 0(s1)
	beqz	a0, .LBB65_13
	lbu	a5, 16(s1)
	lw	a6, 24(s1)
	srli	a7, a1, 32
	sb	zero, 0(s1)
	beqz	a5, .LBB65_5
	sext.w	a0, a1
	bne	a6, a0, .LBB65_12
	lw	a0, 56(s1)
	sext.w	a5, a7
	bltu	a5, a0, .LBB65_7
	j	.LBB65_11
.LBB65_5:
	sext.w	a5, a1
	bne	a6, a5, .LBB65_12
	lw	a5, 56(s1)
	sext.w	a0, a7
	bgeu	a0, a5, .LBB65_11
.LBB65_7:
	ld	a0, 72(s1)
	srli	a5, a1, 35
	andi	a5, a5, -8
	add	a0, a0, a5
	ld	a0, 0(a0)
	srl	a0, a0, a7
	andi	a0, a0, 1
	beqz	a0, .LBB65_11
	ld	a6, 48(s1)
	slli	a5, a7, 3
	add	a5, a5, a6
	lbu	a0, 0(a5)
	andi	a0, a0, 1
	bnez	a0, .LBB65_11
	ld	a0, 8(a5)
	bne	a0, a2, .LBB65_11
	ld	a1, 16(a5)
	li	a2, 1
	sb	a2, 0(s1)
	sd	a6, 0(a3)
	sw	a1, 0(a4)
	li	a0, 0
	.cfi_def_cfa sp, 32
	ld	ra, 24(sp)
	ld	s0, 16(sp)
	ld	s1, 8(sp)
	.cfi_restore ra
	.cfi_restore s0
	.cfi_restore s1
	addi	sp, sp, 32
	.cfi_def_cfa_offset 0
	ret
.LBB65_11:
	.cfi_restore_state
	.cfi_remember_state
	mv	a6, a1
.LBB65_12:
	mv	a0, a1
	mv	a1, a6
	call	tlsf_heap.refusal.Refusal.of_name
	zext.b	a0, a0
	li	a1, 1
	sb	a1, 0(s1)
	addi	a0, a0, -3
	seqz	a0, a0
	addi	a0, a0, 3
	sext.w	a0, a0
	.cfi_def_cfa sp, 32
	ld	ra, 24(sp)
	ld	s0, 16(sp)
	ld	s1, 8(sp)
	.cfi_restore ra
	.cfi_restore s0
	.cfi_restore s1
	addi	sp, sp, 32
	.cfi_def_cfa_offset 0
	ret
.LBB65_13:
	.cfi_restore_state
	li	a0, 0
	call	tlsf_c.call_fault.CallFault.refusal
	sext.w	a0, a0
	.cfi_def_cfa sp, 32
	ld	ra, 24(sp)
	ld	s0, 16(sp)
	ld	s1, 8(sp)
	.cfi_restore ra
	.cfi_restore s0
	.cfi_restore s1
	addi	sp, sp, 32
	.cfi_def_cfa_offset 0
	ret
.Lfunc_end65:
	.size	tlsf_locate, .Lfunc_end65-tlsf_locate
	.cfi_endproc
	.section	.rodata.cst32,"aM",@progbits,32
.LCPI66_0:
	.ascii	"\000\001\034\002\035\016\030\003\036\026\024\017\031\021\004\b\037\033\r\027\025\023\020\007\032\f\022\006\013\005\n\t"
	.text
	.globl	tlsf_offsets_allocate
	.p2align	1
	.type	tlsf_offsets_allocate,@function
tlsf_offsets_allocate:
	.cfi_startproc
	addi	sp, sp, -48
	.cfi_def_cfa_offset 48
	sd	ra, 40(sp)
	sd	s0, 32(sp)
	sd	s1, 24(sp)
	sd	s2, 16(sp)
	sd	s3, 8(sp)
	sd	s4, 0(sp)
	.cfi_offset ra, -8
	.cfi_offset s0, -16
	.cfi_offset s1, -24
	.cfi_offset s2, -32
	.cfi_offset s3, -40
	.cfi_offset s4, -48
	addi	s0, sp, 48
	.cfi_def_cfa s0, 0
	.cfi_remember_state
	lbu	a3, 8(a0)
	beqz	a3, .LBB66_20
	ld	a3, 0(a0)
	lbu	a0, 1(a3)
	beqz	a0, .LBB66_20
	lbu	a0, 0(a3)
	bnez	a0, .LBB66_28
	lbu	a4, 8(a3)
	addi	a6, a3, 2047
	lwu	a0, 705(a6)
	sb	zero, 1(a3)
	beqz	a4, .LBB66_8
	beqz	a0, .LBB66_59
	divu	a4, a1, a0
	mul	a0, a4, a0
	sub	a1, a1, a0
	snez	a1, a1
	add	a1, a1, a4
	li	a0, 4
	mv	t6, a1
	bgeu	a0, a1, .LBB66_12
	li	a0, -1
	srli	a0, a0, 32
	bgeu	t6, a0, .LBB66_13
.LBB66_7:
	lui	a0, 4096
	bgeu	a0, a1, .LBB66_14
	j	.LBB66_27
.LBB66_8:
	beqz	a0, .LBB66_59
	divu	a4, a1, a0
	mul	a0, a4, a0
	sub	a1, a1, a0
	snez	a0, a1
	add	a0, a0, a4
	li	a1, 4
	mv	t6, a0
	bgeu	a1, a0, .LBB66_16
	li	a1, -1
	srli	a1, a1, 32
	bgeu	t6, a1, .LBB66_17
.LBB66_11:
	lui	a1, 256
	bgeu	a1, a0, .LBB66_18
	j	.LBB66_27
.LBB66_12:
	li	t6, 4
	li	a0, -1
	srli	a0, a0, 32
	bltu	t6, a0, .LBB66_7
.LBB66_13:
	mv	t6, a0
	lui	a0, 4096
	bltu	a0, a1, .LBB66_27
.LBB66_14:
	ori	a0, t6, 32
	lui	a1, 349525
	lui	a4, 209715
	srliw	a5, a0, 1
	addi	a1, a1, 1365
	or	a0, a0, a5
	srliw	a5, a0, 2
	or	a0, a0, a5
	srliw	a5, a0, 4
	or	a0, a0, a5
	srliw	a5, a0, 8
	or	a0, a0, a5
	srliw	a5, a0, 16
	or	a0, a0, a5
	not	a0, a0
	srli	a5, a0, 1
	and	a1, a1, a5
	lui	a5, 61681
	addi	a4, a4, 819
	sub	a0, a0, a1
	and	a1, a0, a4
	srli	a0, a0, 2
	and	a0, a0, a4
	lui	a4, 4112
	add	a0, a0, a1
	srli	a1, a0, 4
	add	a0, a0, a1
	li	a1, 26
	addi	a5, a5, -241
	and	a0, a0, a5
	addi	a5, t6, -1
	addi	a4, a4, 257
	mul	a0, a0, a4
	srliw	a0, a0, 24
	sub	a1, a1, a0
	srlw	a4, a5, a1
	slli	a1, a1, 5
	add	a1, a1, a4
	addiw	a1, a1, 1
	addi	a1, a1, -1
	srli	a0, a1, 5
	slli	a5, a0, 2
	add	a5, a5, a3
	lw	a5, 100(a5)
	srlw	a4, a5, a4
	andi	a4, a4, -2
	beqz	a4, .LBB66_21
	neg	a0, a4
	and	a0, a0, a4
	lui	a4, 30667
	addi	a4, a4, 1329
	mul	a0, a0, a4
.Lpcrel_hi25:
	auipc	a4, %pcrel_hi(.LCPI66_0)
	srliw	a0, a0, 27
	addi	a4, a4, %pcrel_lo(.Lpcrel_hi25)
	add	a0, a0, a4
	lbu	a0, 0(a0)
	add	a1, a1, a0
	ld	s2, 24(a3)
	li	a0, -1
	bne	s2, a0, .LBB66_30
	j	.LBB66_45
.LBB66_16:
	li	t6, 4
	li	a1, -1
	srli	a1, a1, 32
	bltu	t6, a1, .LBB66_11
.LBB66_17:
	mv	t6, a1
	lui	a1, 256
	bltu	a1, a0, .LBB66_27
.LBB66_18:
	ori	a0, t6, 16
	lui	a1, 349525
	lui	a4, 209715
	srliw	a5, a0, 1
	addi	a1, a1, 1365
	or	a0, a0, a5
	srliw	a5, a0, 2
	or	a0, a0, a5
	srliw	a5, a0, 4
	or	a0, a0, a5
	srliw	a5, a0, 8
	or	a0, a0, a5
	srliw	a5, a0, 16
	or	a0, a0, a5
	not	a0, a0
	srli	a5, a0, 1
	and	a1, a1, a5
	lui	a5, 61681
	addi	a4, a4, 819
	sub	a0, a0, a1
	and	a1, a0, a4
	srli	a0, a0, 2
	and	a0, a0, a4
	lui	a4, 4112
	add	a0, a0, a1
	srli	a1, a0, 4
	add	a0, a0, a1
	li	a1, 27
	addi	a5, a5, -241
	and	a0, a0, a5
	addi	a5, t6, -1
	addi	a4, a4, 257
	mul	a0, a0, a4
	srliw	a0, a0, 24
	sub	a1, a1, a0
	srlw	a4, a5, a1
	slli	a1, a1, 4
	add	a1, a1, a4
	addiw	a0, a1, 1
	addi	a0, a0, -1
	srli	a1, a0, 4
	slli	a5, a1, 2
	add	a5, a5, a3
	lw	a5, 100(a5)
	andi	a4, a4, 15
	srlw	a4, a5, a4
	andi	a4, a4, -2
	beqz	a4, .LBB66_24
	neg	a1, a4
	and	a1, a1, a4
	lui	a4, 30667
	addi	a4, a4, 1329
	mul	a1, a1, a4
.Lpcrel_hi23:
	auipc	a4, %pcrel_hi(.LCPI66_0)
	srliw	a1, a1, 27
	addi	a4, a4, %pcrel_lo(.Lpcrel_hi23)
	add	a1, a1, a4
	lbu	a1, 0(a1)
	add	a0, a0, a1
	ld	s2, 24(a3)
	li	s1, -1
	bne	s2, s1, .LBB66_43
	j	.LBB66_45
.LBB66_20:
	li	a0, 0
	call	tlsf_c.call_fault.CallFault.refusal
	j	.LBB66_57
.LBB66_21:
	lw	a1, 96(a3)
	li	a4, -2
	sllw	a0, a4, a0
	and	a1, a1, a0
	beqz	a1, .LBB66_27
	neg	a0, a1
	lui	a4, 30667
.Lpcrel_hi26:
	auipc	a5, %pcrel_hi(.LCPI66_0)
	and	a0, a0, a1
	addi	a4, a4, 1329
	mul	a0, a0, a4
	srliw	a0, a0, 27
	addi	a5, a5, %pcrel_lo(.Lpcrel_hi26)
	add	a0, a0, a5
	lbu	a1, 0(a0)
	slli	a0, a1, 2
	add	a0, a0, a3
	lw	a0, 100(a0)
	beqz	a0, .LBB66_29
	neg	s1, a0
	and	a0, a0, s1
	mul	a0, a0, a4
	srliw	a0, a0, 27
	add	a0, a0, a5
	lbu	a0, 0(a0)
	slli	a1, a1, 5
	add	a1, a1, a0
	ld	s2, 24(a3)
	li	a0, -1
	bne	s2, a0, .LBB66_30
	j	.LBB66_45
.LBB66_24:
	lw	a0, 96(a3)
	li	a4, -2
	sllw	a1, a4, a1
	and	a0, a0, a1
	beqz	a0, .LBB66_27
	neg	a1, a0
	lui	a4, 30667
.Lpcrel_hi24:
	auipc	a5, %pcrel_hi(.LCPI66_0)
	and	a0, a0, a1
	addi	a1, a4, 1329
	mul	a0, a0, a1
	srliw	a0, a0, 27
	addi	a4, a5, %pcrel_lo(.Lpcrel_hi24)
	add	a0, a0, a4
	lbu	a0, 0(a0)
	slli	a5, a0, 2
	add	a5, a5, a3
	lw	a5, 100(a5)
	beqz	a5, .LBB66_41
	neg	s1, a5
	and	a5, a5, s1
	mul	a1, a5, a1
	srliw	a1, a1, 27
	add	a1, a1, a4
	lbu	a1, 0(a1)
	j	.LBB66_42
.LBB66_27:
	li	a0, 1
	sb	a0, 1(a3)
	j	.LBB66_57
.LBB66_28:
	li	a0, 2
	call	tlsf_c.call_fault.CallFault.refusal
	j	.LBB66_57
.LBB66_29:
	li	a0, 32
	slli	a1, a1, 5
	add	a1, a1, a0
	ld	s2, 24(a3)
	li	a0, -1
	beq	s2, a0, .LBB66_45
.LBB66_30:
	slli	a5, a1, 2
	add	a5, a5, a3
	lwu	t5, 184(a5)
	ld	t2, 40(a3)
	slli	a7, t5, 3
	add	a4, t2, a7
	lw	s1, 16(a4)
	beq	s1, a0, .LBB66_32
	slli	a0, s1, 32
	srli	a0, a0, 29
	add	a0, a0, t2
	ld	a1, 16(a0)
	li	a4, -1
	slli	a4, a4, 32
	or	a1, a1, a4
	sd	a1, 16(a0)
	ld	t2, 40(a3)
	sw	s1, 184(a5)
	j	.LBB66_34
.LBB66_32:
	li	a0, -1
	srli	s1, a1, 5
	sw	a0, 184(a5)
	slli	a0, s1, 2
	add	a4, a3, a0
	lw	a5, 100(a4)
	li	a0, 1
	sllw	a1, a0, a1
	not	a1, a1
	and	a1, a1, a5
	sw	a1, 100(a4)
	bnez	a1, .LBB66_34
	lw	a1, 96(a3)
	sllw	a0, a0, s1
	not	a0, a0
	and	a0, a0, a1
	sw	a0, 96(a3)
.LBB66_34:
	add	a5, t2, a7
	ld	s1, 0(a5)
	slli	a0, t6, 2
	subw	a1, s1, a0
	li	a0, 15
	bltu	a0, a1, .LBB66_36
	addi	s1, s1, -1
	sd	s1, 0(a5)
	sd	s2, 8(a5)
	sd	zero, 16(a5)
	srliw	t6, s1, 2
	lw	a0, 32(a3)
	lw	a1, 36(a3)
	addw	a0, a0, t6
	sw	a0, 32(a3)
	bltu	a1, a0, .LBB66_55
	j	.LBB66_56
.LBB66_36:
	srliw	t0, a1, 2
	li	t3, -1
	slli	a4, a1, 32
	slli	t1, t5, 32
	add	t4, t5, t6
	li	s3, 1
	srli	a4, a4, 32
	slli	a0, t4, 32
	or	s4, t1, a4
	sub	s1, s1, a4
	srli	t1, a0, 29
	sd	s1, 0(a5)
	sd	s2, 8(a5)
	sd	zero, 16(a5)
	add	t2, t2, t1
	sd	s4, 0(t2)
	sd	s2, 8(t2)
	ld	a4, 64(a3)
	andi	a1, a1, 2
	srliw	a5, t4, 6
	slli	a5, a5, 3
	add	a4, a4, a5
	ld	a5, 0(a4)
	srli	t2, t3, 32
	sll	s1, s3, t4
	srli	a0, a0, 32
	or	a5, a5, s1
	sd	a5, 0(a4)
	slli	t3, a0, 32
	bnez	a1, .LBB66_38
	ld	a0, 40(a3)
	add	a1, t0, t4
	slli	a1, a1, 32
	srli	a1, a1, 29
	add	a0, a0, a1
	ld	a1, 0(a0)
	and	a1, a1, t2
	or	a1, a1, t3
	sd	a1, 0(a0)
.LBB66_38:
	ori	a0, t0, 32
	lui	a1, 349525
	lui	a4, 209715
	srli	a5, a0, 1
	addi	a1, a1, 1365
	or	a0, a0, a5
	srli	a5, a0, 2
	or	a0, a0, a5
	srli	a5, a0, 4
	or	a0, a0, a5
	slli	a5, a0, 34
	srli	a5, a5, 42
	or	a0, a0, a5
	slli	a5, a0, 33
	srli	a5, a5, 49
	or	a0, a0, a5
	not	a0, a0
	srli	a5, a0, 1
	and	a1, a1, a5
	lui	a5, 61681
	addi	a4, a4, 819
	sub	a0, a0, a1
	and	a1, a0, a4
	srli	a0, a0, 2
	and	a0, a0, a4
	lui	a4, 4112
	add	a0, a0, a1
	srli	a1, a0, 4
	add	a0, a0, a1
	li	a1, 26
	addi	a5, a5, -241
	addi	a4, a4, 257
	and	a0, a0, a5
	mul	a0, a0, a4
	srliw	a0, a0, 24
	sub	a1, a1, a0
	srlw	s1, t0, a1
	slli	a1, a1, 5
	add	a1, a1, s1
	slli	a0, a1, 2
	add	a0, a0, a3
	lw	a5, 184(a0)
	ld	a4, 40(a3)
	sw	t4, 184(a0)
	bltz	a5, .LBB66_40
	li	a0, -1
	add	t1, t1, a4
	slli	a0, a0, 32
	or	a0, a0, a5
	slli	a5, a5, 3
	sd	a0, 16(t1)
	add	a4, a4, a5
	j	.LBB66_54
.LBB66_40:
	add	a4, a4, t1
	li	a0, -1
	srli	a1, a1, 5
	li	t0, 1
	sd	a0, 16(a4)
	slli	a0, a1, 2
	add	a0, a0, a3
	lw	a4, 96(a3)
	lw	a5, 100(a0)
	sllw	a1, t0, a1
	sllw	s1, t0, s1
	or	a1, a1, a4
	or	a5, a5, s1
	sw	a1, 96(a3)
	sw	a5, 100(a0)
	lw	a0, 32(a3)
	lw	a1, 36(a3)
	addw	a0, a0, t6
	sw	a0, 32(a3)
	bltu	a1, a0, .LBB66_55
	j	.LBB66_56
.LBB66_41:
	li	a1, 32
.LBB66_42:
	slli	a0, a0, 4
	add	a0, a0, a1
	ld	s2, 24(a3)
	li	s1, -1
	beq	s2, s1, .LBB66_45
.LBB66_43:
	slli	a1, a0, 2
	add	a1, a1, a3
	lwu	t5, 184(a1)
	ld	a5, 40(a3)
	slli	a7, t5, 3
	add	a4, a5, a7
	lw	a4, 16(a4)
	beq	a4, s1, .LBB66_46
	slli	a0, a4, 32
	srli	a0, a0, 29
	add	a0, a0, a5
	ld	a5, 16(a0)
	li	s1, -1
	slli	s1, s1, 32
	or	a5, a5, s1
	sd	a5, 16(a0)
	ld	a5, 40(a3)
	sw	a4, 184(a1)
	j	.LBB66_48
.LBB66_45:
	li	a0, 1
	sb	a0, 1(a3)
	li	a0, 2
	j	.LBB66_57
.LBB66_46:
	li	s1, -1
	srli	a4, a0, 4
	sw	s1, 184(a1)
	slli	a1, a4, 2
	add	a1, a1, a3
	lw	s1, 100(a1)
	andi	a0, a0, 15
	li	t0, 1
	sllw	a0, t0, a0
	not	a0, a0
	and	a0, a0, s1
	sw	a0, 100(a1)
	bnez	a0, .LBB66_48
	lw	a0, 96(a3)
	sllw	a1, t0, a4
	not	a1, a1
	and	a0, a0, a1
	sw	a0, 96(a3)
.LBB66_48:
	add	a4, a5, a7
	ld	a1, 0(a4)
	slli	a0, t6, 2
	subw	a0, a1, a0
	li	s1, 15
	bltu	s1, a0, .LBB66_50
	addi	a1, a1, -1
	sd	a1, 0(a4)
	sd	s2, 8(a4)
	sd	zero, 16(a4)
	srliw	t6, a1, 2
	lw	a0, 32(a3)
	lw	a1, 36(a3)
	addw	a0, a0, t6
	sw	a0, 32(a3)
	bltu	a1, a0, .LBB66_55
	j	.LBB66_56
.LBB66_50:
	srliw	t0, a0, 2
	li	t2, -1
	slli	s1, a0, 32
	slli	t1, t5, 32
	add	t4, t5, t6
	li	t3, 1
	srli	s1, s1, 32
	slli	s3, t4, 32
	or	s4, t1, s1
	sub	a1, a1, s1
	srli	t1, s3, 29
	sd	a1, 0(a4)
	sd	s2, 8(a4)
	sd	zero, 16(a4)
	add	a5, a5, t1
	sd	s4, 0(a5)
	sd	s2, 8(a5)
	ld	a1, 64(a3)
	andi	a0, a0, 2
	srliw	a4, t4, 6
	slli	a4, a4, 3
	add	a1, a1, a4
	ld	a4, 0(a1)
	srli	t2, t2, 32
	sll	a5, t3, t4
	srli	t3, s3, 32
	or	a4, a4, a5
	sd	a4, 0(a1)
	slli	t3, t3, 32
	bnez	a0, .LBB66_52
	ld	a0, 40(a3)
	add	a1, t0, t4
	slli	a1, a1, 32
	srli	a1, a1, 29
	add	a0, a0, a1
	ld	a1, 0(a0)
	and	a1, a1, t2
	or	a1, a1, t3
	sd	a1, 0(a0)
.LBB66_52:
	ori	a0, t0, 16
	lui	a1, 349525
	lui	a4, 209715
	srli	a5, a0, 1
	addi	a1, a1, 1365
	or	a0, a0, a5
	srli	a5, a0, 2
	or	a0, a0, a5
	srli	a5, a0, 4
	or	a0, a0, a5
	slli	a5, a0, 34
	srli	a5, a5, 42
	or	a0, a0, a5
	slli	a5, a0, 33
	srli	a5, a5, 49
	or	a0, a0, a5
	not	a0, a0
	srli	a5, a0, 1
	and	a1, a1, a5
	lui	a5, 61681
	addi	a4, a4, 819
	sub	a0, a0, a1
	and	a1, a0, a4
	srli	a0, a0, 2
	and	a0, a0, a4
	lui	a4, 4112
	add	a0, a0, a1
	srli	a1, a0, 4
	add	a0, a0, a1
	li	a1, 27
	addi	a5, a5, -241
	addi	a4, a4, 257
	and	a0, a0, a5
	mul	a0, a0, a4
	srliw	a0, a0, 24
	sub	a1, a1, a0
	srlw	a0, t0, a1
	slli	a1, a1, 4
	add	a5, a0, a1
	slli	a1, a5, 2
	add	a1, a1, a3
	lw	a4, 184(a1)
	ld	s1, 40(a3)
	sw	t4, 184(a1)
	bltz	a4, .LBB66_58
	li	a0, -1
	add	t1, t1, s1
	slli	a0, a0, 32
	or	a0, a0, a4
	slli	a4, a4, 3
	sd	a0, 16(t1)
	add	a4, a4, s1
.LBB66_54:
	ld	a0, 16(a4)
	and	a0, a0, t2
	or	a0, a0, t3
	sd	a0, 16(a4)
	lw	a0, 32(a3)
	lw	a1, 36(a3)
	addw	a0, a0, t6
	sw	a0, 32(a3)
	bgeu	a1, a0, .LBB66_56
.LBB66_55:
	sw	a0, 36(a3)
.LBB66_56:
	lw	a4, 16(a3)
	ld	a0, 24(a3)
	ld	a1, 40(a3)
	addi	a5, t5, 3
	slli	a5, a5, 32
	srli	a5, a5, 29
	add	a1, a1, a5
	addi	a0, a0, 1
	sd	a0, 24(a3)
	sd	zero, 0(a1)
	ld	a0, 40(a3)
	add	a7, a7, a0
	li	a0, 0
	ld	a7, 0(a7)
	lwu	t0, 705(a6)
	li	a6, 1
	srli	t1, a4, 24
	srli	t3, a4, 16
	srli	a5, a4, 8
	srli	t2, t5, 24
	srli	t6, t5, 16
	srli	a1, t5, 8
	srli	t4, s2, 56
	srli	s3, s2, 48
	srli	s1, s2, 40
	sb	a6, 1(a3)
	srli	a3, s2, 32
	srli	a6, s2, 24
	sb	a4, 0(a2)
	sb	a5, 1(a2)
	sb	t3, 2(a2)
	sb	t1, 3(a2)
	srli	a4, s2, 16
	sb	t5, 4(a2)
	sb	a1, 5(a2)
	sb	t6, 6(a2)
	sb	t2, 7(a2)
	srli	a1, s2, 8
	sb	a3, 12(a2)
	sb	s1, 13(a2)
	sb	s3, 14(a2)
	sb	t4, 15(a2)
	sb	s2, 8(a2)
	sb	a1, 9(a2)
	sb	a4, 10(a2)
	sb	a6, 11(a2)
	mul	a1, t5, t0
	srliw	a3, a7, 2
	mul	a3, a3, t0
	srli	a6, a1, 56
	srli	a7, a1, 48
	srli	t1, a1, 40
	srli	a4, a1, 32
	srli	t0, a1, 24
	srli	a5, a1, 16
	srli	s1, a1, 8
	sb	a4, 20(a2)
	sb	t1, 21(a2)
	sb	a7, 22(a2)
	sb	a6, 23(a2)
	sb	a1, 16(a2)
	sb	s1, 17(a2)
	sb	a5, 18(a2)
	sb	t0, 19(a2)
	srli	a6, a3, 56
	srli	a7, a3, 48
	srli	a5, a3, 40
	srli	s1, a3, 32
	srli	t0, a3, 24
	srli	a4, a3, 16
	srli	a1, a3, 8
	sb	s1, 28(a2)
	sb	a5, 29(a2)
	sb	a7, 30(a2)
	sb	a6, 31(a2)
	sb	a3, 24(a2)
	sb	a1, 25(a2)
	sb	a4, 26(a2)
	sb	t0, 27(a2)
.LBB66_57:
	sext.w	a0, a0
	.cfi_def_cfa sp, 48
	ld	ra, 40(sp)
	ld	s0, 32(sp)
	ld	s1, 24(sp)
	ld	s2, 16(sp)
	ld	s3, 8(sp)
	ld	s4, 0(sp)
	.cfi_restore ra
	.cfi_restore s0
	.cfi_restore s1
	.cfi_restore s2
	.cfi_restore s3
	.cfi_restore s4
	addi	sp, sp, 48
	.cfi_def_cfa_offset 0
	ret
.LBB66_58:
	.cfi_restore_state
	add	t1, t1, s1
	li	a1, -1
	srli	a5, a5, 4
	li	t0, 1
	andi	a0, a0, 15
	sd	a1, 16(t1)
	slli	a1, a5, 2
	add	a1, a1, a3
	lw	s1, 96(a3)
	lw	a4, 100(a1)
	sllw	a5, t0, a5
	sllw	a0, t0, a0
	or	a5, a5, s1
	or	a0, a0, a4
	sw	a5, 96(a3)
	sw	a0, 100(a1)
	lw	a0, 32(a3)
	lw	a1, 36(a3)
	addw	a0, a0, t6
	sw	a0, 32(a3)
	bltu	a1, a0, .LBB66_55
	j	.LBB66_56
.LBB66_59:
	unimp
.Lfunc_end66:
	.size	tlsf_offsets_allocate, .Lfunc_end66-tlsf_offsets_allocate
	.cfi_endproc
	.globl	tlsf_offsets_close
	.p2align	1
	.type	tlsf_offsets_close,@function
tlsf_offsets_close:
	.cfi_startproc
	mv	a1, a0
	lbu	a2, 8(a0)
	li	a0, 32
	beqz	a2, .LBB67_5
	ld	a2, 0(a1)
	lbu	a3, 1(a2)
	beqz	a3, .LBB67_5
	lbu	a0, 0(a2)
	beqz	a0, .LBB67_4
	li	a0, 40
	ret
.LBB67_4:
	addi	sp, sp, -16
	.cfi_def_cfa_offset 16
	sd	ra, 8(sp)
	sd	s0, 0(sp)
	.cfi_offset ra, -8
	.cfi_offset s0, -16
	addi	s0, sp, 16
	.cfi_def_cfa s0, 0
	mv	a0, a1
	call	tlsf_c.arena_slot.ArenaSlot.close
	li	a0, 0
	.cfi_def_cfa sp, 16
	ld	ra, 8(sp)
	ld	s0, 0(sp)
	.cfi_restore ra
	.cfi_restore s0
	addi	sp, sp, 16
	.cfi_def_cfa_offset 0
.LBB67_5:
	ret
.Lfunc_end67:
	.size	tlsf_offsets_close, .Lfunc_end67-tlsf_offsets_close
	.cfi_endproc
	.globl	tlsf_offsets_open
	.p2align	1
	.type	tlsf_offsets_open,@function
tlsf_offsets_open:
	.cfi_startproc
	lbu	a5, 8(a0)
	beqz	a5, .LBB68_2
	li	a0, 33
	ret
.LBB68_2:
	addi	sp, sp, -144
	.cfi_def_cfa_offset 144
	sd	ra, 136(sp)
	sd	s0, 128(sp)
	sd	s1, 120(sp)
	sd	s2, 112(sp)
	sd	s3, 104(sp)
	sd	s4, 96(sp)
	sd	s5, 88(sp)
	sd	s6, 80(sp)
	sd	s7, 72(sp)
	sd	s8, 64(sp)
	sd	s9, 56(sp)
	sd	s10, 48(sp)
	sd	s11, 40(sp)
	.cfi_offset ra, -8
	.cfi_offset s0, -16
	.cfi_offset s1, -24
	.cfi_offset s2, -32
	.cfi_offset s3, -40
	.cfi_offset s4, -48
	.cfi_offset s5, -56
	.cfi_offset s6, -64
	.cfi_offset s7, -72
	.cfi_offset s8, -80
	.cfi_offset s9, -88
	.cfi_offset s10, -96
	.cfi_offset s11, -104
	addi	s0, sp, 144
	.cfi_def_cfa s0, 0
	.cfi_remember_state
	addiw	a5, a1, -6
	li	s1, -2
	bgeu	a5, s1, .LBB68_5
	li	a0, 34
.LBB68_4:
	.cfi_def_cfa sp, 144
	ld	ra, 136(sp)
	ld	s0, 128(sp)
	ld	s1, 120(sp)
	ld	s2, 112(sp)
	ld	s3, 104(sp)
	ld	s4, 96(sp)
	ld	s5, 88(sp)
	ld	s6, 80(sp)
	ld	s7, 72(sp)
	ld	s8, 64(sp)
	ld	s9, 56(sp)
	ld	s10, 48(sp)
	ld	s11, 40(sp)
	.cfi_restore ra
	.cfi_restore s0
	.cfi_restore s1
	.cfi_restore s2
	.cfi_restore s3
	.cfi_restore s4
	.cfi_restore s5
	.cfi_restore s6
	.cfi_restore s7
	.cfi_restore s8
	.cfi_restore s9
	.cfi_restore s10
	.cfi_restore s11
	addi	sp, sp, 144
	.cfi_def_cfa_offset 0
	ret
.LBB68_5:
	.cfi_restore_state
	mv	a5, a0
	sext.w	s7, a1
	sext.w	a1, a3
	li	a0, 4
	bne	s7, a0, .LBB68_12
	li	a0, 5
	beqz	a1, .LBB68_4
	lui	s1, 1048320
	addi	a1, s1, -1
	addw	a1, a1, a4
	addi	s1, s1, 3
	bltu	a1, s1, .LBB68_4
	mv	s3, a2
	sd	a3, -120(s0)
	sd	a5, -112(s0)
	mv	s2, a4
	sext.w	s9, a4
	slli	a0, s9, 3
	li	a1, 8
	call	tlsf_memory_alloc
	mv	s4, a1
	andi	a1, a0, 1
	li	a0, 6
	beqz	a1, .LBB68_4
	sd	zero, 0(s4)
	sd	zero, 8(s4)
	sd	zero, 16(s4)
	sd	zero, 24(s4)
	addi	a0, s2, 63
	srliw	s10, a0, 6
	slli	a0, s10, 3
	li	a1, 8
	call	tlsf_memory_alloc
	andi	a0, a0, 1
	beqz	a0, .LBB68_21
	mv	s5, a1
	sd	zero, 0(a1)
	li	a0, -1
	slli	a1, a0, 32
	addi	a1, a1, 19
	sd	a1, 0(s4)
	sd	zero, 8(s4)
	ld	a1, 0(s5)
	ori	a1, a1, 1
	sd	a1, 0(s5)
	sd	a0, 16(s4)
	lui	a0, 1
	addi	a0, a0, -1336
	li	a1, 8
	call	tlsf_memory_alloc
	andi	a0, a0, 1
	beqz	a0, .LBB68_22
	mv	s1, a1
	sd	zero, -128(s0)
	j	.LBB68_18
.LBB68_12:
	li	a0, 5
	beqz	a1, .LBB68_4
	lui	s1, 1044480
	addi	a1, s1, -1
	addw	a1, a1, a4
	addi	s1, s1, 3
	bltu	a1, s1, .LBB68_4
	mv	s3, a2
	sd	a3, -120(s0)
	sd	a5, -112(s0)
	mv	s2, a4
	sext.w	s9, a4
	slli	a0, s9, 3
	li	a1, 8
	call	tlsf_memory_alloc
	mv	s4, a1
	andi	a1, a0, 1
	li	a0, 6
	beqz	a1, .LBB68_4
	sd	zero, 0(s4)
	sd	zero, 8(s4)
	sd	zero, 16(s4)
	sd	zero, 24(s4)
	addi	a0, s2, 63
	srliw	s10, a0, 6
	slli	a0, s10, 3
	li	a1, 8
	call	tlsf_memory_alloc
	andi	a0, a0, 1
	beqz	a0, .LBB68_21
	mv	s5, a1
	sd	zero, 0(a1)
	li	a0, -1
	slli	a1, a0, 32
	addi	a1, a1, 19
	sd	a1, 0(s4)
	sd	zero, 8(s4)
	ld	a1, 0(s5)
	ori	a1, a1, 1
	sd	a1, 0(s5)
	sd	a0, 16(s4)
	lui	a0, 1
	addi	a0, a0, -1336
	li	a1, 8
	call	tlsf_memory_alloc
	andi	a0, a0, 1
	beqz	a0, .LBB68_22
	mv	s1, a1
	li	a0, 1
	sd	a0, -128(s0)
.LBB68_18:
	li	t1, 1
	sb	zero, 10(s1)
	sb	zero, 11(s1)
	sb	zero, 12(s1)
	sb	zero, 13(s1)
	srli	a0, s3, 24
	sd	a0, -136(s0)
	srli	a0, s3, 16
	sd	a0, -144(s0)
	srli	t0, s3, 8
	sb	s3, 16(s1)
	sb	zero, 26(s1)
	sb	zero, 27(s1)
	sb	zero, 28(s1)
	sb	zero, 29(s1)
	sb	zero, 34(s1)
	sb	zero, 35(s1)
	sb	zero, 36(s1)
	sb	zero, 37(s1)
	sb	zero, 30(s1)
	sb	zero, 31(s1)
	sb	zero, 32(s1)
	sb	zero, 33(s1)
	srli	t2, s4, 56
	srli	t3, s4, 48
	srli	a7, s4, 40
	srli	a3, s4, 32
	srli	a0, s4, 24
	srli	a1, s4, 16
	srli	a6, s4, 8
	sb	s4, 40(s1)
	sb	zero, 50(s1)
	sb	zero, 51(s1)
	sb	zero, 52(s1)
	sb	zero, 53(s1)
	li	s3, 4
	srli	t6, s9, 56
	srli	ra, s9, 48
	srli	s6, s9, 40
	srli	s8, s9, 32
	srli	a4, s9, 24
	srli	a2, s9, 16
	srli	a5, s9, 8
	srli	t4, s5, 56
	srli	t5, s5, 48
	sb	zero, 15(s1)
	sb	zero, 14(s1)
	sb	t0, 17(s1)
	srli	t0, s5, 40
	sb	a1, 42(s1)
	srli	a1, s5, 32
	sb	a0, 43(s1)
	srli	s4, s5, 24
	sb	a3, 44(s1)
	srli	s11, s5, 16
	sb	a7, 45(s1)
	srli	a3, s5, 8
	sb	zero, 74(s1)
	sb	zero, 75(s1)
	sb	zero, 76(s1)
	sb	zero, 77(s1)
	sb	zero, 39(s1)
	sb	zero, 38(s1)
	sb	a6, 41(s1)
	srli	a7, s10, 24
	sb	a2, 58(s1)
	srli	a6, s10, 16
	sb	a4, 59(s1)
	sb	s8, 60(s1)
	sb	s6, 61(s1)
	srli	a0, s10, 8
	sb	zero, 90(s1)
	sb	zero, 91(s1)
	sb	zero, 92(s1)
	sb	zero, 93(s1)
	sb	zero, 54(s1)
	sb	zero, 55(s1)
	sb	s9, 56(s1)
	sb	a5, 57(s1)
	addi	s8, s1, 96
	sb	zero, 102(s1)
	sb	zero, 103(s1)
	sb	s11, 66(s1)
	sb	s4, 67(s1)
	addi	s4, s1, 40
	sb	a1, 68(s1)
	sb	t0, 69(s1)
	li	a1, 16
	sb	ra, 62(s1)
	sb	t6, 63(s1)
	sb	s5, 64(s1)
	sb	a3, 65(s1)
	li	s6, -1
	slli	s9, s6, 32
	sb	zero, 0(s1)
	sb	t1, 1(s1)
	ld	a2, -128(s0)
	sb	a2, 8(s1)
	sb	zero, 9(s1)
	ld	a2, -144(s0)
	sb	a2, 18(s1)
	ld	a2, -136(s0)
	sb	a2, 19(s1)
	sb	zero, 20(s1)
	sb	zero, 21(s1)
	sb	zero, 22(s1)
	sb	zero, 23(s1)
	sb	t1, 24(s1)
	sb	zero, 25(s1)
	sb	t3, 46(s1)
	sb	t2, 47(s1)
	sb	s3, 48(s1)
	sb	zero, 49(s1)
	sb	t5, 70(s1)
	sb	t4, 71(s1)
	sb	t1, 72(s1)
	sb	zero, 73(s1)
	sb	a6, 82(s1)
	sb	a7, 83(s1)
	sb	zero, 84(s1)
	sb	zero, 85(s1)
	sb	zero, 78(s1)
	sb	zero, 79(s1)
	sb	s10, 80(s1)
	sb	a0, 81(s1)
	sb	zero, 86(s1)
	sb	zero, 87(s1)
	sb	s3, 88(s1)
	sb	zero, 89(s1)
	sb	zero, 94(s1)
	sb	zero, 95(s1)
	sb	t1, 96(s1)
	sb	zero, 97(s1)
	sb	zero, 98(s1)
	sb	zero, 99(s1)
	sb	a1, 100(s1)
	sb	zero, 101(s1)
	addi	s9, s9, 19
	addi	a0, s1, 104
	li	a2, 80
	li	a1, 0
	call	tlsf_memory_set
	addi	s5, s1, 184
	li	a1, 255
	li	a2, 16
	mv	a0, s5
	call	tlsf_memory_set
	sb	zero, 200(s1)
	sb	zero, 201(s1)
	sb	zero, 202(s1)
	sb	zero, 203(s1)
	addi	a0, s1, 204
	lui	a2, 1
	addi	a2, a2, -1552
	li	a1, 255
	call	tlsf_memory_set
	addi	a0, s1, 2047
	ld	a1, -120(s0)
	srli	a2, a1, 24
	srli	a3, a1, 16
	srli	a4, a1, 8
	sb	zero, 701(a0)
	sb	zero, 702(a0)
	sb	zero, 703(a0)
	sb	zero, 704(a0)
	sb	zero, 709(a0)
	sb	zero, 710(a0)
	sb	zero, 711(a0)
	sb	zero, 712(a0)
	sb	a1, 705(a0)
	sb	a4, 706(a0)
	sb	a3, 707(a0)
	sb	a2, 708(a0)
	mv	a0, s4
	mv	a1, s2
	call	tlsf_words.words.Words.lengthen
	sw	s6, 200(s1)
	li	a2, 88
	mv	a0, s8
	li	a1, 0
	call	tlsf_memory_set
	ld	a0, 48(s1)
	ld	a1, 40(s1)
	addi	a2, s9, -16
	slli	a3, a0, 2
	or	a2, a2, a3
	sd	a2, 0(a1)
	sd	zero, 8(a1)
	ld	a1, 64(s1)
	ld	a2, 0(a1)
	ori	a2, a2, 1
	sd	a2, 0(a1)
	bne	s7, s3, .LBB68_24
	ori	a1, a0, 16
	lui	a2, 349525
	srliw	a3, a1, 1
	addi	a2, a2, 1365
	or	a1, a1, a3
	srliw	a3, a1, 2
	or	a1, a1, a3
	srliw	a3, a1, 4
	or	a1, a1, a3
	srliw	a3, a1, 8
	or	a1, a1, a3
	srliw	a3, a1, 16
	or	a1, a1, a3
	not	a1, a1
	srli	a3, a1, 1
	and	a2, a2, a3
	lui	a3, 209715
	addi	a3, a3, 819
	sub	a1, a1, a2
	and	a2, a1, a3
	srli	a1, a1, 2
	and	a1, a1, a3
	lui	a3, 61681
	add	a1, a1, a2
	srli	a2, a1, 4
	add	a1, a1, a2
	lui	a2, 4112
	addi	a3, a3, -241
	and	a1, a1, a3
	li	a3, 27
	addi	a2, a2, 257
	mul	a1, a1, a2
	srliw	a1, a1, 24
	sub	a3, a3, a1
	srlw	a0, a0, a3
	slli	a3, a3, 4
	add	a3, a3, a0
	slli	a3, a3, 32
	srli	a1, a3, 30
	add	s5, s5, a1
	lw	a2, 0(s5)
	ld	a1, 0(s4)
	sw	zero, 0(s5)
	ld	s6, -112(s0)
	bgez	a2, .LBB68_25
	srli	a3, a3, 32
	li	a2, -1
	li	a4, 1
	andi	a0, a0, 15
	sd	a2, 16(a1)
	srli	a3, a3, 4
	j	.LBB68_27
.LBB68_21:
	mv	a0, s4
	j	.LBB68_23
.LBB68_22:
	mv	a0, s4
	call	tlsf_memory_dealloc
	mv	a0, s5
.LBB68_23:
	call	tlsf_memory_dealloc
	li	a0, 6
	j	.LBB68_4
.LBB68_24:
	ori	a1, a0, 32
	lui	a2, 349525
	srliw	a3, a1, 1
	addi	a2, a2, 1365
	or	a1, a1, a3
	srliw	a3, a1, 2
	or	a1, a1, a3
	srliw	a3, a1, 4
	or	a1, a1, a3
	srliw	a3, a1, 8
	or	a1, a1, a3
	srliw	a3, a1, 16
	or	a1, a1, a3
	not	a1, a1
	srli	a3, a1, 1
	and	a2, a2, a3
	lui	a3, 209715
	addi	a3, a3, 819
	sub	a1, a1, a2
	and	a2, a1, a3
	srli	a1, a1, 2
	and	a1, a1, a3
	lui	a3, 61681
	add	a1, a1, a2
	srli	a2, a1, 4
	add	a1, a1, a2
	lui	a2, 4112
	addi	a3, a3, -241
	and	a1, a1, a3
	li	a3, 26
	addi	a2, a2, 257
	mul	a1, a1, a2
	srliw	a1, a1, 24
	sub	a3, a3, a1
	srlw	a0, a0, a3
	slli	a3, a3, 5
	add	a3, a3, a0
	slli	a3, a3, 32
	srli	a1, a3, 30
	add	s5, s5, a1
	lw	a2, 0(s5)
	ld	a1, 0(s4)
	sw	zero, 0(s5)
	ld	s6, -112(s0)
	bltz	a2, .LBB68_26
.LBB68_25:
	add	s9, s9, a2
	slli	a2, a2, 3
	addi	s9, s9, -19
	sd	s9, 16(a1)
	add	a1, a1, a2
	lwu	a0, 16(a1)
	sd	a0, 16(a1)
	j	.LBB68_28
.LBB68_26:
	srli	a3, a3, 32
	li	a2, -1
	li	a4, 1
	sd	a2, 16(a1)
	srli	a3, a3, 5
.LBB68_27:
	lw	a1, 0(s8)
	slli	a2, a3, 2
	sllw	a3, a4, a3
	add	a2, a2, s1
	lw	a5, 100(a2)
	or	a1, a1, a3
	sw	a1, 0(s8)
	sllw	a0, a4, a0
	or	a0, a0, a5
	sw	a0, 100(a2)
.LBB68_28:
	li	a0, 0
	srli	a6, s1, 56
	srli	a2, s1, 48
	srli	a3, s1, 40
	srli	a4, s1, 32
	srli	a5, s1, 24
	srli	a1, s1, 16
	sb	a4, 4(s6)
	sb	a3, 5(s6)
	sb	a2, 6(s6)
	sb	a6, 7(s6)
	srli	a2, s1, 8
	sb	s1, 0(s6)
	sb	a2, 1(s6)
	sb	a1, 2(s6)
	sb	a5, 3(s6)
	li	a1, 1
	sb	a1, 8(s6)
	sb	zero, 9(s6)
	sb	zero, 10(s6)
	sb	zero, 11(s6)
	sb	zero, 12(s6)
	sb	zero, 13(s6)
	sb	zero, 14(s6)
	sb	zero, 15(s6)
	j	.LBB68_4
.Lfunc_end68:
	.size	tlsf_offsets_open, .Lfunc_end68-tlsf_offsets_open
	.cfi_endproc
	.globl	tlsf_offsets_release
	.p2align	1
	.type	tlsf_offsets_release,@function
tlsf_offsets_release:
	.cfi_startproc
	addi	sp, sp, -32
	.cfi_def_cfa_offset 32
	sd	ra, 24(sp)
	sd	s0, 16(sp)
	sd	s1, 8(sp)
	.cfi_offset ra, -8
	.cfi_offset s0, -16
	.cfi_offset s1, -24
	addi	s0, sp, 32
	.cfi_def_cfa s0, 0
	.cfi_remember_state
	lbu	a3, 8(a0)
	beqz	a3, .LBB69_28
	ld	s1, 0(a0)
	lbu	a0, 1(s1)
	beqz	a0, .LBB69_28
	lbu	a0, 0(s1)
	bnez	a0, .LBB69_36
	lbu	a0, 8(s1)
	lw	a3, 16(s1)
	srli	a4, a1, 32
	sb	zero, 1(s1)
	beqz	a0, .LBB69_12
	sext.w	a0, a1
	bne	a3, a0, .LBB69_22
	lw	a0, 48(s1)
	sext.w	a3, a4
	bgeu	a3, a0, .LBB69_21
	ld	a0, 64(s1)
	srli	a3, a1, 35
	andi	a3, a3, -8
	add	a0, a0, a3
	ld	a0, 0(a0)
	srl	a0, a0, a4
	andi	a0, a0, 1
	beqz	a0, .LBB69_21
	addi	a0, s1, 40
	ld	t1, 0(a0)
	slli	a6, a4, 3
	add	t0, t1, a6
	ld	t2, 0(t0)
	andi	a3, t2, 1
	bnez	a3, .LBB69_21
	ld	a3, 8(t0)
	bne	a3, a2, .LBB69_21
	ld	a3, 24(s1)
	li	a1, -1
	beq	a3, a1, .LBB69_20
	lw	a1, 32(s1)
	srliw	a7, t2, 2
	sub	a1, a1, a7
	andi	a2, t2, 2
	sw	a1, 32(s1)
	bnez	a2, .LBB69_23
	add	a1, a7, a4
	slli	a1, a1, 32
	srli	a1, a1, 29
	add	a1, a1, t1
	ld	a1, 0(a1)
	bnez	a4, .LBB69_24
	j	.LBB69_25
.LBB69_12:
	sext.w	a0, a1
	bne	a3, a0, .LBB69_22
	lw	a0, 48(s1)
	sext.w	a3, a4
	bgeu	a3, a0, .LBB69_21
	ld	a0, 64(s1)
	srli	a3, a1, 35
	andi	a3, a3, -8
	add	a0, a0, a3
	ld	a0, 0(a0)
	srl	a0, a0, a4
	andi	a0, a0, 1
	beqz	a0, .LBB69_21
	addi	a0, s1, 40
	ld	t1, 0(a0)
	slli	a6, a4, 3
	add	t0, t1, a6
	ld	t2, 0(t0)
	andi	a3, t2, 1
	bnez	a3, .LBB69_21
	ld	a3, 8(t0)
	bne	a3, a2, .LBB69_21
	ld	a3, 24(s1)
	li	a1, -1
	beq	a3, a1, .LBB69_20
	lw	a1, 32(s1)
	srliw	a7, t2, 2
	sub	a1, a1, a7
	andi	a2, t2, 2
	sw	a1, 32(s1)
	bnez	a2, .LBB69_31
	add	a1, a7, a4
	slli	a1, a1, 32
	srli	a1, a1, 29
	add	a1, a1, t1
	ld	a1, 0(a1)
	bnez	a4, .LBB69_32
	j	.LBB69_33
.LBB69_20:
	li	a0, 1
	sb	a0, 1(s1)
	li	a0, 2
	sext.w	a0, a0
	.cfi_def_cfa sp, 32
	ld	ra, 24(sp)
	ld	s0, 16(sp)
	ld	s1, 8(sp)
	.cfi_restore ra
	.cfi_restore s0
	.cfi_restore s1
	addi	sp, sp, 32
	.cfi_def_cfa_offset 0
	ret
.LBB69_21:
	.cfi_restore_state
	.cfi_remember_state
	mv	a3, a1
.LBB69_22:
	mv	a0, a1
	mv	a1, a3
	call	tlsf_heap.refusal.Refusal.of_name
	zext.b	a0, a0
	li	a1, 1
	sb	a1, 1(s1)
	addi	a0, a0, -3
	seqz	a0, a0
	addi	a0, a0, 3
	sext.w	a0, a0
	.cfi_def_cfa sp, 32
	ld	ra, 24(sp)
	ld	s0, 16(sp)
	ld	s1, 8(sp)
	.cfi_restore ra
	.cfi_restore s0
	.cfi_restore s1
	addi	sp, sp, 32
	.cfi_def_cfa_offset 0
	ret
.LBB69_23:
	.cfi_restore_state
	.cfi_remember_state
	li	a1, 0
	beqz	a4, .LBB69_25
.LBB69_24:
	srli	a2, t2, 29
	andi	a2, a2, -8
	add	a2, a2, t1
	ld	a2, 0(a2)
	andi	a5, a2, 1
	bnez	a5, .LBB69_30
.LBB69_25:
	andi	a2, a1, 1
	bnez	a2, .LBB69_29
	addi	t2, t2, 1
	ori	a0, a7, 32
	lui	a1, 349525
	lui	a2, 209715
	sd	t2, 0(t0)
	sd	a3, 8(t0)
	lui	a3, 61681
	srli	a5, a0, 1
	addi	a1, a1, 1365
	or	a0, a0, a5
	srli	a5, a0, 2
	or	a0, a0, a5
	srli	a5, a0, 4
	or	a0, a0, a5
	slli	a5, a0, 34
	srli	a5, a5, 42
	or	a0, a0, a5
	slli	a5, a0, 33
	srli	a5, a5, 49
	or	a0, a0, a5
	not	a0, a0
	srli	a5, a0, 1
	and	a1, a1, a5
	lui	a5, 4112
	addi	a2, a2, 819
	sub	a0, a0, a1
	and	a1, a0, a2
	srli	a0, a0, 2
	and	a0, a0, a2
	li	a2, 26
	addi	a3, a3, -241
	addi	a5, a5, 257
	add	a0, a0, a1
	srli	a1, a0, 4
	add	a0, a0, a1
	ld	t0, 24(s1)
	and	a0, a0, a3
	mul	a0, a0, a5
	srliw	a0, a0, 24
	sub	a2, a2, a0
	srlw	a0, a7, a2
	slli	a2, a2, 5
	add	a2, a2, a0
	slli	a1, a2, 2
	add	a5, s1, a1
	lw	a1, 184(a5)
	ld	a3, 40(s1)
	addi	t0, t0, 1
	sd	t0, 24(s1)
	sw	a4, 184(a5)
	bgez	a1, .LBB69_35
	add	a3, a3, a6
	li	a1, -1
	srli	a2, a2, 5
	li	a4, 1
	j	.LBB69_41
.LBB69_28:
	li	a0, 0
	j	.LBB69_37
.LBB69_29:
	addi	a2, a3, 1
	sd	a2, 24(s1)
	mv	a2, t2
	call	tlsf_heap.fitting.merge_next.5
	j	.LBB69_42
.LBB69_30:
	addi	a5, a3, 1
	sd	a5, 24(s1)
	mv	a5, t2
	call	tlsf_heap.fitting.merge_before.5
	j	.LBB69_42
.LBB69_31:
	li	a1, 0
	beqz	a4, .LBB69_33
.LBB69_32:
	srli	a2, t2, 29
	andi	a2, a2, -8
	add	a2, a2, t1
	ld	a2, 0(a2)
	andi	a5, a2, 1
	bnez	a5, .LBB69_39
.LBB69_33:
	andi	a2, a1, 1
	bnez	a2, .LBB69_38
	addi	t2, t2, 1
	ori	a0, a7, 16
	lui	a1, 349525
	lui	a2, 209715
	sd	t2, 0(t0)
	sd	a3, 8(t0)
	lui	a3, 61681
	srli	a5, a0, 1
	addi	a1, a1, 1365
	or	a0, a0, a5
	srli	a5, a0, 2
	or	a0, a0, a5
	srli	a5, a0, 4
	or	a0, a0, a5
	slli	a5, a0, 34
	srli	a5, a5, 42
	or	a0, a0, a5
	slli	a5, a0, 33
	srli	a5, a5, 49
	or	a0, a0, a5
	not	a0, a0
	srli	a5, a0, 1
	and	a1, a1, a5
	lui	a5, 4112
	addi	a2, a2, 819
	sub	a0, a0, a1
	and	a1, a0, a2
	srli	a0, a0, 2
	and	a0, a0, a2
	li	a2, 27
	addi	a3, a3, -241
	addi	a5, a5, 257
	add	a0, a0, a1
	srli	a1, a0, 4
	add	a0, a0, a1
	ld	t0, 24(s1)
	and	a0, a0, a3
	mul	a0, a0, a5
	srliw	a0, a0, 24
	sub	a2, a2, a0
	srlw	a0, a7, a2
	slli	a2, a2, 4
	add	a2, a2, a0
	slli	a1, a2, 2
	add	a5, s1, a1
	lw	a1, 184(a5)
	ld	a3, 40(s1)
	addi	t0, t0, 1
	sd	t0, 24(s1)
	sw	a4, 184(a5)
	bltz	a1, .LBB69_40
.LBB69_35:
	add	a6, a6, a3
	slli	a0, a1, 3
	add	a0, a0, a3
	li	a2, -1
	slli	a2, a2, 32
	or	a1, a1, a2
	sd	a1, 16(a6)
	sw	a4, 20(a0)
	j	.LBB69_42
.LBB69_36:
	li	a0, 2
.LBB69_37:
	call	tlsf_c.call_fault.CallFault.refusal
	sext.w	a0, a0
	.cfi_def_cfa sp, 32
	ld	ra, 24(sp)
	ld	s0, 16(sp)
	ld	s1, 8(sp)
	.cfi_restore ra
	.cfi_restore s0
	.cfi_restore s1
	addi	sp, sp, 32
	.cfi_def_cfa_offset 0
	ret
.LBB69_38:
	.cfi_restore_state
	addi	a2, a3, 1
	sd	a2, 24(s1)
	mv	a2, t2
	call	tlsf_heap.fitting.merge_next.4
	j	.LBB69_42
.LBB69_39:
	addi	a5, a3, 1
	sd	a5, 24(s1)
	mv	a5, t2
	call	tlsf_heap.fitting.merge_before.4
	j	.LBB69_42
.LBB69_40:
	add	a3, a3, a6
	li	a1, -1
	srli	a2, a2, 4
	li	a4, 1
	andi	a0, a0, 15
.LBB69_41:
	sd	a1, 16(a3)
	slli	a1, a2, 2
	add	a1, a1, s1
	lw	a3, 96(s1)
	lw	a5, 100(a1)
	sllw	a2, a4, a2
	sllw	a0, a4, a0
	or	a2, a2, a3
	or	a0, a0, a5
	sw	a2, 96(s1)
	sw	a0, 100(a1)
.LBB69_42:
	li	a1, 1
	sb	a1, 1(s1)
	li	a0, 0
	.cfi_def_cfa sp, 32
	ld	ra, 24(sp)
	ld	s0, 16(sp)
	ld	s1, 8(sp)
	.cfi_restore ra
	.cfi_restore s0
	.cfi_restore s1
	addi	sp, sp, 32
	.cfi_def_cfa_offset 0
	ret
.Lfunc_end69:
	.size	tlsf_offsets_release, .Lfunc_end69-tlsf_offsets_release
	.cfi_endproc
	.globl	tlsf_offsets_resize
	.p2align	1
	.type	tlsf_offsets_resize,@function
tlsf_offsets_resize:
	.cfi_startproc
	addi	sp, sp, -112
	.cfi_def_cfa_offset 112
	sd	ra, 104(sp)
	sd	s0, 96(sp)
	sd	s1, 88(sp)
	sd	s2, 80(sp)
	sd	s3, 72(sp)
	sd	s4, 64(sp)
	sd	s5, 56(sp)
	sd	s6, 48(sp)
	sd	s7, 40(sp)
	sd	s8, 32(sp)
	sd	s9, 24(sp)
	sd	s10, 16(sp)
	sd	s11, 8(sp)
	.cfi_offset ra, -8
	.cfi_offset s0, -16
	.cfi_offset s1, -24
	.cfi_offset s2, -32
	.cfi_offset s3, -40
	.cfi_offset s4, -48
	.cfi_offset s5, -56
	.cfi_offset s6, -64
	.cfi_offset s7, -72
	.cfi_offset s8, -80
	.cfi_offset s9, -88
	.cfi_offset s10, -96
	.cfi_offset s11, -104
	addi	s0, sp, 112
	.cfi_def_cfa s0, 0
	.cfi_remember_state
	lbu	a3, 8(a0)
	beqz	a3, .LBB70_46
	ld	s11, 0(a0)
	lbu	a0, 1(s11)
	beqz	a0, .LBB70_46
	lbu	a0, 0(s11)
	bnez	a0, .LBB70_54
	sb	zero, 1(s11)
	lbu	t0, 0(a1)
	lbu	a3, 1(a1)
	lbu	a4, 2(a1)
	lbu	a5, 3(a1)
	lbu	a6, 4(a1)
	lbu	a7, 5(a1)
	lbu	t2, 6(a1)
	lbu	a0, 7(a1)
	slli	a3, a3, 8
	slli	a4, a4, 16
	slli	a5, a5, 24
	or	t0, a3, t0
	or	t1, a5, a4
	lbu	a5, 8(a1)
	lbu	a3, 9(a1)
	lbu	a4, 10(a1)
	lbu	s1, 11(a1)
	slli	a7, a7, 8
	slli	t2, t2, 16
	slli	a0, a0, 24
	slli	a3, a3, 8
	slli	a4, a4, 16
	slli	s1, s1, 24
	or	a6, a7, a6
	or	t2, a0, t2
	or	a7, a3, a5
	or	a4, a4, s1
	lbu	a5, 13(a1)
	lbu	s1, 12(a1)
	lbu	a3, 14(a1)
	lbu	a0, 15(a1)
	slli	a5, a5, 8
	or	a5, a5, s1
	slli	a3, a3, 16
	slli	a0, a0, 24
	or	a3, a3, a0
	or	s5, t1, t0
	lbu	s1, 8(s11)
	or	s2, t2, a6
	addi	s7, s11, 2047
	or	a4, a4, a7
	lwu	a0, 705(s7)
	or	a3, a3, a5
	slli	a3, a3, 32
	or	s6, a3, a4
	beqz	s1, .LBB70_21
	beqz	a0, .LBB70_57
	divu	s4, a2, a0
	mul	a0, s4, a0
	sub	a2, a2, a0
	snez	a0, a2
	add	s4, s4, a0
	li	a0, 4
	bltu	a0, s4, .LBB70_8
	li	s4, 4
	li	a0, -1
	srli	a0, a0, 32
	bgeu	s4, a0, .LBB70_9
.LBB70_7:
	lw	a3, 16(s11)
	sext.w	a0, s5
	beq	a0, a3, .LBB70_10
	j	.LBB70_37
.LBB70_8:
	li	a0, -1
	srli	a0, a0, 32
	bltu	s4, a0, .LBB70_7
.LBB70_9:
	mv	s4, a0
	lw	a3, 16(s11)
	sext.w	a0, s5
	bne	a0, a3, .LBB70_37
.LBB70_10:
	lw	a0, 48(s11)
	sext.w	a2, s2
	mv	a3, s5
	bgeu	a2, a0, .LBB70_37
	ld	a0, 64(s11)
	srli	a2, s2, 3
	andi	a2, a2, -8
	add	a0, a0, a2
	ld	a0, 0(a0)
	srl	a0, a0, s2
	andi	a0, a0, 1
	mv	a3, s5
	beqz	a0, .LBB70_37
	addi	s3, s11, 40
	ld	a0, 0(s3)
	slli	s8, s2, 3
	add	a5, a0, s8
	ld	a2, 0(a5)
	andi	a4, a2, 1
	mv	a3, s5
	bnez	a4, .LBB70_37
	ld	a4, 8(a5)
	mv	a3, s5
	bne	a4, s6, .LBB70_37
	sext.w	a4, s4
	srliw	s9, a2, 2
	bgeu	s9, a4, .LBB70_38
	andi	a3, a2, 2
	bnez	a3, .LBB70_17
	add	a3, s9, s2
	slli	a3, a3, 32
	srli	a3, a3, 29
	add	a0, a0, a3
	ld	a3, 0(a0)
	andi	a0, a3, 1
	bnez	a0, .LBB70_18
.LBB70_17:
	li	a3, 0
.LBB70_18:
	srliw	a0, a3, 2
	add	a0, a0, s9
	bltu	a0, a4, .LBB70_36
	ld	a5, 24(s11)
	li	a0, -1
	beq	a5, a0, .LBB70_53
	mv	s10, a1
	mv	a0, s3
	mv	a1, s2
	mv	a4, s4
	call	tlsf_heap.refitting.recut.5
	j	.LBB70_49
.LBB70_21:
	beqz	a0, .LBB70_57
	divu	s4, a2, a0
	mul	a0, s4, a0
	sub	a2, a2, a0
	snez	a0, a2
	add	s4, s4, a0
	li	a0, 4
	bltu	a0, s4, .LBB70_25
	li	s4, 4
	li	a0, -1
	srli	a0, a0, 32
	bgeu	s4, a0, .LBB70_26
.LBB70_24:
	lw	a3, 16(s11)
	sext.w	a0, s5
	beq	a0, a3, .LBB70_27
	j	.LBB70_37
.LBB70_25:
	li	a0, -1
	srli	a0, a0, 32
	bltu	s4, a0, .LBB70_24
.LBB70_26:
	mv	s4, a0
	lw	a3, 16(s11)
	sext.w	a0, s5
	bne	a0, a3, .LBB70_37
.LBB70_27:
	lw	a0, 48(s11)
	sext.w	a2, s2
	mv	a3, s5
	bgeu	a2, a0, .LBB70_37
	ld	a0, 64(s11)
	srli	a2, s2, 3
	andi	a2, a2, -8
	add	a0, a0, a2
	ld	a0, 0(a0)
	srl	a0, a0, s2
	andi	a0, a0, 1
	mv	a3, s5
	beqz	a0, .LBB70_37
	addi	s3, s11, 40
	ld	a0, 0(s3)
	slli	s8, s2, 3
	add	a5, a0, s8
	ld	a2, 0(a5)
	andi	a4, a2, 1
	mv	a3, s5
	bnez	a4, .LBB70_37
	ld	a4, 8(a5)
	mv	a3, s5
	bne	a4, s6, .LBB70_37
	sext.w	a4, s4
	srliw	s9, a2, 2
	bgeu	s9, a4, .LBB70_41
	andi	a3, a2, 2
	bnez	a3, .LBB70_34
	add	a3, s9, s2
	slli	a3, a3, 32
	srli	a3, a3, 29
	add	a0, a0, a3
	ld	a3, 0(a0)
	andi	a0, a3, 1
	bnez	a0, .LBB70_35
.LBB70_34:
	li	a3, 0
.LBB70_35:
	srliw	a0, a3, 2
	add	a0, a0, s9
	bgeu	a0, a4, .LBB70_47
.LBB70_36:
	li	a0, 1
	sb	a0, 1(s11)
	li	a0, 10
	j	.LBB70_56
.LBB70_37:
	mv	a0, s5
	mv	a1, a3
	call	tlsf_heap.refusal.Refusal.of_name
	zext.b	a0, a0
	li	a1, 1
	sb	a1, 1(s11)
	addi	a0, a0, -3
	seqz	a0, a0
	addi	a0, a0, 3
	j	.LBB70_56
.LBB70_38:
	ld	a4, 24(s11)
	li	a0, -1
	beq	a4, a0, .LBB70_53
	addiw	a3, s4, 4
	sd	zero, 16(a5)
	mv	a0, s9
	bltu	s9, a3, .LBB70_45
	mv	a0, s3
	mv	s10, a1
	mv	a1, s2
	mv	a3, s4
	call	tlsf_heap.refitting.split_off.5
	j	.LBB70_44
.LBB70_41:
	ld	a4, 24(s11)
	li	a0, -1
	beq	a4, a0, .LBB70_53
	addiw	a3, s4, 4
	sd	zero, 16(a5)
	mv	a0, s9
	bltu	s9, a3, .LBB70_45
	mv	a0, s3
	mv	s10, a1
	mv	a1, s2
	mv	a3, s4
	call	tlsf_heap.refitting.split_off.4
.LBB70_44:
	mv	a1, s10
	mv	a0, s4
.LBB70_45:
	lw	a2, 32(s11)
	ld	a3, 24(s11)
	sub	a0, a0, s9
	add	a0, a0, a2
	addi	a3, a3, 1
	sd	a3, 24(s11)
	sw	a0, 32(s11)
	j	.LBB70_52
.LBB70_46:
	li	a0, 0
	j	.LBB70_55
.LBB70_47:
	ld	a5, 24(s11)
	li	a0, -1
	beq	a5, a0, .LBB70_53
	mv	s10, a1
	mv	a0, s3
	mv	a1, s2
	mv	a4, s4
	call	tlsf_heap.refitting.recut.4
.LBB70_49:
	ld	a1, 40(s11)
	add	a1, a1, s8
	sd	zero, 16(a1)
	lw	a1, 32(s11)
	lw	a2, 36(s11)
	sub	a1, a1, s9
	addw	a0, a0, a1
	sw	a0, 32(s11)
	bgeu	a2, a0, .LBB70_51
	sw	a0, 36(s11)
.LBB70_51:
	ld	a0, 24(s11)
	addi	a0, a0, 1
	sd	a0, 24(s11)
	mv	a1, s10
.LBB70_52:
	ld	a0, 0(s3)
	add	s8, s8, a0
	li	a0, 0
	ld	a7, 0(s8)
	lwu	t1, 705(s7)
	li	a6, 1
	srli	t0, s5, 24
	srli	t4, s5, 16
	srli	a4, s5, 8
	srli	t2, s2, 24
	srli	t5, s2, 16
	srli	a3, s2, 8
	srli	t3, s6, 56
	srli	t6, s6, 48
	srli	s1, s6, 40
	sb	a6, 1(s11)
	srli	a5, s6, 32
	srli	a2, s6, 24
	sb	s5, 0(a1)
	sb	a4, 1(a1)
	sb	t4, 2(a1)
	sb	t0, 3(a1)
	srli	a4, s6, 16
	sb	s2, 4(a1)
	sb	a3, 5(a1)
	sb	t5, 6(a1)
	sb	t2, 7(a1)
	srli	a3, s6, 8
	sb	a5, 12(a1)
	sb	s1, 13(a1)
	sb	t6, 14(a1)
	sb	t3, 15(a1)
	sb	s6, 8(a1)
	sb	a3, 9(a1)
	sb	a4, 10(a1)
	sb	a2, 11(a1)
	mul	a2, s2, t1
	srliw	a3, a7, 2
	mul	a3, a3, t1
	srli	a6, a2, 56
	srli	a7, a2, 48
	srli	t1, a2, 40
	srli	a4, a2, 32
	srli	t0, a2, 24
	srli	a5, a2, 16
	srli	s1, a2, 8
	sb	a4, 20(a1)
	sb	t1, 21(a1)
	sb	a7, 22(a1)
	sb	a6, 23(a1)
	sb	a2, 16(a1)
	sb	s1, 17(a1)
	sb	a5, 18(a1)
	sb	t0, 19(a1)
	srli	a6, a3, 56
	srli	a7, a3, 48
	srli	a5, a3, 40
	srli	s1, a3, 32
	srli	t0, a3, 24
	srli	a4, a3, 16
	srli	a2, a3, 8
	sb	s1, 28(a1)
	sb	a5, 29(a1)
	sb	a7, 30(a1)
	sb	a6, 31(a1)
	sb	a3, 24(a1)
	sb	a2, 25(a1)
	sb	a4, 26(a1)
	sb	t0, 27(a1)
	j	.LBB70_56
.LBB70_53:
	li	a0, 1
	sb	a0, 1(s11)
	li	a0, 2
	j	.LBB70_56
.LBB70_54:
	li	a0, 2
.LBB70_55:
	call	tlsf_c.call_fault.CallFault.refusal
.LBB70_56:
	sext.w	a0, a0
	.cfi_def_cfa sp, 112
	ld	ra, 104(sp)
	ld	s0, 96(sp)
	ld	s1, 88(sp)
	ld	s2, 80(sp)
	ld	s3, 72(sp)
	ld	s4, 64(sp)
	ld	s5, 56(sp)
	ld	s6, 48(sp)
	ld	s7, 40(sp)
	ld	s8, 32(sp)
	ld	s9, 24(sp)
	ld	s10, 16(sp)
	ld	s11, 8(sp)
	.cfi_restore ra
	.cfi_restore s0
	.cfi_restore s1
	.cfi_restore s2
	.cfi_restore s3
	.cfi_restore s4
	.cfi_restore s5
	.cfi_restore s6
	.cfi_restore s7
	.cfi_restore s8
	.cfi_restore s9
	.cfi_restore s10
	.cfi_restore s11
	addi	sp, sp, 112
	.cfi_def_cfa_offset 0
	ret
.LBB70_57:
	.cfi_restore_state
	unimp
.Lfunc_end70:
	.size	tlsf_offsets_resize, .Lfunc_end70-tlsf_offsets_resize
	.cfi_endproc
	.globl	tlsf_open
	.p2align	1
	.type	tlsf_open,@function
tlsf_open:
	.cfi_startproc
	lbu	a4, 8(a0)
	beqz	a4, .LBB71_2
	li	a0, 33
	ret
.LBB71_2:
	addiw	a4, a1, -6
	li	a5, -2
	bgeu	a4, a5, .LBB71_4
	li	a0, 34
	ret
.LBB71_4:
	addi	sp, sp, -128
	.cfi_def_cfa_offset 128
	sd	ra, 120(sp)
	sd	s0, 112(sp)
	sd	s1, 104(sp)
	sd	s2, 96(sp)
	sd	s3, 88(sp)
	sd	s4, 80(sp)
	sd	s5, 72(sp)
	sd	s6, 64(sp)
	sd	s7, 56(sp)
	sd	s8, 48(sp)
	sd	s9, 40(sp)
	sd	s10, 32(sp)
	sd	s11, 24(sp)
	.cfi_offset ra, -8
	.cfi_offset s0, -16
	.cfi_offset s1, -24
	.cfi_offset s2, -32
	.cfi_offset s3, -40
	.cfi_offset s4, -48
	.cfi_offset s5, -56
	.cfi_offset s6, -64
	.cfi_offset s7, -72
	.cfi_offset s8, -80
	.cfi_offset s9, -88
	.cfi_offset s10, -96
	.cfi_offset s11, -104
	addi	s0, sp, 128
	.cfi_def_cfa s0, 0
	sext.w	s8, a1
	li	a1, 4
	bne	s8, a1, .LBB71_10
	lui	a1, 1048320
	addi	a4, a1, -1
	addw	a4, a4, a3
	addi	a1, a1, 3
	bltu	a4, a1, .LBB71_11
	sd	a0, -120(s0)
	sd	a2, -112(s0)
	mv	s2, a3
	sext.w	s9, a3
	slli	a0, s9, 3
	li	a1, 8
	call	tlsf_memory_alloc
	mv	s4, a1
	andi	a1, a0, 1
	li	a0, 6
	beqz	a1, .LBB71_27
	sd	zero, 0(s4)
	sd	zero, 8(s4)
	sd	zero, 16(s4)
	sd	zero, 24(s4)
	addi	a0, s2, 63
	srliw	s10, a0, 6
	slli	a0, s10, 3
	li	a1, 8
	call	tlsf_memory_alloc
	andi	a0, a0, 1
	beqz	a0, .LBB71_19
	mv	s5, a1
	sd	zero, 0(a1)
	li	a0, -1
	slli	a1, a0, 32
	addi	a1, a1, 19
	sd	a1, 0(s4)
	sd	zero, 8(s4)
	ld	a1, 0(s5)
	ori	a1, a1, 1
	sd	a1, 0(s5)
	sd	a0, 16(s4)
	lui	a0, 1
	addi	a0, a0, -1336
	li	a1, 8
	call	tlsf_memory_alloc
	andi	a0, a0, 1
	beqz	a0, .LBB71_20
	mv	s1, a1
	li	a0, 1
	sb	a0, 0(a1)
	addi	a0, a1, 8
	li	a2, 16
	li	a1, 0
	call	tlsf_memory_set
	ld	a0, -112(s0)
	srli	a1, a0, 24
	srli	a2, a0, 16
	srli	a3, a0, 8
	sb	a0, 24(s1)
	sb	a3, 25(s1)
	sb	a2, 26(s1)
	sb	a1, 27(s1)
	j	.LBB71_16
.LBB71_10:
	lui	a1, 1044480
	addi	a4, a1, -1
	addw	a4, a4, a3
	addi	a1, a1, 3
	bgeu	a4, a1, .LBB71_12
.LBB71_11:
	li	a0, 5
	j	.LBB71_27
.LBB71_12:
	sd	a0, -120(s0)
	sd	a2, -112(s0)
	mv	s2, a3
	sext.w	s9, a3
	slli	a0, s9, 3
	li	a1, 8
	call	tlsf_memory_alloc
	mv	s4, a1
	andi	a1, a0, 1
	li	a0, 6
	beqz	a1, .LBB71_27
	sd	zero, 0(s4)
	sd	zero, 8(s4)
	sd	zero, 16(s4)
	sd	zero, 24(s4)
	addi	a0, s2, 63
	srliw	s10, a0, 6
	slli	a0, s10, 3
	li	a1, 8
	call	tlsf_memory_alloc
	andi	a0, a0, 1
	beqz	a0, .LBB71_19
	mv	s5, a1
	sd	zero, 0(a1)
	li	a0, -1
	slli	a1, a0, 32
	addi	a1, a1, 19
	sd	a1, 0(s4)
	sd	zero, 8(s4)
	ld	a1, 0(s5)
	ori	a1, a1, 1
	sd	a1, 0(s5)
	sd	a0, 16(s4)
	lui	a0, 1
	addi	a0, a0, -1336
	li	a1, 8
	call	tlsf_memory_alloc
	andi	a0, a0, 1
	beqz	a0, .LBB71_20
	mv	s1, a1
	li	a0, 1
	sb	zero, 11(a1)
	sb	zero, 12(a1)
	sb	zero, 13(a1)
	sb	zero, 14(a1)
	sb	zero, 19(a1)
	sb	zero, 20(a1)
	sb	zero, 21(a1)
	sb	zero, 22(a1)
	ld	a1, -112(s0)
	srli	a2, a1, 24
	srli	a3, a1, 16
	sb	a2, 27(s1)
	srli	a2, a1, 8
	sb	a0, 0(s1)
	sb	zero, 8(s1)
	sb	zero, 9(s1)
	sb	zero, 10(s1)
	sb	zero, 15(s1)
	sb	a0, 16(s1)
	sb	zero, 17(s1)
	sb	zero, 18(s1)
	sb	zero, 23(s1)
	sb	a1, 24(s1)
	sb	a2, 25(s1)
	sb	a3, 26(s1)
.LBB71_16:
	sb	zero, 28(s1)
	sb	zero, 29(s1)
	sb	zero, 30(s1)
	sb	zero, 31(s1)
	sb	zero, 36(s1)
	sb	zero, 37(s1)
	sb	zero, 38(s1)
	sb	zero, 39(s1)
	li	a6, 1
	sb	zero, 44(s1)
	sb	zero, 45(s1)
	sb	zero, 46(s1)
	sb	zero, 47(s1)
	sb	zero, 40(s1)
	sb	zero, 41(s1)
	sb	zero, 42(s1)
	sb	zero, 43(s1)
	srli	a7, s4, 56
	srli	t1, s4, 48
	srli	a5, s4, 40
	srli	t5, s4, 32
	srli	t0, s4, 24
	srli	t3, s4, 16
	srli	t6, s4, 8
	sb	zero, 60(s1)
	sb	zero, 61(s1)
	sb	zero, 62(s1)
	sb	zero, 63(s1)
	srli	a2, s9, 56
	srli	s11, s9, 48
	srli	s3, s9, 40
	srli	s6, s9, 32
	srli	ra, s9, 24
	srli	a0, s9, 16
	srli	a3, s9, 8
	srli	t4, s5, 56
	srli	a4, s5, 48
	srli	a1, s5, 40
	srli	s7, s5, 32
	srli	t2, s5, 24
	sb	t5, 52(s1)
	srli	t5, s5, 16
	sb	a5, 53(s1)
	srli	a5, s5, 8
	sb	zero, 84(s1)
	sb	zero, 85(s1)
	sb	zero, 86(s1)
	sb	zero, 87(s1)
	sb	zero, 92(s1)
	sb	zero, 93(s1)
	sb	zero, 94(s1)
	sb	zero, 95(s1)
	sb	t1, 54(s1)
	sb	a7, 55(s1)
	srli	a7, s10, 24
	sb	s4, 48(s1)
	sb	t6, 49(s1)
	sb	t3, 50(s1)
	sb	t0, 51(s1)
	srli	t0, s10, 16
	sb	s6, 68(s1)
	sb	s3, 69(s1)
	addi	s3, s1, 48
	sb	s11, 70(s1)
	sb	a2, 71(s1)
	srli	a2, s10, 8
	sb	zero, 100(s1)
	sb	zero, 101(s1)
	sb	zero, 102(s1)
	sb	zero, 103(s1)
	sb	s9, 64(s1)
	sb	a3, 65(s1)
	sb	a0, 66(s1)
	sb	ra, 67(s1)
	addi	s4, s1, 104
	sb	s7, 76(s1)
	sb	a1, 77(s1)
	sb	a4, 78(s1)
	sb	t4, 79(s1)
	li	a0, 16
	sb	s5, 72(s1)
	sb	a5, 73(s1)
	sb	t5, 74(s1)
	sb	t2, 75(s1)
	li	s6, -1
	slli	s9, s6, 32
	sb	a6, 32(s1)
	sb	zero, 33(s1)
	sb	zero, 34(s1)
	sb	zero, 35(s1)
	li	a1, 4
	sb	a1, 56(s1)
	sb	zero, 57(s1)
	sb	zero, 58(s1)
	sb	zero, 59(s1)
	sb	a6, 80(s1)
	sb	zero, 81(s1)
	sb	zero, 82(s1)
	sb	zero, 83(s1)
	sb	s10, 88(s1)
	sb	a2, 89(s1)
	sb	t0, 90(s1)
	sb	a7, 91(s1)
	sb	a1, 96(s1)
	li	s7, 4
	sb	zero, 97(s1)
	sb	zero, 98(s1)
	sb	zero, 99(s1)
	sb	a6, 104(s1)
	sb	zero, 105(s1)
	sb	zero, 106(s1)
	sb	zero, 107(s1)
	sb	a0, 108(s1)
	sb	zero, 109(s1)
	sb	zero, 110(s1)
	sb	zero, 111(s1)
	addi	s9, s9, 19
	addi	a0, s1, 112
	li	a2, 80
	li	a1, 0
	call	tlsf_memory_set
	addi	s5, s1, 192
	li	a1, 255
	li	a2, 16
	mv	a0, s5
	call	tlsf_memory_set
	sb	zero, 208(s1)
	sb	zero, 209(s1)
	sb	zero, 210(s1)
	sb	zero, 211(s1)
	addi	a0, s1, 212
	lui	a2, 1
	addi	a2, a2, -1552
	li	a1, 255
	call	tlsf_memory_set
	addi	a0, s1, 2047
	sb	zero, 709(a0)
	sb	zero, 710(a0)
	sb	zero, 711(a0)
	sb	zero, 712(a0)
	mv	a0, s3
	mv	a1, s2
	call	tlsf_words.words.Words.lengthen
	sw	s6, 208(s1)
	li	a2, 88
	mv	a0, s4
	li	a1, 0
	call	tlsf_memory_set
	ld	a0, 56(s1)
	ld	a1, 48(s1)
	addi	a2, s9, -16
	slli	a3, a0, 2
	or	a2, a2, a3
	sd	a2, 0(a1)
	sd	zero, 8(a1)
	ld	a1, 72(s1)
	ld	a2, 0(a1)
	ori	a2, a2, 1
	sd	a2, 0(a1)
	bne	s8, s7, .LBB71_22
	ori	a1, a0, 16
	lui	a2, 349525
	srliw	a3, a1, 1
	addi	a2, a2, 1365
	or	a1, a1, a3
	srliw	a3, a1, 2
	or	a1, a1, a3
	srliw	a3, a1, 4
	or	a1, a1, a3
	srliw	a3, a1, 8
	or	a1, a1, a3
	srliw	a3, a1, 16
	or	a1, a1, a3
	not	a1, a1
	srli	a3, a1, 1
	and	a2, a2, a3
	lui	a3, 209715
	addi	a3, a3, 819
	sub	a1, a1, a2
	and	a2, a1, a3
	srli	a1, a1, 2
	and	a1, a1, a3
	lui	a3, 61681
	add	a1, a1, a2
	srli	a2, a1, 4
	add	a1, a1, a2
	lui	a2, 4112
	addi	a3, a3, -241
	and	a1, a1, a3
	li	a3, 27
	addi	a2, a2, 257
	mul	a1, a1, a2
	srliw	a1, a1, 24
	sub	a3, a3, a1
	srlw	a0, a0, a3
	slli	a3, a3, 4
	add	a3, a3, a0
	slli	a3, a3, 32
	srli	a1, a3, 30
	add	s5, s5, a1
	lw	a2, 0(s5)
	ld	a1, 0(s3)
	sw	zero, 0(s5)
	ld	s7, -120(s0)
	bgez	a2, .LBB71_23
	srli	a3, a3, 32
	li	a2, -1
	li	a4, 1
	andi	a0, a0, 15
	sd	a2, 16(a1)
	srli	a3, a3, 4
	j	.LBB71_25
.LBB71_19:
	mv	a0, s4
	j	.LBB71_21
.LBB71_20:
	mv	a0, s4
	call	tlsf_memory_dealloc
	mv	a0, s5
.LBB71_21:
	call	tlsf_memory_dealloc
	li	a0, 6
	j	.LBB71_27
.LBB71_22:
	ori	a1, a0, 32
	lui	a2, 349525
	srliw	a3, a1, 1
	addi	a2, a2, 1365
	or	a1, a1, a3
	srliw	a3, a1, 2
	or	a1, a1, a3
	srliw	a3, a1, 4
	or	a1, a1, a3
	srliw	a3, a1, 8
	or	a1, a1, a3
	srliw	a3, a1, 16
	or	a1, a1, a3
	not	a1, a1
	srli	a3, a1, 1
	and	a2, a2, a3
	lui	a3, 209715
	addi	a3, a3, 819
	sub	a1, a1, a2
	and	a2, a1, a3
	srli	a1, a1, 2
	and	a1, a1, a3
	lui	a3, 61681
	add	a1, a1, a2
	srli	a2, a1, 4
	add	a1, a1, a2
	lui	a2, 4112
	addi	a3, a3, -241
	and	a1, a1, a3
	li	a3, 26
	addi	a2, a2, 257
	mul	a1, a1, a2
	srliw	a1, a1, 24
	sub	a3, a3, a1
	srlw	a0, a0, a3
	slli	a3, a3, 5
	add	a3, a3, a0
	slli	a3, a3, 32
	srli	a1, a3, 30
	add	s5, s5, a1
	lw	a2, 0(s5)
	ld	a1, 0(s3)
	sw	zero, 0(s5)
	ld	s7, -120(s0)
	bltz	a2, .LBB71_24
.LBB71_23:
	add	s9, s9, a2
	slli	a2, a2, 3
	addi	s9, s9, -19
	sd	s9, 16(a1)
	add	a1, a1, a2
	lwu	a0, 16(a1)
	sd	a0, 16(a1)
	j	.LBB71_26
.LBB71_24:
	srli	a3, a3, 32
	li	a2, -1
	li	a4, 1
	sd	a2, 16(a1)
	srli	a3, a3, 5
.LBB71_25:
	lw	a1, 0(s4)
	slli	a2, a3, 2
	sllw	a3, a4, a3
	add	a2, a2, s1
	lw	a5, 108(a2)
	or	a1, a1, a3
	sw	a1, 0(s4)
	sllw	a0, a4, a0
	or	a0, a0, a5
	sw	a0, 108(a2)
.LBB71_26:
	ld	s6, -112(s0)
	li	a0, 0
	ld	a1, 48(s1)
	li	a2, 1
	sd	s1, 0(s7)
	sb	a2, 8(s7)
	sd	a1, 16(s7)
	sw	s6, 24(s7)
	sb	zero, 28(s7)
.LBB71_27:
	.cfi_def_cfa sp, 128
	ld	ra, 120(sp)
	ld	s0, 112(sp)
	ld	s1, 104(sp)
	ld	s2, 96(sp)
	ld	s3, 88(sp)
	ld	s4, 80(sp)
	ld	s5, 72(sp)
	ld	s6, 64(sp)
	ld	s7, 56(sp)
	ld	s8, 48(sp)
	ld	s9, 40(sp)
	ld	s10, 32(sp)
	ld	s11, 24(sp)
	.cfi_restore ra
	.cfi_restore s0
	.cfi_restore s1
	.cfi_restore s2
	.cfi_restore s3
	.cfi_restore s4
	.cfi_restore s5
	.cfi_restore s6
	.cfi_restore s7
	.cfi_restore s8
	.cfi_restore s9
	.cfi_restore s10
	.cfi_restore s11
	addi	sp, sp, 128
	.cfi_def_cfa_offset 0
	ret
.Lfunc_end71:
	.size	tlsf_open, .Lfunc_end71-tlsf_open
	.cfi_endproc
	.globl	tlsf_place
	.p2align	1
	.type	tlsf_place,@function
tlsf_place:
	.cfi_startproc
	lbu	a4, 8(a0)
	beqz	a4, .LBB72_7
	ld	a4, 0(a0)
	lbu	a0, 0(a4)
	beqz	a0, .LBB72_7
	lbu	a5, 16(a4)
	lw	a6, 24(a4)
	lw	a0, 56(a4)
	sb	zero, 0(a4)
	sext.w	a5, a1
	bgeu	a5, a0, .LBB72_6
	ld	a0, 72(a4)
	srliw	a5, a1, 6
	slli	a5, a5, 3
	add	a0, a0, a5
	ld	a0, 0(a0)
	srl	a0, a0, a1
	andi	a0, a0, 1
	beqz	a0, .LBB72_6
	ld	a5, 48(a4)
	slli	a0, a1, 32
	srli	a0, a0, 29
	add	a5, a5, a0
	lbu	a0, 0(a5)
	andi	a0, a0, 1
	bnez	a0, .LBB72_6
	ld	a7, 8(a5)
	ld	t0, 16(a5)
	li	t1, 1
	srli	t2, a6, 24
	srli	t3, a6, 16
	srli	a5, a6, 8
	srli	t4, a1, 24
	sb	t1, 0(a4)
	srli	t1, a1, 16
	srli	a4, a1, 8
	sb	a6, 0(a2)
	sb	a5, 1(a2)
	sb	t3, 2(a2)
	sb	t2, 3(a2)
	sb	a1, 4(a2)
	sb	a4, 5(a2)
	sb	t1, 6(a2)
	sb	t4, 7(a2)
	srli	a6, a7, 56
	srli	t2, a7, 48
	srli	a5, a7, 40
	srli	a1, a7, 32
	srli	t1, a7, 24
	srli	a4, a7, 16
	sb	a1, 12(a2)
	sb	a5, 13(a2)
	sb	t2, 14(a2)
	sb	a6, 15(a2)
	srli	a1, a7, 8
	sb	a7, 8(a2)
	sb	a1, 9(a2)
	sb	a4, 10(a2)
	sb	t1, 11(a2)
	sw	t0, 0(a3)
	li	a0, 0
	ret
.LBB72_6:
	li	a0, 1
	sb	a0, 0(a4)
	li	a0, 4
	sext.w	a0, a0
	ret
.LBB72_7:
	addi	sp, sp, -16
	.cfi_def_cfa_offset 16
	sd	ra, 8(sp)
	sd	s0, 0(sp)
	.cfi_offset ra, -8
	.cfi_offset s0, -16
	addi	s0, sp, 16
	.cfi_def_cfa s0, 0
	li	a0, 0
	call	tlsf_c.call_fault.CallFault.refusal
	.cfi_def_cfa sp, 16
	ld	ra, 8(sp)
	ld	s0, 0(sp)
	.cfi_restore ra
	.cfi_restore s0
	addi	sp, sp, 16
	.cfi_def_cfa_offset 0
	sext.w	a0, a0
	ret
.Lfunc_end72:
	.size	tlsf_place, .Lfunc_end72-tlsf_place
	.cfi_endproc
	.section	.rodata.cst32,"aM",@progbits,32
.LCPI73_0:
	.ascii	"\000\001\034\002\035\016\030\003\036\026\024\017\031\021\004\b\037\033\r\027\025\023\020\007\032\f\022\006\013\005\n\t"
	.text
	.globl	tlsf_pools_allocate
	.p2align	1
	.type	tlsf_pools_allocate,@function
tlsf_pools_allocate:
	.cfi_startproc
	addi	sp, sp, -80
	.cfi_def_cfa_offset 80
	sd	ra, 72(sp)
	sd	s0, 64(sp)
	sd	s1, 56(sp)
	sd	s2, 48(sp)
	sd	s3, 40(sp)
	sd	s4, 32(sp)
	sd	s5, 24(sp)
	sd	s6, 16(sp)
	sd	s7, 8(sp)
	.cfi_offset ra, -8
	.cfi_offset s0, -16
	.cfi_offset s1, -24
	.cfi_offset s2, -32
	.cfi_offset s3, -40
	.cfi_offset s4, -48
	.cfi_offset s5, -56
	.cfi_offset s6, -64
	.cfi_offset s7, -72
	addi	s0, sp, 80
	.cfi_def_cfa s0, 0
	.cfi_remember_state
	lbu	a3, 8(a0)
	beqz	a3, .LBB73_32
	ld	s5, 0(a0)
	lbu	a0, 1(s5)
	beqz	a0, .LBB73_32
	lbu	a0, 0(s5)
	li	a3, 1
	bne	a0, a3, .LBB73_38
	li	a0, -1
	srli	a0, a0, 32
	sb	zero, 1(s5)
	mv	t3, a1
	bltu	a1, a0, .LBB73_5
	mv	t3, a0
.LBB73_5:
	lbu	a0, 8(s5)
	ld	a7, 24(s5)
	ld	t1, 32(s5)
	beqz	a0, .LBB73_13
	beqz	t1, .LBB73_26
	li	t2, 0
	lui	a6, 1
	addi	a6, a6, -1304
	sext.w	a0, t3
	j	.LBB73_9
.LBB73_8:
	addi	t2, t2, 1
	beq	t2, t1, .LBB73_26
.LBB73_9:
	mul	t4, t2, a6
	add	t4, t4, a7
	addi	s4, t4, 2047
	ld	a5, 697(s4)
	beqz	a5, .LBB73_8
	ld	t0, 689(s4)
	addi	a4, t0, 4
	mv	a3, a5
.LBB73_11:
	lw	s1, 0(a4)
	bgeu	s1, a0, .LBB73_20
	addi	a3, a3, -1
	addi	a4, a4, 8
	bnez	a3, .LBB73_11
	j	.LBB73_8
.LBB73_13:
	beqz	t1, .LBB73_26
	li	t2, 0
	lui	a6, 1
	addi	a6, a6, -1304
	sext.w	a0, t3
	j	.LBB73_16
.LBB73_15:
	addi	t2, t2, 1
	beq	t2, t1, .LBB73_26
.LBB73_16:
	mul	t4, t2, a6
	add	t4, t4, a7
	addi	s4, t4, 2047
	ld	a3, 697(s4)
	beqz	a3, .LBB73_15
	ld	t0, 689(s4)
	addi	a4, t0, 4
	mv	a5, a3
.LBB73_18:
	lw	s1, 0(a4)
	bgeu	s1, a0, .LBB73_23
	addi	a5, a5, -1
	addi	a4, a4, 8
	bnez	a5, .LBB73_18
	j	.LBB73_15
.LBB73_20:
	li	s1, 0
	addi	a4, t0, 4
.LBB73_21:
	lw	a3, 0(a4)
	bgeu	a3, a0, .LBB73_28
	addi	a5, a5, -1
	addi	a4, a4, 8
	addi	s1, s1, 4
	bnez	a5, .LBB73_21
	j	.LBB73_26
.LBB73_23:
	li	s1, 0
	addi	a4, t0, 4
.LBB73_24:
	lw	a5, 0(a4)
	bgeu	a5, a0, .LBB73_33
	addi	a3, a3, -1
	addi	a4, a4, 8
	addi	s1, s1, 4
	bnez	a3, .LBB73_24
.LBB73_26:
	li	a0, 1
	sb	a0, 1(s5)
	li	a0, 5
.LBB73_27:
	sext.w	a0, a0
	.cfi_def_cfa sp, 80
	ld	ra, 72(sp)
	ld	s0, 64(sp)
	ld	s1, 56(sp)
	ld	s2, 48(sp)
	ld	s3, 40(sp)
	ld	s4, 32(sp)
	ld	s5, 24(sp)
	ld	s6, 16(sp)
	ld	s7, 8(sp)
	.cfi_restore ra
	.cfi_restore s0
	.cfi_restore s1
	.cfi_restore s2
	.cfi_restore s3
	.cfi_restore s4
	.cfi_restore s5
	.cfi_restore s6
	.cfi_restore s7
	addi	sp, sp, 80
	.cfi_def_cfa_offset 0
	ret
.LBB73_28:
	.cfi_restore_state
	ld	a0, 721(s4)
	add	a0, a0, s1
	lw	a0, 0(a0)
	lw	a3, -4(a4)
	bgeu	a0, a3, .LBB73_37
	lw	t5, 713(s4)
	lui	a0, 4096
	bltu	a0, t5, .LBB73_61
	ori	a0, t5, 32
	lui	a3, 349525
	lui	a4, 209715
	srliw	a5, a0, 1
	addi	a3, a3, 1365
	or	a0, a0, a5
	srliw	a5, a0, 2
	or	a0, a0, a5
	srliw	a5, a0, 4
	or	a0, a0, a5
	srliw	a5, a0, 8
	or	a0, a0, a5
	srliw	a5, a0, 16
	or	a0, a0, a5
	not	a0, a0
	srli	a5, a0, 1
	and	a3, a3, a5
	lui	a5, 61681
	addi	a4, a4, 819
	sub	a0, a0, a3
	and	a3, a0, a4
	srli	a0, a0, 2
	and	a0, a0, a4
	lui	a4, 4112
	add	a0, a0, a3
	srli	a3, a0, 4
	add	a0, a0, a3
	li	a3, 26
	addi	a5, a5, -241
	and	a0, a0, a5
	addi	a5, t5, -1
	addi	a4, a4, 257
	mul	a0, a0, a4
	srliw	a0, a0, 24
	sub	a3, a3, a0
	srlw	a4, a5, a3
	slli	a3, a3, 5
	add	a3, a3, a4
	addi	a3, a3, 1
	slli	a3, a3, 32
	srli	a3, a3, 32
	addi	a3, a3, -1
	srli	a0, a3, 5
	slli	a5, a0, 2
	add	a5, a5, t4
	lw	a5, 84(a5)
	srlw	a4, a5, a4
	andi	a4, a4, -2
	beqz	a4, .LBB73_39
	neg	a0, a4
	and	a0, a0, a4
	lui	a4, 30667
	addi	a4, a4, 1329
	mul	a0, a0, a4
.Lpcrel_hi29:
	auipc	a4, %pcrel_hi(.LCPI73_0)
	srliw	a0, a0, 27
	addi	a4, a4, %pcrel_lo(.Lpcrel_hi29)
	add	a0, a0, a4
	lbu	a0, 0(a0)
	add	a3, a3, a0
	ld	s2, 8(t4)
	li	a5, -1
	bne	s2, a5, .LBB73_47
	j	.LBB73_61
.LBB73_32:
	li	a0, 0
	call	tlsf_c.call_fault.CallFault.refusal
	j	.LBB73_27
.LBB73_33:
	ld	a0, 721(s4)
	add	a0, a0, s1
	lw	a0, 0(a0)
	lw	a3, -4(a4)
	bgeu	a0, a3, .LBB73_37
	lw	t5, 713(s4)
	lui	a0, 256
	bltu	a0, t5, .LBB73_61
	ori	a0, t5, 16
	lui	a3, 349525
	lui	a4, 209715
	srliw	a5, a0, 1
	addi	a3, a3, 1365
	or	a0, a0, a5
	srliw	a5, a0, 2
	or	a0, a0, a5
	srliw	a5, a0, 4
	or	a0, a0, a5
	srliw	a5, a0, 8
	or	a0, a0, a5
	srliw	a5, a0, 16
	or	a0, a0, a5
	not	a0, a0
	srli	a5, a0, 1
	and	a3, a3, a5
	lui	a5, 61681
	addi	a4, a4, 819
	sub	a0, a0, a3
	and	a3, a0, a4
	srli	a0, a0, 2
	and	a0, a0, a4
	lui	a4, 4112
	add	a0, a0, a3
	srli	a3, a0, 4
	add	a0, a0, a3
	li	a3, 27
	addi	a5, a5, -241
	and	a0, a0, a5
	addi	a5, t5, -1
	addi	a4, a4, 257
	mul	a0, a0, a4
	srliw	a0, a0, 24
	sub	a3, a3, a0
	srlw	a4, a5, a3
	slli	a3, a3, 4
	add	a3, a3, a4
	addi	a3, a3, 1
	slli	a3, a3, 32
	srli	a3, a3, 32
	addi	a3, a3, -1
	srli	a0, a3, 4
	slli	a5, a0, 2
	add	a5, a5, t4
	lw	a5, 84(a5)
	andi	a4, a4, 15
	srlw	a4, a5, a4
	andi	a4, a4, -2
	beqz	a4, .LBB73_42
	neg	a0, a4
	and	a0, a0, a4
	lui	a4, 30667
	addi	a4, a4, 1329
	mul	a0, a0, a4
.Lpcrel_hi27:
	auipc	a4, %pcrel_hi(.LCPI73_0)
	srliw	a0, a0, 27
	addi	a4, a4, %pcrel_lo(.Lpcrel_hi27)
	add	a0, a0, a4
	lbu	a0, 0(a0)
	add	a3, a3, a0
	j	.LBB73_58
.LBB73_37:
	li	a0, 1
	sb	a0, 1(s5)
	li	a0, 38
	j	.LBB73_27
.LBB73_38:
	li	a0, 2
	call	tlsf_c.call_fault.CallFault.refusal
	j	.LBB73_27
.LBB73_39:
	lw	a3, 80(t4)
	addi	a0, a0, 1
	srlw	a3, a3, a0
	sllw	a0, a3, a0
	beqz	a0, .LBB73_61
	neg	a3, a0
	lui	a4, 30667
.Lpcrel_hi30:
	auipc	a5, %pcrel_hi(.LCPI73_0)
	and	a0, a0, a3
	addi	a3, a4, 1329
	mul	a0, a0, a3
	srliw	a0, a0, 27
	addi	a4, a5, %pcrel_lo(.Lpcrel_hi30)
	add	a0, a0, a4
	lbu	a6, 0(a0)
	slli	a5, a6, 2
	add	a5, a5, t4
	lw	a5, 84(a5)
	beqz	a5, .LBB73_45
	neg	a0, a5
	and	a0, a0, a5
	mul	a0, a0, a3
	srliw	a0, a0, 27
	add	a0, a0, a4
	lbu	a3, 0(a0)
	j	.LBB73_46
.LBB73_42:
	lw	a3, 80(t4)
	addi	a0, a0, 1
	srlw	a3, a3, a0
	sllw	a0, a3, a0
	beqz	a0, .LBB73_61
	neg	a3, a0
	lui	a4, 30667
.Lpcrel_hi28:
	auipc	a5, %pcrel_hi(.LCPI73_0)
	and	a0, a0, a3
	addi	a3, a4, 1329
	mul	a0, a0, a3
	srliw	a0, a0, 27
	addi	a4, a5, %pcrel_lo(.Lpcrel_hi28)
	add	a0, a0, a4
	lbu	a6, 0(a0)
	slli	a5, a6, 2
	add	a5, a5, t4
	lw	a5, 84(a5)
	beqz	a5, .LBB73_56
	neg	a0, a5
	and	a0, a0, a5
	mul	a0, a0, a3
	srliw	a0, a0, 27
	add	a0, a0, a4
	lbu	a3, 0(a0)
	j	.LBB73_57
.LBB73_45:
	li	a3, 32
.LBB73_46:
	slli	a6, a6, 5
	add	a3, a3, a6
	ld	s2, 8(t4)
	li	a5, -1
	beq	s2, a5, .LBB73_61
.LBB73_47:
	slli	a4, a3, 2
	add	a4, a4, t4
	lwu	s3, 168(a4)
	ld	t0, 24(t4)
	slli	a6, s3, 3
	add	a0, t0, a6
	lw	a0, 16(a0)
	beq	a0, a5, .LBB73_49
	slli	a3, a0, 32
	srli	a3, a3, 29
	add	a3, a3, t0
	ld	a7, 16(a3)
	li	a5, -1
	slli	a5, a5, 32
	or	a5, a7, a5
	sd	a5, 16(a3)
	ld	t0, 24(t4)
	sw	a0, 168(a4)
	j	.LBB73_51
.LBB73_49:
	li	a5, -1
	srli	a0, a3, 5
	sw	a5, 168(a4)
	slli	a4, a0, 2
	add	a5, t4, a4
	lw	a4, 84(a5)
	li	a7, 1
	sllw	a3, a7, a3
	not	a3, a3
	and	a3, a3, a4
	sw	a3, 84(a5)
	bnez	a3, .LBB73_51
	lw	a3, 80(t4)
	sllw	a0, a7, a0
	not	a0, a0
	and	a0, a0, a3
	sw	a0, 80(t4)
.LBB73_51:
	add	a3, t0, a6
	ld	a4, 0(a3)
	slli	a0, t5, 2
	subw	a0, a4, a0
	li	a5, 15
	bgeu	a5, a0, .LBB73_65
	srliw	a6, a0, 2
	li	t1, -1
	slli	a5, a0, 32
	slli	a7, s3, 32
	add	t2, s3, t5
	li	t6, 1
	srli	a5, a5, 32
	slli	s6, t2, 32
	or	s7, a7, a5
	sub	a4, a4, a5
	srli	a7, s6, 29
	sd	a4, 0(a3)
	sd	s2, 8(a3)
	sd	t3, 16(a3)
	add	t0, t0, a7
	sd	s7, 0(t0)
	sd	s2, 8(t0)
	ld	a3, 48(t4)
	andi	a0, a0, 2
	srliw	a4, t2, 6
	slli	a4, a4, 3
	add	a3, a3, a4
	ld	a4, 0(a3)
	srli	t0, t1, 32
	sll	a5, t6, t2
	srli	t1, s6, 32
	or	a4, a4, a5
	sd	a4, 0(a3)
	slli	t1, t1, 32
	bnez	a0, .LBB73_54
	ld	a0, 24(t4)
	add	a3, a6, t2
	slli	a3, a3, 32
	srli	a3, a3, 29
	add	a0, a0, a3
	ld	a3, 0(a0)
	and	a3, a3, t0
	or	a3, a3, t1
	sd	a3, 0(a0)
.LBB73_54:
	ori	a0, a6, 32
	lui	a3, 349525
	lui	a4, 209715
	srli	a5, a0, 1
	addi	a3, a3, 1365
	or	a0, a0, a5
	srli	a5, a0, 2
	or	a0, a0, a5
	srli	a5, a0, 4
	or	a0, a0, a5
	slli	a5, a0, 34
	srli	a5, a5, 42
	or	a0, a0, a5
	slli	a5, a0, 33
	srli	a5, a5, 49
	or	a0, a0, a5
	not	a0, a0
	srli	a5, a0, 1
	and	a3, a3, a5
	lui	a5, 61681
	addi	a4, a4, 819
	sub	a0, a0, a3
	and	a3, a0, a4
	srli	a0, a0, 2
	and	a0, a0, a4
	lui	a4, 4112
	add	a0, a0, a3
	srli	a3, a0, 4
	add	a0, a0, a3
	li	a3, 26
	addi	a5, a5, -241
	addi	a4, a4, 257
	and	a0, a0, a5
	mul	a0, a0, a4
	srliw	a0, a0, 24
	sub	a3, a3, a0
	srlw	a6, a6, a3
	slli	a3, a3, 5
	add	a5, a6, a3
	slli	a3, a5, 2
	add	a3, a3, t4
	lw	a4, 168(a3)
	ld	a0, 24(t4)
	sw	t2, 168(a3)
	bgez	a4, .LBB73_69
	add	a0, a0, a7
	li	a3, -1
	srli	a5, a5, 5
	li	a7, 1
	sd	a3, 16(a0)
	slli	a0, a5, 2
	add	a0, a0, t4
	lw	t0, 80(t4)
	lw	a4, 84(a0)
	sllw	a5, a7, a5
	sllw	a3, a7, a6
	or	a5, t0, a5
	or	a3, a3, a4
	sw	a5, 80(t4)
	sw	a3, 84(a0)
	lw	a0, 16(t4)
	lw	a3, 20(t4)
	addw	a0, a0, t5
	sw	a0, 16(t4)
	bltu	a3, a0, .LBB73_70
	j	.LBB73_71
.LBB73_56:
	li	a3, 32
.LBB73_57:
	slli	a6, a6, 4
	add	a3, a3, a6
.LBB73_58:
	ld	s2, 8(t4)
	li	a5, -1
	beq	s2, a5, .LBB73_61
	slli	a4, a3, 2
	add	a4, a4, t4
	lwu	s3, 168(a4)
	ld	t0, 24(t4)
	slli	a6, s3, 3
	add	a0, t0, a6
	lw	a0, 16(a0)
	beq	a0, a5, .LBB73_62
	slli	a3, a0, 32
	srli	a3, a3, 29
	add	a3, a3, t0
	ld	a7, 16(a3)
	li	a5, -1
	slli	a5, a5, 32
	or	a5, a7, a5
	sd	a5, 16(a3)
	ld	t0, 24(t4)
	sw	a0, 168(a4)
	j	.LBB73_64
.LBB73_61:
	li	a0, 1
	sb	a0, 1(s5)
	li	a0, 2
	j	.LBB73_27
.LBB73_62:
	li	a5, -1
	srli	a0, a3, 4
	sw	a5, 168(a4)
	slli	a4, a0, 2
	add	a4, a4, t4
	lw	a5, 84(a4)
	andi	a3, a3, 15
	li	a7, 1
	sllw	a3, a7, a3
	not	a3, a3
	and	a3, a3, a5
	sw	a3, 84(a4)
	bnez	a3, .LBB73_64
	lw	a3, 80(t4)
	sllw	a0, a7, a0
	not	a0, a0
	and	a0, a0, a3
	sw	a0, 80(t4)
.LBB73_64:
	add	a3, t0, a6
	ld	a4, 0(a3)
	slli	a0, t5, 2
	subw	a0, a4, a0
	li	a5, 15
	bltu	a5, a0, .LBB73_66
.LBB73_65:
	addi	a4, a4, -1
	sd	a4, 0(a3)
	sd	s2, 8(a3)
	sd	t3, 16(a3)
	srliw	t5, a4, 2
	lw	a0, 16(t4)
	lw	a3, 20(t4)
	addw	a0, a0, t5
	sw	a0, 16(t4)
	bltu	a3, a0, .LBB73_70
	j	.LBB73_71
.LBB73_66:
	srliw	a6, a0, 2
	li	t1, -1
	slli	a5, a0, 32
	slli	a7, s3, 32
	add	t2, s3, t5
	li	t6, 1
	srli	a5, a5, 32
	slli	s6, t2, 32
	or	s7, a7, a5
	sub	a4, a4, a5
	srli	a7, s6, 29
	sd	a4, 0(a3)
	sd	s2, 8(a3)
	sd	t3, 16(a3)
	add	t0, t0, a7
	sd	s7, 0(t0)
	sd	s2, 8(t0)
	ld	a3, 48(t4)
	andi	a0, a0, 2
	srliw	a4, t2, 6
	slli	a4, a4, 3
	add	a3, a3, a4
	ld	a4, 0(a3)
	srli	t0, t1, 32
	sll	a5, t6, t2
	srli	t1, s6, 32
	or	a4, a4, a5
	sd	a4, 0(a3)
	slli	t1, t1, 32
	bnez	a0, .LBB73_68
	ld	a0, 24(t4)
	add	a3, a6, t2
	slli	a3, a3, 32
	srli	a3, a3, 29
	add	a0, a0, a3
	ld	a3, 0(a0)
	and	a3, a3, t0
	or	a3, a3, t1
	sd	a3, 0(a0)
.LBB73_68:
	ori	a0, a6, 16
	lui	a3, 349525
	lui	a4, 209715
	srli	a5, a0, 1
	addi	a3, a3, 1365
	or	a0, a0, a5
	srli	a5, a0, 2
	or	a0, a0, a5
	srli	a5, a0, 4
	or	a0, a0, a5
	slli	a5, a0, 34
	srli	a5, a5, 42
	or	a0, a0, a5
	slli	a5, a0, 33
	srli	a5, a5, 49
	or	a0, a0, a5
	not	a0, a0
	srli	a5, a0, 1
	and	a3, a3, a5
	lui	a5, 61681
	addi	a4, a4, 819
	sub	a0, a0, a3
	and	a3, a0, a4
	srli	a0, a0, 2
	and	a0, a0, a4
	lui	a4, 4112
	add	a0, a0, a3
	srli	a3, a0, 4
	add	a0, a0, a3
	li	a3, 27
	addi	a5, a5, -241
	addi	a4, a4, 257
	and	a0, a0, a5
	mul	a0, a0, a4
	srliw	a0, a0, 24
	sub	a3, a3, a0
	srlw	a6, a6, a3
	slli	a3, a3, 4
	add	a5, a6, a3
	slli	a3, a5, 2
	add	a3, a3, t4
	lw	a4, 168(a3)
	ld	a0, 24(t4)
	sw	t2, 168(a3)
	bltz	a4, .LBB73_74
.LBB73_69:
	li	a3, -1
	add	a7, a7, a0
	slli	a3, a3, 32
	or	a3, a3, a4
	slli	a4, a4, 3
	sd	a3, 16(a7)
	add	a0, a0, a4
	ld	a3, 16(a0)
	and	a3, a3, t0
	or	a3, a3, t1
	sd	a3, 16(a0)
	lw	a0, 16(t4)
	lw	a3, 20(t4)
	addw	a0, a0, t5
	sw	a0, 16(t4)
	bgeu	a3, a0, .LBB73_71
.LBB73_70:
	sw	a0, 20(t4)
.LBB73_71:
	lw	s6, 0(t4)
	ld	a0, 8(t4)
	seqz	a1, a1
	add	a1, a1, t3
	addi	a1, a1, 31
	srli	a1, a1, 3
	addi	a0, a0, 1
	addiw	a3, a1, -3
	sd	a0, 8(t4)
	beqz	a3, .LBB73_73
	ld	a0, 24(t4)
	addi	a1, s3, 3
	slli	a1, a1, 32
	srli	a1, a1, 29
	add	a0, a0, a1
	slli	a3, a3, 3
	li	a1, 0
	mv	s7, a2
	mv	a2, a3
	call	tlsf_memory_set
	mv	a2, s7
.LBB73_73:
	ld	a0, 721(s4)
	add	a0, a0, s1
	lw	a1, 0(a0)
	addi	a1, a1, 1
	sw	a1, 0(a0)
	li	a0, 0
	li	a6, 1
	srli	a7, s6, 24
	srli	t2, s6, 16
	srli	a5, s6, 8
	srli	t0, s3, 24
	srli	t3, s3, 16
	srli	a3, s3, 8
	srli	t1, s2, 56
	srli	s1, s2, 48
	sb	a6, 1(s5)
	srli	a4, s2, 40
	srli	a1, s2, 32
	sb	s6, 0(a2)
	sb	a5, 1(a2)
	sb	t2, 2(a2)
	sb	a7, 3(a2)
	srli	a5, s2, 24
	sb	s3, 4(a2)
	sb	a3, 5(a2)
	sb	t3, 6(a2)
	sb	t0, 7(a2)
	srli	a3, s2, 16
	sb	a1, 12(a2)
	sb	a4, 13(a2)
	sb	s1, 14(a2)
	sb	t1, 15(a2)
	srli	a1, s2, 8
	sb	s2, 8(a2)
	sb	a1, 9(a2)
	sb	a3, 10(a2)
	sb	a5, 11(a2)
	j	.LBB73_27
.LBB73_74:
	add	a0, a0, a7
	li	a7, -1
	srli	a5, a5, 4
	li	t0, 1
	andi	a6, a6, 15
	sd	a7, 16(a0)
	slli	a0, a5, 2
	add	a0, a0, t4
	lw	a4, 80(t4)
	lw	a7, 84(a0)
	sllw	a5, t0, a5
	sllw	a3, t0, a6
	or	a4, a4, a5
	or	a3, a7, a3
	sw	a4, 80(t4)
	sw	a3, 84(a0)
	lw	a0, 16(t4)
	lw	a3, 20(t4)
	addw	a0, a0, t5
	sw	a0, 16(t4)
	bltu	a3, a0, .LBB73_70
	j	.LBB73_71
.Lfunc_end73:
	.size	tlsf_pools_allocate, .Lfunc_end73-tlsf_pools_allocate
	.cfi_endproc
	.globl	tlsf_pools_check
	.p2align	1
	.type	tlsf_pools_check,@function
tlsf_pools_check:
	.cfi_startproc
	addi	sp, sp, -80
	.cfi_def_cfa_offset 80
	sd	ra, 72(sp)
	sd	s0, 64(sp)
	sd	s1, 56(sp)
	sd	s2, 48(sp)
	sd	s3, 40(sp)
	sd	s4, 32(sp)
	sd	s5, 24(sp)
	sd	s6, 16(sp)
	sd	s7, 8(sp)
	sd	s8, 0(sp)
	.cfi_offset ra, -8
	.cfi_offset s0, -16
	.cfi_offset s1, -24
	.cfi_offset s2, -32
	.cfi_offset s3, -40
	.cfi_offset s4, -48
	.cfi_offset s5, -56
	.cfi_offset s6, -64
	.cfi_offset s7, -72
	.cfi_offset s8, -80
	addi	s0, sp, 80
	.cfi_def_cfa s0, 0
	.cfi_remember_state
	mv	s2, a2
	lbu	a2, 8(a0)
	beqz	a2, .LBB74_23
	ld	s4, 0(a0)
	lbu	a0, 1(s4)
	beqz	a0, .LBB74_23
	lbu	a0, 0(s4)
	li	a2, 1
	bne	a0, a2, .LBB74_24
	mv	s1, a3
	lbu	a3, 8(s4)
	ld	a2, 32(s4)
	sb	zero, 1(s4)
	slli	a0, a1, 32
	srli	a0, a0, 32
	beqz	a3, .LBB74_12
	bgeu	a0, a2, .LBB74_21
	ld	s3, 24(s4)
	lui	a1, 1
	addi	a1, a1, -1304
	mul	a0, a0, a1
	add	s3, s3, a0
	lw	s5, 32(s3)
	addiw	a0, s5, -4
	sext.w	a1, s2
	bltu	a0, a1, .LBB74_21
	ld	a0, 48(s3)
	srliw	a1, s2, 6
	slli	a1, a1, 3
	add	a0, a0, a1
	ld	a0, 0(a0)
	srl	a0, a0, s2
	andi	a0, a0, 1
	beqz	a0, .LBB74_21
	sext.w	a0, s1
	beqz	a0, .LBB74_29
	mv	s7, a5
	mv	s6, a4
	addi	s3, s3, 24
	li	s8, 1
.LBB74_9:
	mv	a0, s3
	mv	a1, s2
	call	tlsf_heap.check.examine
	zext.b	a0, a0
	bne	a0, s8, .LBB74_26
	sext.w	a0, a1
	beq	a0, s5, .LBB74_27
	addiw	s1, s1, -1
	mv	s2, a1
	bnez	s1, .LBB74_9
	j	.LBB74_20
.LBB74_12:
	bgeu	a0, a2, .LBB74_21
	ld	s3, 24(s4)
	lui	a1, 1
	addi	a1, a1, -1304
	mul	a0, a0, a1
	add	s3, s3, a0
	lw	s5, 32(s3)
	addiw	a0, s5, -4
	sext.w	a1, s2
	bltu	a0, a1, .LBB74_21
	ld	a0, 48(s3)
	srliw	a1, s2, 6
	slli	a1, a1, 3
	add	a0, a0, a1
	ld	a0, 0(a0)
	srl	a0, a0, s2
	andi	a0, a0, 1
	beqz	a0, .LBB74_21
	sext.w	a0, s1
	beqz	a0, .LBB74_29
	mv	s7, a5
	mv	s6, a4
	addi	s3, s3, 24
	li	s8, 1
.LBB74_17:
	mv	a0, s3
	mv	a1, s2
	call	tlsf_heap.check.examine
	zext.b	a0, a0
	bne	a0, s8, .LBB74_26
	sext.w	a0, a1
	beq	a0, s5, .LBB74_27
	addiw	s1, s1, -1
	mv	s2, a1
	bnez	s1, .LBB74_17
.LBB74_20:
	li	a0, 0
	mv	s2, a1
	j	.LBB74_28
.LBB74_21:
	li	a0, 1
	sb	a0, 1(s4)
	li	a0, 4
.LBB74_22:
	sext.w	a0, a0
	.cfi_def_cfa sp, 80
	ld	ra, 72(sp)
	ld	s0, 64(sp)
	ld	s1, 56(sp)
	ld	s2, 48(sp)
	ld	s3, 40(sp)
	ld	s4, 32(sp)
	ld	s5, 24(sp)
	ld	s6, 16(sp)
	ld	s7, 8(sp)
	ld	s8, 0(sp)
	.cfi_restore ra
	.cfi_restore s0
	.cfi_restore s1
	.cfi_restore s2
	.cfi_restore s3
	.cfi_restore s4
	.cfi_restore s5
	.cfi_restore s6
	.cfi_restore s7
	.cfi_restore s8
	addi	sp, sp, 80
	.cfi_def_cfa_offset 0
	ret
.LBB74_23:
	.cfi_restore_state
	li	a0, 0
	j	.LBB74_25
.LBB74_24:
	li	a0, 2
.LBB74_25:
	call	tlsf_c.call_fault.CallFault.refusal
	j	.LBB74_22
.LBB74_26:
	li	a0, 36
	mv	a4, s7
	j	.LBB74_29
.LBB74_27:
	li	s2, 0
	li	a0, 0
.LBB74_28:
	mv	a4, s6
.LBB74_29:
	li	a1, 1
	sb	a1, 1(s4)
	sw	s2, 0(a4)
	j	.LBB74_22
.Lfunc_end74:
	.size	tlsf_pools_check, .Lfunc_end74-tlsf_pools_check
	.cfi_endproc
	.globl	tlsf_pools_close
	.p2align	1
	.type	tlsf_pools_close,@function
tlsf_pools_close:
	.cfi_startproc
	mv	a1, a0
	lbu	a2, 8(a0)
	li	a0, 32
	beqz	a2, .LBB75_4
	ld	a2, 0(a1)
	lbu	a3, 1(a2)
	beqz	a3, .LBB75_4
	lbu	a0, 0(a2)
	li	a2, 1
	bne	a0, a2, .LBB75_5
	addi	sp, sp, -16
	.cfi_def_cfa_offset 16
	sd	ra, 8(sp)
	sd	s0, 0(sp)
	.cfi_offset ra, -8
	.cfi_offset s0, -16
	addi	s0, sp, 16
	.cfi_def_cfa s0, 0
	mv	a0, a1
	call	tlsf_c.arena_slot.ArenaSlot.close
	li	a0, 0
	.cfi_def_cfa sp, 16
	ld	ra, 8(sp)
	ld	s0, 0(sp)
	.cfi_restore ra
	.cfi_restore s0
	addi	sp, sp, 16
	.cfi_def_cfa_offset 0
.LBB75_4:
	ret
.LBB75_5:
	li	a0, 40
	ret
.Lfunc_end75:
	.size	tlsf_pools_close, .Lfunc_end75-tlsf_pools_close
	.cfi_endproc
	.globl	tlsf_pools_counts
	.p2align	1
	.type	tlsf_pools_counts,@function
tlsf_pools_counts:
	.cfi_startproc
	addi	sp, sp, -16
	.cfi_def_cfa_offset 16
	sd	ra, 8(sp)
	sd	s0, 0(sp)
	.cfi_offset ra, -8
	.cfi_offset s0, -16
	addi	s0, sp, 16
	.cfi_def_cfa s0, 0
	.cfi_remember_state
	lbu	a4, 8(a0)
	beqz	a4, .LBB76_15
	ld	a7, 0(a0)
	lbu	a0, 1(a7)
	beqz	a0, .LBB76_15
	lbu	a0, 0(a7)
	li	a4, 1
	bne	a0, a4, .LBB76_16
	lbu	a4, 8(a7)
	ld	t0, 24(a7)
	ld	a0, 32(a7)
	sb	zero, 1(a7)
	slli	a1, a1, 32
	srli	a1, a1, 32
	beqz	a4, .LBB76_7
	beqz	a0, .LBB76_10
.LBB76_5:
	addi	a4, t0, 2047
	ld	a5, 697(a4)
	bltu	a1, a5, .LBB76_11
	sub	a1, a1, a5
	addi	a0, a0, -1
	addi	t0, a4, 745
	bnez	a0, .LBB76_5
	j	.LBB76_10
.LBB76_7:
	beqz	a0, .LBB76_10
.LBB76_8:
	addi	a4, t0, 2047
	ld	a5, 697(a4)
	bltu	a1, a5, .LBB76_11
	sub	a1, a1, a5
	addi	a0, a0, -1
	addi	t0, a4, 745
	bnez	a0, .LBB76_8
.LBB76_10:
	li	a0, 1
	sb	a0, 1(a7)
	li	a0, 4
	sext.w	a0, a0
	.cfi_def_cfa sp, 16
	ld	ra, 8(sp)
	ld	s0, 0(sp)
	.cfi_restore ra
	.cfi_restore s0
	addi	sp, sp, 16
	.cfi_def_cfa_offset 0
	ret
.LBB76_11:
	.cfi_restore_state
	.cfi_remember_state
	ld	a0, 729(a4)
	bgeu	a1, a0, .LBB76_13
	addi	a0, t0, 2047
	ld	a0, 721(a0)
	slli	a4, a1, 2
	add	a0, a0, a4
	lw	a6, 0(a0)
	j	.LBB76_14
.LBB76_13:
	li	a6, 0
.LBB76_14:
	addi	a4, t0, 2047
	ld	a4, 689(a4)
	slli	a1, a1, 3
	add	a1, a1, a4
	lw	a1, 0(a1)
	li	a4, 1
	sb	a4, 1(a7)
	sw	a6, 0(a2)
	sw	a1, 0(a3)
	li	a0, 0
	.cfi_def_cfa sp, 16
	ld	ra, 8(sp)
	ld	s0, 0(sp)
	.cfi_restore ra
	.cfi_restore s0
	addi	sp, sp, 16
	.cfi_def_cfa_offset 0
	ret
.LBB76_15:
	.cfi_restore_state
	.cfi_remember_state
	li	a0, 0
	call	tlsf_c.call_fault.CallFault.refusal
	sext.w	a0, a0
	.cfi_def_cfa sp, 16
	ld	ra, 8(sp)
	ld	s0, 0(sp)
	.cfi_restore ra
	.cfi_restore s0
	addi	sp, sp, 16
	.cfi_def_cfa_offset 0
	ret
.LBB76_16:
	.cfi_restore_state
	li	a0, 2
	call	tlsf_c.call_fault.CallFault.refusal
	sext.w	a0, a0
	.cfi_def_cfa sp, 16
	ld	ra, 8(sp)
	ld	s0, 0(sp)
	.cfi_restore ra
	.cfi_restore s0
	addi	sp, sp, 16
	.cfi_def_cfa_offset 0
	ret
.Lfunc_end76:
	.size	tlsf_pools_counts, .Lfunc_end76-tlsf_pools_counts
	.cfi_endproc
	.section	.rodata.cst8,"aM",@progbits,8
	.p2align	3, 0x0
.LCPI77_0:
	.quad	3303500013200134
	.text
	.globl	tlsf_pools_open
	.p2align	1
	.type	tlsf_pools_open,@function
tlsf_pools_open:
	.cfi_startproc
	addi	sp, sp, -1360
	.cfi_def_cfa_offset 1360
	sd	ra, 1352(sp)
	sd	s0, 1344(sp)
	sd	s1, 1336(sp)
	sd	s2, 1328(sp)
	sd	s3, 1320(sp)
	sd	s4, 1312(sp)
	sd	s5, 1304(sp)
	sd	s6, 1296(sp)
	sd	s7, 1288(sp)
	sd	s8, 1280(sp)
	sd	s9, 1272(sp)
	sd	s10, 1264(sp)
	sd	s11, 1256(sp)
	.cfi_offset ra, -8
	.cfi_offset s0, -16
	.cfi_offset s1, -24
	.cfi_offset s2, -32
	.cfi_offset s3, -40
	.cfi_offset s4, -48
	.cfi_offset s5, -56
	.cfi_offset s6, -64
	.cfi_offset s7, -72
	.cfi_offset s8, -80
	.cfi_offset s9, -88
	.cfi_offset s10, -96
	.cfi_offset s11, -104
	addi	s0, sp, 1360
	.cfi_def_cfa s0, 0
	.cfi_remember_state
	mv	s5, a4
	lbu	a4, 8(a0)
	sd	zero, -1000(s0)
	sd	zero, -992(s0)
	sw	zero, -984(s0)
	beqz	a4, .LBB77_2
	li	a0, 33
	j	.LBB77_162
.LBB77_2:
	addiw	a4, a1, -6
	li	a5, -2
	bgeu	a4, a5, .LBB77_4
	li	a0, 34
	j	.LBB77_162
.LBB77_4:
	mv	a4, a0
	sext.w	a5, a2
	li	s1, -8
	li	a0, 5
	bgeu	s1, a5, .LBB77_5
	j	.LBB77_162
.LBB77_5:
	li	a5, 64
	bgeu	a5, s5, .LBB77_6
	j	.LBB77_162
.LBB77_6:
	mv	s2, a3
	sd	a2, -1016(s0)
	sd	a4, -1024(s0)
	sd	zero, -464(s0)
	sd	zero, -456(s0)
	sw	zero, -448(s0)
	addi	a0, s0, -976
	li	a2, 512
	mv	s1, a1
	li	a1, 0
	call	tlsf_memory_set
	mv	a6, s1
	beqz	s5, .LBB77_11
	seqz	a2, s2
	addi	a1, s0, -972
	slli	a3, s5, 3
	slli	a2, a2, 12
	add	s2, s2, a2
	li	a4, -1
	add	a7, a1, a3
	addi	a3, s2, 8
	srli	t0, a4, 32
	j	.LBB77_9
.LBB77_8:
	lbu	a0, -7(a3)
	lbu	a2, -8(a3)
	lbu	a4, -6(a3)
	lb	s1, -5(a3)
	slli	a0, a0, 8
	or	a0, a0, a2
	slli	a4, a4, 16
	slli	s1, s1, 24
	or	a4, a4, s1
	or	a0, a0, a4
	sw	a0, -4(a1)
	sw	a5, 0(a1)
	addi	a1, a1, 8
	addi	a3, a3, 16
	beq	a1, a7, .LBB77_11
.LBB77_9:
	lbu	a5, 1(a3)
	lbu	s1, 2(a3)
	lbu	a0, 3(a3)
	lbu	a2, 0(a3)
	slli	a5, a5, 8
	slli	s1, s1, 16
	slli	a0, a0, 24
	or	t1, a5, a2
	or	a0, a0, s1
	lbu	a5, 5(a3)
	lbu	s1, 4(a3)
	lbu	a4, 6(a3)
	lbu	a2, 7(a3)
	slli	a5, a5, 8
	or	a5, a5, s1
	slli	a4, a4, 16
	slli	a2, a2, 24
	or	a2, a2, a4
	or	a0, a0, t1
	or	a2, a2, a5
	slli	a2, a2, 32
	or	a5, a2, a0
	bltu	a5, t0, .LBB77_8
	mv	a5, t0
	j	.LBB77_8
.LBB77_11:
	sd	zero, -408(s0)
	sd	zero, -400(s0)
	sd	zero, -392(s0)
	sw	zero, -384(s0)
	sext.w	s1, a6
	li	a0, 4
	sd	zero, -440(s0)
	sd	zero, -432(s0)
	sd	zero, -424(s0)
	sw	zero, -416(s0)
	bne	s1, a0, .LBB77_17
	addi	a0, s0, -312
	li	a2, 88
	li	a1, 0
	call	tlsf_memory_set
	sd	zero, -344(s0)
	sd	zero, -336(s0)
	sd	zero, -328(s0)
	sw	zero, -320(s0)
	sh	zero, -316(s0)
	sd	zero, -376(s0)
	sd	zero, -368(s0)
	sd	zero, -360(s0)
	sw	zero, -352(s0)
	addi	a0, s0, -312
	addi	a1, s0, -976
	mv	a2, s5
	call	tlsf_pool.sizes.split.rising_split.4
	lbu	a1, -312(s0)
	li	a2, 1
	li	a0, 0
	beq	a1, a2, .LBB77_13
	j	.LBB77_161
.LBB77_13:
	sd	s1, -1096(s0)
	addi	a1, s0, -304
	addi	a0, s0, -224
	li	a2, 80
	call	tlsf_memory_cpy
	ld	s8, -224(s0)
	sd	zero, -144(s0)
	sd	zero, -136(s0)
	sd	zero, -128(s0)
	bnez	s8, .LBB77_14
	j	.LBB77_120
.LBB77_14:
.Lpcrel_hi31:
	auipc	a0, %pcrel_hi(.LCPI77_0)
	ld	a0, %pcrel_lo(.Lpcrel_hi31)(a0)
	bgeu	a0, s8, .LBB77_15
	j	.LBB77_160
.LBB77_15:
	lui	s2, 1
	addi	a0, s2, -1304
	sd	a0, -1104(s0)
	mul	a0, s8, a0
	li	a1, 8
	call	tlsf_memory_alloc
	andi	a0, a0, 1
	bnez	a0, .LBB77_16
	j	.LBB77_160
.LBB77_16:
	li	s11, 0
	li	s10, 0
	li	a5, -1
	sd	a1, -1112(s0)
	sd	a1, -144(s0)
	sd	zero, -136(s0)
	sd	s8, -128(s0)
	addi	s3, s0, -976
	lui	a0, 349525
	lui	a1, 209715
	lui	a2, 61681
	lui	a3, 4112
	addi	a4, s2, -1552
	sd	a4, -1224(s0)
	lui	s9, 2048
	slli	a4, a5, 32
	srli	a5, a5, 32
	sd	a5, -1248(s0)
	addi	a0, a0, 1365
	sd	a0, -1048(s0)
	addi	a0, a1, 819
	sd	a0, -1056(s0)
	addi	a0, a2, -241
	sd	a0, -1064(s0)
	addi	a0, a3, 257
	sd	a0, -1072(s0)
	addi	s6, a4, 3
	addi	s9, s9, -23
	sd	s8, -1232(s0)
	sd	s6, -1120(s0)
	sd	s9, -1240(s0)
	j	.LBB77_23
.LBB77_17:
	addi	a0, s0, -312
	li	a2, 88
	li	a1, 0
	call	tlsf_memory_set
	sd	zero, -344(s0)
	sd	zero, -336(s0)
	sd	zero, -328(s0)
	sw	zero, -320(s0)
	sh	zero, -316(s0)
	sd	zero, -376(s0)
	sd	zero, -368(s0)
	sd	zero, -360(s0)
	sw	zero, -352(s0)
	addi	a0, s0, -312
	addi	a1, s0, -976
	mv	a2, s5
	call	tlsf_pool.sizes.split.rising_split.5
	lbu	a1, -312(s0)
	li	a2, 1
	li	a0, 0
	beq	a1, a2, .LBB77_18
	j	.LBB77_161
.LBB77_18:
	sd	s1, -1096(s0)
	addi	a1, s0, -304
	addi	a0, s0, -224
	li	a2, 80
	call	tlsf_memory_cpy
	ld	s4, -224(s0)
	sd	zero, -144(s0)
	sd	zero, -136(s0)
	sd	zero, -128(s0)
	bnez	s4, .LBB77_19
	j	.LBB77_122
.LBB77_19:
.Lpcrel_hi32:
	auipc	a0, %pcrel_hi(.LCPI77_0)
	ld	a0, %pcrel_lo(.Lpcrel_hi32)(a0)
	bgeu	a0, s4, .LBB77_20
	j	.LBB77_160
.LBB77_20:
	lui	s2, 1
	addi	a0, s2, -1304
	sd	a0, -1112(s0)
	mul	a0, s4, a0
	li	a1, 8
	call	tlsf_memory_alloc
	andi	a0, a0, 1
	bnez	a0, .LBB77_21
	j	.LBB77_160
.LBB77_21:
	mv	s7, a1
	li	s8, 0
	li	s11, 0
	li	a5, -1
	sd	a1, -144(s0)
	sd	zero, -136(s0)
	sd	s4, -128(s0)
	addi	s3, s0, -976
	lui	a0, 349525
	lui	a1, 209715
	lui	a2, 61681
	lui	a3, 4112
	addi	a4, s2, -1552
	sd	a4, -1216(s0)
	lui	s10, 32768
	slli	a4, a5, 32
	srli	a5, a5, 32
	sd	a5, -1240(s0)
	addi	a0, a0, 1365
	sd	a0, -1048(s0)
	addi	a0, a1, 819
	sd	a0, -1056(s0)
	addi	a0, a2, -241
	sd	a0, -1064(s0)
	addi	a0, a3, 257
	sd	a0, -1072(s0)
	addi	a4, a4, 3
	sd	a4, -1120(s0)
	addi	s10, s10, -23
	sd	s4, -1224(s0)
	sd	s10, -1232(s0)
	j	.LBB77_72
.LBB77_22:
	ld	s3, -1088(s0)
	ld	a0, -1136(s0)
	add	s3, s3, a0
	addi	s10, s10, 1
	ld	s5, -1040(s0)
	ld	a0, -1032(s0)
	sub	s5, s5, a0
	ld	s11, -1128(s0)
	ld	s8, -1232(s0)
	ld	s6, -1120(s0)
	bne	s10, s8, .LBB77_23
	j	.LBB77_121
.LBB77_23:
	ld	a0, -224(s0)
	not	a1, s10
	add	a0, a0, a1
	slli	a0, a0, 3
	addi	a1, s0, -216
	add	a0, a0, a1
	ld	a0, 0(a0)
	mv	s2, s5
	bltu	s5, a0, .LBB77_25
	mv	s2, a0
.LBB77_25:
	beqz	s2, .LBB77_37
	addi	a1, s3, 4
	mv	a0, a1
	mv	a2, s2
.LBB77_27:
	lw	a3, 0(a0)
	bltu	a3, s9, .LBB77_28
	j	.LBB77_163
.LBB77_28:
	addi	a2, a2, -1
	addi	a0, a0, 8
	bnez	a2, .LBB77_27
	li	a0, 0
	mv	a2, s3
	mv	a3, s2
.LBB77_30:
	lwu	a4, 0(a2)
	addi	a3, a3, -1
	add	a0, a0, a4
	addi	a2, a2, 8
	bnez	a3, .LBB77_30
	li	a2, 0
	mv	a3, s2
	j	.LBB77_34
.LBB77_32:
	mv	a2, a4
.LBB77_33:
	addi	a3, a3, -1
	addi	a1, a1, 8
	beqz	a3, .LBB77_38
.LBB77_34:
	lw	a4, -4(a1)
	beqz	a4, .LBB77_33
	lw	a4, 0(a1)
	bltu	a2, a4, .LBB77_32
	mv	a4, a2
	j	.LBB77_32
.LBB77_37:
	li	a0, 0
	li	a2, 0
.LBB77_38:
	slli	a1, a2, 32
	seqz	a2, a2
	srli	a1, a1, 32
	add	a1, a1, a2
	addi	a1, a1, 31
	srli	a1, a1, 3
	ori	a2, a1, 16
	addi	a1, a1, -1
	srli	a3, a2, 1
	or	a2, a2, a3
	slli	a3, a2, 33
	srli	a3, a3, 35
	or	a2, a2, a3
	srliw	a3, a2, 4
	or	a2, a2, a3
	srliw	a3, a2, 8
	or	a2, a2, a3
	srliw	a3, a2, 16
	or	a2, a2, a3
	not	a2, a2
	srli	a3, a2, 1
	ld	a4, -1048(s0)
	and	a3, a3, a4
	sub	a2, a2, a3
	ld	a4, -1056(s0)
	and	a3, a2, a4
	srli	a2, a2, 2
	and	a2, a2, a4
	add	a2, a2, a3
	srli	a3, a2, 4
	add	a2, a2, a3
	ld	a3, -1064(s0)
	and	a2, a2, a3
	ld	a3, -1072(s0)
	mul	a2, a2, a3
	srliw	a2, a2, 24
	li	a3, 27
	sub	a2, a3, a2
	srlw	a1, a1, a2
	addi	a1, a1, 1
	slli	a2, a2, 4
	add	a2, a2, a1
	srliw	a3, a2, 4
	beqz	a3, .LBB77_40
	li	a2, 8
	sllw	a2, a2, a3
	andi	a1, a1, 15
	addi	a3, a3, -1
	sllw	a1, a1, a3
	add	a2, a2, a1
.LBB77_40:
	slli	a2, a2, 32
	srli	a2, a2, 32
	mul	s1, a0, a2
	li	a0, 4
	mv	s7, s1
	bltu	a0, s1, .LBB77_42
	li	s7, 4
.LBB77_42:
	lui	a0, 256
	bgeu	a0, s1, .LBB77_43
	j	.LBB77_163
.LBB77_43:
	slli	a0, s7, 3
	li	a1, 8
	call	tlsf_memory_alloc
	andi	a0, a0, 1
	bnez	a0, .LBB77_44
	j	.LBB77_133
.LBB77_44:
	mv	s4, a1
	sd	s1, -1144(s0)
	sd	s3, -1088(s0)
	sd	zero, 0(a1)
	sd	zero, 8(a1)
	sd	zero, 16(a1)
	sd	zero, 24(a1)
	sd	s7, -1080(s0)
	addi	a0, s7, 63
	srli	s3, a0, 6
	slli	a0, s3, 3
	li	a1, 8
	call	tlsf_memory_alloc
	andi	a0, a0, 1
	bnez	a0, .LBB77_45
	j	.LBB77_131
.LBB77_45:
	sd	s2, -1032(s0)
	sd	zero, 0(a1)
	addi	a0, s6, 16
	sd	a0, 0(s4)
	sd	zero, 8(s4)
	ld	a0, 0(a1)
	ld	a2, -128(s0)
	ori	a0, a0, 1
	sd	a0, 0(a1)
	li	a0, -1
	sd	a0, 16(s4)
	mv	a3, s11
	beq	a2, s11, .LBB77_69
.LBB77_46:
	sd	a3, -1128(s0)
	sd	s11, -1008(s0)
	sd	s5, -1040(s0)
	ld	a0, -1016(s0)
	sd	s10, -1152(s0)
	add	t3, a0, s10
	ld	a0, -1104(s0)
	mul	s1, a3, a0
	srli	a0, s4, 56
	sd	a0, -1136(s0)
	srli	t0, s4, 48
	srli	t2, s4, 40
	srli	t5, s4, 32
	srli	a7, s4, 24
	srli	t1, s4, 16
	srli	t4, s4, 8
	ld	a3, -1080(s0)
	srli	t6, a3, 56
	srli	a6, a3, 48
	srli	a4, a3, 40
	srli	s10, a3, 32
	srli	s2, a3, 24
	srli	a5, a3, 16
	srli	s7, a3, 8
	srli	s8, a1, 56
	srli	a2, a1, 48
	srli	s5, a1, 40
	srli	s9, a1, 32
	srli	ra, a1, 24
	srli	s11, a1, 16
	ld	a0, -1112(s0)
	add	s1, s1, a0
	srli	a0, t3, 16
	srli	s6, t3, 8
	sb	t3, 0(s1)
	sb	s6, 1(s1)
	srli	s6, a1, 8
	srli	t3, t3, 24
	sb	a0, 2(s1)
	sb	t3, 3(s1)
	srli	t3, s3, 56
	sb	t5, 28(s1)
	sb	t2, 29(s1)
	sb	t0, 30(s1)
	ld	a0, -1136(s0)
	sb	a0, 31(s1)
	srli	t0, s3, 48
	sb	s4, 24(s1)
	sb	t4, 25(s1)
	sb	t1, 26(s1)
	sb	a7, 27(s1)
	srli	a7, s3, 40
	sb	s10, 44(s1)
	sb	a4, 45(s1)
	sb	a6, 46(s1)
	sb	t6, 47(s1)
	srli	a0, s3, 32
	sb	a3, 40(s1)
	sb	s7, 41(s1)
	sb	a5, 42(s1)
	sb	s2, 43(s1)
	srli	a4, s3, 24
	sb	s9, 52(s1)
	sb	s5, 53(s1)
	sb	a2, 54(s1)
	sb	s8, 55(s1)
	srli	a2, s3, 16
	sb	a1, 48(s1)
	sb	s6, 49(s1)
	sb	s11, 50(s1)
	sb	ra, 51(s1)
	srli	a1, s3, 8
	sb	zero, 4(s1)
	sb	zero, 5(s1)
	sb	zero, 6(s1)
	sb	zero, 7(s1)
	sb	zero, 12(s1)
	sb	zero, 13(s1)
	sb	zero, 14(s1)
	sb	zero, 15(s1)
	li	a5, 1
	sb	a5, 8(s1)
	sb	zero, 9(s1)
	sb	zero, 10(s1)
	sb	zero, 11(s1)
	sb	zero, 20(s1)
	sb	zero, 21(s1)
	sb	zero, 22(s1)
	sb	zero, 23(s1)
	sb	zero, 16(s1)
	sb	zero, 17(s1)
	sb	zero, 18(s1)
	sb	zero, 19(s1)
	sb	zero, 36(s1)
	sb	zero, 37(s1)
	sb	zero, 38(s1)
	sb	zero, 39(s1)
	li	s10, 4
	sb	s10, 32(s1)
	sb	zero, 33(s1)
	sb	zero, 34(s1)
	sb	zero, 35(s1)
	sb	zero, 60(s1)
	sb	zero, 61(s1)
	sb	zero, 62(s1)
	sb	zero, 63(s1)
	sb	a5, 56(s1)
	sb	zero, 57(s1)
	sb	zero, 58(s1)
	sb	zero, 59(s1)
	sb	a0, 68(s1)
	sb	a7, 69(s1)
	sb	t0, 70(s1)
	sb	t3, 71(s1)
	sb	s3, 64(s1)
	sb	a1, 65(s1)
	sb	a2, 66(s1)
	sb	a4, 67(s1)
	sb	zero, 76(s1)
	sb	zero, 77(s1)
	sb	zero, 78(s1)
	sb	zero, 79(s1)
	sb	s10, 72(s1)
	sb	zero, 73(s1)
	sb	zero, 74(s1)
	sb	zero, 75(s1)
	sb	a5, 80(s1)
	sb	zero, 81(s1)
	sb	zero, 82(s1)
	sb	zero, 83(s1)
	li	a0, 16
	sb	a0, 84(s1)
	sb	zero, 85(s1)
	sb	zero, 86(s1)
	sb	zero, 87(s1)
	addi	a0, s1, 88
	li	a2, 80
	li	a1, 0
	call	tlsf_memory_set
	addi	a0, s1, 168
	li	a1, 255
	li	a2, 16
	call	tlsf_memory_set
	sb	zero, 184(s1)
	sb	zero, 185(s1)
	sb	zero, 186(s1)
	sb	zero, 187(s1)
	addi	a0, s1, 188
	li	a1, 255
	ld	a2, -1224(s0)
	call	tlsf_memory_set
	addi	s1, s1, 2047
	addi	s8, s0, -120
	sb	zero, 685(s1)
	sb	zero, 686(s1)
	sb	zero, 687(s1)
	sb	zero, 688(s1)
	srli	s2, s8, 56
	srli	s3, s8, 48
	srli	s4, s8, 40
	srli	s5, s8, 32
	srli	s6, s8, 24
	srli	s7, s8, 16
	srli	s9, s8, 8
	sb	s5, 693(s1)
	sb	s4, 694(s1)
	sb	s3, 695(s1)
	sb	s2, 696(s1)
	sb	s8, 689(s1)
	sb	s9, 690(s1)
	sb	s7, 691(s1)
	sb	s6, 692(s1)
	addi	a0, s1, 697
	li	a2, 16
	li	a1, 0
	call	tlsf_memory_set
	sb	zero, 717(s1)
	sb	zero, 718(s1)
	sb	zero, 719(s1)
	sb	zero, 720(s1)
	sb	s10, 713(s1)
	sb	zero, 714(s1)
	sb	zero, 715(s1)
	sb	zero, 716(s1)
	sb	s5, 725(s1)
	sb	s4, 726(s1)
	sb	s3, 727(s1)
	sb	s2, 728(s1)
	sb	s8, 721(s1)
	sb	s9, 722(s1)
	sb	s7, 723(s1)
	sb	s6, 724(s1)
	addi	a0, s1, 729
	ld	s11, -1128(s0)
	addi	s11, s11, 1
	li	a2, 16
	li	a1, 0
	call	tlsf_memory_set
	sd	s11, -136(s0)
	ld	s3, -1032(s0)
	slli	s4, s3, 3
	sd	s11, -1128(s0)
	sd	s4, -1136(s0)
	beqz	s3, .LBB77_59
	srli	a0, s3, 60
	beqz	a0, .LBB77_48
	j	.LBB77_133
.LBB77_48:
	li	a1, 4
	mv	a0, s4
	call	tlsf_memory_alloc
	andi	a0, a0, 1
	bnez	a0, .LBB77_49
	j	.LBB77_133
.LBB77_49:
	mv	s8, a1
	mv	a0, a1
	ld	s2, -1088(s0)
	mv	a1, s2
	mv	a2, s4
	call	tlsf_memory_cpy
	slli	s1, s3, 2
	li	a1, 4
	mv	a0, s1
	call	tlsf_memory_alloc
	andi	a0, a0, 1
	bnez	a0, .LBB77_50
	j	.LBB77_132
.LBB77_50:
	mv	s7, a1
	addi	s4, s3, -1
	beqz	s4, .LBB77_52
	addi	a2, s1, -4
	mv	a0, s7
	li	a1, 0
	call	tlsf_memory_set
.LBB77_52:
	li	s5, -1
	ld	a4, -1112(s0)
	ld	s6, -1120(s0)
	ld	a5, -1008(s0)
	ld	a6, -1080(s0)
	li	a0, 0
	slli	a1, s4, 2
	add	a1, a1, s7
	sw	zero, 0(a1)
	addi	a1, s2, 4
	mv	a2, s3
	j	.LBB77_55
.LBB77_53:
	mv	a0, a3
.LBB77_54:
	addi	a2, a2, -1
	addi	a1, a1, 8
	beqz	a2, .LBB77_58
.LBB77_55:
	lw	a3, -4(a1)
	beqz	a3, .LBB77_54
	lw	a3, 0(a1)
	bltu	a0, a3, .LBB77_53
	mv	a3, a0
	j	.LBB77_53
.LBB77_58:
	addi	s4, s4, 1
	j	.LBB77_60
.LBB77_59:
	li	s4, 0
	li	a0, 0
	addi	s7, s0, -120
	li	s5, -1
	ld	a4, -1112(s0)
	ld	s6, -1120(s0)
	ld	a5, -1008(s0)
	ld	a6, -1080(s0)
.LBB77_60:
	slli	a1, a0, 32
	seqz	a0, a0
	srli	a1, a1, 32
	add	a0, a0, a1
	addi	a0, a0, 31
	srli	a0, a0, 3
	ori	a1, a0, 16
	addi	a0, a0, -1
	srli	a2, a1, 1
	or	a1, a1, a2
	slli	a2, a1, 33
	srli	a2, a2, 35
	or	a1, a1, a2
	srliw	a2, a1, 4
	or	a1, a1, a2
	srliw	a2, a1, 8
	or	a1, a1, a2
	srliw	a2, a1, 16
	or	a1, a1, a2
	not	a1, a1
	srli	a2, a1, 1
	ld	a3, -1048(s0)
	and	a2, a2, a3
	sub	a1, a1, a2
	ld	a3, -1056(s0)
	and	a2, a1, a3
	srli	a1, a1, 2
	and	a1, a1, a3
	add	a1, a1, a2
	srli	a2, a1, 4
	add	a1, a1, a2
	ld	a2, -1064(s0)
	and	a1, a1, a2
	ld	a2, -1072(s0)
	mul	a1, a1, a2
	srliw	a1, a1, 24
	li	a2, 27
	sub	a1, a2, a1
	srlw	a0, a0, a1
	addi	a0, a0, 1
	slli	a1, a1, 4
	add	s3, a0, a1
	srliw	a1, s3, 4
	beqz	a1, .LBB77_62
	li	a2, 8
	sllw	s3, a2, a1
	andi	a0, a0, 15
	addi	a1, a1, -1
	sllw	a0, a0, a1
	add	s3, s3, a0
.LBB77_62:
	lui	a0, 256
	addi	a0, a0, 1
	ld	a1, -1104(s0)
	mul	s1, a5, a1
	add	s1, s1, a4
	ld	s2, 8(s1)
	ld	a1, -1144(s0)
	sltu	a0, a1, a0
	neg	a0, a0
	and	a1, a0, a6
	addi	s2, s2, -1
	addi	a0, s1, 24
	call	tlsf_words.words.Words.lengthen
	addi	a0, s1, 80
	sw	s5, 184(s1)
	li	a2, 88
	li	a1, 0
	call	tlsf_memory_set
	ld	a0, 32(s1)
	ld	a1, 24(s1)
	ori	a2, a0, 16
	srliw	a3, a2, 1
	or	a2, a2, a3
	slli	a3, a0, 2
	or	a3, a3, s6
	sd	a3, 0(a1)
	sd	s2, 8(a1)
	srliw	a1, a2, 2
	ld	a3, 48(s1)
	or	a1, a1, a2
	srliw	a2, a1, 4
	or	a1, a1, a2
	srliw	a2, a1, 8
	ld	a4, 0(a3)
	or	a1, a1, a2
	srliw	a2, a1, 16
	or	a1, a1, a2
	not	a1, a1
	ori	a4, a4, 1
	srli	a2, a1, 1
	ld	a5, -1048(s0)
	and	a2, a2, a5
	sub	a1, a1, a2
	ld	a5, -1056(s0)
	and	a2, a1, a5
	srli	a1, a1, 2
	and	a1, a1, a5
	add	a1, a1, a2
	srli	a2, a1, 4
	add	a1, a1, a2
	ld	a2, -1064(s0)
	and	a1, a1, a2
	ld	a2, -1072(s0)
	mul	a1, a1, a2
	srliw	a1, a1, 24
	li	a2, 27
	sub	a1, a2, a1
	srlw	a0, a0, a1
	slli	a1, a1, 4
	add	a1, a1, a0
	slli	a2, a1, 32
	sd	a4, 0(a3)
	srli	a1, a2, 30
	add	a4, s1, a1
	lw	a3, 168(a4)
	ld	a1, 24(s1)
	sw	zero, 168(a4)
	bltz	a3, .LBB77_64
	add	a0, s6, a3
	slli	a3, a3, 3
	addi	a0, a0, -3
	sd	a0, 16(a1)
	add	a1, a1, a3
	ld	a0, 16(a1)
	ld	a2, -1248(s0)
	and	a0, a0, a2
	sd	a0, 16(a1)
	j	.LBB77_65
.LBB77_64:
	srli	a2, a2, 32
	sd	s5, 16(a1)
	andi	a0, a0, 15
	srli	a2, a2, 4
	slli	a1, a2, 2
	add	a1, a1, s1
	lw	a3, 80(s1)
	lw	a4, 84(a1)
	li	a5, 1
	sllw	a0, a5, a0
	sllw	a2, a5, a2
	or	a2, a2, a3
	or	a0, a0, a4
	sw	a2, 80(s1)
	sw	a0, 84(a1)
.LBB77_65:
	addi	a0, s1, 2047
	srli	s2, s8, 48
	srli	t6, s8, 56
	srli	s11, s8, 32
	srli	s9, s8, 40
	srli	s10, s8, 16
	srli	s5, s8, 24
	srli	s6, s8, 8
	ld	a7, -1032(s0)
	srli	s1, a7, 40
	srli	a4, a7, 32
	srli	a3, s3, 24
	srli	a1, s3, 16
	srli	a2, s3, 8
	srli	t0, s7, 48
	srli	ra, s7, 56
	srli	a6, s7, 32
	lbu	a5, 689(a0)
	sd	a5, -1200(s0)
	lbu	t5, 690(a0)
	lbu	t4, 691(a0)
	lbu	t2, 692(a0)
	sb	s8, 689(a0)
	lbu	a5, 693(a0)
	sd	a5, -1208(s0)
	lbu	t3, 694(a0)
	lbu	a5, 695(a0)
	sd	a5, -1216(s0)
	lbu	t1, 696(a0)
	sb	s11, 693(a0)
	srli	s8, s7, 40
	sb	s9, 694(a0)
	srli	s9, s7, 16
	sb	s2, 695(a0)
	srli	s2, s7, 24
	sb	t6, 696(a0)
	srli	t6, s7, 8
	sb	s6, 690(a0)
	sb	s10, 691(a0)
	sb	s5, 692(a0)
	sb	s3, 713(a0)
	lbu	a5, 721(a0)
	sd	a5, -1008(s0)
	lbu	a5, 722(a0)
	sd	a5, -1168(s0)
	lbu	a5, 723(a0)
	sd	a5, -1144(s0)
	lbu	a5, 724(a0)
	sd	a5, -1160(s0)
	sb	a2, 714(a0)
	sb	a1, 715(a0)
	sb	a3, 716(a0)
	sb	s7, 721(a0)
	lbu	a1, 725(a0)
	sd	a1, -1080(s0)
	lbu	a1, 726(a0)
	sd	a1, -1192(s0)
	lbu	a1, 727(a0)
	sd	a1, -1176(s0)
	lbu	a1, 728(a0)
	sd	a1, -1184(s0)
	sb	a6, 725(a0)
	srli	a6, s4, 56
	sb	s8, 726(a0)
	srli	s3, s4, 48
	sb	t0, 727(a0)
	srli	a3, s4, 40
	sb	ra, 728(a0)
	srli	a5, s4, 32
	sb	t6, 722(a0)
	srli	t6, s4, 24
	sb	s9, 723(a0)
	srli	a1, s4, 16
	sb	s2, 724(a0)
	srli	a2, s4, 8
	sb	a5, 733(a0)
	sb	a3, 734(a0)
	sb	s3, 735(a0)
	sb	a6, 736(a0)
	lbu	a6, 709(a0)
	lbu	a3, 710(a0)
	lbu	s6, 711(a0)
	lbu	s3, 712(a0)
	sb	s4, 729(a0)
	sb	a2, 730(a0)
	sb	a1, 731(a0)
	sb	t6, 732(a0)
	lbu	s4, 741(a0)
	lbu	s11, 742(a0)
	lbu	s8, 743(a0)
	lbu	s10, 744(a0)
	sb	a4, 701(a0)
	sb	a4, 709(a0)
	sb	a4, 741(a0)
	srli	a1, a7, 48
	sb	s1, 702(a0)
	sb	s1, 710(a0)
	sb	s1, 742(a0)
	srli	a2, a7, 56
	sb	a1, 703(a0)
	sb	a1, 711(a0)
	sb	a1, 743(a0)
	srli	a1, a7, 16
	sb	a2, 704(a0)
	sb	a2, 712(a0)
	sb	a2, 744(a0)
	srli	a2, a7, 8
	sb	a2, 698(a0)
	lbu	a4, 706(a0)
	lbu	s1, 707(a0)
	lbu	a5, 708(a0)
	sb	a2, 706(a0)
	lbu	s7, 738(a0)
	lbu	s5, 739(a0)
	lbu	s2, 740(a0)
	sb	a2, 738(a0)
	srli	a2, a7, 24
	sb	a1, 707(a0)
	sb	a1, 739(a0)
	sb	a1, 699(a0)
	sb	a2, 700(a0)
	lbu	a1, 705(a0)
	sb	a2, 708(a0)
	sb	a2, 740(a0)
	slli	a4, a4, 8
	or	a1, a1, a4
	slli	s1, s1, 16
	slli	a5, a5, 24
	or	a5, a5, s1
	slli	a3, a3, 8
	or	a2, a3, a6
	slli	s6, s6, 16
	slli	s3, s3, 24
	or	a3, s3, s6
	or	a1, a1, a5
	or	a2, a2, a3
	slli	a2, a2, 32
	or	a1, a1, a2
	lbu	s3, 737(a0)
	sb	a7, 697(a0)
	sb	a7, 705(a0)
	sb	a7, 737(a0)
	sb	zero, 717(a0)
	sb	zero, 718(a0)
	sb	zero, 719(a0)
	sb	zero, 720(a0)
	beqz	a1, .LBB77_67
	slli	t5, t5, 8
	slli	t4, t4, 16
	slli	t2, t2, 24
	slli	t3, t3, 8
	ld	t0, -1216(s0)
	slli	t0, t0, 16
	slli	t1, t1, 24
	ld	a0, -1200(s0)
	or	a0, t5, a0
	or	a1, t2, t4
	ld	a2, -1208(s0)
	or	a2, t3, a2
	or	a3, t1, t0
	or	a0, a0, a1
	or	a2, a2, a3
	slli	a2, a2, 32
	or	a0, a0, a2
	call	tlsf_memory_dealloc
.LBB77_67:
	slli	s7, s7, 8
	slli	s5, s5, 16
	slli	s2, s2, 24
	slli	s11, s11, 8
	slli	s8, s8, 16
	slli	s10, s10, 24
	or	a0, s7, s3
	or	a1, s2, s5
	or	a2, s11, s4
	or	a3, s10, s8
	or	a0, a0, a1
	or	a2, a2, a3
	slli	a2, a2, 32
	or	a0, a0, a2
	ld	s10, -1152(s0)
	ld	s9, -1240(s0)
	beqz	a0, .LBB77_22
	ld	s1, -1168(s0)
	slli	s1, s1, 8
	ld	a1, -1144(s0)
	slli	a1, a1, 16
	ld	a2, -1160(s0)
	slli	a2, a2, 24
	ld	a3, -1192(s0)
	slli	a3, a3, 8
	ld	a4, -1176(s0)
	slli	a4, a4, 16
	ld	a5, -1184(s0)
	slli	a5, a5, 24
	ld	a0, -1008(s0)
	or	a0, a0, s1
	or	a1, a1, a2
	ld	a2, -1080(s0)
	or	a2, a2, a3
	or	a4, a4, a5
	or	a0, a0, a1
	or	a2, a2, a4
	slli	a2, a2, 32
	or	a0, a0, a2
	call	tlsf_memory_dealloc
	j	.LBB77_22
.LBB77_69:
	mv	s1, a1
	addi	a0, s0, -144
	call	std_alloc.vec.Vec.grow_amortized.8f83c87fc5454f35
	bnez	a0, .LBB77_70
	j	.LBB77_156
.LBB77_70:
	ld	a0, -144(s0)
	sd	a0, -1112(s0)
	ld	a3, -136(s0)
	mv	a1, s1
	j	.LBB77_46
.LBB77_71:
	ld	s3, -1104(s0)
	ld	a0, -1136(s0)
	add	s3, s3, a0
	ld	s11, -1152(s0)
	addi	s11, s11, 1
	ld	s5, -1040(s0)
	ld	a0, -1032(s0)
	sub	s5, s5, a0
	ld	s8, -1128(s0)
	ld	s4, -1224(s0)
	ld	s7, -1088(s0)
	beq	s11, s4, .LBB77_123
.LBB77_72:
	ld	a0, -224(s0)
	not	a1, s11
	add	a0, a0, a1
	slli	a0, a0, 3
	addi	a1, s0, -216
	add	a0, a0, a1
	ld	a0, 0(a0)
	mv	s6, s5
	bltu	s5, a0, .LBB77_74
	mv	s6, a0
.LBB77_74:
	beqz	s6, .LBB77_86
	addi	a1, s3, 4
	mv	a0, a1
	mv	a2, s6
.LBB77_76:
	lw	a3, 0(a0)
	bltu	a3, s10, .LBB77_77
	j	.LBB77_163
.LBB77_77:
	addi	a2, a2, -1
	addi	a0, a0, 8
	bnez	a2, .LBB77_76
	li	a0, 0
	mv	a2, s3
	mv	a3, s6
.LBB77_79:
	lwu	a4, 0(a2)
	addi	a3, a3, -1
	add	a0, a0, a4
	addi	a2, a2, 8
	bnez	a3, .LBB77_79
	li	a2, 0
	mv	a3, s6
	j	.LBB77_83
.LBB77_81:
	mv	a2, a4
.LBB77_82:
	addi	a3, a3, -1
	addi	a1, a1, 8
	beqz	a3, .LBB77_87
.LBB77_83:
	lw	a4, -4(a1)
	beqz	a4, .LBB77_82
	lw	a4, 0(a1)
	bltu	a2, a4, .LBB77_81
	mv	a4, a2
	j	.LBB77_81
.LBB77_86:
	li	a0, 0
	li	a2, 0
.LBB77_87:
	slli	a1, a2, 32
	seqz	a2, a2
	srli	a1, a1, 32
	add	a1, a1, a2
	addi	a1, a1, 31
	srli	a1, a1, 3
	ori	a2, a1, 32
	addi	a1, a1, -1
	srli	a3, a2, 1
	or	a2, a2, a3
	slli	a3, a2, 33
	srli	a3, a3, 35
	or	a2, a2, a3
	srliw	a3, a2, 4
	or	a2, a2, a3
	srliw	a3, a2, 8
	or	a2, a2, a3
	srliw	a3, a2, 16
	or	a2, a2, a3
	not	a2, a2
	srli	a3, a2, 1
	ld	a4, -1048(s0)
	and	a3, a3, a4
	sub	a2, a2, a3
	ld	a4, -1056(s0)
	and	a3, a2, a4
	srli	a2, a2, 2
	and	a2, a2, a4
	add	a2, a2, a3
	srli	a3, a2, 4
	add	a2, a2, a3
	ld	a3, -1064(s0)
	and	a2, a2, a3
	ld	a3, -1072(s0)
	mul	a2, a2, a3
	srliw	a2, a2, 24
	li	a3, 26
	sub	a2, a3, a2
	srlw	a1, a1, a2
	addi	a1, a1, 1
	slli	a2, a2, 5
	add	a2, a2, a1
	srliw	a3, a2, 5
	beqz	a3, .LBB77_89
	li	a2, 16
	sllw	a2, a2, a3
	andi	a1, a1, 31
	addi	a3, a3, -1
	sllw	a1, a1, a3
	add	a2, a2, a1
.LBB77_89:
	slli	a2, a2, 32
	srli	a2, a2, 32
	mul	s1, a0, a2
	li	a0, 4
	mv	s9, s1
	bltu	a0, s1, .LBB77_91
	li	s9, 4
.LBB77_91:
	lui	a0, 4096
	bgeu	a0, s1, .LBB77_92
	j	.LBB77_163
.LBB77_92:
	slli	a0, s9, 3
	li	a1, 8
	call	tlsf_memory_alloc
	andi	a0, a0, 1
	beqz	a0, .LBB77_145
	mv	s4, a1
	sd	s1, -1144(s0)
	sd	s6, -1032(s0)
	sd	s3, -1104(s0)
	sd	zero, 0(a1)
	sd	zero, 8(a1)
	sd	zero, 16(a1)
	sd	zero, 24(a1)
	sd	s9, -1080(s0)
	addi	a0, s9, 63
	srli	s3, a0, 6
	slli	a0, s3, 3
	li	a1, 8
	call	tlsf_memory_alloc
	andi	a0, a0, 1
	beqz	a0, .LBB77_130
	sd	zero, 0(a1)
	ld	a0, -1120(s0)
	addi	a0, a0, 16
	sd	a0, 0(s4)
	sd	zero, 8(s4)
	ld	a0, 0(a1)
	ld	a2, -128(s0)
	ori	a0, a0, 1
	sd	a0, 0(a1)
	li	a0, -1
	sd	a0, 16(s4)
	mv	a3, s8
	sd	s8, -1008(s0)
	mv	s1, s7
	beq	a2, s8, .LBB77_118
.LBB77_95:
	sd	a3, -1128(s0)
	sd	s5, -1040(s0)
	ld	a0, -1016(s0)
	sd	s11, -1152(s0)
	add	t3, a0, s11
	ld	a0, -1112(s0)
	mul	a0, a3, a0
	srli	a2, s4, 56
	sd	a2, -1136(s0)
	srli	t0, s4, 48
	srli	t2, s4, 40
	srli	t5, s4, 32
	srli	a7, s4, 24
	srli	t1, s4, 16
	srli	t4, s4, 8
	ld	a3, -1080(s0)
	srli	t6, a3, 56
	srli	s6, a3, 48
	srli	a5, a3, 40
	srli	a4, a3, 32
	srli	s2, a3, 24
	srli	a6, a3, 16
	srli	s5, a3, 8
	srli	s8, a1, 56
	srli	a2, a1, 48
	srli	s7, a1, 40
	srli	s11, a1, 32
	srli	ra, a1, 24
	srli	s10, a1, 16
	sd	s1, -1088(s0)
	add	s1, s1, a0
	srli	a0, t3, 16
	srli	s9, t3, 8
	sb	t3, 0(s1)
	sb	s9, 1(s1)
	srli	s9, a1, 8
	srli	t3, t3, 24
	sb	a0, 2(s1)
	sb	t3, 3(s1)
	srli	t3, s3, 56
	sb	t5, 28(s1)
	sb	t2, 29(s1)
	sb	t0, 30(s1)
	ld	a0, -1136(s0)
	sb	a0, 31(s1)
	srli	t0, s3, 48
	sb	s4, 24(s1)
	sb	t4, 25(s1)
	sb	t1, 26(s1)
	sb	a7, 27(s1)
	srli	a7, s3, 40
	sb	a4, 44(s1)
	sb	a5, 45(s1)
	sb	s6, 46(s1)
	sb	t6, 47(s1)
	srli	a0, s3, 32
	sb	a3, 40(s1)
	sb	s5, 41(s1)
	sb	a6, 42(s1)
	sb	s2, 43(s1)
	srli	a4, s3, 24
	sb	s11, 52(s1)
	sb	s7, 53(s1)
	sb	a2, 54(s1)
	sb	s8, 55(s1)
	srli	a2, s3, 16
	sb	a1, 48(s1)
	sb	s9, 49(s1)
	sb	s10, 50(s1)
	sb	ra, 51(s1)
	srli	a1, s3, 8
	sb	zero, 4(s1)
	sb	zero, 5(s1)
	sb	zero, 6(s1)
	sb	zero, 7(s1)
	sb	zero, 12(s1)
	sb	zero, 13(s1)
	sb	zero, 14(s1)
	sb	zero, 15(s1)
	li	a5, 1
	sb	a5, 8(s1)
	sb	zero, 9(s1)
	sb	zero, 10(s1)
	sb	zero, 11(s1)
	sb	zero, 20(s1)
	sb	zero, 21(s1)
	sb	zero, 22(s1)
	sb	zero, 23(s1)
	sb	zero, 16(s1)
	sb	zero, 17(s1)
	sb	zero, 18(s1)
	sb	zero, 19(s1)
	sb	zero, 36(s1)
	sb	zero, 37(s1)
	sb	zero, 38(s1)
	sb	zero, 39(s1)
	li	s10, 4
	sb	s10, 32(s1)
	sb	zero, 33(s1)
	sb	zero, 34(s1)
	sb	zero, 35(s1)
	sb	zero, 60(s1)
	sb	zero, 61(s1)
	sb	zero, 62(s1)
	sb	zero, 63(s1)
	sb	a5, 56(s1)
	sb	zero, 57(s1)
	sb	zero, 58(s1)
	sb	zero, 59(s1)
	sb	a0, 68(s1)
	sb	a7, 69(s1)
	sb	t0, 70(s1)
	sb	t3, 71(s1)
	sb	s3, 64(s1)
	sb	a1, 65(s1)
	sb	a2, 66(s1)
	sb	a4, 67(s1)
	sb	zero, 76(s1)
	sb	zero, 77(s1)
	sb	zero, 78(s1)
	sb	zero, 79(s1)
	sb	s10, 72(s1)
	sb	zero, 73(s1)
	sb	zero, 74(s1)
	sb	zero, 75(s1)
	sb	a5, 80(s1)
	sb	zero, 81(s1)
	sb	zero, 82(s1)
	sb	zero, 83(s1)
	li	a0, 16
	sb	a0, 84(s1)
	sb	zero, 85(s1)
	sb	zero, 86(s1)
	sb	zero, 87(s1)
	addi	a0, s1, 88
	li	a2, 80
	li	a1, 0
	call	tlsf_memory_set
	addi	a0, s1, 168
	li	a1, 255
	li	a2, 16
	call	tlsf_memory_set
	sb	zero, 184(s1)
	sb	zero, 185(s1)
	sb	zero, 186(s1)
	sb	zero, 187(s1)
	addi	a0, s1, 188
	li	a1, 255
	ld	a2, -1216(s0)
	call	tlsf_memory_set
	addi	s1, s1, 2047
	addi	s8, s0, -120
	sb	zero, 685(s1)
	sb	zero, 686(s1)
	sb	zero, 687(s1)
	sb	zero, 688(s1)
	srli	s2, s8, 56
	srli	s3, s8, 48
	srli	s4, s8, 40
	srli	s5, s8, 32
	srli	s6, s8, 24
	srli	s7, s8, 16
	srli	s9, s8, 8
	sb	s5, 693(s1)
	sb	s4, 694(s1)
	sb	s3, 695(s1)
	sb	s2, 696(s1)
	sb	s8, 689(s1)
	sb	s9, 690(s1)
	sb	s7, 691(s1)
	sb	s6, 692(s1)
	addi	a0, s1, 697
	li	a2, 16
	li	a1, 0
	call	tlsf_memory_set
	sb	zero, 717(s1)
	sb	zero, 718(s1)
	sb	zero, 719(s1)
	sb	zero, 720(s1)
	sb	s10, 713(s1)
	sb	zero, 714(s1)
	sb	zero, 715(s1)
	sb	zero, 716(s1)
	sb	s5, 725(s1)
	sb	s4, 726(s1)
	sb	s3, 727(s1)
	sb	s2, 728(s1)
	sb	s8, 721(s1)
	sb	s9, 722(s1)
	sb	s7, 723(s1)
	sb	s6, 724(s1)
	addi	a0, s1, 729
	ld	s4, -1128(s0)
	addi	s4, s4, 1
	li	a2, 16
	li	a1, 0
	call	tlsf_memory_set
	sd	s4, -136(s0)
	ld	s3, -1032(s0)
	slli	s5, s3, 3
	sd	s4, -1128(s0)
	sd	s5, -1136(s0)
	beqz	s3, .LBB77_108
	srli	a0, s3, 60
	ld	s6, -1120(s0)
	bnez	a0, .LBB77_129
	li	a1, 4
	mv	a0, s5
	call	tlsf_memory_alloc
	andi	a0, a0, 1
	beqz	a0, .LBB77_129
	mv	s8, a1
	mv	a0, a1
	ld	s2, -1104(s0)
	mv	a1, s2
	mv	a2, s5
	call	tlsf_memory_cpy
	slli	s1, s3, 2
	li	a1, 4
	mv	a0, s1
	call	tlsf_memory_alloc
	andi	a0, a0, 1
	beqz	a0, .LBB77_144
	mv	s7, a1
	addi	s4, s3, -1
	beqz	s4, .LBB77_101
	addi	a2, s1, -4
	mv	a0, s7
	li	a1, 0
	call	tlsf_memory_set
.LBB77_101:
	li	s5, -1
	ld	a4, -1088(s0)
	ld	a5, -1080(s0)
	li	a0, 0
	slli	a1, s4, 2
	add	a1, a1, s7
	sw	zero, 0(a1)
	addi	a1, s2, 4
	mv	a2, s3
	j	.LBB77_104
.LBB77_102:
	mv	a0, a3
.LBB77_103:
	addi	a2, a2, -1
	addi	a1, a1, 8
	beqz	a2, .LBB77_107
.LBB77_104:
	lw	a3, -4(a1)
	beqz	a3, .LBB77_103
	lw	a3, 0(a1)
	bltu	a0, a3, .LBB77_102
	mv	a3, a0
	j	.LBB77_102
.LBB77_107:
	addi	s4, s4, 1
	j	.LBB77_109
.LBB77_108:
	li	s4, 0
	li	a0, 0
	addi	s7, s0, -120
	li	s5, -1
	ld	a4, -1088(s0)
	ld	s6, -1120(s0)
	ld	a5, -1080(s0)
.LBB77_109:
	slli	a1, a0, 32
	seqz	a0, a0
	srli	a1, a1, 32
	add	a0, a0, a1
	addi	a0, a0, 31
	srli	a0, a0, 3
	ori	a1, a0, 32
	addi	a0, a0, -1
	srli	a2, a1, 1
	or	a1, a1, a2
	slli	a2, a1, 33
	srli	a2, a2, 35
	or	a1, a1, a2
	srliw	a2, a1, 4
	or	a1, a1, a2
	srliw	a2, a1, 8
	or	a1, a1, a2
	srliw	a2, a1, 16
	or	a1, a1, a2
	not	a1, a1
	srli	a2, a1, 1
	ld	a3, -1048(s0)
	and	a2, a2, a3
	sub	a1, a1, a2
	ld	a3, -1056(s0)
	and	a2, a1, a3
	srli	a1, a1, 2
	and	a1, a1, a3
	add	a1, a1, a2
	srli	a2, a1, 4
	add	a1, a1, a2
	ld	a2, -1064(s0)
	and	a1, a1, a2
	ld	a2, -1072(s0)
	mul	a1, a1, a2
	srliw	a1, a1, 24
	li	a2, 26
	sub	a1, a2, a1
	srlw	a0, a0, a1
	addi	a0, a0, 1
	slli	a1, a1, 5
	add	s3, a0, a1
	srliw	a1, s3, 5
	beqz	a1, .LBB77_111
	li	a2, 16
	sllw	s3, a2, a1
	andi	a0, a0, 31
	addi	a1, a1, -1
	sllw	a0, a0, a1
	add	s3, s3, a0
.LBB77_111:
	lui	a0, 4096
	addi	a0, a0, 1
	ld	a1, -1112(s0)
	ld	a2, -1008(s0)
	mul	s1, a2, a1
	add	s1, s1, a4
	ld	s2, 8(s1)
	ld	a1, -1144(s0)
	sltu	a0, a1, a0
	neg	a0, a0
	and	a1, a0, a5
	addi	s2, s2, -1
	addi	a0, s1, 24
	call	tlsf_words.words.Words.lengthen
	addi	a0, s1, 80
	sw	s5, 184(s1)
	li	a2, 88
	li	a1, 0
	call	tlsf_memory_set
	ld	a0, 32(s1)
	ld	a1, 24(s1)
	ori	a2, a0, 32
	srliw	a3, a2, 1
	or	a2, a2, a3
	slli	a3, a0, 2
	or	a3, a3, s6
	sd	a3, 0(a1)
	sd	s2, 8(a1)
	srliw	a1, a2, 2
	ld	a3, 48(s1)
	or	a1, a1, a2
	srliw	a2, a1, 4
	or	a1, a1, a2
	srliw	a2, a1, 8
	ld	a4, 0(a3)
	or	a1, a1, a2
	srliw	a2, a1, 16
	or	a1, a1, a2
	not	a1, a1
	ori	a4, a4, 1
	srli	a2, a1, 1
	ld	a5, -1048(s0)
	and	a2, a2, a5
	sub	a1, a1, a2
	ld	a5, -1056(s0)
	and	a2, a1, a5
	srli	a1, a1, 2
	and	a1, a1, a5
	add	a1, a1, a2
	srli	a2, a1, 4
	add	a1, a1, a2
	ld	a2, -1064(s0)
	and	a1, a1, a2
	ld	a2, -1072(s0)
	mul	a1, a1, a2
	srliw	a1, a1, 24
	li	a2, 26
	sub	a1, a2, a1
	srlw	a0, a0, a1
	slli	a1, a1, 5
	add	a1, a1, a0
	slli	a2, a1, 32
	sd	a4, 0(a3)
	srli	a1, a2, 30
	add	a4, s1, a1
	lw	a3, 168(a4)
	ld	a1, 24(s1)
	sw	zero, 168(a4)
	bltz	a3, .LBB77_113
	add	a0, s6, a3
	slli	a3, a3, 3
	addi	a0, a0, -3
	sd	a0, 16(a1)
	add	a1, a1, a3
	ld	a0, 16(a1)
	ld	a2, -1240(s0)
	and	a0, a0, a2
	sd	a0, 16(a1)
	j	.LBB77_114
.LBB77_113:
	srli	a2, a2, 32
	sd	s5, 16(a1)
	srli	a2, a2, 5
	slli	a1, a2, 2
	add	a1, a1, s1
	lw	a3, 80(s1)
	lw	a4, 84(a1)
	li	a5, 1
	sllw	a0, a5, a0
	sllw	a2, a5, a2
	or	a2, a2, a3
	or	a0, a0, a4
	sw	a2, 80(s1)
	sw	a0, 84(a1)
.LBB77_114:
	addi	a0, s1, 2047
	srli	s2, s8, 48
	srli	t6, s8, 56
	srli	s11, s8, 32
	srli	s10, s8, 40
	srli	s5, s8, 16
	srli	s6, s8, 24
	srli	s9, s8, 8
	ld	a7, -1032(s0)
	srli	s1, a7, 40
	srli	a4, a7, 32
	srli	a3, s3, 24
	srli	a1, s3, 16
	srli	a2, s3, 8
	srli	t0, s7, 48
	srli	ra, s7, 56
	srli	a6, s7, 32
	lbu	a5, 689(a0)
	sd	a5, -1192(s0)
	lbu	t5, 690(a0)
	lbu	t4, 691(a0)
	lbu	t2, 692(a0)
	sb	s8, 689(a0)
	lbu	a5, 693(a0)
	sd	a5, -1200(s0)
	lbu	t3, 694(a0)
	lbu	a5, 695(a0)
	sd	a5, -1208(s0)
	lbu	t1, 696(a0)
	sb	s11, 693(a0)
	srli	s8, s7, 40
	sb	s10, 694(a0)
	srli	s10, s7, 16
	sb	s2, 695(a0)
	srli	s2, s7, 24
	sb	t6, 696(a0)
	srli	t6, s7, 8
	sb	s9, 690(a0)
	sb	s5, 691(a0)
	sb	s6, 692(a0)
	sb	s3, 713(a0)
	lbu	s11, 721(a0)
	lbu	a5, 722(a0)
	sd	a5, -1160(s0)
	lbu	a5, 723(a0)
	sd	a5, -1080(s0)
	lbu	a5, 724(a0)
	sd	a5, -1144(s0)
	sb	a2, 714(a0)
	sb	a1, 715(a0)
	sb	a3, 716(a0)
	sb	s7, 721(a0)
	lbu	a1, 725(a0)
	sd	a1, -1008(s0)
	lbu	a1, 726(a0)
	sd	a1, -1184(s0)
	lbu	a1, 727(a0)
	sd	a1, -1168(s0)
	lbu	a1, 728(a0)
	sd	a1, -1176(s0)
	sb	a6, 725(a0)
	srli	a6, s4, 56
	sb	s8, 726(a0)
	srli	s3, s4, 48
	sb	t0, 727(a0)
	srli	a3, s4, 40
	sb	ra, 728(a0)
	srli	a5, s4, 32
	sb	t6, 722(a0)
	srli	t6, s4, 24
	sb	s10, 723(a0)
	srli	a1, s4, 16
	sb	s2, 724(a0)
	srli	a2, s4, 8
	sb	a5, 733(a0)
	sb	a3, 734(a0)
	sb	s3, 735(a0)
	sb	a6, 736(a0)
	lbu	a6, 709(a0)
	lbu	a3, 710(a0)
	lbu	s10, 711(a0)
	lbu	s3, 712(a0)
	sb	s4, 729(a0)
	sb	a2, 730(a0)
	sb	a1, 731(a0)
	sb	t6, 732(a0)
	lbu	s4, 741(a0)
	lbu	s9, 742(a0)
	lbu	s5, 743(a0)
	lbu	s8, 744(a0)
	sb	a4, 701(a0)
	sb	a4, 709(a0)
	sb	a4, 741(a0)
	srli	a1, a7, 48
	sb	s1, 702(a0)
	sb	s1, 710(a0)
	sb	s1, 742(a0)
	srli	a2, a7, 56
	sb	a1, 703(a0)
	sb	a1, 711(a0)
	sb	a1, 743(a0)
	srli	a1, a7, 16
	sb	a2, 704(a0)
	sb	a2, 712(a0)
	sb	a2, 744(a0)
	srli	a2, a7, 8
	sb	a2, 698(a0)
	lbu	a4, 706(a0)
	lbu	s1, 707(a0)
	lbu	a5, 708(a0)
	sb	a2, 706(a0)
	lbu	s7, 738(a0)
	lbu	s6, 739(a0)
	lbu	s2, 740(a0)
	sb	a2, 738(a0)
	srli	a2, a7, 24
	sb	a1, 707(a0)
	sb	a1, 739(a0)
	sb	a1, 699(a0)
	sb	a2, 700(a0)
	lbu	a1, 705(a0)
	sb	a2, 708(a0)
	sb	a2, 740(a0)
	slli	a4, a4, 8
	or	a1, a1, a4
	slli	s1, s1, 16
	slli	a5, a5, 24
	or	a5, a5, s1
	slli	a3, a3, 8
	or	a2, a3, a6
	slli	s10, s10, 16
	slli	s3, s3, 24
	or	a3, s3, s10
	or	a1, a1, a5
	or	a2, a2, a3
	slli	a2, a2, 32
	or	a1, a1, a2
	lbu	s3, 737(a0)
	sb	a7, 697(a0)
	sb	a7, 705(a0)
	sb	a7, 737(a0)
	sb	zero, 717(a0)
	sb	zero, 718(a0)
	sb	zero, 719(a0)
	sb	zero, 720(a0)
	beqz	a1, .LBB77_116
	slli	t5, t5, 8
	slli	t4, t4, 16
	slli	t2, t2, 24
	slli	t3, t3, 8
	ld	t0, -1208(s0)
	slli	t0, t0, 16
	slli	t1, t1, 24
	ld	a0, -1192(s0)
	or	a0, t5, a0
	or	a1, t2, t4
	ld	a2, -1200(s0)
	or	a2, t3, a2
	or	a3, t1, t0
	or	a0, a0, a1
	or	a2, a2, a3
	slli	a2, a2, 32
	or	a0, a0, a2
	call	tlsf_memory_dealloc
.LBB77_116:
	slli	s7, s7, 8
	slli	s6, s6, 16
	slli	s2, s2, 24
	slli	s9, s9, 8
	slli	s5, s5, 16
	slli	s8, s8, 24
	or	a0, s7, s3
	or	a1, s2, s6
	or	a2, s9, s4
	or	a3, s8, s5
	or	a0, a0, a1
	or	a2, a2, a3
	slli	a2, a2, 32
	or	a0, a0, a2
	ld	s10, -1232(s0)
	beqz	a0, .LBB77_71
	ld	a0, -1160(s0)
	slli	a0, a0, 8
	ld	a1, -1080(s0)
	slli	a1, a1, 16
	ld	a2, -1144(s0)
	slli	a2, a2, 24
	ld	a3, -1184(s0)
	slli	a3, a3, 8
	ld	a4, -1168(s0)
	slli	a4, a4, 16
	ld	a5, -1176(s0)
	slli	a5, a5, 24
	or	a0, a0, s11
	or	a1, a1, a2
	ld	a2, -1008(s0)
	or	a2, a2, a3
	or	a4, a4, a5
	or	a0, a0, a1
	or	a2, a2, a4
	slli	a2, a2, 32
	or	a0, a0, a2
	call	tlsf_memory_dealloc
	j	.LBB77_71
.LBB77_118:
	mv	s8, a1
	addi	a0, s0, -144
	call	std_alloc.vec.Vec.grow_amortized.cb831ce0f1fbfa3d
	beqz	a0, .LBB77_157
	ld	s1, -144(s0)
	ld	a3, -136(s0)
	mv	a1, s8
	j	.LBB77_95
.LBB77_120:
	addi	a0, s0, -120
	sd	a0, -144(s0)
.LBB77_121:
	addi	s1, s0, -338
	addi	a1, s0, -144
	li	a2, 24
	mv	a0, s1
	call	tlsf_memory_cpy
	addi	a0, s0, -372
	li	a2, 24
	mv	a1, s1
	call	tlsf_memory_cpy
	li	s2, 0
	ld	a0, -376(s0)
	ld	a1, -368(s0)
	ld	a2, -360(s0)
	lw	a3, -352(s0)
	sd	a0, -408(s0)
	sd	a1, -400(s0)
	sd	a2, -392(s0)
	sw	a3, -384(s0)
	addi	a0, s0, -408
	j	.LBB77_124
.LBB77_122:
	addi	a0, s0, -120
	sd	a0, -144(s0)
.LBB77_123:
	addi	s1, s0, -338
	addi	a1, s0, -144
	li	a2, 24
	mv	a0, s1
	call	tlsf_memory_cpy
	addi	a0, s0, -372
	li	a2, 24
	mv	a1, s1
	call	tlsf_memory_cpy
	ld	a0, -376(s0)
	ld	a1, -368(s0)
	ld	a2, -360(s0)
	lw	a3, -352(s0)
	li	s2, 1
	sd	a0, -440(s0)
	sd	a1, -432(s0)
	sd	a2, -424(s0)
	sw	a3, -416(s0)
	addi	a0, s0, -440
.LBB77_124:
	lw	a1, 12(a0)
	lwu	a2, 8(a0)
	lwu	a3, 0(a0)
	lw	a4, 4(a0)
	slli	a1, a1, 32
	or	a1, a1, a2
	lw	a2, 16(a0)
	lwu	a5, 20(a0)
	lw	a0, 24(a0)
	slli	a4, a4, 32
	or	a3, a3, a4
	sw	a2, -448(s0)
	slli	a0, a0, 32
	or	s5, a0, a5
	sd	a3, -1000(s0)
	sd	a1, -992(s0)
	sw	a2, -984(s0)
	lui	s4, 1
	addi	a0, s4, -1336
	li	a1, 8
	call	tlsf_memory_alloc
	andi	a0, a0, 1
	ld	a2, -1096(s0)
	beqz	a0, .LBB77_126
	li	s3, 1
	sb	zero, 10(a1)
	sb	zero, 11(a1)
	sb	zero, 12(a1)
	sb	zero, 13(a1)
	ld	a0, -1016(s0)
	srli	a2, a0, 24
	srli	a3, a0, 16
	sb	a3, 18(a1)
	sb	a2, 19(a1)
	srli	a2, a0, 8
	sb	s3, 0(a1)
	sb	s3, 1(a1)
	sb	s2, 8(a1)
	sb	zero, 9(a1)
	sb	zero, 14(a1)
	sb	zero, 15(a1)
	sb	a0, 16(a1)
	sb	a2, 17(a1)
	addi	a0, a1, 20
	mv	s1, a1
	addi	a1, s0, -1000
	li	a2, 20
	call	tlsf_memory_cpy
	srli	a0, s5, 56
	srli	a1, s5, 48
	srli	a2, s5, 40
	srli	a3, s5, 32
	srli	a4, s5, 24
	srli	a5, s5, 16
	sb	a3, 44(s1)
	sb	a2, 45(s1)
	sb	a1, 46(s1)
	sb	a0, 47(s1)
	srli	a0, s5, 8
	sb	s5, 40(s1)
	sb	a0, 41(s1)
	sb	a5, 42(s1)
	sb	a4, 43(s1)
	addi	a0, s1, 48
	addi	a2, s4, -1384
	li	a1, 0
	call	tlsf_memory_set
	li	a0, 0
	srli	a1, s1, 56
	srli	a2, s1, 48
	srli	a3, s1, 40
	srli	a4, s1, 32
	srli	a6, s1, 24
	srli	a7, s1, 16
	ld	a5, -1024(s0)
	sb	a4, 4(a5)
	sb	a3, 5(a5)
	sb	a2, 6(a5)
	sb	a1, 7(a5)
	srli	a1, s1, 8
	sb	s3, 8(a5)
	sb	zero, 9(a5)
	sb	zero, 10(a5)
	sb	zero, 11(a5)
	sb	s1, 0(a5)
	sb	a1, 1(a5)
	sb	a7, 2(a5)
	sb	a6, 3(a5)
	sb	zero, 12(a5)
	sb	zero, 13(a5)
	sb	zero, 14(a5)
	sb	zero, 15(a5)
	j	.LBB77_162
.LBB77_126:
	li	a1, 4
	addi	a0, s0, -996
	bne	a2, a1, .LBB77_128
	lw	a1, 12(a0)
	lwu	a2, 8(a0)
	lw	a3, 4(a0)
	lwu	a0, 0(a0)
	slli	a1, a1, 32
	or	a1, a1, a2
	slli	a3, a3, 32
	or	a0, a0, a3
	sd	a0, -976(s0)
	sd	a1, -968(s0)
	sd	s5, -960(s0)
	addi	a0, s0, -976
	call	std_alloc.vec.Vec.drop.01e19ae241269710
	li	a0, 6
	j	.LBB77_162
.LBB77_128:
	lw	a1, 12(a0)
	lwu	a2, 8(a0)
	lw	a3, 4(a0)
	lwu	a0, 0(a0)
	slli	a1, a1, 32
	or	a1, a1, a2
	slli	a3, a3, 32
	or	a0, a0, a3
	sd	a0, -312(s0)
	sd	a1, -304(s0)
	sd	s5, -296(s0)
	addi	a0, s0, -312
	call	std_alloc.vec.Vec.drop.1d6c342d5cae5f6b
	li	a0, 6
	j	.LBB77_162
.LBB77_129:
	mv	s8, s4
	ld	a0, -144(s0)
	sd	a0, -1344(s0)
	ld	a0, -128(s0)
	sd	a0, -1352(s0)
	bnez	s4, .LBB77_146
	j	.LBB77_158
.LBB77_130:
	mv	a0, s4
	call	tlsf_memory_dealloc
	ld	a0, -144(s0)
	sd	a0, -1344(s0)
	ld	a0, -128(s0)
	sd	a0, -1352(s0)
	bnez	s8, .LBB77_146
	j	.LBB77_158
.LBB77_131:
	mv	a0, s4
	call	tlsf_memory_dealloc
	ld	a0, -144(s0)
	sd	a0, -1344(s0)
	ld	a0, -128(s0)
	sd	a0, -1352(s0)
	bnez	s11, .LBB77_134
	j	.LBB77_158
.LBB77_132:
	mv	a0, s8
	call	tlsf_memory_dealloc
.LBB77_133:
	ld	a0, -144(s0)
	sd	a0, -1344(s0)
	ld	a0, -128(s0)
	sd	a0, -1352(s0)
	beqz	s11, .LBB77_158
.LBB77_134:
	ld	s7, -1344(s0)
	addi	s5, s7, 24
	addi	a0, s7, 2047
	lui	a1, 1
	addi	s1, a0, 737
	addi	a0, a1, -1304
	sd	a0, -1336(s0)
	j	.LBB77_136
.LBB77_135:
	addi	s11, s11, -1
	ld	a0, -1336(s0)
	add	s5, s5, a0
	add	s1, s1, a0
	add	s7, s7, a0
	beqz	s11, .LBB77_158
.LBB77_136:
	sd	s11, -1008(s0)
	lbu	s2, 40(s7)
	lbu	a1, 41(s7)
	lbu	a6, 42(s7)
	lbu	a3, 43(s7)
	lbu	a7, 44(s7)
	lbu	a5, 45(s7)
	lbu	a2, 46(s7)
	lbu	a4, 47(s7)
	lbu	t0, 48(s7)
	lbu	s4, 49(s7)
	lbu	t5, 50(s7)
	lbu	t6, 51(s7)
	lbu	t1, 52(s7)
	lbu	t4, 53(s7)
	lbu	t2, 54(s7)
	lbu	t3, 55(s7)
	lbu	ra, 64(s7)
	lbu	s6, 65(s7)
	lbu	s10, 66(s7)
	lbu	s11, 67(s7)
	lbu	a0, 68(s7)
	sd	a0, -1136(s0)
	lbu	s9, 69(s7)
	lbu	s3, 70(s7)
	lbu	a0, 71(s7)
	sd	a0, -1144(s0)
	slli	a1, a1, 8
	or	a0, a1, s2
	lbu	a1, -48(s1)
	sd	a1, -1216(s0)
	lbu	a1, -47(s1)
	sd	a1, -1240(s0)
	lbu	a1, -46(s1)
	sd	a1, -1224(s0)
	lbu	a1, -45(s1)
	sd	a1, -1232(s0)
	slli	a6, a6, 16
	slli	a3, a3, 24
	slli	a5, a5, 8
	slli	a2, a2, 16
	slli	a4, a4, 24
	or	a1, a3, a6
	or	a3, a5, a7
	or	a2, a2, a4
	or	a0, a0, a1
	lbu	a1, -44(s1)
	sd	a1, -1248(s0)
	lbu	a1, -43(s1)
	sd	a1, -1272(s0)
	lbu	a1, -42(s1)
	sd	a1, -1256(s0)
	lbu	a1, -41(s1)
	sd	a1, -1264(s0)
	or	a2, a2, a3
	lbu	s8, -32(s1)
	lbu	a1, -31(s1)
	sd	a1, -1128(s0)
	lbu	a1, -30(s1)
	sd	a1, -1112(s0)
	lbu	a1, -29(s1)
	sd	a1, -1120(s0)
	lbu	a1, -28(s1)
	sd	a1, -1080(s0)
	lbu	a1, -27(s1)
	sd	a1, -1104(s0)
	lbu	a1, -26(s1)
	sd	a1, -1088(s0)
	lbu	a1, -25(s1)
	sd	a1, -1096(s0)
	lbu	a1, -16(s1)
	sd	a1, -1152(s0)
	lbu	a1, -15(s1)
	sd	a1, -1208(s0)
	lbu	a1, -14(s1)
	sd	a1, -1192(s0)
	lbu	a1, -13(s1)
	sd	a1, -1200(s0)
	lbu	a1, -12(s1)
	sd	a1, -1160(s0)
	lbu	a1, -11(s1)
	sd	a1, -1184(s0)
	lbu	a1, -10(s1)
	sd	a1, -1168(s0)
	lbu	a1, -9(s1)
	sd	a1, -1176(s0)
	lbu	a1, 0(s1)
	sd	a1, -1016(s0)
	lbu	a1, 1(s1)
	sd	a1, -1072(s0)
	lbu	a1, 2(s1)
	sd	a1, -1056(s0)
	lbu	a1, 3(s1)
	sd	a1, -1064(s0)
	lbu	a1, 4(s1)
	sd	a1, -1024(s0)
	lbu	a1, 5(s1)
	sd	a1, -1048(s0)
	lbu	a1, 6(s1)
	sd	a1, -1032(s0)
	lbu	a1, 7(s1)
	sd	a1, -1040(s0)
	slli	a2, a2, 32
	or	a0, a0, a2
	beqz	a0, .LBB77_138
	lbu	a0, 1(s5)
	lbu	a1, 2(s5)
	lbu	a2, 3(s5)
	lbu	a3, 0(s5)
	slli	a0, a0, 8
	slli	a1, a1, 16
	slli	a2, a2, 24
	or	a0, a0, a3
	or	a1, a1, a2
	lbu	a2, 5(s5)
	lbu	a3, 4(s5)
	lbu	a4, 6(s5)
	lbu	a5, 7(s5)
	slli	a2, a2, 8
	or	a2, a2, a3
	slli	a4, a4, 16
	slli	a5, a5, 24
	or	a4, a4, a5
	or	a0, a0, a1
	or	a2, a2, a4
	slli	a2, a2, 32
	or	a0, a0, a2
	sd	s5, -1280(s0)
	sd	s8, -1288(s0)
	mv	s8, t0
	sd	s6, -1296(s0)
	sd	s4, -1304(s0)
	mv	s4, t1
	mv	s2, t2
	sd	s3, -1312(s0)
	mv	s3, t3
	sd	s9, -1328(s0)
	mv	s9, t4
	sd	s10, -1320(s0)
	mv	s10, t5
	mv	s6, s11
	mv	s11, t6
	mv	s5, ra
	call	tlsf_memory_dealloc
	mv	ra, s5
	mv	t6, s11
	mv	s11, s6
	mv	t5, s10
	ld	s10, -1320(s0)
	mv	t4, s9
	ld	s9, -1328(s0)
	mv	t3, s3
	ld	s3, -1312(s0)
	mv	t2, s2
	mv	t1, s4
	ld	s4, -1304(s0)
	ld	s6, -1296(s0)
	mv	t0, s8
	ld	s8, -1288(s0)
	ld	s5, -1280(s0)
.LBB77_138:
	slli	s6, s6, 8
	slli	s10, s10, 16
	slli	s11, s11, 24
	slli	s9, s9, 8
	slli	s2, s3, 16
	ld	s3, -1144(s0)
	slli	s3, s3, 24
	or	a0, s6, ra
	or	a1, s11, s10
	ld	a2, -1136(s0)
	or	a2, s9, a2
	or	a3, s3, s2
	or	a0, a0, a1
	or	a2, a2, a3
	slli	a2, a2, 32
	or	a0, a0, a2
	beqz	a0, .LBB77_140
	slli	a0, s4, 8
	slli	a1, t5, 16
	slli	a2, t6, 24
	slli	a3, t4, 8
	slli	a4, t2, 16
	slli	a5, t3, 24
	or	a0, a0, t0
	or	a1, a1, a2
	or	a2, a3, t1
	or	a4, a4, a5
	or	a0, a0, a1
	or	a2, a2, a4
	slli	a2, a2, 32
	or	a0, a0, a2
	call	tlsf_memory_dealloc
.LBB77_140:
	ld	a0, -1128(s0)
	slli	a0, a0, 8
	ld	a1, -1112(s0)
	slli	a1, a1, 16
	ld	a2, -1120(s0)
	slli	a2, a2, 24
	ld	a3, -1104(s0)
	slli	a3, a3, 8
	ld	a4, -1088(s0)
	slli	a4, a4, 16
	ld	a5, -1096(s0)
	slli	a5, a5, 24
	or	a0, a0, s8
	or	a1, a1, a2
	ld	a2, -1080(s0)
	or	a2, a2, a3
	or	a4, a4, a5
	or	a0, a0, a1
	or	a2, a2, a4
	slli	a2, a2, 32
	or	a0, a0, a2
	ld	s11, -1008(s0)
	beqz	a0, .LBB77_142
	ld	a6, -1240(s0)
	slli	a6, a6, 8
	ld	a1, -1224(s0)
	slli	a1, a1, 16
	ld	a2, -1232(s0)
	slli	a2, a2, 24
	ld	a3, -1272(s0)
	slli	a3, a3, 8
	ld	a4, -1256(s0)
	slli	a4, a4, 16
	ld	a5, -1264(s0)
	slli	a5, a5, 24
	ld	a0, -1216(s0)
	or	a0, a6, a0
	or	a1, a1, a2
	ld	a2, -1248(s0)
	or	a2, a2, a3
	or	a4, a4, a5
	or	a0, a0, a1
	or	a2, a2, a4
	slli	a2, a2, 32
	or	a0, a0, a2
	call	tlsf_memory_dealloc
.LBB77_142:
	ld	a6, -1072(s0)
	slli	a6, a6, 8
	ld	a1, -1056(s0)
	slli	a1, a1, 16
	ld	a2, -1064(s0)
	slli	a2, a2, 24
	ld	a3, -1048(s0)
	slli	a3, a3, 8
	ld	a4, -1032(s0)
	slli	a4, a4, 16
	ld	a5, -1040(s0)
	slli	a5, a5, 24
	ld	a0, -1016(s0)
	or	a0, a6, a0
	or	a1, a1, a2
	ld	a2, -1024(s0)
	or	a2, a2, a3
	or	a4, a4, a5
	or	a0, a0, a1
	or	a2, a2, a4
	slli	a2, a2, 32
	or	a0, a0, a2
	beqz	a0, .LBB77_135
	ld	a6, -1208(s0)
	slli	a6, a6, 8
	ld	a1, -1192(s0)
	slli	a1, a1, 16
	ld	a2, -1200(s0)
	slli	a2, a2, 24
	ld	a3, -1184(s0)
	slli	a3, a3, 8
	ld	a4, -1168(s0)
	slli	a4, a4, 16
	ld	a5, -1176(s0)
	slli	a5, a5, 24
	ld	a0, -1152(s0)
	or	a0, a6, a0
	or	a1, a1, a2
	ld	a2, -1160(s0)
	or	a2, a2, a3
	or	a4, a4, a5
	or	a0, a0, a1
	or	a2, a2, a4
	slli	a2, a2, 32
	or	a0, a0, a2
	call	tlsf_memory_dealloc
	j	.LBB77_135
.LBB77_144:
	mv	a0, s8
	call	tlsf_memory_dealloc
	mv	s8, s4
.LBB77_145:
	ld	a0, -144(s0)
	sd	a0, -1344(s0)
	ld	a0, -128(s0)
	sd	a0, -1352(s0)
	beqz	s8, .LBB77_158
.LBB77_146:
	ld	s7, -1344(s0)
	addi	s5, s7, 24
	addi	a0, s7, 2047
	lui	a1, 1
	addi	s1, a0, 737
	addi	a0, a1, -1304
	sd	a0, -1336(s0)
	j	.LBB77_148
.LBB77_147:
	addi	s8, s8, -1
	ld	a0, -1336(s0)
	add	s5, s5, a0
	add	s1, s1, a0
	add	s7, s7, a0
	beqz	s8, .LBB77_158
.LBB77_148:
	sd	s8, -1008(s0)
	lbu	s2, 40(s7)
	lbu	a1, 41(s7)
	lbu	a6, 42(s7)
	lbu	a3, 43(s7)
	lbu	a7, 44(s7)
	lbu	a5, 45(s7)
	lbu	a2, 46(s7)
	lbu	a4, 47(s7)
	lbu	t0, 48(s7)
	lbu	s4, 49(s7)
	lbu	t5, 50(s7)
	lbu	t6, 51(s7)
	lbu	t1, 52(s7)
	lbu	t4, 53(s7)
	lbu	t2, 54(s7)
	lbu	t3, 55(s7)
	lbu	ra, 64(s7)
	lbu	s6, 65(s7)
	lbu	s10, 66(s7)
	lbu	s11, 67(s7)
	lbu	a0, 68(s7)
	sd	a0, -1136(s0)
	lbu	s9, 69(s7)
	lbu	s3, 70(s7)
	lbu	a0, 71(s7)
	sd	a0, -1144(s0)
	slli	a1, a1, 8
	or	a0, a1, s2
	lbu	a1, -48(s1)
	sd	a1, -1216(s0)
	lbu	a1, -47(s1)
	sd	a1, -1240(s0)
	lbu	a1, -46(s1)
	sd	a1, -1224(s0)
	lbu	a1, -45(s1)
	sd	a1, -1232(s0)
	slli	a6, a6, 16
	slli	a3, a3, 24
	slli	a5, a5, 8
	slli	a2, a2, 16
	slli	a4, a4, 24
	or	a1, a3, a6
	or	a3, a5, a7
	or	a2, a2, a4
	or	a0, a0, a1
	lbu	a1, -44(s1)
	sd	a1, -1248(s0)
	lbu	a1, -43(s1)
	sd	a1, -1272(s0)
	lbu	a1, -42(s1)
	sd	a1, -1256(s0)
	lbu	a1, -41(s1)
	sd	a1, -1264(s0)
	or	a2, a2, a3
	lbu	s8, -32(s1)
	lbu	a1, -31(s1)
	sd	a1, -1128(s0)
	lbu	a1, -30(s1)
	sd	a1, -1112(s0)
	lbu	a1, -29(s1)
	sd	a1, -1120(s0)
	lbu	a1, -28(s1)
	sd	a1, -1080(s0)
	lbu	a1, -27(s1)
	sd	a1, -1104(s0)
	lbu	a1, -26(s1)
	sd	a1, -1088(s0)
	lbu	a1, -25(s1)
	sd	a1, -1096(s0)
	lbu	a1, -16(s1)
	sd	a1, -1152(s0)
	lbu	a1, -15(s1)
	sd	a1, -1208(s0)
	lbu	a1, -14(s1)
	sd	a1, -1192(s0)
	lbu	a1, -13(s1)
	sd	a1, -1200(s0)
	lbu	a1, -12(s1)
	sd	a1, -1160(s0)
	lbu	a1, -11(s1)
	sd	a1, -1184(s0)
	lbu	a1, -10(s1)
	sd	a1, -1168(s0)
	lbu	a1, -9(s1)
	sd	a1, -1176(s0)
	lbu	a1, 0(s1)
	sd	a1, -1016(s0)
	lbu	a1, 1(s1)
	sd	a1, -1072(s0)
	lbu	a1, 2(s1)
	sd	a1, -1056(s0)
	lbu	a1, 3(s1)
	sd	a1, -1064(s0)
	lbu	a1, 4(s1)
	sd	a1, -1024(s0)
	lbu	a1, 5(s1)
	sd	a1, -1048(s0)
	lbu	a1, 6(s1)
	sd	a1, -1032(s0)
	lbu	a1, 7(s1)
	sd	a1, -1040(s0)
	slli	a2, a2, 32
	or	a0, a0, a2
	beqz	a0, .LBB77_150
	lbu	a0, 1(s5)
	lbu	a1, 2(s5)
	lbu	a2, 3(s5)
	lbu	a3, 0(s5)
	slli	a0, a0, 8
	slli	a1, a1, 16
	slli	a2, a2, 24
	or	a0, a0, a3
	or	a1, a1, a2
	lbu	a2, 5(s5)
	lbu	a3, 4(s5)
	lbu	a4, 6(s5)
	lbu	a5, 7(s5)
	slli	a2, a2, 8
	or	a2, a2, a3
	slli	a4, a4, 16
	slli	a5, a5, 24
	or	a4, a4, a5
	or	a0, a0, a1
	or	a2, a2, a4
	slli	a2, a2, 32
	or	a0, a0, a2
	sd	s5, -1280(s0)
	sd	s8, -1288(s0)
	mv	s8, t0
	sd	s6, -1296(s0)
	sd	s4, -1304(s0)
	mv	s4, t1
	mv	s2, t2
	sd	s3, -1312(s0)
	mv	s3, t3
	sd	s9, -1328(s0)
	mv	s9, t4
	sd	s10, -1320(s0)
	mv	s10, t5
	mv	s6, s11
	mv	s11, t6
	mv	s5, ra
	call	tlsf_memory_dealloc
	mv	ra, s5
	mv	t6, s11
	mv	s11, s6
	mv	t5, s10
	ld	s10, -1320(s0)
	mv	t4, s9
	ld	s9, -1328(s0)
	mv	t3, s3
	ld	s3, -1312(s0)
	mv	t2, s2
	mv	t1, s4
	ld	s4, -1304(s0)
	ld	s6, -1296(s0)
	mv	t0, s8
	ld	s8, -1288(s0)
	ld	s5, -1280(s0)
.LBB77_150:
	slli	s6, s6, 8
	slli	s10, s10, 16
	slli	s11, s11, 24
	slli	s9, s9, 8
	slli	s2, s3, 16
	ld	s3, -1144(s0)
	slli	s3, s3, 24
	or	a0, s6, ra
	or	a1, s11, s10
	ld	a2, -1136(s0)
	or	a2, s9, a2
	or	a3, s3, s2
	or	a0, a0, a1
	or	a2, a2, a3
	slli	a2, a2, 32
	or	a0, a0, a2
	beqz	a0, .LBB77_152
	slli	a0, s4, 8
	slli	a1, t5, 16
	slli	a2, t6, 24
	slli	a3, t4, 8
	slli	a4, t2, 16
	slli	a5, t3, 24
	or	a0, a0, t0
	or	a1, a1, a2
	or	a2, a3, t1
	or	a4, a4, a5
	or	a0, a0, a1
	or	a2, a2, a4
	slli	a2, a2, 32
	or	a0, a0, a2
	call	tlsf_memory_dealloc
.LBB77_152:
	ld	a0, -1128(s0)
	slli	a0, a0, 8
	ld	a1, -1112(s0)
	slli	a1, a1, 16
	ld	a2, -1120(s0)
	slli	a2, a2, 24
	ld	a3, -1104(s0)
	slli	a3, a3, 8
	ld	a4, -1088(s0)
	slli	a4, a4, 16
	ld	a5, -1096(s0)
	slli	a5, a5, 24
	or	a0, a0, s8
	or	a1, a1, a2
	ld	a2, -1080(s0)
	or	a2, a2, a3
	or	a4, a4, a5
	or	a0, a0, a1
	or	a2, a2, a4
	slli	a2, a2, 32
	or	a0, a0, a2
	ld	s8, -1008(s0)
	beqz	a0, .LBB77_154
	ld	a6, -1240(s0)
	slli	a6, a6, 8
	ld	a1, -1224(s0)
	slli	a1, a1, 16
	ld	a2, -1232(s0)
	slli	a2, a2, 24
	ld	a3, -1272(s0)
	slli	a3, a3, 8
	ld	a4, -1256(s0)
	slli	a4, a4, 16
	ld	a5, -1264(s0)
	slli	a5, a5, 24
	ld	a0, -1216(s0)
	or	a0, a6, a0
	or	a1, a1, a2
	ld	a2, -1248(s0)
	or	a2, a2, a3
	or	a4, a4, a5
	or	a0, a0, a1
	or	a2, a2, a4
	slli	a2, a2, 32
	or	a0, a0, a2
	call	tlsf_memory_dealloc
.LBB77_154:
	ld	a6, -1072(s0)
	slli	a6, a6, 8
	ld	a1, -1056(s0)
	slli	a1, a1, 16
	ld	a2, -1064(s0)
	slli	a2, a2, 24
	ld	a3, -1048(s0)
	slli	a3, a3, 8
	ld	a4, -1032(s0)
	slli	a4, a4, 16
	ld	a5, -1040(s0)
	slli	a5, a5, 24
	ld	a0, -1016(s0)
	or	a0, a6, a0
	or	a1, a1, a2
	ld	a2, -1024(s0)
	or	a2, a2, a3
	or	a4, a4, a5
	or	a0, a0, a1
	or	a2, a2, a4
	slli	a2, a2, 32
	or	a0, a0, a2
	beqz	a0, .LBB77_147
	ld	a6, -1208(s0)
	slli	a6, a6, 8
	ld	a1, -1192(s0)
	slli	a1, a1, 16
	ld	a2, -1200(s0)
	slli	a2, a2, 24
	ld	a3, -1184(s0)
	slli	a3, a3, 8
	ld	a4, -1168(s0)
	slli	a4, a4, 16
	ld	a5, -1176(s0)
	slli	a5, a5, 24
	ld	a0, -1152(s0)
	or	a0, a6, a0
	or	a1, a1, a2
	ld	a2, -1160(s0)
	or	a2, a2, a3
	or	a4, a4, a5
	or	a0, a0, a1
	or	a2, a2, a4
	slli	a2, a2, 32
	or	a0, a0, a2
	call	tlsf_memory_dealloc
	j	.LBB77_147
.LBB77_156:
	mv	a0, s4
	call	tlsf_memory_dealloc
	mv	a0, s1
	call	tlsf_memory_dealloc
	ld	s11, -136(s0)
	ld	a0, -144(s0)
	sd	a0, -1344(s0)
	ld	a0, -128(s0)
	sd	a0, -1352(s0)
	bnez	s11, .LBB77_134
	j	.LBB77_158
.LBB77_157:
	mv	a0, s4
	call	tlsf_memory_dealloc
	mv	a0, s8
	call	tlsf_memory_dealloc
	ld	s8, -136(s0)
	ld	a0, -144(s0)
	sd	a0, -1344(s0)
	ld	a0, -128(s0)
	sd	a0, -1352(s0)
	bnez	s8, .LBB77_146
.LBB77_158:
	ld	a0, -1352(s0)
	beqz	a0, .LBB77_160
	ld	a0, -1344(s0)
	call	tlsf_memory_dealloc
.LBB77_160:
	li	a0, 2
.LBB77_161:
	snez	a0, a0
	addi	a0, a0, 5
.LBB77_162:
	.cfi_def_cfa sp, 1360
	ld	ra, 1352(sp)
	ld	s0, 1344(sp)
	ld	s1, 1336(sp)
	ld	s2, 1328(sp)
	ld	s3, 1320(sp)
	ld	s4, 1312(sp)
	ld	s5, 1304(sp)
	ld	s6, 1296(sp)
	ld	s7, 1288(sp)
	ld	s8, 1280(sp)
	ld	s9, 1272(sp)
	ld	s10, 1264(sp)
	ld	s11, 1256(sp)
	.cfi_restore ra
	.cfi_restore s0
	.cfi_restore s1
	.cfi_restore s2
	.cfi_restore s3
	.cfi_restore s4
	.cfi_restore s5
	.cfi_restore s6
	.cfi_restore s7
	.cfi_restore s8
	.cfi_restore s9
	.cfi_restore s10
	.cfi_restore s11
	addi	sp, sp, 1360
	.cfi_def_cfa_offset 0
	ret
.LBB77_163:
	.cfi_restore_state
	unimp
.Lfunc_end77:
	.size	tlsf_pools_open, .Lfunc_end77-tlsf_pools_open
	.cfi_endproc
	.globl	tlsf_pools_part
	.p2align	1
	.type	tlsf_pools_part,@function
tlsf_pools_part:
	.cfi_startproc
	addi	sp, sp, -16
	.cfi_def_cfa_offset 16
	sd	ra, 8(sp)
	sd	s0, 0(sp)
	.cfi_offset ra, -8
	.cfi_offset s0, -16
	addi	s0, sp, 16
	.cfi_def_cfa s0, 0
	.cfi_remember_state
	lbu	a4, 8(a0)
	beqz	a4, .LBB78_6
	ld	a4, 0(a0)
	lbu	a0, 1(a4)
	beqz	a0, .LBB78_6
	lbu	a0, 0(a4)
	li	a5, 1
	bne	a0, a5, .LBB78_7
	ld	a0, 32(a4)
	slli	a1, a1, 32
	srli	a1, a1, 32
	sb	zero, 1(a4)
	bgeu	a1, a0, .LBB78_5
	ld	a6, 24(a4)
	lui	a5, 1
	addi	a5, a5, -1304
	mul	a1, a1, a5
	add	a1, a1, a6
	ld	a5, 24(a1)
	lw	a6, 0(a1)
	li	a1, 1
	sb	a1, 1(a4)
	sd	a5, 0(a2)
	sw	a6, 0(a3)
	li	a0, 0
	.cfi_def_cfa sp, 16
	ld	ra, 8(sp)
	ld	s0, 0(sp)
	.cfi_restore ra
	.cfi_restore s0
	addi	sp, sp, 16
	.cfi_def_cfa_offset 0
	ret
.LBB78_5:
	.cfi_restore_state
	.cfi_remember_state
	li	a0, 1
	sb	a0, 1(a4)
	li	a0, 4
	sext.w	a0, a0
	.cfi_def_cfa sp, 16
	ld	ra, 8(sp)
	ld	s0, 0(sp)
	.cfi_restore ra
	.cfi_restore s0
	addi	sp, sp, 16
	.cfi_def_cfa_offset 0
	ret
.LBB78_6:
	.cfi_restore_state
	.cfi_remember_state
	li	a0, 0
	call	tlsf_c.call_fault.CallFault.refusal
	sext.w	a0, a0
	.cfi_def_cfa sp, 16
	ld	ra, 8(sp)
	ld	s0, 0(sp)
	.cfi_restore ra
	.cfi_restore s0
	addi	sp, sp, 16
	.cfi_def_cfa_offset 0
	ret
.LBB78_7:
	.cfi_restore_state
	li	a0, 2
	call	tlsf_c.call_fault.CallFault.refusal
	sext.w	a0, a0
	.cfi_def_cfa sp, 16
	ld	ra, 8(sp)
	ld	s0, 0(sp)
	.cfi_restore ra
	.cfi_restore s0
	addi	sp, sp, 16
	.cfi_def_cfa_offset 0
	ret
.Lfunc_end78:
	.size	tlsf_pools_part, .Lfunc_end78-tlsf_pools_part
	.cfi_endproc
	.globl	tlsf_pools_place
	.p2align	1
	.type	tlsf_pools_place,@function
tlsf_pools_place:
	.cfi_startproc
	addi	sp, sp, -16
	.cfi_def_cfa_offset 16
	sd	ra, 8(sp)
	sd	s0, 0(sp)
	.cfi_offset ra, -8
	.cfi_offset s0, -16
	addi	s0, sp, 16
	.cfi_def_cfa s0, 0
	.cfi_remember_state
	lbu	a5, 8(a0)
	beqz	a5, .LBB79_9
	ld	a7, 0(a0)
	lbu	a0, 1(a7)
	beqz	a0, .LBB79_9
	lbu	a0, 0(a7)
	li	a5, 1
	bne	a0, a5, .LBB79_10
	ld	a5, 32(a7)
	slli	a0, a1, 32
	srli	a0, a0, 32
	sb	zero, 1(a7)
	bgeu	a0, a5, .LBB79_8
	lbu	t0, 8(a7)
	ld	a1, 24(a7)
	lui	a5, 1
	addi	a5, a5, -1304
	mul	a0, a0, a5
	add	a0, a0, a1
	lw	a6, 0(a0)
	lw	a1, 32(a0)
	sext.w	a5, a2
	bgeu	a5, a1, .LBB79_8
	ld	a1, 48(a0)
	srliw	a5, a2, 6
	slli	a5, a5, 3
	add	a1, a1, a5
	ld	a1, 0(a1)
	srl	a1, a1, a2
	andi	a1, a1, 1
	beqz	a1, .LBB79_8
	ld	a1, 24(a0)
	slli	a0, a2, 32
	srli	a0, a0, 29
	add	a1, a1, a0
	lbu	a0, 0(a1)
	andi	a0, a0, 1
	bnez	a0, .LBB79_8
	ld	a5, 8(a1)
	ld	t0, 16(a1)
	li	t1, 1
	srli	t2, a6, 24
	srli	t3, a6, 16
	srli	t5, a6, 8
	srli	t4, a2, 24
	sb	t1, 1(a7)
	srli	a7, a2, 16
	srli	a1, a2, 8
	sb	a6, 0(a3)
	sb	t5, 1(a3)
	sb	t3, 2(a3)
	sb	t2, 3(a3)
	sb	a2, 4(a3)
	sb	a1, 5(a3)
	sb	a7, 6(a3)
	sb	t4, 7(a3)
	srli	a6, a5, 56
	srli	a7, a5, 48
	srli	a1, a5, 40
	srli	a2, a5, 32
	srli	t1, a5, 24
	srli	t2, a5, 16
	sb	a2, 12(a3)
	sb	a1, 13(a3)
	sb	a7, 14(a3)
	sb	a6, 15(a3)
	srli	a1, a5, 8
	sb	a5, 8(a3)
	sb	a1, 9(a3)
	sb	t2, 10(a3)
	sb	t1, 11(a3)
	sw	t0, 0(a4)
	li	a0, 0
	.cfi_def_cfa sp, 16
	ld	ra, 8(sp)
	ld	s0, 0(sp)
	.cfi_restore ra
	.cfi_restore s0
	addi	sp, sp, 16
	.cfi_def_cfa_offset 0
	ret
.LBB79_8:
	.cfi_restore_state
	.cfi_remember_state
	li	a0, 1
	sb	a0, 1(a7)
	li	a0, 4
	sext.w	a0, a0
	.cfi_def_cfa sp, 16
	ld	ra, 8(sp)
	ld	s0, 0(sp)
	.cfi_restore ra
	.cfi_restore s0
	addi	sp, sp, 16
	.cfi_def_cfa_offset 0
	ret
.LBB79_9:
	.cfi_restore_state
	.cfi_remember_state
	li	a0, 0
	call	tlsf_c.call_fault.CallFault.refusal
	sext.w	a0, a0
	.cfi_def_cfa sp, 16
	ld	ra, 8(sp)
	ld	s0, 0(sp)
	.cfi_restore ra
	.cfi_restore s0
	addi	sp, sp, 16
	.cfi_def_cfa_offset 0
	ret
.LBB79_10:
	.cfi_restore_state
	li	a0, 2
	call	tlsf_c.call_fault.CallFault.refusal
	sext.w	a0, a0
	.cfi_def_cfa sp, 16
	ld	ra, 8(sp)
	ld	s0, 0(sp)
	.cfi_restore ra
	.cfi_restore s0
	addi	sp, sp, 16
	.cfi_def_cfa_offset 0
	ret
.Lfunc_end79:
	.size	tlsf_pools_place, .Lfunc_end79-tlsf_pools_place
	.cfi_endproc
	.globl	tlsf_pools_read
	.p2align	1
	.type	tlsf_pools_read,@function
tlsf_pools_read:
	.cfi_startproc
	addi	sp, sp, -32
	.cfi_def_cfa_offset 32
	sd	ra, 24(sp)
	sd	s0, 16(sp)
	sd	s1, 8(sp)
	sd	s2, 0(sp)
	.cfi_offset ra, -8
	.cfi_offset s0, -16
	.cfi_offset s1, -24
	.cfi_offset s2, -32
	addi	s0, sp, 32
	.cfi_def_cfa s0, 0
	mv	a6, a4
	lbu	a4, 8(a0)
	beqz	a4, .LBB80_21
	ld	s2, 0(a0)
	lbu	a0, 1(s2)
	beqz	a0, .LBB80_21
	lbu	a0, 0(s2)
	li	a4, 1
	bne	a0, a4, .LBB80_26
	srli	a7, a1, 32
	seqz	a4, a6
	sext.w	t2, a1
	sb	zero, 1(s2)
	lbu	t0, 8(s2)
	lw	s1, 16(s2)
	ld	t1, 32(s2)
	slli	a4, a4, 12
	add	a6, a6, a4
	sltu	a4, t2, s1
	subw	s1, a1, s1
	not	a0, a4
	sltu	a4, t2, s1
	addi	a4, a4, -1
	and	a4, a4, s1
	slli	a4, a4, 32
	srli	a4, a4, 32
	sltu	s1, a4, t1
	and	s1, s1, a0
	beqz	t0, .LBB80_12
	beqz	s1, .LBB80_20
	ld	a0, 24(s2)
	lui	s1, 1
	addi	s1, s1, -1304
	mul	a4, a4, s1
	add	a4, a4, a0
	lw	t1, 0(a4)
	bne	t1, t2, .LBB80_23
	lw	a0, 32(a4)
	sext.w	s1, a7
	bgeu	s1, a0, .LBB80_22
	ld	a0, 48(a4)
	srli	s1, a1, 35
	andi	s1, s1, -8
	add	a0, a0, s1
	ld	a0, 0(a0)
	srl	a0, a0, a7
	andi	a0, a0, 1
	beqz	a0, .LBB80_22
	addi	a0, a4, 24
	ld	s1, 0(a0)
	slli	a4, a7, 3
	add	a4, a4, s1
	lbu	s1, 0(a4)
	andi	s1, s1, 1
	bnez	s1, .LBB80_22
	ld	s1, 8(a4)
	bne	s1, a2, .LBB80_22
	lwu	a1, 16(a4)
	slli	a2, a3, 32
	srli	a2, a2, 32
	add	a2, a2, a5
	bltu	a1, a2, .LBB80_19
	mv	a1, a7
	mv	a2, a3
	mv	a3, a6
	mv	a4, a5
	call	tlsf_heap.region.Region.read.5
	j	.LBB80_25
.LBB80_12:
	beqz	s1, .LBB80_20
	ld	t0, 24(s2)
	lui	a0, 1
	addi	a0, a0, -1304
	mul	a0, a4, a0
	add	t0, t0, a0
	lw	t1, 0(t0)
	bne	t1, t2, .LBB80_23
	lw	a0, 32(t0)
	sext.w	a4, a7
	bgeu	a4, a0, .LBB80_22
	ld	a0, 48(t0)
	srli	a4, a1, 35
	andi	a4, a4, -8
	add	a0, a0, a4
	ld	a0, 0(a0)
	srl	a0, a0, a7
	andi	a0, a0, 1
	beqz	a0, .LBB80_22
	addi	a0, t0, 24
	ld	s1, 0(a0)
	slli	a4, a7, 3
	add	a4, a4, s1
	lbu	s1, 0(a4)
	andi	s1, s1, 1
	bnez	s1, .LBB80_22
	ld	s1, 8(a4)
	bne	s1, a2, .LBB80_22
	lwu	a1, 16(a4)
	slli	a2, a3, 32
	srli	a2, a2, 32
	add	a2, a2, a5
	bgeu	a1, a2, .LBB80_24
.LBB80_19:
	li	a0, 1
	sb	a0, 1(s2)
	li	a0, 7
	j	.LBB80_28
.LBB80_20:
	li	a0, 1
	sb	a0, 1(s2)
	li	a0, 3
	j	.LBB80_28
.LBB80_21:
	li	a0, 0
	j	.LBB80_27
.LBB80_22:
	mv	t1, a1
.LBB80_23:
	mv	a0, a1
	mv	a1, t1
	call	tlsf_heap.refusal.Refusal.of_name
	zext.b	a0, a0
	li	a1, 1
	sb	a1, 1(s2)
	addi	a0, a0, -3
	seqz	a0, a0
	addi	a0, a0, 3
	j	.LBB80_28
.LBB80_24:
	mv	a1, a7
	mv	a2, a3
	mv	a3, a6
	mv	a4, a5
	call	tlsf_heap.region.Region.read.4
.LBB80_25:
	li	a0, 0
	li	a1, 1
	sb	a1, 1(s2)
	j	.LBB80_28
.LBB80_26:
	li	a0, 2
.LBB80_27:
	call	tlsf_c.call_fault.CallFault.refusal
.LBB80_28:
	sext.w	a0, a0
	.cfi_def_cfa sp, 32
	ld	ra, 24(sp)
	ld	s0, 16(sp)
	ld	s1, 8(sp)
	ld	s2, 0(sp)
	.cfi_restore ra
	.cfi_restore s0
	.cfi_restore s1
	.cfi_restore s2
	addi	sp, sp, 32
	.cfi_def_cfa_offset 0
	ret
.Lfunc_end80:
	.size	tlsf_pools_read, .Lfunc_end80-tlsf_pools_read
	.cfi_endproc
	.globl	tlsf_pools_release
	.p2align	1
	.type	tlsf_pools_release,@function
tlsf_pools_release:
	.cfi_startproc
	addi	sp, sp, -48
	.cfi_def_cfa_offset 48
	sd	ra, 40(sp)
	sd	s0, 32(sp)
	sd	s1, 24(sp)
	sd	s2, 16(sp)
	sd	s3, 8(sp)
	sd	s4, 0(sp)
	.cfi_offset ra, -8
	.cfi_offset s0, -16
	.cfi_offset s1, -24
	.cfi_offset s2, -32
	.cfi_offset s3, -40
	.cfi_offset s4, -48
	addi	s0, sp, 48
	.cfi_def_cfa s0, 0
	lbu	a3, 8(a0)
	beqz	a3, .LBB81_24
	ld	s4, 0(a0)
	lbu	a0, 1(s4)
	beqz	a0, .LBB81_24
	lbu	a0, 0(s4)
	li	a3, 1
	bne	a0, a3, .LBB81_32
	srli	a4, a1, 32
	sext.w	a6, a1
	lw	a3, 16(s4)
	sb	zero, 1(s4)
	lbu	a7, 8(s4)
	ld	a5, 32(s4)
	sltu	a0, a6, a3
	subw	a3, a1, a3
	not	a0, a0
	sltu	s1, a6, a3
	addi	s1, s1, -1
	and	a3, a3, s1
	slli	a3, a3, 32
	srli	a3, a3, 32
	sltu	a5, a3, a5
	and	a5, a5, a0
	beqz	a7, .LBB81_13
	beqz	a5, .LBB81_22
	ld	s2, 24(s4)
	lui	a0, 1
	addi	a0, a0, -1304
	mul	a0, a3, a0
	add	s2, s2, a0
	lw	a3, 0(s2)
	bne	a3, a6, .LBB81_26
	lw	a0, 32(s2)
	sext.w	a3, a4
	bgeu	a3, a0, .LBB81_25
	ld	a0, 48(s2)
	srli	a3, a1, 35
	andi	a3, a3, -8
	add	a0, a0, a3
	ld	a0, 0(a0)
	srl	a0, a0, a4
	andi	a0, a0, 1
	beqz	a0, .LBB81_25
	addi	a0, s2, 24
	ld	t1, 0(a0)
	slli	a6, a4, 3
	add	t0, t1, a6
	ld	a5, 0(t0)
	andi	a3, a5, 1
	bnez	a3, .LBB81_25
	ld	a3, 8(t0)
	bne	a3, a2, .LBB81_25
	ld	a3, 8(s2)
	li	a1, -1
	beq	a3, a1, .LBB81_23
	lw	a1, 16(s2)
	lw	s3, 16(t0)
	srliw	a7, a5, 2
	sub	a1, a1, a7
	andi	a2, a5, 2
	sw	a1, 16(s2)
	bnez	a2, .LBB81_27
	add	a1, a7, a4
	slli	a1, a1, 32
	srli	a1, a1, 29
	add	a1, a1, t1
	ld	a1, 0(a1)
	bnez	a4, .LBB81_28
	j	.LBB81_29
.LBB81_13:
	beqz	a5, .LBB81_22
	ld	s2, 24(s4)
	lui	a0, 1
	addi	a0, a0, -1304
	mul	a0, a3, a0
	add	s2, s2, a0
	lw	a3, 0(s2)
	bne	a3, a6, .LBB81_26
	lw	a0, 32(s2)
	sext.w	a3, a4
	bgeu	a3, a0, .LBB81_25
	ld	a0, 48(s2)
	srli	a3, a1, 35
	andi	a3, a3, -8
	add	a0, a0, a3
	ld	a0, 0(a0)
	srl	a0, a0, a4
	andi	a0, a0, 1
	beqz	a0, .LBB81_25
	addi	a0, s2, 24
	ld	t1, 0(a0)
	slli	a6, a4, 3
	add	t0, t1, a6
	ld	a5, 0(t0)
	andi	a3, a5, 1
	bnez	a3, .LBB81_25
	ld	a3, 8(t0)
	bne	a3, a2, .LBB81_25
	ld	a3, 8(s2)
	li	a1, -1
	beq	a3, a1, .LBB81_23
	lw	a1, 16(s2)
	lw	s3, 16(t0)
	srliw	a7, a5, 2
	sub	a1, a1, a7
	andi	a2, a5, 2
	sw	a1, 16(s2)
	bnez	a2, .LBB81_36
	add	a1, a7, a4
	slli	a1, a1, 32
	srli	a1, a1, 29
	add	a1, a1, t1
	ld	a1, 0(a1)
	bnez	a4, .LBB81_37
	j	.LBB81_38
.LBB81_22:
	li	a0, 1
	sb	a0, 1(s4)
	li	a0, 3
	j	.LBB81_54
.LBB81_23:
	li	a0, 1
	sb	a0, 1(s4)
	li	a0, 2
	j	.LBB81_54
.LBB81_24:
	li	a0, 0
	j	.LBB81_33
.LBB81_25:
	mv	a3, a1
.LBB81_26:
	mv	a0, a1
	mv	a1, a3
	call	tlsf_heap.refusal.Refusal.of_name
	zext.b	a0, a0
	li	a1, 1
	sb	a1, 1(s4)
	addi	a0, a0, -3
	seqz	a0, a0
	addi	a0, a0, 3
	j	.LBB81_54
.LBB81_27:
	li	a1, 0
	beqz	a4, .LBB81_29
.LBB81_28:
	srli	a2, a5, 29
	andi	a2, a2, -8
	add	a2, a2, t1
	ld	a2, 0(a2)
	andi	s1, a2, 1
	bnez	s1, .LBB81_35
.LBB81_29:
	andi	a2, a1, 1
	bnez	a2, .LBB81_34
	addi	a5, a5, 1
	ori	a0, a7, 32
	lui	a1, 349525
	lui	a2, 209715
	sd	a5, 0(t0)
	sd	a3, 8(t0)
	lui	a3, 61681
	srli	a5, a0, 1
	addi	a1, a1, 1365
	or	a0, a0, a5
	srli	a5, a0, 2
	or	a0, a0, a5
	srli	a5, a0, 4
	or	a0, a0, a5
	slli	a5, a0, 34
	srli	a5, a5, 42
	or	a0, a0, a5
	slli	a5, a0, 33
	srli	a5, a5, 49
	or	a0, a0, a5
	not	a0, a0
	srli	a5, a0, 1
	and	a1, a1, a5
	lui	a5, 4112
	addi	a2, a2, 819
	sub	a0, a0, a1
	and	a1, a0, a2
	srli	a0, a0, 2
	and	a0, a0, a2
	li	a2, 26
	addi	a3, a3, -241
	addi	a5, a5, 257
	add	a0, a0, a1
	srli	a1, a0, 4
	add	a0, a0, a1
	ld	s1, 8(s2)
	and	a0, a0, a3
	mul	a0, a0, a5
	srliw	a0, a0, 24
	sub	a2, a2, a0
	srlw	a0, a7, a2
	slli	a2, a2, 5
	add	a2, a2, a0
	slli	a1, a2, 2
	add	a5, s2, a1
	lw	a1, 168(a5)
	ld	a3, 24(s2)
	addi	s1, s1, 1
	sd	s1, 8(s2)
	sw	a4, 168(a5)
	bltz	a1, .LBB81_43
	add	a6, a6, a3
	slli	a0, a1, 3
	add	a0, a0, a3
	li	a2, -1
	slli	a2, a2, 32
	or	a1, a1, a2
	sd	a1, 16(a6)
	sw	a4, 20(a0)
	addi	a1, s2, 2047
	ld	a2, 697(a1)
	bnez	a2, .LBB81_44
	j	.LBB81_53
.LBB81_32:
	li	a0, 2
.LBB81_33:
	call	tlsf_c.call_fault.CallFault.refusal
	j	.LBB81_54
.LBB81_34:
	addi	a2, a3, 1
	sd	a2, 8(s2)
	mv	a2, a5
	call	tlsf_heap.fitting.merge_next.5
	addi	a1, s2, 2047
	ld	a2, 697(a1)
	bnez	a2, .LBB81_44
	j	.LBB81_53
.LBB81_35:
	addi	s1, a3, 1
	sd	s1, 8(s2)
	call	tlsf_heap.fitting.merge_before.5
	addi	a1, s2, 2047
	ld	a2, 697(a1)
	bnez	a2, .LBB81_44
	j	.LBB81_53
.LBB81_36:
	li	a1, 0
	beqz	a4, .LBB81_38
.LBB81_37:
	srli	a2, a5, 29
	andi	a2, a2, -8
	add	a2, a2, t1
	ld	a2, 0(a2)
	andi	s1, a2, 1
	bnez	s1, .LBB81_42
.LBB81_38:
	andi	a2, a1, 1
	bnez	a2, .LBB81_41
	addi	a5, a5, 1
	ori	a0, a7, 16
	lui	a1, 349525
	lui	a2, 209715
	sd	a5, 0(t0)
	sd	a3, 8(t0)
	lui	a3, 61681
	srli	a5, a0, 1
	addi	a1, a1, 1365
	or	a0, a0, a5
	srli	a5, a0, 2
	or	a0, a0, a5
	srli	a5, a0, 4
	or	a0, a0, a5
	slli	a5, a0, 34
	srli	a5, a5, 42
	or	a0, a0, a5
	slli	a5, a0, 33
	srli	a5, a5, 49
	or	a0, a0, a5
	not	a0, a0
	srli	a5, a0, 1
	and	a1, a1, a5
	lui	a5, 4112
	addi	a2, a2, 819
	sub	a0, a0, a1
	and	a1, a0, a2
	srli	a0, a0, 2
	and	a0, a0, a2
	li	a2, 27
	addi	a3, a3, -241
	addi	a5, a5, 257
	add	a0, a0, a1
	srli	a1, a0, 4
	add	a0, a0, a1
	ld	s1, 8(s2)
	and	a0, a0, a3
	mul	a0, a0, a5
	srliw	a0, a0, 24
	sub	a2, a2, a0
	srlw	a0, a7, a2
	slli	a2, a2, 4
	add	a2, a2, a0
	slli	a1, a2, 2
	add	a5, s2, a1
	lw	a1, 168(a5)
	ld	a3, 24(s2)
	addi	s1, s1, 1
	sd	s1, 8(s2)
	sw	a4, 168(a5)
	bltz	a1, .LBB81_47
	add	a6, a6, a3
	slli	a0, a1, 3
	add	a0, a0, a3
	li	a2, -1
	slli	a2, a2, 32
	or	a1, a1, a2
	sd	a1, 16(a6)
	sw	a4, 20(a0)
	j	.LBB81_48
.LBB81_41:
	addi	a2, a3, 1
	sd	a2, 8(s2)
	mv	a2, a5
	call	tlsf_heap.fitting.merge_next.4
	j	.LBB81_48
.LBB81_42:
	addi	s1, a3, 1
	sd	s1, 8(s2)
	call	tlsf_heap.fitting.merge_before.4
	j	.LBB81_48
.LBB81_43:
	add	a3, a3, a6
	li	a1, -1
	srli	a2, a2, 5
	li	a4, 1
	sd	a1, 16(a3)
	slli	a1, a2, 2
	add	a1, a1, s2
	lw	a3, 80(s2)
	lw	a5, 84(a1)
	sllw	a2, a4, a2
	sllw	a0, a4, a0
	or	a2, a2, a3
	or	a0, a0, a5
	sw	a2, 80(s2)
	sw	a0, 84(a1)
	addi	a1, s2, 2047
	ld	a2, 697(a1)
	beqz	a2, .LBB81_53
.LBB81_44:
	li	a0, 0
	ld	a3, 689(a1)
	ld	a1, 721(a1)
	addi	a3, a3, 4
.LBB81_45:
	lw	a4, 0(a3)
	bgeu	a4, s3, .LBB81_52
	addi	a0, a0, 1
	addi	a3, a3, 8
	bne	a2, a0, .LBB81_45
	j	.LBB81_53
.LBB81_47:
	add	a3, a3, a6
	li	a1, -1
	srli	a2, a2, 4
	li	a4, 1
	andi	a0, a0, 15
	sd	a1, 16(a3)
	slli	a1, a2, 2
	add	a1, a1, s2
	lw	a3, 80(s2)
	lw	a5, 84(a1)
	sllw	a2, a4, a2
	sllw	a0, a4, a0
	or	a2, a2, a3
	or	a0, a0, a5
	sw	a2, 80(s2)
	sw	a0, 84(a1)
.LBB81_48:
	addi	a1, s2, 2047
	ld	a2, 697(a1)
	beqz	a2, .LBB81_53
	li	a0, 0
	ld	a3, 689(a1)
	ld	a1, 721(a1)
	addi	a3, a3, 4
.LBB81_50:
	lw	a4, 0(a3)
	bgeu	a4, s3, .LBB81_52
	addi	a0, a0, 1
	addi	a3, a3, 8
	bne	a2, a0, .LBB81_50
	j	.LBB81_53
.LBB81_52:
	slli	a0, a0, 2
	add	a0, a0, a1
	lw	a1, 0(a0)
	addi	a1, a1, -1
	sw	a1, 0(a0)
.LBB81_53:
	li	a0, 0
	li	a1, 1
	sb	a1, 1(s4)
.LBB81_54:
	sext.w	a0, a0
	.cfi_def_cfa sp, 48
	ld	ra, 40(sp)
	ld	s0, 32(sp)
	ld	s1, 24(sp)
	ld	s2, 16(sp)
	ld	s3, 8(sp)
	ld	s4, 0(sp)
	.cfi_restore ra
	.cfi_restore s0
	.cfi_restore s1
	.cfi_restore s2
	.cfi_restore s3
	.cfi_restore s4
	addi	sp, sp, 48
	.cfi_def_cfa_offset 0
	ret
.Lfunc_end81:
	.size	tlsf_pools_release, .Lfunc_end81-tlsf_pools_release
	.cfi_endproc
	.globl	tlsf_pools_report
	.p2align	1
	.type	tlsf_pools_report,@function
tlsf_pools_report:
	.cfi_startproc
	addi	sp, sp, -128
	.cfi_def_cfa_offset 128
	sd	ra, 120(sp)
	sd	s0, 112(sp)
	sd	s1, 104(sp)
	sd	s2, 96(sp)
	sd	s3, 88(sp)
	sd	s4, 80(sp)
	sd	s5, 72(sp)
	sd	s6, 64(sp)
	sd	s7, 56(sp)
	sd	s8, 48(sp)
	sd	s9, 40(sp)
	sd	s10, 32(sp)
	sd	s11, 24(sp)
	.cfi_offset ra, -8
	.cfi_offset s0, -16
	.cfi_offset s1, -24
	.cfi_offset s2, -32
	.cfi_offset s3, -40
	.cfi_offset s4, -48
	.cfi_offset s5, -56
	.cfi_offset s6, -64
	.cfi_offset s7, -72
	.cfi_offset s8, -80
	.cfi_offset s9, -88
	.cfi_offset s10, -96
	.cfi_offset s11, -104
	addi	s0, sp, 128
	.cfi_def_cfa s0, 0
	.cfi_remember_state
	lbu	a3, 8(a0)
	beqz	a3, .LBB82_35
	ld	a6, 0(a0)
	lbu	a0, 1(a6)
	beqz	a0, .LBB82_35
	lbu	a0, 0(a6)
	li	a3, 1
	bne	a0, a3, .LBB82_40
	lbu	a4, 8(a6)
	ld	a3, 32(a6)
	sb	zero, 1(a6)
	slli	a0, a1, 32
	srli	a0, a0, 32
	beqz	a4, .LBB82_17
	bgeu	a0, a3, .LBB82_33
	ld	a1, 24(a6)
	lui	a3, 1
	addi	a3, a3, -1304
	mul	a0, a0, a3
	add	a0, a0, a1
	lw	a3, 32(a0)
	ld	t1, 8(a0)
	beqz	a3, .LBB82_34
	li	a4, 0
	li	s8, 0
	li	t0, 0
	li	a7, 0
	li	t4, 0
	li	s7, 0
	li	s2, 0
	ld	a0, 24(a0)
	mv	t6, t1
	j	.LBB82_8
.LBB82_7:
	lw	a5, 16(s1)
	addi	s2, s2, 1
	add	s7, s7, a1
	add	t4, t4, a5
	addw	a4, a4, a1
	bgeu	a4, a3, .LBB82_14
.LBB82_8:
	slli	a1, a4, 32
	srli	a1, a1, 29
	add	s1, a0, a1
	ld	a1, 0(s1)
	andi	a5, a1, 1
	srliw	a1, a1, 2
	beqz	a5, .LBB82_7
	mv	a5, a1
	bltu	s8, a1, .LBB82_11
	mv	a5, s8
.LBB82_11:
	ld	s1, 8(s1)
	bltu	s1, t6, .LBB82_13
	mv	s1, t6
.LBB82_13:
	addi	a7, a7, 1
	addw	t0, a1, t0
	mv	s8, a5
	mv	t6, s1
	addw	a4, a4, a1
	bltu	a4, a3, .LBB82_8
.LBB82_14:
	beqz	s8, .LBB82_36
	ori	a0, s8, 32
	lui	a1, 349525
	srliw	a3, a0, 1
	addi	a1, a1, 1365
	or	a0, a0, a3
	srliw	a3, a0, 2
	or	a0, a0, a3
	srliw	a3, a0, 4
	or	a0, a0, a3
	srliw	a3, a0, 8
	or	a0, a0, a3
	srliw	a3, a0, 16
	or	a0, a0, a3
	not	a0, a0
	srli	a3, a0, 1
	and	a1, a1, a3
	lui	a3, 209715
	addi	a3, a3, 819
	sub	a0, a0, a1
	and	a1, a0, a3
	srli	a0, a0, 2
	and	a0, a0, a3
	lui	a3, 61681
	add	a0, a0, a1
	srli	a1, a0, 4
	add	a0, a0, a1
	lui	a1, 4112
	addi	a3, a3, -241
	and	a0, a0, a3
	li	a3, 26
	addi	a1, a1, 257
	mul	a0, a0, a1
	srliw	a0, a0, 24
	sub	a3, a3, a0
	srlw	a0, s8, a3
	slli	a3, a3, 5
	add	a3, a3, a0
	srliw	a1, a3, 5
	beqz	a1, .LBB82_31
	li	a3, 16
	andi	a0, a0, 31
	j	.LBB82_30
.LBB82_17:
	bgeu	a0, a3, .LBB82_33
	ld	a1, 24(a6)
	lui	a3, 1
	addi	a3, a3, -1304
	mul	a0, a0, a3
	add	a1, a1, a0
	lw	a3, 32(a1)
	ld	t1, 8(a1)
	beqz	a3, .LBB82_34
	li	a0, 0
	li	s8, 0
	li	t0, 0
	li	a7, 0
	li	t4, 0
	li	s7, 0
	li	s2, 0
	ld	s1, 24(a1)
	mv	t6, t1
	j	.LBB82_21
.LBB82_20:
	lw	a4, 16(a4)
	addi	s2, s2, 1
	add	s7, s7, a1
	add	t4, t4, a4
	addw	a0, a0, a1
	bgeu	a0, a3, .LBB82_27
.LBB82_21:
	slli	a1, a0, 32
	srli	a1, a1, 29
	add	a4, s1, a1
	ld	a1, 0(a4)
	andi	a5, a1, 1
	srliw	a1, a1, 2
	beqz	a5, .LBB82_20
	mv	a5, a1
	bltu	s8, a1, .LBB82_24
	mv	a5, s8
.LBB82_24:
	ld	a4, 8(a4)
	bltu	a4, t6, .LBB82_26
	mv	a4, t6
.LBB82_26:
	addi	a7, a7, 1
	addw	t0, a1, t0
	mv	s8, a5
	mv	t6, a4
	addw	a0, a0, a1
	bltu	a0, a3, .LBB82_21
.LBB82_27:
	beqz	s8, .LBB82_36
	ori	a0, s8, 16
	lui	a1, 349525
	srliw	a3, a0, 1
	addi	a1, a1, 1365
	or	a0, a0, a3
	srliw	a3, a0, 2
	or	a0, a0, a3
	srliw	a3, a0, 4
	or	a0, a0, a3
	srliw	a3, a0, 8
	or	a0, a0, a3
	srliw	a3, a0, 16
	or	a0, a0, a3
	not	a0, a0
	srli	a3, a0, 1
	and	a1, a1, a3
	lui	a3, 209715
	addi	a3, a3, 819
	sub	a0, a0, a1
	and	a1, a0, a3
	srli	a0, a0, 2
	and	a0, a0, a3
	lui	a3, 61681
	add	a0, a0, a1
	srli	a1, a0, 4
	add	a0, a0, a1
	lui	a1, 4112
	addi	a3, a3, -241
	and	a0, a0, a3
	li	a3, 27
	addi	a1, a1, 257
	mul	a0, a0, a1
	srliw	a0, a0, 24
	sub	a3, a3, a0
	srlw	a0, s8, a3
	slli	a3, a3, 4
	add	a3, a3, a0
	srliw	a1, a3, 4
	beqz	a1, .LBB82_31
	li	a3, 8
	andi	a0, a0, 15
.LBB82_30:
	sllw	a3, a3, a1
	addi	a1, a1, -1
	sllw	a0, a0, a1
	add	a3, a3, a0
.LBB82_31:
	slli	a3, a3, 3
	addi	s5, a3, -24
	beqz	t0, .LBB82_37
.LBB82_32:
	slli	a0, t0, 32
	li	a1, 1000
	srli	a0, a0, 32
	mul	a3, s8, a1
	divu	a0, a3, a0
	sub	a1, a1, a0
	sd	a1, -128(s0)
	j	.LBB82_38
.LBB82_33:
	li	a0, 1
	sb	a0, 1(a6)
	li	a0, 4
	j	.LBB82_39
.LBB82_34:
	li	s5, 0
	li	s2, 0
	li	s7, 0
	li	t4, 0
	li	a7, 0
	li	t0, 0
	li	s8, 0
	sd	zero, -128(s0)
	mv	t6, t1
	j	.LBB82_38
.LBB82_35:
	li	a0, 0
	call	tlsf_c.call_fault.CallFault.refusal
	j	.LBB82_39
.LBB82_36:
	li	s5, 0
	bnez	t0, .LBB82_32
.LBB82_37:
	sd	zero, -128(s0)
.LBB82_38:
	slli	a0, s7, 3
	sub	s4, a0, t4
	sub	a1, t1, t6
	li	a0, 0
	li	t3, 1
	srli	t5, s2, 24
	srli	a3, s2, 16
	srli	s1, s2, 8
	srli	s11, s7, 24
	srli	ra, s7, 16
	srli	a4, s7, 8
	srli	s10, t4, 24
	srli	t1, t4, 16
	srli	t2, t4, 8
	srli	a5, a7, 24
	sd	a5, -112(s0)
	srli	s3, a7, 16
	srli	s9, a7, 8
	srli	a5, t0, 24
	sd	a5, -120(s0)
	sb	t3, 1(a6)
	srli	a6, t0, 16
	srli	s6, t0, 8
	sb	s2, 0(a2)
	srli	t6, s8, 24
	sb	s1, 1(a2)
	srli	s2, s8, 16
	sb	a3, 2(a2)
	srli	a3, s8, 8
	sb	t5, 3(a2)
	srli	t3, s5, 24
	sb	s7, 4(a2)
	srli	s7, s5, 16
	sb	a4, 5(a2)
	srli	a4, s5, 8
	sb	ra, 6(a2)
	ld	t5, -128(s0)
	srli	ra, t5, 24
	sb	s11, 7(a2)
	srli	s11, t5, 16
	sb	t4, 8(a2)
	srli	t4, t5, 8
	sb	t2, 9(a2)
	srli	t2, s4, 24
	sb	t1, 10(a2)
	srli	t1, s4, 16
	sb	s10, 11(a2)
	srli	s10, s4, 8
	sb	a7, 12(a2)
	srli	a7, a1, 56
	sb	s9, 13(a2)
	srli	s9, a1, 48
	sb	s3, 14(a2)
	ld	a5, -112(s0)
	sb	a5, 15(a2)
	srli	s3, a1, 40
	sb	t0, 16(a2)
	sb	s6, 17(a2)
	sb	a6, 18(a2)
	ld	a5, -120(s0)
	sb	a5, 19(a2)
	srli	s1, a1, 32
	sb	s8, 20(a2)
	sb	a3, 21(a2)
	sb	s2, 22(a2)
	sb	t6, 23(a2)
	srli	a5, a1, 24
	sb	s5, 24(a2)
	sb	a4, 25(a2)
	sb	s7, 26(a2)
	sb	t3, 27(a2)
	srli	a4, a1, 16
	sb	t5, 28(a2)
	sb	t4, 29(a2)
	sb	s11, 30(a2)
	sb	ra, 31(a2)
	srli	a3, a1, 8
	sb	s4, 32(a2)
	sb	s10, 33(a2)
	sb	t1, 34(a2)
	sb	t2, 35(a2)
	sb	zero, 36(a2)
	sb	zero, 37(a2)
	sb	zero, 38(a2)
	sb	zero, 39(a2)
	sb	s1, 44(a2)
	sb	s3, 45(a2)
	sb	s9, 46(a2)
	sb	a7, 47(a2)
	sb	a1, 40(a2)
	sb	a3, 41(a2)
	sb	a4, 42(a2)
	sb	a5, 43(a2)
.LBB82_39:
	sext.w	a0, a0
	.cfi_def_cfa sp, 128
	ld	ra, 120(sp)
	ld	s0, 112(sp)
	ld	s1, 104(sp)
	ld	s2, 96(sp)
	ld	s3, 88(sp)
	ld	s4, 80(sp)
	ld	s5, 72(sp)
	ld	s6, 64(sp)
	ld	s7, 56(sp)
	ld	s8, 48(sp)
	ld	s9, 40(sp)
	ld	s10, 32(sp)
	ld	s11, 24(sp)
	.cfi_restore ra
	.cfi_restore s0
	.cfi_restore s1
	.cfi_restore s2
	.cfi_restore s3
	.cfi_restore s4
	.cfi_restore s5
	.cfi_restore s6
	.cfi_restore s7
	.cfi_restore s8
	.cfi_restore s9
	.cfi_restore s10
	.cfi_restore s11
	addi	sp, sp, 128
	.cfi_def_cfa_offset 0
	ret
.LBB82_40:
	.cfi_restore_state
	li	a0, 2
	call	tlsf_c.call_fault.CallFault.refusal
	j	.LBB82_39
.Lfunc_end82:
	.size	tlsf_pools_report, .Lfunc_end82-tlsf_pools_report
	.cfi_endproc
	.globl	tlsf_pools_row
	.p2align	1
	.type	tlsf_pools_row,@function
tlsf_pools_row:
	.cfi_startproc
	addi	sp, sp, -16
	.cfi_def_cfa_offset 16
	sd	ra, 8(sp)
	sd	s0, 0(sp)
	.cfi_offset ra, -8
	.cfi_offset s0, -16
	addi	s0, sp, 16
	.cfi_def_cfa s0, 0
	.cfi_remember_state
	lbu	a3, 8(a0)
	beqz	a3, .LBB83_28
	ld	t2, 0(a0)
	lbu	a0, 1(t2)
	beqz	a0, .LBB83_28
	lbu	a0, 0(t2)
	li	a3, 1
	bne	a0, a3, .LBB83_29
	li	a0, -1
	srli	a0, a0, 32
	sb	zero, 1(t2)
	bltu	a1, a0, .LBB83_5
	mv	a1, a0
.LBB83_5:
	lbu	a0, 8(t2)
	ld	a6, 24(t2)
	ld	a7, 32(t2)
	beqz	a0, .LBB83_13
	beqz	a7, .LBB83_26
	li	t3, 0
	lui	t0, 1
	addi	t0, t0, -1304
	sext.w	a5, a1
	j	.LBB83_9
.LBB83_8:
	addi	t3, t3, 1
	beq	t3, a7, .LBB83_26
.LBB83_9:
	mul	a0, t3, t0
	add	a0, a0, a6
	addi	a1, a0, 2047
	ld	a0, 697(a1)
	beqz	a0, .LBB83_8
	ld	t1, 689(a1)
	addi	a1, t1, 4
	mv	a3, a0
.LBB83_11:
	lw	a4, 0(a1)
	bgeu	a4, a5, .LBB83_20
	addi	a3, a3, -1
	addi	a1, a1, 8
	bnez	a3, .LBB83_11
	j	.LBB83_8
.LBB83_13:
	beqz	a7, .LBB83_26
	li	t3, 0
	lui	t0, 1
	addi	t0, t0, -1304
	sext.w	a5, a1
	j	.LBB83_16
.LBB83_15:
	addi	t3, t3, 1
	beq	t3, a7, .LBB83_26
.LBB83_16:
	mul	a0, t3, t0
	add	a0, a0, a6
	addi	a0, a0, 2047
	ld	a3, 697(a0)
	beqz	a3, .LBB83_15
	ld	t1, 689(a0)
	addi	a1, t1, 4
	mv	a0, a3
.LBB83_18:
	lw	a4, 0(a1)
	bgeu	a4, a5, .LBB83_23
	addi	a0, a0, -1
	addi	a1, a1, 8
	bnez	a0, .LBB83_18
	j	.LBB83_15
.LBB83_20:
	li	a4, 0
	addi	a1, t1, 4
.LBB83_21:
	lw	a3, 0(a1)
	bgeu	a3, a5, .LBB83_27
	addi	a4, a4, 1
	addi	a1, a1, 8
	bne	a0, a4, .LBB83_21
	j	.LBB83_26
.LBB83_23:
	li	a4, 0
	addi	a1, t1, 4
.LBB83_24:
	lw	a0, 0(a1)
	bgeu	a0, a5, .LBB83_27
	addi	a4, a4, 1
	addi	a1, a1, 8
	bne	a3, a4, .LBB83_24
.LBB83_26:
	li	a0, 1
	sb	a0, 1(t2)
	li	a0, 5
	sext.w	a0, a0
	.cfi_def_cfa sp, 16
	ld	ra, 8(sp)
	ld	s0, 0(sp)
	.cfi_restore ra
	.cfi_restore s0
	addi	sp, sp, 16
	.cfi_def_cfa_offset 0
	ret
.LBB83_27:
	.cfi_restore_state
	.cfi_remember_state
	slli	a4, a4, 3
	add	a4, a4, t1
	lw	a1, 4(a4)
	li	a3, 1
	sb	a3, 1(t2)
	sw	a1, 0(a2)
	li	a0, 0
	.cfi_def_cfa sp, 16
	ld	ra, 8(sp)
	ld	s0, 0(sp)
	.cfi_restore ra
	.cfi_restore s0
	addi	sp, sp, 16
	.cfi_def_cfa_offset 0
	ret
.LBB83_28:
	.cfi_restore_state
	.cfi_remember_state
	li	a0, 0
	call	tlsf_c.call_fault.CallFault.refusal
	sext.w	a0, a0
	.cfi_def_cfa sp, 16
	ld	ra, 8(sp)
	ld	s0, 0(sp)
	.cfi_restore ra
	.cfi_restore s0
	addi	sp, sp, 16
	.cfi_def_cfa_offset 0
	ret
.LBB83_29:
	.cfi_restore_state
	li	a0, 2
	call	tlsf_c.call_fault.CallFault.refusal
	sext.w	a0, a0
	.cfi_def_cfa sp, 16
	ld	ra, 8(sp)
	ld	s0, 0(sp)
	.cfi_restore ra
	.cfi_restore s0
	addi	sp, sp, 16
	.cfi_def_cfa_offset 0
	ret
.Lfunc_end83:
	.size	tlsf_pools_row, .Lfunc_end83-tlsf_pools_row
	.cfi_endproc
	.globl	tlsf_pools_words
	.p2align	1
	.type	tlsf_pools_words,@function
tlsf_pools_words:
	.cfi_startproc
	addi	sp, sp, -656
	.cfi_def_cfa_offset 656
	sd	ra, 648(sp)
	sd	s0, 640(sp)
	sd	s1, 632(sp)
	sd	s2, 624(sp)
	sd	s3, 616(sp)
	sd	s4, 608(sp)
	sd	s5, 600(sp)
	.cfi_offset ra, -8
	.cfi_offset s0, -16
	.cfi_offset s1, -24
	.cfi_offset s2, -32
	.cfi_offset s3, -40
	.cfi_offset s4, -48
	.cfi_offset s5, -56
	addi	s0, sp, 656
	.cfi_def_cfa s0, 0
	mv	a5, a0
	addiw	a0, a0, -6
	li	s1, -2
	bgeu	a0, s1, .LBB84_2
	li	a0, 34
	j	.LBB84_12
.LBB84_2:
	li	s1, 64
	li	a0, 5
	bltu	s1, a2, .LBB84_12
	mv	s4, a1
	mv	s2, a3
	mv	s3, a4
	mv	s5, a5
	addi	a0, s0, -656
	mv	s1, a2
	li	a2, 88
	li	a1, 0
	call	tlsf_memory_set
	addi	a0, s0, -568
	li	a2, 512
	li	a1, 0
	call	tlsf_memory_set
	mv	a2, s1
	beqz	s1, .LBB84_8
	seqz	a3, s4
	addi	a1, s0, -564
	slli	a4, a2, 3
	slli	a3, a3, 12
	add	s4, s4, a3
	li	s1, -1
	add	a6, a1, a4
	addi	a4, s4, 8
	srli	a7, s1, 32
	j	.LBB84_6
.LBB84_5:
	lbu	t0, -7(a4)
	lbu	a3, -8(a4)
	lbu	s1, -6(a4)
	lb	a0, -5(a4)
	slli	t0, t0, 8
	or	a3, t0, a3
	slli	s1, s1, 16
	slli	a0, a0, 24
	or	a0, a0, s1
	or	a0, a0, a3
	sw	a0, -4(a1)
	sw	a5, 0(a1)
	addi	a1, a1, 8
	addi	a4, a4, 16
	beq	a1, a6, .LBB84_8
.LBB84_6:
	lbu	a5, 1(a4)
	lbu	a0, 2(a4)
	lbu	a3, 3(a4)
	lbu	s1, 0(a4)
	slli	a5, a5, 8
	slli	a0, a0, 16
	slli	a3, a3, 24
	or	t0, a5, s1
	or	t1, a3, a0
	lbu	a3, 5(a4)
	lbu	s1, 4(a4)
	lbu	a5, 6(a4)
	lbu	a0, 7(a4)
	slli	a3, a3, 8
	or	a3, a3, s1
	slli	a5, a5, 16
	slli	a0, a0, 24
	or	a0, a0, a5
	or	a5, t1, t0
	or	a0, a0, a3
	slli	a0, a0, 32
	or	a5, a5, a0
	bltu	a5, a7, .LBB84_5
	mv	a5, a7
	j	.LBB84_5
.LBB84_8:
	sext.w	s5, s5
	li	a0, 4
	bne	s5, a0, .LBB84_10
	addi	a0, s0, -656
	addi	a1, s0, -568
	call	tlsf_pool.sizes.split.rising_split.4
	lbu	a1, -656(s0)
	li	a0, 5
	bnez	a1, .LBB84_11
	j	.LBB84_12
.LBB84_10:
	addi	a0, s0, -656
	addi	a1, s0, -568
	call	tlsf_pool.sizes.split.rising_split.5
	lbu	a1, -656(s0)
	li	a0, 5
	beqz	a1, .LBB84_12
.LBB84_11:
	li	a0, 0
	ld	a1, -576(s0)
	ld	a2, -648(s0)
	sd	a1, 0(s2)
	sw	a2, 0(s3)
.LBB84_12:
	.cfi_def_cfa sp, 656
	ld	ra, 648(sp)
	ld	s0, 640(sp)
	ld	s1, 632(sp)
	ld	s2, 624(sp)
	ld	s3, 616(sp)
	ld	s4, 608(sp)
	ld	s5, 600(sp)
	.cfi_restore ra
	.cfi_restore s0
	.cfi_restore s1
	.cfi_restore s2
	.cfi_restore s3
	.cfi_restore s4
	.cfi_restore s5
	addi	sp, sp, 656
	.cfi_def_cfa_offset 0
	ret
.Lfunc_end84:
	.size	tlsf_pools_words, .Lfunc_end84-tlsf_pools_words
	.cfi_endproc
	.globl	tlsf_post_close
	.p2align	1
	.type	tlsf_post_close,@function
tlsf_post_close:
	.cfi_startproc
	lbu	a2, 8(a0)
	li	a1, 32
	beqz	a2, .LBB85_5
	ld	a2, 0(a0)
	lbu	a3, 1(a2)
	beqz	a3, .LBB85_5
	lbu	a1, 0(a2)
	beqz	a1, .LBB85_4
	li	a0, 40
	ret
.LBB85_4:
	addi	sp, sp, -144
	.cfi_def_cfa_offset 144
	sd	ra, 136(sp)
	sd	s0, 128(sp)
	sd	s1, 120(sp)
	sd	s2, 112(sp)
	sd	s3, 104(sp)
	sd	s4, 96(sp)
	.cfi_offset ra, -8
	.cfi_offset s0, -16
	.cfi_offset s1, -24
	.cfi_offset s2, -32
	.cfi_offset s3, -40
	.cfi_offset s4, -48
	addi	s0, sp, 144
	.cfi_def_cfa s0, 0
	sb	zero, 1(a2)
	lbu	a1, 1(a0)
	lbu	a2, 2(a0)
	lbu	a3, 3(a0)
	lbu	a4, 0(a0)
	slli	a1, a1, 8
	slli	a2, a2, 16
	slli	a3, a3, 24
	or	a1, a1, a4
	or	a2, a2, a3
	lbu	a3, 5(a0)
	lbu	a4, 4(a0)
	lbu	a5, 6(a0)
	lbu	s1, 7(a0)
	slli	a3, a3, 8
	or	a3, a3, a4
	slli	a5, a5, 16
	slli	s1, s1, 24
	or	a5, a5, s1
	or	a1, a1, a2
	or	a3, a3, a5
	slli	a3, a3, 32
	or	s1, a3, a1
	li	a2, 16
	li	a1, 0
	call	tlsf_memory_set
	lbu	s3, 0(s1)
	lbu	s4, 1(s1)
	addi	a1, s1, 8
	addi	s2, s0, -136
	li	a2, 40
	mv	a0, s2
	call	tlsf_memory_cpy
	mv	a0, s1
	call	tlsf_memory_dealloc
	sd	zero, -96(s0)
	sb	s3, -96(s0)
	sb	s4, -95(s0)
	addi	a0, s0, -88
	li	a2, 40
	mv	a1, s2
	call	tlsf_memory_cpy
	addi	a0, s0, -96
	call	tlsf_c.tlsf_c.any_end.AnyEnd.Destruct.drop
	li	a1, 0
	.cfi_def_cfa sp, 144
	ld	ra, 136(sp)
	ld	s0, 128(sp)
	ld	s1, 120(sp)
	ld	s2, 112(sp)
	ld	s3, 104(sp)
	ld	s4, 96(sp)
	.cfi_restore ra
	.cfi_restore s0
	.cfi_restore s1
	.cfi_restore s2
	.cfi_restore s3
	.cfi_restore s4
	addi	sp, sp, 144
	.cfi_def_cfa_offset 0
.LBB85_5:
	mv	a0, a1
	ret
.Lfunc_end85:
	.size	tlsf_post_close, .Lfunc_end85-tlsf_post_close
	.cfi_endproc
	.globl	tlsf_poster_close
	.p2align	1
	.type	tlsf_poster_close,@function
tlsf_poster_close:
	.cfi_startproc
	lbu	a2, 8(a0)
	li	a1, 32
	beqz	a2, .LBB86_4
	ld	a2, 0(a0)
	lbu	a3, 1(a2)
	beqz	a3, .LBB86_4
	lbu	a1, 0(a2)
	li	a3, 3
	bne	a1, a3, .LBB86_5
	addi	sp, sp, -144
	.cfi_def_cfa_offset 144
	sd	ra, 136(sp)
	sd	s0, 128(sp)
	sd	s1, 120(sp)
	sd	s2, 112(sp)
	sd	s3, 104(sp)
	sd	s4, 96(sp)
	.cfi_offset ra, -8
	.cfi_offset s0, -16
	.cfi_offset s1, -24
	.cfi_offset s2, -32
	.cfi_offset s3, -40
	.cfi_offset s4, -48
	addi	s0, sp, 144
	.cfi_def_cfa s0, 0
	sb	zero, 1(a2)
	lbu	a1, 1(a0)
	lbu	a2, 2(a0)
	lbu	a3, 3(a0)
	lbu	a4, 0(a0)
	slli	a1, a1, 8
	slli	a2, a2, 16
	slli	a3, a3, 24
	or	a1, a1, a4
	or	a2, a2, a3
	lbu	a3, 5(a0)
	lbu	a4, 4(a0)
	lbu	a5, 6(a0)
	lbu	s1, 7(a0)
	slli	a3, a3, 8
	or	a3, a3, a4
	slli	a5, a5, 16
	slli	s1, s1, 24
	or	a5, a5, s1
	or	a1, a1, a2
	or	a3, a3, a5
	slli	a3, a3, 32
	or	s1, a3, a1
	li	a2, 16
	li	a1, 0
	call	tlsf_memory_set
	lbu	s3, 0(s1)
	lbu	s4, 1(s1)
	addi	a1, s1, 8
	addi	s2, s0, -136
	li	a2, 40
	mv	a0, s2
	call	tlsf_memory_cpy
	mv	a0, s1
	call	tlsf_memory_dealloc
	sd	zero, -96(s0)
	sb	s3, -96(s0)
	sb	s4, -95(s0)
	addi	a0, s0, -88
	li	a2, 40
	mv	a1, s2
	call	tlsf_memory_cpy
	addi	a0, s0, -96
	call	tlsf_c.tlsf_c.any_end.AnyEnd.Destruct.drop
	li	a1, 0
	.cfi_def_cfa sp, 144
	ld	ra, 136(sp)
	ld	s0, 128(sp)
	ld	s1, 120(sp)
	ld	s2, 112(sp)
	ld	s3, 104(sp)
	ld	s4, 96(sp)
	.cfi_restore ra
	.cfi_restore s0
	.cfi_restore s1
	.cfi_restore s2
	.cfi_restore s3
	.cfi_restore s4
	addi	sp, sp, 144
	.cfi_def_cfa_offset 0
.LBB86_4:
	mv	a0, a1
	ret
.LBB86_5:
	li	a0, 40
	ret
.Lfunc_end86:
	.size	tlsf_poster_close, .Lfunc_end86-tlsf_poster_close
	.cfi_endproc
	.globl	tlsf_poster_open
	.p2align	1
	.type	tlsf_poster_open,@function
tlsf_poster_open:
	.cfi_startproc
	addi	sp, sp, -16
	.cfi_def_cfa_offset 16
	sd	ra, 8(sp)
	sd	s0, 0(sp)
	.cfi_offset ra, -8
	.cfi_offset s0, -16
	addi	s0, sp, 16
	.cfi_def_cfa s0, 0
	.cfi_remember_state
	lbu	a2, 8(a0)
	beqz	a2, .LBB87_10
	ld	a2, 0(a0)
	lbu	a0, 1(a2)
	beqz	a0, .LBB87_10
	lbu	a3, 8(a1)
	lbu	a0, 0(a2)
	beqz	a3, .LBB87_5
	li	a1, 2
	beq	a0, a1, .LBB87_8
	li	a0, 40
	sext.w	a0, a0
	.cfi_def_cfa sp, 16
	ld	ra, 8(sp)
	ld	s0, 0(sp)
	.cfi_restore ra
	.cfi_restore s0
	addi	sp, sp, 16
	.cfi_def_cfa_offset 0
	ret
.LBB87_5:
	.cfi_restore_state
	.cfi_remember_state
	li	a3, 2
	bne	a0, a3, .LBB87_11
	ld	a3, 32(a2)
	sb	zero, 1(a2)
	beqz	a3, .LBB87_9
	slli	a4, a3, 3
	ld	a5, 24(a2)
	addi	a3, a3, -1
	li	a6, 1
	sd	a3, 32(a2)
	add	a4, a4, a5
	lbu	t1, -8(a4)
	lbu	t2, -7(a4)
	lbu	a7, -6(a4)
	lbu	t0, -5(a4)
	lbu	a3, -4(a4)
	lbu	a5, -3(a4)
	lbu	t3, -2(a4)
	lbu	a4, -1(a4)
	sb	a6, 1(a2)
	sb	a6, 8(a1)
	sb	zero, 9(a1)
	sb	zero, 10(a1)
	sb	zero, 11(a1)
	sb	a3, 4(a1)
	sb	a5, 5(a1)
	sb	t3, 6(a1)
	sb	a4, 7(a1)
	sb	t1, 0(a1)
	sb	t2, 1(a1)
	sb	a7, 2(a1)
	sb	t0, 3(a1)
	sb	zero, 12(a1)
	sb	zero, 13(a1)
	sb	zero, 14(a1)
	sb	zero, 15(a1)
	li	a0, 0
	.cfi_def_cfa sp, 16
	ld	ra, 8(sp)
	ld	s0, 0(sp)
	.cfi_restore ra
	.cfi_restore s0
	addi	sp, sp, 16
	.cfi_def_cfa_offset 0
	ret
.LBB87_8:
	.cfi_restore_state
	.cfi_remember_state
	li	a0, 33
	sext.w	a0, a0
	.cfi_def_cfa sp, 16
	ld	ra, 8(sp)
	ld	s0, 0(sp)
	.cfi_restore ra
	.cfi_restore s0
	addi	sp, sp, 16
	.cfi_def_cfa_offset 0
	ret
.LBB87_9:
	.cfi_restore_state
	.cfi_remember_state
	li	a0, 1
	sb	a0, 1(a2)
	li	a0, 35
	sext.w	a0, a0
	.cfi_def_cfa sp, 16
	ld	ra, 8(sp)
	ld	s0, 0(sp)
	.cfi_restore ra
	.cfi_restore s0
	addi	sp, sp, 16
	.cfi_def_cfa_offset 0
	ret
.LBB87_10:
	.cfi_restore_state
	.cfi_remember_state
	li	a0, 0
	call	tlsf_c.call_fault.CallFault.refusal
	sext.w	a0, a0
	.cfi_def_cfa sp, 16
	ld	ra, 8(sp)
	ld	s0, 0(sp)
	.cfi_restore ra
	.cfi_restore s0
	addi	sp, sp, 16
	.cfi_def_cfa_offset 0
	ret
.LBB87_11:
	.cfi_restore_state
	li	a0, 2
	call	tlsf_c.call_fault.CallFault.refusal
	sext.w	a0, a0
	.cfi_def_cfa sp, 16
	ld	ra, 8(sp)
	ld	s0, 0(sp)
	.cfi_restore ra
	.cfi_restore s0
	addi	sp, sp, 16
	.cfi_def_cfa_offset 0
	ret
.Lfunc_end87:
	.size	tlsf_poster_open, .Lfunc_end87-tlsf_poster_open
	.cfi_endproc
	.globl	tlsf_put
	.p2align	1
	.type	tlsf_put,@function
tlsf_put:
	.cfi_startproc
	addi	sp, sp, -64
	.cfi_def_cfa_offset 64
	sd	ra, 56(sp)
	sd	s0, 48(sp)
	sd	s1, 40(sp)
	sd	s2, 32(sp)
	sd	s3, 24(sp)
	sd	s4, 16(sp)
	sd	s5, 8(sp)
	.cfi_offset ra, -8
	.cfi_offset s0, -16
	.cfi_offset s1, -24
	.cfi_offset s2, -32
	.cfi_offset s3, -40
	.cfi_offset s4, -48
	.cfi_offset s5, -56
	addi	s0, sp, 64
	.cfi_def_cfa s0, 0
	.cfi_remember_state
	lbu	a3, 8(a0)
	beqz	a3, .LBB88_8
	ld	a3, 0(a0)
	lbu	a0, 1(a3)
	beqz	a0, .LBB88_8
	lbu	a0, 0(a3)
	bnez	a0, .LBB88_9
	ld	a0, 32(a3)
	ld	a4, 40(a3)
	ld	t0, 24(a3)
	sltu	a5, a4, a0
	slli	a6, t0, 1
	add	a0, a0, t0
	neg	a5, a5
	and	a5, a5, a6
	sub	a0, a0, a4
	sb	zero, 1(a3)
	bne	a0, a5, .LBB88_6
	ld	a0, 8(a3)
	fence	rw, rw
	ld	a0, 0(a0)
	fence	r, rw
	ld	a4, 40(a3)
	ld	t0, 24(a3)
	sltu	a7, a4, a0
	slli	a6, t0, 1
	sub	t1, t0, a4
	neg	a5, a7
	and	a5, a5, a6
	add	t1, t1, a0
	sd	a0, 32(a3)
	bne	t1, a5, .LBB88_6
	li	a0, 1
	sb	a0, 1(a3)
	li	a0, 8
	j	.LBB88_7
.LBB88_6:
	li	a0, 0
	srli	a7, a1, 32
	addi	t1, a6, -1
	addi	a6, a4, 1
	sltu	t3, a4, t0
	ld	t2, 16(a3)
	srli	t4, a1, 24
	srli	t5, a1, 16
	srli	s2, a1, 8
	srli	t6, a2, 56
	srli	s3, a2, 48
	srli	s4, a2, 40
	srli	s5, a2, 32
	addi	t3, t3, -1
	and	a5, t3, t0
	srli	t0, a2, 24
	sltu	t1, a4, t1
	sub	a4, a4, a5
	slli	a5, a4, 3
	slli	a4, a4, 4
	add	a4, a4, a5
	srli	a5, a7, 24
	add	a4, a4, t2
	srli	s1, a7, 16
	sb	a1, 8(a4)
	sb	s2, 9(a4)
	sb	t5, 10(a4)
	sb	t4, 11(a4)
	srli	a1, a7, 8
	sb	a7, 12(a4)
	sb	a1, 13(a4)
	sb	s1, 14(a4)
	sb	a5, 15(a4)
	srli	a1, a2, 16
	sb	s5, 20(a4)
	sb	s4, 21(a4)
	sb	s3, 22(a4)
	sb	t6, 23(a4)
	srli	a5, a2, 8
	neg	s1, t1
	sb	zero, 0(a4)
	sb	zero, 1(a4)
	sb	zero, 2(a4)
	sb	zero, 3(a4)
	sb	zero, 4(a4)
	sb	zero, 5(a4)
	sb	zero, 6(a4)
	sb	zero, 7(a4)
	sb	a2, 16(a4)
	sb	a5, 17(a4)
	sb	a1, 18(a4)
	sb	t0, 19(a4)
	ld	a1, 8(a3)
	and	a2, s1, a6
	fence	rw, w
	sd	a2, 128(a1)
	fence	rw, rw
	li	a1, 1
	sb	a1, 1(a3)
	sd	a2, 40(a3)
.LBB88_7:
	sext.w	a0, a0
	.cfi_def_cfa sp, 64
	ld	ra, 56(sp)
	ld	s0, 48(sp)
	ld	s1, 40(sp)
	ld	s2, 32(sp)
	ld	s3, 24(sp)
	ld	s4, 16(sp)
	ld	s5, 8(sp)
	.cfi_restore ra
	.cfi_restore s0
	.cfi_restore s1
	.cfi_restore s2
	.cfi_restore s3
	.cfi_restore s4
	.cfi_restore s5
	addi	sp, sp, 64
	.cfi_def_cfa_offset 0
	ret
.LBB88_8:
	.cfi_restore_state
	li	a0, 0
	call	tlsf_c.call_fault.CallFault.refusal
	j	.LBB88_7
.LBB88_9:
	li	a0, 2
	call	tlsf_c.call_fault.CallFault.refusal
	j	.LBB88_7
.Lfunc_end88:
	.size	tlsf_put, .Lfunc_end88-tlsf_put
	.cfi_endproc
	.globl	tlsf_put_all
	.p2align	1
	.type	tlsf_put_all,@function
tlsf_put_all:
	.cfi_startproc
	addi	sp, sp, -960
	.cfi_def_cfa_offset 960
	sd	ra, 952(sp)
	sd	s0, 944(sp)
	sd	s1, 936(sp)
	sd	s2, 928(sp)
	sd	s3, 920(sp)
	sd	s4, 912(sp)
	sd	s5, 904(sp)
	sd	s6, 896(sp)
	sd	s7, 888(sp)
	sd	s8, 880(sp)
	sd	s9, 872(sp)
	sd	s10, 864(sp)
	sd	s11, 856(sp)
	.cfi_offset ra, -8
	.cfi_offset s0, -16
	.cfi_offset s1, -24
	.cfi_offset s2, -32
	.cfi_offset s3, -40
	.cfi_offset s4, -48
	.cfi_offset s5, -56
	.cfi_offset s6, -64
	.cfi_offset s7, -72
	.cfi_offset s8, -80
	.cfi_offset s9, -88
	.cfi_offset s10, -96
	.cfi_offset s11, -104
	addi	s0, sp, 960
	.cfi_def_cfa s0, 0
	.cfi_remember_state
	sd	a3, -952(s0)
	mv	s3, a2
	lbu	a2, 8(a0)
	beqz	a2, .LBB89_26
	ld	s4, 0(a0)
	lbu	a0, 1(s4)
	beqz	a0, .LBB89_26
	lbu	a0, 0(s4)
	bnez	a0, .LBB89_27
	sb	zero, 1(s4)
	li	s5, 0
	beqz	s3, .LBB89_24
	seqz	a0, a1
	slli	a0, a0, 12
	add	a0, a0, a1
	addi	a0, a0, 4
	sd	a0, -936(s0)
	sd	s3, -944(s0)
.LBB89_5:
	sub	s6, s3, s5
	li	a0, 32
	bltu	s6, a0, .LBB89_7
	li	s6, 32
.LBB89_7:
	slli	s2, s5, 4
	addi	a0, s0, -872
	li	a2, 768
	li	a1, 0
	call	tlsf_memory_set
	ld	a0, -936(s0)
	add	a0, a0, s2
	addi	a1, s0, -864
	mv	a2, s6
.LBB89_8:
	lbu	t0, -4(a0)
	lbu	a4, -3(a0)
	lbu	a5, -2(a0)
	lb	s1, -1(a0)
	lbu	a6, 0(a0)
	lbu	a7, 1(a0)
	lbu	t1, 2(a0)
	lb	t3, 3(a0)
	slli	a4, a4, 8
	slli	a5, a5, 16
	slli	s1, s1, 24
	or	t0, a4, t0
	or	t2, s1, a5
	lbu	s1, 4(a0)
	lbu	a4, 5(a0)
	lbu	a5, 6(a0)
	lbu	a3, 7(a0)
	slli	a7, a7, 8
	slli	t1, t1, 16
	slli	t3, t3, 24
	slli	a4, a4, 8
	slli	a5, a5, 16
	slli	a3, a3, 24
	or	a6, a7, a6
	or	a7, t3, t1
	or	t1, a4, s1
	or	t3, a3, a5
	lbu	a5, 9(a0)
	lbu	s1, 8(a0)
	lbu	a4, 10(a0)
	lbu	a3, 11(a0)
	slli	a5, a5, 8
	or	a5, a5, s1
	slli	a4, a4, 16
	slli	a3, a3, 24
	or	a3, a3, a4
	or	t0, t2, t0
	or	s1, a7, a6
	addi	a2, a2, -1
	or	a4, t3, t1
	or	a3, a3, a5
	slli	a3, a3, 32
	or	a3, a3, a4
	sd	zero, -8(a1)
	sw	t0, 0(a1)
	sw	s1, 4(a1)
	sd	a3, 8(a1)
	addi	a1, a1, 24
	addi	a0, a0, 16
	bnez	a2, .LBB89_8
	ld	a0, 32(s4)
	ld	s2, 40(s4)
	ld	s10, 24(s4)
	sltu	a1, s2, a0
	slli	a2, s10, 1
	add	a0, a0, s10
	neg	a1, a1
	and	a1, a1, a2
	sub	a0, a0, s2
	sub	a0, a0, a1
	mv	s11, s6
	bgeu	a0, s6, .LBB89_13
	ld	a0, 8(s4)
	fence	rw, rw
	ld	a1, 0(a0)
	fence	r, rw
	ld	s2, 40(s4)
	ld	s10, 24(s4)
	sltu	a0, s2, a1
	slli	a2, s10, 1
	neg	a0, a0
	and	a0, a0, a2
	sub	a2, s10, s2
	add	a2, a2, a1
	sub	a0, a2, a0
	sd	a1, 32(s4)
	mv	s11, a0
	bltu	a0, s6, .LBB89_12
	mv	s11, s6
.LBB89_12:
	beqz	a0, .LBB89_23
.LBB89_13:
	sd	s6, -888(s0)
	sd	s5, -880(s0)
	sltu	a0, s2, s10
	addi	a0, a0, -1
	and	a6, a0, s10
	sub	a7, s2, a6
	sub	s3, s10, a7
	mv	s7, s3
	bltu	s3, s11, .LBB89_15
	mv	s7, s11
.LBB89_15:
	slli	s1, s7, 3
	slli	a2, s7, 4
	lbu	a0, 8(s4)
	sd	a0, -896(s0)
	lbu	a0, 9(s4)
	sd	a0, -928(s0)
	lbu	a0, 10(s4)
	sd	a0, -912(s0)
	lbu	a0, 11(s4)
	sd	a0, -920(s0)
	lbu	t0, 16(s4)
	lbu	a4, 17(s4)
	lbu	a5, 18(s4)
	lbu	a0, 19(s4)
	add	a2, a2, s1
	lbu	t1, 20(s4)
	lbu	s1, 21(s4)
	lbu	a1, 22(s4)
	lbu	a3, 23(s4)
	slli	a4, a4, 8
	slli	a5, a5, 16
	slli	a0, a0, 24
	slli	s1, s1, 8
	slli	a1, a1, 16
	slli	a3, a3, 24
	or	a4, a4, t0
	or	a0, a0, a5
	or	a5, s1, t1
	or	a1, a1, a3
	lbu	a3, 12(s4)
	sd	a3, -904(s0)
	lbu	s6, 13(s4)
	lbu	s9, 14(s4)
	lbu	s8, 15(s4)
	or	a0, a0, a4
	or	a1, a1, a5
	slli	a1, a1, 32
	or	s5, a1, a0
	beq	s10, a7, .LBB89_17
	slli	a0, s2, 3
	slli	a1, s2, 4
	add	a0, a0, a1
	li	a1, -24
	mul	a1, a6, a1
	add	a0, a0, a1
	add	a0, a0, s5
	addi	a1, s0, -872
	mv	s1, a2
	call	tlsf_memory_cpy
	mv	a2, s1
.LBB89_17:
	bgeu	s3, s11, .LBB89_19
	addi	a1, s0, -872
	add	a1, a1, a2
	sub	a0, s11, s7
	slli	a2, a0, 3
	slli	a0, a0, 4
	add	a2, a2, a0
	mv	a0, s5
	call	tlsf_memory_cpy
.LBB89_19:
	ld	a0, -928(s0)
	slli	a0, a0, 8
	ld	a3, -912(s0)
	slli	a3, a3, 16
	ld	a2, -920(s0)
	slli	a2, a2, 24
	slli	s6, s6, 8
	slli	s9, s9, 16
	slli	s8, s8, 24
	srli	a1, s5, 56
	srli	a4, s5, 48
	srli	a5, s5, 40
	ld	s1, -896(s0)
	or	t0, a0, s1
	srli	s1, s5, 32
	or	a2, a2, a3
	srli	a6, s5, 24
	ld	a0, -904(s0)
	or	a3, s6, a0
	srli	a7, s5, 16
	or	a0, s8, s9
	srli	t1, s5, 8
	slli	s10, s10, 1
	sb	s1, 20(s4)
	sb	a5, 21(s4)
	sb	a4, 22(s4)
	sb	a1, 23(s4)
	sub	t2, s10, s2
	or	a2, a2, t0
	or	a0, a0, a3
	slli	a0, a0, 32
	or	a0, a0, a2
	srli	t0, a0, 56
	srli	a3, a0, 48
	srli	a4, a0, 40
	srli	a5, a0, 32
	srli	s1, a0, 24
	srli	a1, a0, 16
	srli	a2, a0, 8
	sb	a5, 12(s4)
	sb	a4, 13(s4)
	sb	a3, 14(s4)
	sb	t0, 15(s4)
	sb	a0, 8(s4)
	sb	a2, 9(s4)
	sb	a1, 10(s4)
	sb	s1, 11(s4)
	sb	s5, 16(s4)
	sb	t1, 17(s4)
	sb	a7, 18(s4)
	sb	a6, 19(s4)
	bltu	s11, t2, .LBB89_21
	neg	s2, t2
.LBB89_21:
	add	s2, s2, s11
	fence	rw, w
	sd	s2, 128(a0)
	fence	rw, rw
	ld	s3, -944(s0)
	ld	s5, -880(s0)
	ld	s6, -888(s0)
	sd	s2, 40(s4)
	add	s5, s5, s11
	bltu	s11, s6, .LBB89_24
.LBB89_22:
	bltu	s5, s3, .LBB89_5
	j	.LBB89_24
.LBB89_23:
	sd	s2, 40(s4)
	mv	s5, s5
	beqz	s6, .LBB89_22
.LBB89_24:
	li	a0, 0
	ld	a1, -952(s0)
	sd	s5, 0(a1)
	li	a1, 1
	sb	a1, 1(s4)
.LBB89_25:
	sext.w	a0, a0
	.cfi_def_cfa sp, 960
	ld	ra, 952(sp)
	ld	s0, 944(sp)
	ld	s1, 936(sp)
	ld	s2, 928(sp)
	ld	s3, 920(sp)
	ld	s4, 912(sp)
	ld	s5, 904(sp)
	ld	s6, 896(sp)
	ld	s7, 888(sp)
	ld	s8, 880(sp)
	ld	s9, 872(sp)
	ld	s10, 864(sp)
	ld	s11, 856(sp)
	.cfi_restore ra
	.cfi_restore s0
	.cfi_restore s1
	.cfi_restore s2
	.cfi_restore s3
	.cfi_restore s4
	.cfi_restore s5
	.cfi_restore s6
	.cfi_restore s7
	.cfi_restore s8
	.cfi_restore s9
	.cfi_restore s10
	.cfi_restore s11
	addi	sp, sp, 960
	.cfi_def_cfa_offset 0
	ret
.LBB89_26:
	.cfi_restore_state
	li	a0, 0
	j	.LBB89_28
.LBB89_27:
	li	a0, 2
.LBB89_28:
	call	tlsf_c.call_fault.CallFault.refusal
	j	.LBB89_25
.Lfunc_end89:
	.size	tlsf_put_all, .Lfunc_end89-tlsf_put_all
	.cfi_endproc
	.globl	tlsf_queue_close
	.p2align	1
	.type	tlsf_queue_close,@function
tlsf_queue_close:
	.cfi_startproc
	lbu	a2, 8(a0)
	li	a1, 32
	beqz	a2, .LBB90_4
	ld	a2, 0(a0)
	lbu	a3, 1(a2)
	beqz	a3, .LBB90_4
	lbu	a1, 0(a2)
	li	a3, 2
	bne	a1, a3, .LBB90_5
	addi	sp, sp, -144
	.cfi_def_cfa_offset 144
	sd	ra, 136(sp)
	sd	s0, 128(sp)
	sd	s1, 120(sp)
	sd	s2, 112(sp)
	sd	s3, 104(sp)
	sd	s4, 96(sp)
	.cfi_offset ra, -8
	.cfi_offset s0, -16
	.cfi_offset s1, -24
	.cfi_offset s2, -32
	.cfi_offset s3, -40
	.cfi_offset s4, -48
	addi	s0, sp, 144
	.cfi_def_cfa s0, 0
	sb	zero, 1(a2)
	lbu	a1, 1(a0)
	lbu	a2, 2(a0)
	lbu	a3, 3(a0)
	lbu	a4, 0(a0)
	slli	a1, a1, 8
	slli	a2, a2, 16
	slli	a3, a3, 24
	or	a1, a1, a4
	or	a2, a2, a3
	lbu	a3, 5(a0)
	lbu	a4, 4(a0)
	lbu	a5, 6(a0)
	lbu	s1, 7(a0)
	slli	a3, a3, 8
	or	a3, a3, a4
	slli	a5, a5, 16
	slli	s1, s1, 24
	or	a5, a5, s1
	or	a1, a1, a2
	or	a3, a3, a5
	slli	a3, a3, 32
	or	s1, a3, a1
	li	a2, 16
	li	a1, 0
	call	tlsf_memory_set
	lbu	s3, 0(s1)
	lbu	s4, 1(s1)
	addi	a1, s1, 8
	addi	s2, s0, -136
	li	a2, 40
	mv	a0, s2
	call	tlsf_memory_cpy
	mv	a0, s1
	call	tlsf_memory_dealloc
	sd	zero, -96(s0)
	sb	s3, -96(s0)
	sb	s4, -95(s0)
	addi	a0, s0, -88
	li	a2, 40
	mv	a1, s2
	call	tlsf_memory_cpy
	addi	a0, s0, -96
	call	tlsf_c.tlsf_c.any_end.AnyEnd.Destruct.drop
	li	a1, 0
	.cfi_def_cfa sp, 144
	ld	ra, 136(sp)
	ld	s0, 128(sp)
	ld	s1, 120(sp)
	ld	s2, 112(sp)
	ld	s3, 104(sp)
	ld	s4, 96(sp)
	.cfi_restore ra
	.cfi_restore s0
	.cfi_restore s1
	.cfi_restore s2
	.cfi_restore s3
	.cfi_restore s4
	addi	sp, sp, 144
	.cfi_def_cfa_offset 0
.LBB90_4:
	mv	a0, a1
	ret
.LBB90_5:
	li	a0, 40
	ret
.Lfunc_end90:
	.size	tlsf_queue_close, .Lfunc_end90-tlsf_queue_close
	.cfi_endproc
	.globl	tlsf_queue_drain
	.p2align	1
	.type	tlsf_queue_drain,@function
tlsf_queue_drain:
	.cfi_startproc
	addi	sp, sp, -112
	.cfi_def_cfa_offset 112
	sd	ra, 104(sp)
	sd	s0, 96(sp)
	sd	s1, 88(sp)
	sd	s2, 80(sp)
	sd	s3, 72(sp)
	sd	s4, 64(sp)
	sd	s5, 56(sp)
	sd	s6, 48(sp)
	sd	s7, 40(sp)
	.cfi_offset ra, -8
	.cfi_offset s0, -16
	.cfi_offset s1, -24
	.cfi_offset s2, -32
	.cfi_offset s3, -40
	.cfi_offset s4, -48
	.cfi_offset s5, -56
	.cfi_offset s6, -64
	.cfi_offset s7, -72
	addi	s0, sp, 112
	.cfi_def_cfa s0, 0
	.cfi_remember_state
	mv	s5, a0
	lbu	a0, 8(a0)
	beqz	a0, .LBB91_12
	ld	a0, 0(s5)
	lbu	a0, 0(a0)
	beqz	a0, .LBB91_12
	lbu	a0, 8(a1)
	beqz	a0, .LBB91_12
	ld	s4, 0(a1)
	lbu	a0, 1(s4)
	beqz	a0, .LBB91_12
	lbu	a0, 0(s4)
	li	a1, 2
	bne	a0, a1, .LBB91_15
	mv	s2, a3
	sext.w	s6, a2
	sb	zero, 1(s4)
	beqz	s6, .LBB91_10
	mv	s7, a2
	li	s1, 0
	addi	s3, s4, 8
.LBB91_7:
	sd	zero, -104(s0)
	sd	zero, -96(s0)
	sd	zero, -88(s0)
	sd	zero, -80(s0)
	addi	a0, s0, -104
	mv	a1, s3
	call	tlsf_c.queue_end.take_once
	lbu	a0, -104(s0)
	bnez	a0, .LBB91_11
	lw	a1, -88(s0)
	lw	a3, -84(s0)
	ld	a2, -80(s0)
	mv	a0, s5
	call	tlsf_c.heap_calls.release_named
	addiw	s1, s1, 1
	bne	s6, s1, .LBB91_7
	mv	s1, s7
	j	.LBB91_11
.LBB91_10:
	li	s1, 0
.LBB91_11:
	li	a0, 0
	sw	s1, 0(s2)
	li	a1, 1
	sb	a1, 1(s4)
	j	.LBB91_14
.LBB91_12:
	li	a0, 0
.LBB91_13:
	call	tlsf_c.call_fault.CallFault.refusal
.LBB91_14:
	sext.w	a0, a0
	.cfi_def_cfa sp, 112
	ld	ra, 104(sp)
	ld	s0, 96(sp)
	ld	s1, 88(sp)
	ld	s2, 80(sp)
	ld	s3, 72(sp)
	ld	s4, 64(sp)
	ld	s5, 56(sp)
	ld	s6, 48(sp)
	ld	s7, 40(sp)
	.cfi_restore ra
	.cfi_restore s0
	.cfi_restore s1
	.cfi_restore s2
	.cfi_restore s3
	.cfi_restore s4
	.cfi_restore s5
	.cfi_restore s6
	.cfi_restore s7
	addi	sp, sp, 112
	.cfi_def_cfa_offset 0
	ret
.LBB91_15:
	.cfi_restore_state
	li	a0, 2
	j	.LBB91_13
.Lfunc_end91:
	.size	tlsf_queue_drain, .Lfunc_end91-tlsf_queue_drain
	.cfi_endproc
	.globl	tlsf_queue_open
	.p2align	1
	.type	tlsf_queue_open,@function
tlsf_queue_open:
	.cfi_startproc
	addi	sp, sp, -352
	.cfi_def_cfa_offset 352
	sd	ra, 344(sp)
	sd	s0, 336(sp)
	sd	s1, 328(sp)
	sd	s2, 320(sp)
	sd	s3, 312(sp)
	sd	s4, 304(sp)
	sd	s5, 296(sp)
	sd	s6, 288(sp)
	sd	s7, 280(sp)
	sd	s8, 272(sp)
	sd	s9, 264(sp)
	sd	s10, 256(sp)
	sd	s11, 248(sp)
	.cfi_offset ra, -8
	.cfi_offset s0, -16
	.cfi_offset s1, -24
	.cfi_offset s2, -32
	.cfi_offset s3, -40
	.cfi_offset s4, -48
	.cfi_offset s5, -56
	.cfi_offset s6, -64
	.cfi_offset s7, -72
	.cfi_offset s8, -80
	.cfi_offset s9, -88
	.cfi_offset s10, -96
	.cfi_offset s11, -104
	addi	s0, sp, 352
	.cfi_def_cfa s0, 0
	.cfi_remember_state
	mv	s2, a1
	lbu	a1, 8(a0)
	sd	zero, -312(s0)
	sd	zero, -304(s0)
	sd	zero, -296(s0)
	beqz	a1, .LBB92_2
	li	a0, 33
	j	.LBB92_50
.LBB92_2:
	li	a1, 1024
	subw	a3, a1, s2
	subw	a4, a1, a2
	or	a3, a3, a4
	bgeu	a3, a1, .LBB92_9
	mv	s11, a2
	mv	s7, a0
	sext.w	s1, s2
	slli	a0, s1, 4
	li	a1, 8
	call	tlsf_memory_alloc
	andi	a0, a0, 1
	beqz	a0, .LBB92_49
	mv	s5, a1
	sd	a1, -288(s0)
	sd	zero, -280(s0)
	sd	s1, -272(s0)
	sext.w	s8, s11
	addi	s4, s8, 48
	slli	s4, s4, 3
	li	a1, 8
	mv	a0, s4
	call	tlsf_memory_alloc
	andi	a0, a0, 1
	beqz	a0, .LBB92_47
	mv	s3, a1
	srli	a0, s8, 1
	lui	a1, 349525
	lui	a2, 209715
	lui	a3, 61681
	lui	a4, 4112
	or	a0, s8, a0
	addi	a1, a1, 1365
	addi	a2, a2, 819
	addi	a3, a3, -241
	addi	a4, a4, 257
	srli	a5, a0, 2
	or	a0, a0, a5
	slli	a5, a1, 32
	add	a1, a1, a5
	slli	a5, a2, 32
	add	a2, a2, a5
	slli	a5, a3, 32
	add	a3, a3, a5
	slli	a5, a4, 32
	add	a4, a4, a5
	srli	a5, a0, 4
	or	a0, a0, a5
	srli	a5, a0, 8
	or	a0, a0, a5
	srli	a5, a0, 16
	or	a0, a0, a5
	srli	a5, a0, 32
	or	a0, a0, a5
	not	a0, a0
	srli	a5, a0, 1
	and	a1, a1, a5
	sub	a0, a0, a1
	and	a1, a0, a2
	srli	a0, a0, 2
	and	a0, a0, a2
	addiw	s2, s2, 1
	add	a0, a0, a1
	srli	a1, a0, 4
	add	a0, a0, a1
	li	a1, 1
	and	a0, a0, a3
	mul	a0, a0, a4
	srli	a0, a0, 56
	neg	a0, a0
	sll	s6, a1, a0
	addi	a2, s4, -8
	mv	a0, s3
	li	a1, 0
	call	tlsf_memory_set
	li	a0, 0
	add	a1, s3, s4
	sd	zero, -8(a1)
	addi	a1, s3, 384
.LBB92_6:
	sd	a0, 0(a1)
	addi	a0, a0, 1
	addi	a1, a1, 8
	bne	s8, a0, .LBB92_6
	sd	zero, -248(s0)
	sd	zero, -240(s0)
	sd	zero, -232(s0)
	slli	a0, s8, 5
	li	a1, 8
	call	tlsf_memory_alloc
	andi	a0, a0, 1
	beqz	a0, .LBB92_41
	mv	s5, a1
	sd	s2, -320(s0)
	li	s9, 0
	addi	a0, s0, -112
	sd	a1, -160(s0)
	sd	zero, -152(s0)
	sd	s8, -144(s0)
	sd	a0, -136(s0)
	mv	s1, s8
	j	.LBB92_12
.LBB92_9:
	li	a0, 5
	j	.LBB92_50
.LBB92_10:
	ld	s5, -160(s0)
	ld	s2, -152(s0)
.LBB92_11:
	slli	s10, s2, 5
	add	a0, s5, s10
	sb	zero, 4(a0)
	sb	zero, 5(a0)
	sb	zero, 6(a0)
	sb	zero, 7(a0)
	sb	zero, 0(a0)
	sb	zero, 1(a0)
	sb	zero, 2(a0)
	sb	zero, 3(a0)
	addi	a0, a0, 8
	addi	a1, s0, -208
	li	a2, 24
	call	tlsf_memory_cpy
	addi	s9, s2, 1
	addi	s1, s1, -1
	sd	s9, -152(s0)
	beqz	s1, .LBB92_17
.LBB92_12:
	ld	a0, -248(s0)
	ld	a1, -240(s0)
	ld	a2, -232(s0)
	ld	a3, -144(s0)
	sd	a0, -208(s0)
	sd	a1, -200(s0)
	sd	a2, -192(s0)
	mv	s2, s9
	bne	a3, s9, .LBB92_11
	addi	a0, s0, -160
	call	std_alloc.vec.Vec.grow_amortized.94730218a1e37034
	bnez	a0, .LBB92_10
	ld	a2, -152(s0)
	ld	a0, -160(s0)
	ld	a1, -144(s0)
	slli	a3, a2, 5
	add	a3, a3, a0
	addi	a3, a3, -32
	addi	a2, a2, 1
.LBB92_15:
	addi	a2, a2, -1
	beqz	a2, .LBB92_58
	lbu	a4, 0(a3)
	addi	a3, a3, -32
	beqz	a4, .LBB92_15
	j	.LBB92_37
.LBB92_17:
	sd	s6, -328(s0)
	ld	s5, -160(s0)
	ld	s1, -144(s0)
	li	a1, 8
	mv	a0, s4
	call	tlsf_memory_alloc
	andi	a0, a0, 1
	beqz	a0, .LBB92_34
	mv	s6, a1
	slli	a0, s9, 5
	bltz	a0, .LBB92_33
	li	a1, 8
	call	tlsf_memory_alloc
	andi	a0, a0, 1
	beqz	a0, .LBB92_33
	sd	s1, -344(s0)
	sd	a1, -336(s0)
	slli	a0, s8, 3
	add	a0, a0, s6
	addi	a0, a0, 384
	mv	a1, s3
	mv	a2, s6
.LBB92_21:
	ld	a3, 0(a1)
	sd	a3, 0(a2)
	addi	a2, a2, 8
	addi	a1, a1, 8
	bne	a2, a0, .LBB92_21
	beqz	s9, .LBB92_25
	ld	s1, -336(s0)
	add	s1, s1, s10
	add	s4, s5, s10
	addi	s1, s1, 8
	addi	s4, s4, 8
	mv	s10, s9
.LBB92_24:
	lbu	a6, 15(s4)
	lbu	a1, 16(s4)
	lbu	a2, 17(s4)
	lbu	t0, 18(s4)
	lbu	t2, 19(s4)
	lbu	a7, 20(s4)
	lbu	t3, 21(s4)
	lbu	t6, 22(s4)
	lbu	t4, 23(s4)
	lbu	t1, 7(s4)
	lbu	a4, 8(s4)
	lbu	a0, 9(s4)
	lbu	ra, 10(s4)
	slli	a2, a2, 8
	or	t5, a2, a1
	lbu	a1, 11(s4)
	lbu	s2, 12(s4)
	lbu	a5, 13(s4)
	lbu	a2, 14(s4)
	slli	t0, t0, 16
	slli	t2, t2, 24
	slli	t3, t3, 8
	slli	t6, t6, 16
	slli	t4, t4, 24
	slli	a0, a0, 8
	or	t0, t2, t0
	or	a7, t3, a7
	or	t2, t4, t6
	or	t4, a0, a4
	lbu	t3, -8(s4)
	lbu	a0, 0(s4)
	lbu	a4, 1(s4)
	lbu	a3, 2(s4)
	slli	ra, ra, 16
	slli	a1, a1, 24
	slli	a5, a5, 8
	slli	a2, a2, 16
	slli	a6, a6, 24
	slli	a4, a4, 8
	or	t6, a1, ra
	or	s2, a5, s2
	or	ra, a6, a2
	or	a6, a4, a0
	lbu	a4, 3(s4)
	lbu	a1, 4(s4)
	lbu	a5, 5(s4)
	lbu	a0, 6(s4)
	slli	a3, a3, 16
	slli	a4, a4, 24
	or	a3, a3, a4
	slli	a5, a5, 8
	or	a1, a1, a5
	slli	a0, a0, 16
	slli	t1, t1, 24
	or	a0, t1, a0
	or	a4, t0, t5
	or	a5, t2, a7
	or	a7, t6, t4
	or	a2, ra, s2
	or	a3, a3, a6
	or	a0, a0, a1
	slli	a5, a5, 32
	or	a4, a4, a5
	slli	a2, a2, 32
	or	a1, a2, a7
	addi	s10, s10, -1
	sb	zero, -4(s1)
	sb	zero, -3(s1)
	sb	zero, -2(s1)
	sb	zero, -1(s1)
	slli	a0, a0, 32
	or	a0, a0, a3
	sd	a0, -160(s0)
	sd	a1, -152(s0)
	sd	a4, -144(s0)
	sb	t3, -8(s1)
	sb	zero, -7(s1)
	sb	zero, -6(s1)
	sb	zero, -5(s1)
	addi	a1, s0, -160
	li	a2, 24
	mv	a0, s1
	call	tlsf_memory_cpy
	addi	s1, s1, -32
	addi	s4, s4, -32
	bnez	s10, .LBB92_24
.LBB92_25:
	ld	a0, -344(s0)
	beqz	a0, .LBB92_27
	mv	a0, s5
	call	tlsf_memory_dealloc
.LBB92_27:
	mv	a0, s3
	call	tlsf_memory_dealloc
	ld	s1, -320(s0)
	mv	a0, s1
.LBB92_28:
	fence	rw, rw
	ld	zero, 0(s6)
	fence	r, rw
	addiw	a0, a0, -1
	bnez	a0, .LBB92_28
.LBB92_29:
	fence	rw, rw
	ld	zero, 0(s6)
	fence	r, rw
	addiw	s11, s11, -1
	bnez	s11, .LBB92_29
	li	a0, 88
	li	a1, 8
	call	tlsf_memory_alloc
	andi	a0, a0, 1
	beqz	a0, .LBB92_51
	mv	s3, a1
	li	a2, 1
	srli	a1, s6, 56
	srli	a0, s6, 40
	sb	a2, 0(s3)
	srli	a2, s6, 32
	sb	a2, 12(s3)
	sb	a2, 44(s3)
	srli	a2, s6, 48
	sb	a0, 13(s3)
	sb	a0, 45(s3)
	srli	a0, s6, 16
	sb	a2, 14(s3)
	sb	a2, 46(s3)
	srli	a2, s6, 8
	sb	a1, 15(s3)
	sb	a1, 47(s3)
	addi	a3, s8, 48
	srli	a1, a3, 40
	sb	a2, 9(s3)
	sb	a2, 41(s3)
	srli	a2, a3, 32
	sb	a2, 28(s3)
	sb	a2, 52(s3)
	srli	a2, a3, 48
	sb	a1, 29(s3)
	sb	a1, 53(s3)
	srli	a1, a3, 56
	sb	a2, 30(s3)
	sb	a2, 54(s3)
	srli	a2, a3, 16
	sb	a1, 31(s3)
	sb	a1, 55(s3)
	srli	a1, a3, 8
	sb	a1, 49(s3)
	sb	a1, 25(s3)
	sb	a3, 24(s3)
	sb	a3, 48(s3)
	srli	a1, a3, 24
	sb	a2, 26(s3)
	sb	a2, 50(s3)
	ld	a3, -336(s0)
	srli	a2, a3, 40
	sb	a1, 27(s3)
	sb	a1, 51(s3)
	srli	a1, a3, 32
	sb	a1, 20(s3)
	sb	a1, 60(s3)
	srli	a1, a3, 48
	sb	a2, 21(s3)
	sb	a2, 61(s3)
	srli	a2, a3, 56
	sb	a1, 22(s3)
	sb	a1, 62(s3)
	srli	a1, a3, 16
	sb	a2, 23(s3)
	sb	a2, 63(s3)
	srli	a2, a3, 8
	sb	a2, 57(s3)
	sb	a2, 17(s3)
	sb	a3, 16(s3)
	sb	a3, 56(s3)
	srli	a2, a3, 24
	sb	a1, 18(s3)
	sb	a1, 58(s3)
	srli	a1, s9, 40
	sb	a2, 19(s3)
	sb	a2, 59(s3)
	srli	a2, s9, 32
	sb	a2, 36(s3)
	sb	a2, 68(s3)
	srli	a2, s9, 48
	sb	a1, 37(s3)
	sb	a1, 69(s3)
	srli	a1, s9, 56
	sb	a2, 38(s3)
	sb	a2, 70(s3)
	srli	a2, s9, 16
	sb	a1, 39(s3)
	sb	a1, 71(s3)
	srli	a1, s9, 8
	sb	a1, 65(s3)
	sb	a1, 33(s3)
	sb	s9, 32(s3)
	sb	s9, 64(s3)
	srli	a1, s9, 24
	sb	a2, 34(s3)
	sb	a2, 66(s3)
	srli	a2, s8, 40
	sb	a1, 35(s3)
	sb	a1, 67(s3)
	srli	a1, s8, 32
	sb	a1, 76(s3)
	srli	a1, s8, 48
	sb	a2, 77(s3)
	srli	a2, s8, 56
	sb	a1, 78(s3)
	srli	a1, s8, 16
	sb	a2, 79(s3)
	srli	a2, s8, 8
	sb	a2, 73(s3)
	sb	s8, 72(s3)
	srli	a2, s8, 24
	sb	a1, 74(s3)
	ld	a3, -328(s0)
	srli	a1, a3, 40
	sb	a2, 75(s3)
	srli	a2, a3, 32
	sb	a2, 84(s3)
	srli	a2, a3, 48
	sb	a1, 85(s3)
	srli	a1, a3, 56
	sb	a2, 86(s3)
	srli	a2, a3, 16
	sb	a1, 87(s3)
	srli	a1, a3, 8
	sb	a1, 81(s3)
	sb	a3, 80(s3)
	srli	a1, a3, 24
	sb	a2, 82(s3)
	sb	a1, 83(s3)
	srli	a1, s6, 24
	sb	a0, 10(s3)
	sb	a0, 42(s3)
	sb	a1, 43(s3)
	sb	a1, 11(s3)
	sb	s6, 8(s3)
	sb	s6, 40(s3)
	sb	zero, 4(s3)
	sb	zero, 5(s3)
	sb	zero, 6(s3)
	sb	zero, 7(s3)
	sb	zero, 1(s3)
	sb	zero, 2(s3)
	sb	zero, 3(s3)
	fence	rw, rw
	ld	zero, 0(s6)
	fence	r, rw
	li	a1, 1
	addi	a3, s0, -288
	mv	a0, s3
	mv	a2, s1
	call	tlsf_post.mailboxes.send_out
	zext.b	a0, a0
	beqz	a0, .LBB92_59
	mv	a0, s3
	call	std_alloc.arc.Arc.drop.f29941b0e8355977
	addi	a0, s0, -288
	call	std_alloc.vec.Vec.drop.05316b64237a7125
	j	.LBB92_49
.LBB92_33:
	mv	a0, s6
	call	tlsf_memory_dealloc
.LBB92_34:
	add	s10, s10, s5
	addi	s2, s2, 2
.LBB92_35:
	addi	s2, s2, -1
	beqz	s2, .LBB92_38
	lbu	a0, 0(s10)
	addi	s10, s10, -32
	beqz	a0, .LBB92_35
.LBB92_37:
	unimp
.LBB92_38:
	beqz	s1, .LBB92_41
	mv	a0, s5
.LBB92_40:
	call	tlsf_memory_dealloc
.LBB92_41:
	mv	a0, s3
	call	tlsf_memory_dealloc
	ld	s5, -288(s0)
	ld	s8, -280(s0)
	ld	s3, -272(s0)
	beqz	s8, .LBB92_46
	li	s6, -1
	li	s7, 1
	mv	s1, s5
	j	.LBB92_44
.LBB92_43:
	addi	s8, s8, -1
	addi	s1, s1, 16
	beqz	s8, .LBB92_46
.LBB92_44:
	lbu	a0, 1(s1)
	lbu	a1, 2(s1)
	lbu	a2, 3(s1)
	lbu	a3, 0(s1)
	slli	a0, a0, 8
	slli	a1, a1, 16
	slli	a2, a2, 24
	or	a0, a0, a3
	or	a1, a1, a2
	lbu	a2, 5(s1)
	lbu	a3, 4(s1)
	lbu	a4, 6(s1)
	lbu	a5, 7(s1)
	slli	a2, a2, 8
	or	a2, a2, a3
	slli	a4, a4, 16
	slli	a5, a5, 24
	or	a4, a4, a5
	or	a0, a0, a1
	or	a2, a2, a4
	slli	a2, a2, 32
	or	a0, a0, a2
	amoadd.d.aqrl	a1, s6, (a0)
	bne	a1, s7, .LBB92_43
	lbu	a1, 40(a0)
	lbu	a2, 41(a0)
	lbu	a3, 42(a0)
	lbu	a4, 43(a0)
	lbu	a6, 44(a0)
	lbu	a7, 45(a0)
	lbu	t0, 46(a0)
	lbu	a5, 47(a0)
	slli	a2, a2, 8
	slli	a3, a3, 16
	slli	a4, a4, 24
	or	t1, a2, a1
	or	t2, a4, a3
	lbu	a2, 56(a0)
	lbu	a4, 57(a0)
	lbu	a1, 58(a0)
	lbu	a3, 59(a0)
	slli	a7, a7, 8
	slli	t0, t0, 16
	slli	a5, a5, 24
	slli	a4, a4, 8
	slli	a1, a1, 16
	slli	a3, a3, 24
	or	a6, a7, a6
	or	t0, a5, t0
	or	a7, a4, a2
	or	a1, a1, a3
	lbu	a3, 61(a0)
	lbu	a4, 60(a0)
	lbu	a2, 62(a0)
	lbu	a5, 63(a0)
	slli	a3, a3, 8
	or	a3, a3, a4
	slli	a2, a2, 16
	slli	a5, a5, 24
	or	a2, a2, a5
	or	a4, t2, t1
	or	a5, t0, a6
	or	a1, a1, a7
	or	a2, a2, a3
	slli	a5, a5, 32
	slli	a2, a2, 32
	or	s4, a5, a4
	or	s2, a2, a1
	call	tlsf_memory_dealloc
	mv	a0, s4
	call	tlsf_memory_dealloc
	mv	a0, s2
	call	tlsf_memory_dealloc
	j	.LBB92_43
.LBB92_46:
	beqz	s3, .LBB92_49
.LBB92_47:
	mv	a0, s5
.LBB92_48:
	call	tlsf_memory_dealloc
.LBB92_49:
	li	a0, 6
.LBB92_50:
	.cfi_def_cfa sp, 352
	ld	ra, 344(sp)
	ld	s0, 336(sp)
	ld	s1, 328(sp)
	ld	s2, 320(sp)
	ld	s3, 312(sp)
	ld	s4, 304(sp)
	ld	s5, 296(sp)
	ld	s6, 288(sp)
	ld	s7, 280(sp)
	ld	s8, 272(sp)
	ld	s9, 264(sp)
	ld	s10, 256(sp)
	ld	s11, 248(sp)
	.cfi_restore ra
	.cfi_restore s0
	.cfi_restore s1
	.cfi_restore s2
	.cfi_restore s3
	.cfi_restore s4
	.cfi_restore s5
	.cfi_restore s6
	.cfi_restore s7
	.cfi_restore s8
	.cfi_restore s9
	.cfi_restore s10
	.cfi_restore s11
	addi	sp, sp, 352
	.cfi_def_cfa_offset 0
	ret
.LBB92_51:
	.cfi_restore_state
	mv	a0, s6
	call	tlsf_memory_dealloc
	ld	a0, -336(s0)
	call	tlsf_memory_dealloc
	ld	s2, -288(s0)
	ld	s8, -280(s0)
	ld	s4, -272(s0)
	beqz	s8, .LBB92_56
	li	s6, -1
	li	s7, 1
	mv	s1, s2
	j	.LBB92_54
.LBB92_53:
	addi	s8, s8, -1
	addi	s1, s1, 16
	beqz	s8, .LBB92_56
.LBB92_54:
	lbu	a0, 1(s1)
	lbu	a1, 2(s1)
	lbu	a2, 3(s1)
	lbu	a3, 0(s1)
	slli	a0, a0, 8
	slli	a1, a1, 16
	slli	a2, a2, 24
	or	a0, a0, a3
	or	a1, a1, a2
	lbu	a2, 5(s1)
	lbu	a3, 4(s1)
	lbu	a4, 6(s1)
	lbu	a5, 7(s1)
	slli	a2, a2, 8
	or	a2, a2, a3
	slli	a4, a4, 16
	slli	a5, a5, 24
	or	a4, a4, a5
	or	a0, a0, a1
	or	a2, a2, a4
	slli	a2, a2, 32
	or	a0, a0, a2
	amoadd.d.aqrl	a1, s6, (a0)
	bne	a1, s7, .LBB92_53
	lbu	a1, 40(a0)
	lbu	a2, 41(a0)
	lbu	a3, 42(a0)
	lbu	a4, 43(a0)
	lbu	a6, 44(a0)
	lbu	a7, 45(a0)
	lbu	t0, 46(a0)
	lbu	a5, 47(a0)
	slli	a2, a2, 8
	slli	a3, a3, 16
	slli	a4, a4, 24
	or	t1, a2, a1
	or	t2, a4, a3
	lbu	a2, 56(a0)
	lbu	a4, 57(a0)
	lbu	a1, 58(a0)
	lbu	a3, 59(a0)
	slli	a7, a7, 8
	slli	t0, t0, 16
	slli	a5, a5, 24
	slli	a4, a4, 8
	slli	a1, a1, 16
	slli	a3, a3, 24
	or	a6, a7, a6
	or	t0, a5, t0
	or	a7, a4, a2
	or	a1, a1, a3
	lbu	a3, 61(a0)
	lbu	a4, 60(a0)
	lbu	a2, 62(a0)
	lbu	a5, 63(a0)
	slli	a3, a3, 8
	or	a3, a3, a4
	slli	a2, a2, 16
	slli	a5, a5, 24
	or	a2, a2, a5
	or	a4, t2, t1
	or	a5, t0, a6
	or	a1, a1, a7
	or	a2, a2, a3
	slli	a5, a5, 32
	slli	a2, a2, 32
	or	s5, a5, a4
	or	s3, a2, a1
	call	tlsf_memory_dealloc
	mv	a0, s5
	call	tlsf_memory_dealloc
	mv	a0, s3
	call	tlsf_memory_dealloc
	j	.LBB92_53
.LBB92_56:
	beqz	s4, .LBB92_49
.LBB92_57:
	mv	a0, s2
	j	.LBB92_48
.LBB92_58:
	bnez	a1, .LBB92_40
	j	.LBB92_41
.LBB92_59:
	ld	s2, -288(s0)
	ld	s6, -280(s0)
	ld	s8, -272(s0)
	sd	zero, -248(s0)
	sd	zero, -240(s0)
	sd	zero, -232(s0)
	sd	zero, -224(s0)
	sd	zero, -216(s0)
	sd	zero, -288(s0)
	sd	zero, -280(s0)
	sd	zero, -272(s0)
	sd	zero, -264(s0)
	sd	zero, -256(s0)
	beqz	s6, .LBB92_71
	srli	a0, s6, 60
	bnez	a0, .LBB92_66
	slli	a0, s6, 3
	li	a1, 8
	call	tlsf_memory_alloc
	andi	a0, a0, 1
	beqz	a0, .LBB92_66
	sd	s8, -344(s0)
	sd	zero, -320(s0)
	sd	s2, -336(s0)
	addi	s10, s2, 8
	sd	a1, -328(s0)
	mv	s4, a1
.LBB92_63:
	lbu	a0, -7(s10)
	lbu	a1, -8(s10)
	lbu	a2, -6(s10)
	lbu	a3, -5(s10)
	slli	a0, a0, 8
	or	a0, a0, a1
	lbu	a1, -4(s10)
	lbu	a4, -3(s10)
	lbu	a5, -2(s10)
	lbu	s1, -1(s10)
	slli	a2, a2, 16
	slli	a3, a3, 24
	slli	a4, a4, 8
	slli	a5, a5, 16
	slli	s1, s1, 24
	or	a2, a2, a3
	or	a1, a1, a4
	or	a5, a5, s1
	or	a0, a0, a2
	lbu	s2, 0(s10)
	lbu	s9, 1(s10)
	lbu	s11, 2(s10)
	lbu	s8, 3(s10)
	or	a1, a1, a5
	slli	a1, a1, 32
	or	s5, a1, a0
	li	a0, 48
	li	a1, 8
	call	tlsf_memory_alloc
	andi	a0, a0, 1
	beqz	a0, .LBB92_75
	mv	s1, a1
	ld	a0, -320(s0)
	addi	a0, a0, 1
	sd	a0, -320(s0)
	slli	s9, s9, 8
	slli	s11, s11, 16
	slli	s8, s8, 24
	srli	a6, s5, 56
	srli	a7, s5, 48
	srli	a2, s5, 40
	srli	a3, s5, 32
	or	a4, s9, s2
	srli	a5, s5, 24
	or	a0, s8, s11
	srli	a1, s5, 16
	sb	a1, 10(s1)
	sb	a5, 11(s1)
	sb	a3, 12(s1)
	sb	a2, 13(s1)
	srli	a1, s5, 8
	sb	zero, 22(s1)
	sb	zero, 23(s1)
	li	a2, 3
	sb	a2, 0(s1)
	li	a2, 1
	sb	a2, 1(s1)
	sb	s5, 8(s1)
	sb	a1, 9(s1)
	or	a0, a0, a4
	srli	a1, a0, 24
	srli	a2, a0, 16
	srli	a3, a0, 8
	sb	a2, 18(s1)
	sb	a1, 19(s1)
	sb	zero, 20(s1)
	sb	zero, 21(s1)
	sb	a7, 14(s1)
	sb	a6, 15(s1)
	sb	a0, 16(s1)
	sb	a3, 17(s1)
	addi	a0, s1, 24
	li	a2, 24
	li	a1, 0
	call	tlsf_memory_set
	srli	a0, s1, 56
	srli	a1, s1, 48
	srli	a2, s1, 40
	srli	a3, s1, 32
	srli	a4, s1, 24
	srli	a5, s1, 16
	sb	a3, 4(s4)
	sb	a2, 5(s4)
	sb	a1, 6(s4)
	sb	a0, 7(s4)
	srli	a0, s1, 8
	sb	s1, 0(s4)
	sb	a0, 1(s4)
	sb	a5, 2(s4)
	sb	a4, 3(s4)
	addi	s4, s4, 8
	addi	s10, s10, 16
	ld	a0, -320(s0)
	bne	s6, a0, .LBB92_63
	ld	s1, -328(s0)
	ld	s2, -336(s0)
	ld	s8, -344(s0)
	j	.LBB92_72
.LBB92_66:
	mv	s1, s2
	j	.LBB92_68
.LBB92_67:
	addi	s6, s6, -1
	addi	s1, s1, 16
	beqz	s6, .LBB92_70
.LBB92_68:
	lbu	a0, 1(s1)
	lbu	a1, 2(s1)
	lbu	a2, 3(s1)
	lbu	a3, 0(s1)
	slli	a0, a0, 8
	slli	a1, a1, 16
	slli	a2, a2, 24
	or	a0, a0, a3
	or	a1, a1, a2
	lbu	a2, 5(s1)
	lbu	a3, 4(s1)
	lbu	a4, 6(s1)
	lbu	a5, 7(s1)
	slli	a2, a2, 8
	or	a2, a2, a3
	slli	a4, a4, 16
	slli	a5, a5, 24
	or	a4, a4, a5
	or	a0, a0, a1
	or	a2, a2, a4
	slli	a2, a2, 32
	or	a0, a0, a2
	li	a1, -1
	amoadd.d.aqrl	a1, a1, (a0)
	li	a2, 1
	bne	a1, a2, .LBB92_67
	lbu	a1, 40(a0)
	lbu	a2, 41(a0)
	lbu	a3, 42(a0)
	lbu	a4, 43(a0)
	lbu	a6, 44(a0)
	lbu	a7, 45(a0)
	lbu	t0, 46(a0)
	lbu	a5, 47(a0)
	slli	a2, a2, 8
	slli	a3, a3, 16
	slli	a4, a4, 24
	or	t1, a2, a1
	or	t2, a4, a3
	lbu	a2, 56(a0)
	lbu	a4, 57(a0)
	lbu	a1, 58(a0)
	lbu	a3, 59(a0)
	slli	a7, a7, 8
	slli	t0, t0, 16
	slli	a5, a5, 24
	slli	a4, a4, 8
	slli	a1, a1, 16
	slli	a3, a3, 24
	or	a6, a7, a6
	or	t0, a5, t0
	or	a7, a4, a2
	or	a1, a1, a3
	lbu	a3, 61(a0)
	lbu	a4, 60(a0)
	lbu	a2, 62(a0)
	lbu	a5, 63(a0)
	slli	a3, a3, 8
	or	a3, a3, a4
	slli	a2, a2, 16
	slli	a5, a5, 24
	or	a2, a2, a5
	or	a4, t2, t1
	or	a5, t0, a6
	or	a1, a1, a7
	or	a2, a2, a3
	slli	a5, a5, 32
	slli	a2, a2, 32
	or	s5, a5, a4
	or	s4, a2, a1
	call	tlsf_memory_dealloc
	mv	a0, s5
	call	tlsf_memory_dealloc
	mv	a0, s4
	call	tlsf_memory_dealloc
	j	.LBB92_67
.LBB92_70:
	bnez	s8, .LBB92_81
	j	.LBB92_82
.LBB92_71:
	addi	s1, s0, -112
.LBB92_72:
	sd	s2, -288(s0)
	sd	zero, -280(s0)
	sd	s8, -272(s0)
	sd	s6, -264(s0)
	sd	zero, -256(s0)
	addi	a0, s0, -288
	call	std_alloc.vec.deque.VecDeque.drop.ca3d8856d46a41b8
	li	a0, 48
	li	a1, 8
	call	tlsf_memory_alloc
	andi	a0, a0, 1
	beqz	a0, .LBB92_74
	li	a0, 0
	li	a7, 2
	srli	t0, s3, 56
	srli	t1, s3, 48
	srli	t4, s3, 40
	srli	t6, s3, 32
	srli	s5, s3, 24
	srli	s10, s3, 16
	srli	t5, s3, 8
	sb	zero, 18(a1)
	sb	zero, 19(a1)
	sb	zero, 20(a1)
	sb	zero, 21(a1)
	srli	t2, s1, 56
	srli	t3, s1, 48
	srli	s2, s1, 40
	srli	s4, s1, 32
	srli	s9, s1, 24
	srli	s11, s1, 16
	srli	s8, s1, 8
	srli	ra, s6, 56
	srli	a6, s6, 48
	srli	a2, s6, 40
	srli	a4, s6, 32
	srli	a5, s6, 24
	sb	s10, 10(a1)
	srli	a3, s6, 16
	sb	s5, 11(a1)
	srli	s5, s6, 8
	sb	t6, 12(a1)
	srli	t6, a1, 56
	sb	t4, 13(a1)
	srli	t4, a1, 48
	sb	a7, 0(a1)
	li	s10, 1
	sb	s10, 1(a1)
	sb	s3, 8(a1)
	sb	t5, 9(a1)
	srli	a7, a1, 40
	sb	s11, 26(a1)
	sb	s9, 27(a1)
	sb	s4, 28(a1)
	sb	s2, 29(a1)
	srli	t5, a1, 32
	sb	zero, 22(a1)
	sb	zero, 23(a1)
	sb	s1, 24(a1)
	sb	s8, 25(a1)
	srli	s2, a1, 24
	sb	a3, 34(a1)
	sb	a5, 35(a1)
	sb	a4, 36(a1)
	sb	a2, 37(a1)
	sb	a3, 42(a1)
	sb	a5, 43(a1)
	sb	a4, 44(a1)
	sb	a2, 45(a1)
	srli	a2, a1, 16
	sb	t3, 30(a1)
	sb	t2, 31(a1)
	sb	s6, 32(a1)
	sb	s5, 33(a1)
	sb	a6, 46(a1)
	sb	ra, 47(a1)
	sb	a6, 38(a1)
	sb	ra, 39(a1)
	sb	s6, 40(a1)
	sb	s5, 41(a1)
	srli	a3, a1, 8
	sb	t1, 14(a1)
	sb	t0, 15(a1)
	sb	zero, 16(a1)
	sb	zero, 17(a1)
	sb	t5, 4(s7)
	sb	a7, 5(s7)
	sb	t4, 6(s7)
	sb	t6, 7(s7)
	sb	a1, 0(s7)
	sb	a3, 1(s7)
	sb	a2, 2(s7)
	sb	s2, 3(s7)
	sb	s10, 8(s7)
	sb	zero, 9(s7)
	sb	zero, 10(s7)
	sb	zero, 11(s7)
	sb	zero, 12(s7)
	sb	zero, 13(s7)
	sb	zero, 14(s7)
	sb	zero, 15(s7)
	j	.LBB92_50
.LBB92_74:
	mv	a0, s3
	call	std_alloc.arc.Arc.drop.c4a047e811255370
	sd	s1, -312(s0)
	sd	s6, -304(s0)
	sd	s6, -296(s0)
	addi	a0, s0, -312
	call	std_alloc.vec.Vec.drop.7ac45d8413b9ad54
	j	.LBB92_49
.LBB92_75:
	li	a0, -1
	amoadd.d.aqrl	a0, a0, (s5)
	ld	s8, -320(s0)
	not	s7, s8
	add	s7, s7, s6
	li	a1, 1
	addi	s4, s8, 1
	bne	a0, a1, .LBB92_77
	lbu	a0, 40(s5)
	lbu	a1, 41(s5)
	lbu	a2, 42(s5)
	lbu	a3, 43(s5)
	lbu	a6, 44(s5)
	lbu	a5, 45(s5)
	lbu	s1, 46(s5)
	lbu	a4, 47(s5)
	slli	a1, a1, 8
	slli	a2, a2, 16
	slli	a3, a3, 24
	or	a7, a1, a0
	or	t0, a3, a2
	lbu	a1, 56(s5)
	lbu	a3, 57(s5)
	lbu	a0, 58(s5)
	lbu	a2, 59(s5)
	slli	a5, a5, 8
	slli	s1, s1, 16
	slli	a4, a4, 24
	slli	a3, a3, 8
	slli	a0, a0, 16
	slli	a2, a2, 24
	or	a6, a5, a6
	or	a4, a4, s1
	or	a1, a1, a3
	or	a0, a0, a2
	lbu	a2, 61(s5)
	lbu	a3, 60(s5)
	lbu	s1, 62(s5)
	lbu	a5, 63(s5)
	slli	a2, a2, 8
	or	a2, a2, a3
	slli	s1, s1, 16
	slli	a5, a5, 24
	or	a5, a5, s1
	or	a3, t0, a7
	or	a4, a4, a6
	or	a0, a0, a1
	or	a2, a2, a5
	slli	a4, a4, 32
	slli	a2, a2, 32
	or	s1, a4, a3
	or	s6, a2, a0
	mv	a0, s5
	call	tlsf_memory_dealloc
	mv	a0, s1
	call	tlsf_memory_dealloc
	mv	a0, s6
	call	tlsf_memory_dealloc
.LBB92_77:
	ld	a0, -336(s0)
	sd	a0, -248(s0)
	sd	s7, -240(s0)
	ld	a0, -344(s0)
	sd	a0, -232(s0)
	sd	s4, -224(s0)
	sd	zero, -216(s0)
	addi	a0, s0, -248
	call	std_alloc.vec.deque.VecDeque.drop.ca3d8856d46a41b8
	beqz	s8, .LBB92_80
	addi	s5, s0, -202
	addi	s2, s0, -152
	slli	s4, s8, 3
	ld	s1, -328(s0)
	add	s4, s4, s1
.LBB92_79:
	lbu	a0, 1(s1)
	lbu	a1, 2(s1)
	lbu	a2, 3(s1)
	lbu	a3, 0(s1)
	slli	a0, a0, 8
	slli	a1, a1, 16
	slli	a2, a2, 24
	or	a0, a0, a3
	or	a1, a1, a2
	lbu	a2, 5(s1)
	lbu	a3, 4(s1)
	lbu	a4, 6(s1)
	lbu	a5, 7(s1)
	slli	a2, a2, 8
	or	a2, a2, a3
	slli	a4, a4, 16
	slli	a5, a5, 24
	or	a4, a4, a5
	or	a0, a0, a1
	or	a2, a2, a4
	slli	a2, a2, 32
	or	s6, a2, a0
	lbu	s7, 0(s6)
	lbu	s8, 1(s6)
	addi	a1, s6, 8
	li	a2, 40
	mv	a0, s5
	call	tlsf_memory_cpy
	mv	a0, s6
	call	tlsf_memory_dealloc
	sd	zero, -160(s0)
	sb	s7, -160(s0)
	sb	s8, -159(s0)
	li	a2, 40
	mv	a0, s2
	mv	a1, s5
	call	tlsf_memory_cpy
	addi	a0, s0, -160
	call	tlsf_c.tlsf_c.any_end.AnyEnd.Destruct.drop
	addi	s1, s1, 8
	bne	s1, s4, .LBB92_79
.LBB92_80:
	ld	s2, -328(s0)
.LBB92_81:
	mv	a0, s2
	call	tlsf_memory_dealloc
.LBB92_82:
	li	a0, -1
	amoadd.d.aqrl	a1, a0, (s3)
	li	a2, 1
	li	a0, 6
	bne	a1, a2, .LBB92_50
	lbu	a0, 40(s3)
	lbu	a1, 41(s3)
	lbu	a2, 42(s3)
	lbu	a3, 43(s3)
	lbu	a6, 44(s3)
	lbu	a5, 45(s3)
	lbu	s1, 46(s3)
	lbu	a4, 47(s3)
	slli	a1, a1, 8
	slli	a2, a2, 16
	slli	a3, a3, 24
	or	a7, a1, a0
	or	t0, a3, a2
	lbu	a1, 56(s3)
	lbu	a3, 57(s3)
	lbu	a0, 58(s3)
	lbu	a2, 59(s3)
	slli	a5, a5, 8
	slli	s1, s1, 16
	slli	a4, a4, 24
	slli	a3, a3, 8
	slli	a0, a0, 16
	slli	a2, a2, 24
	or	a6, a5, a6
	or	a4, a4, s1
	or	a1, a1, a3
	or	a0, a0, a2
	lbu	a2, 61(s3)
	lbu	a3, 60(s3)
	lbu	s1, 62(s3)
	lbu	a5, 63(s3)
	slli	a2, a2, 8
	or	a2, a2, a3
	slli	s1, s1, 16
	slli	a5, a5, 24
	or	a5, a5, s1
	or	a3, t0, a7
	or	a4, a4, a6
	or	a0, a0, a1
	or	a2, a2, a5
	slli	a4, a4, 32
	slli	a2, a2, 32
	or	s1, a4, a3
	or	s2, a2, a0
	mv	a0, s3
	call	tlsf_memory_dealloc
	mv	a0, s1
	call	tlsf_memory_dealloc
	j	.LBB92_57
.Lfunc_end92:
	.size	tlsf_queue_open, .Lfunc_end92-tlsf_queue_open
	.cfi_endproc
	.globl	tlsf_queue_post
	.p2align	1
	.type	tlsf_queue_post,@function
tlsf_queue_post:
	.cfi_startproc
	addi	sp, sp, -96
	.cfi_def_cfa_offset 96
	sd	ra, 88(sp)
	sd	s0, 80(sp)
	sd	s1, 72(sp)
	sd	s2, 64(sp)
	sd	s3, 56(sp)
	sd	s4, 48(sp)
	sd	s5, 40(sp)
	sd	s6, 32(sp)
	sd	s7, 24(sp)
	sd	s8, 16(sp)
	sd	s9, 8(sp)
	.cfi_offset ra, -8
	.cfi_offset s0, -16
	.cfi_offset s1, -24
	.cfi_offset s2, -32
	.cfi_offset s3, -40
	.cfi_offset s4, -48
	.cfi_offset s5, -56
	.cfi_offset s6, -64
	.cfi_offset s7, -72
	.cfi_offset s8, -80
	.cfi_offset s9, -88
	addi	s0, sp, 96
	.cfi_def_cfa s0, 0
	.cfi_remember_state
	lbu	a3, 8(a0)
	beqz	a3, .LBB93_13
	ld	t4, 0(a0)
	lbu	a0, 1(t4)
	beqz	a0, .LBB93_13
	lbu	a0, 0(t4)
	li	a4, 3
	bne	a0, a4, .LBB93_14
	ld	t3, 8(t4)
	sb	zero, 1(t4)
	lw	t1, 16(t4)
	ld	a0, 8(t3)
	fence	rw, rw
	ld	t2, 128(a0)
	fence	r, rw
	ld	a0, 80(t3)
	ld	a5, 8(t3)
	fence	rw, rw
	addi	a0, a0, -1
	and	a0, a0, t2
	slli	a6, a0, 3
	add	a5, a5, a6
	ld	a5, 384(a5)
	fence	r, rw
	srli	a4, t2, 62
	li	a3, 2
	bltu	a3, a4, .LBB93_7
	bne	a5, t2, .LBB93_7
	ld	a3, 72(t3)
	addi	a4, a0, 1
	bgeu	a4, a3, .LBB93_10
	addi	a7, t2, 1
	ld	a3, 8(t3)
	addi	a3, a3, 128
.LBB93_18:
	lr.d.aqrl	a4, (a3)
	bne	a4, t2, .LBB93_20
	sc.d.rl	a5, a7, (a3)
	bnez	a5, .LBB93_18
.LBB93_20:
	beq	a4, t2, .LBB93_11
.LBB93_7:
	ld	a0, 8(t4)
	ld	a1, 8(a0)
	fence	rw, rw
	ld	a1, 128(a1)
	fence	r, rw
	ld	a2, 8(a0)
	fence	rw, rw
	ld	a2, 256(a2)
	fence	r, rw
	ld	a0, 80(a0)
	sltu	a3, a1, a0
	sub	a1, a1, a0
	xor	a1, a1, a2
	snez	a0, a1
	or	a0, a0, a3
	li	a1, 1
	sb	a1, 1(t4)
	beqz	a0, .LBB93_9
	li	a0, 37
	j	.LBB93_16
.LBB93_9:
	li	a0, 8
	j	.LBB93_16
.LBB93_10:
	ld	a7, 80(t3)
	sub	a3, t2, a0
	add	a7, a7, a3
	ld	a3, 8(t3)
	addi	a3, a3, 128
.LBB93_21:
	lr.d.aqrl	a4, (a3)
	bne	a4, t2, .LBB93_23
	sc.d.rl	a5, a7, (a3)
	bnez	a5, .LBB93_21
.LBB93_23:
	bne	a4, t2, .LBB93_7
.LBB93_11:
	srli	t0, a1, 32
	ld	t5, 16(t3)
	slli	t6, a0, 5
	li	a7, 1
	srli	s2, t1, 24
	srli	s5, t1, 16
	srli	a3, t1, 8
	srli	s9, a1, 24
	srli	s1, a1, 16
	srli	a4, a1, 8
	srli	s3, a2, 56
	srli	s4, a2, 48
	srli	s6, a2, 40
	srli	a5, a2, 32
	srli	s7, a2, 24
	srli	s8, a2, 16
	add	t5, t5, t6
	srli	a0, t0, 24
	sb	t1, 8(t5)
	sb	a3, 9(t5)
	sb	s5, 10(t5)
	sb	s2, 11(t5)
	srli	a3, t0, 16
	sb	a1, 16(t5)
	sb	a4, 17(t5)
	sb	s1, 18(t5)
	sb	s9, 19(t5)
	srli	a1, t0, 8
	sb	t0, 20(t5)
	sb	a1, 21(t5)
	sb	a3, 22(t5)
	sb	a0, 23(t5)
	lbu	a0, 0(t5)
	sb	zero, 4(t5)
	sb	zero, 5(t5)
	sb	zero, 6(t5)
	sb	zero, 7(t5)
	sb	a7, 0(t5)
	sb	zero, 1(t5)
	sb	zero, 2(t5)
	sb	zero, 3(t5)
	sb	zero, 12(t5)
	sb	zero, 13(t5)
	sb	zero, 14(t5)
	sb	zero, 15(t5)
	sb	a5, 28(t5)
	sb	s6, 29(t5)
	sb	s4, 30(t5)
	sb	s3, 31(t5)
	srli	a1, a2, 8
	sb	a2, 24(t5)
	sb	a1, 25(t5)
	sb	s8, 26(t5)
	sb	s7, 27(t5)
	bnez	a0, .LBB93_17
	ld	a1, 8(t3)
	add	a1, a1, a6
	addi	t2, t2, 1
	fence	rw, w
	sd	t2, 384(a1)
	fence	rw, rw
	sb	a7, 1(t4)
	j	.LBB93_16
.LBB93_13:
	li	a0, 0
	j	.LBB93_15
.LBB93_14:
	li	a0, 2
.LBB93_15:
	call	tlsf_c.call_fault.CallFault.refusal
.LBB93_16:
	sext.w	a0, a0
	.cfi_def_cfa sp, 96
	ld	ra, 88(sp)
	ld	s0, 80(sp)
	ld	s1, 72(sp)
	ld	s2, 64(sp)
	ld	s3, 56(sp)
	ld	s4, 48(sp)
	ld	s5, 40(sp)
	ld	s6, 32(sp)
	ld	s7, 24(sp)
	ld	s8, 16(sp)
	ld	s9, 8(sp)
	.cfi_restore ra
	.cfi_restore s0
	.cfi_restore s1
	.cfi_restore s2
	.cfi_restore s3
	.cfi_restore s4
	.cfi_restore s5
	.cfi_restore s6
	.cfi_restore s7
	.cfi_restore s8
	.cfi_restore s9
	addi	sp, sp, 96
	.cfi_def_cfa_offset 0
	ret
.LBB93_17:
	.cfi_restore_state
	unimp
.Lfunc_end93:
	.size	tlsf_queue_post, .Lfunc_end93-tlsf_queue_post
	.cfi_endproc
	.globl	tlsf_queue_take
	.p2align	1
	.type	tlsf_queue_take,@function
tlsf_queue_take:
	.cfi_startproc
	addi	sp, sp, -64
	.cfi_def_cfa_offset 64
	sd	ra, 56(sp)
	sd	s0, 48(sp)
	sd	s1, 40(sp)
	sd	s2, 32(sp)
	.cfi_offset ra, -8
	.cfi_offset s0, -16
	.cfi_offset s1, -24
	.cfi_offset s2, -32
	addi	s0, sp, 64
	.cfi_def_cfa s0, 0
	.cfi_remember_state
	lbu	a2, 8(a0)
	beqz	a2, .LBB94_8
	ld	s2, 0(a0)
	lbu	a0, 1(s2)
	beqz	a0, .LBB94_8
	mv	s1, a1
	lbu	a0, 0(s2)
	li	a1, 2
	bne	a0, a1, .LBB94_9
	addi	a1, s2, 8
	sb	zero, 1(s2)
	sd	zero, -64(s0)
	sd	zero, -56(s0)
	sd	zero, -48(s0)
	sd	zero, -40(s0)
	addi	a0, s0, -64
	call	tlsf_c.queue_end.take_once
	lbu	a0, -64(s0)
	beqz	a0, .LBB94_5
	lbu	a0, -63(s0)
.Lpcrel_hi33:
	auipc	a1, %pcrel_hi(.Lswitch.table.tlsf_queue_take)
	slli	a0, a0, 2
	addi	a1, a1, %pcrel_lo(.Lpcrel_hi33)
	add	a0, a0, a1
	lw	a0, 0(a0)
	j	.LBB94_6
.LBB94_5:
	lw	a1, -48(s0)
	lw	a2, -44(s0)
	ld	a3, -40(s0)
	srli	a6, a1, 24
	srli	t0, a1, 16
	srli	t4, a1, 8
	srli	a7, a2, 24
	srli	t1, a2, 16
	srli	t5, a2, 8
	srli	t2, a3, 56
	srli	t3, a3, 48
	srli	a4, a3, 40
	srli	a5, a3, 32
	sb	a1, 0(s1)
	sb	t4, 1(s1)
	sb	t0, 2(s1)
	sb	a6, 3(s1)
	srli	a1, a3, 24
	sb	a2, 4(s1)
	sb	t5, 5(s1)
	sb	t1, 6(s1)
	sb	a7, 7(s1)
	srli	a2, a3, 16
	sb	a5, 12(s1)
	sb	a4, 13(s1)
	sb	t3, 14(s1)
	sb	t2, 15(s1)
	srli	a4, a3, 8
	sb	a3, 8(s1)
	sb	a4, 9(s1)
	sb	a2, 10(s1)
	sb	a1, 11(s1)
.LBB94_6:
	li	a1, 1
	sb	a1, 1(s2)
.LBB94_7:
	sext.w	a0, a0
	.cfi_def_cfa sp, 64
	ld	ra, 56(sp)
	ld	s0, 48(sp)
	ld	s1, 40(sp)
	ld	s2, 32(sp)
	.cfi_restore ra
	.cfi_restore s0
	.cfi_restore s1
	.cfi_restore s2
	addi	sp, sp, 64
	.cfi_def_cfa_offset 0
	ret
.LBB94_8:
	.cfi_restore_state
	li	a0, 0
	j	.LBB94_10
.LBB94_9:
	li	a0, 2
.LBB94_10:
	call	tlsf_c.call_fault.CallFault.refusal
	j	.LBB94_7
.Lfunc_end94:
	.size	tlsf_queue_take, .Lfunc_end94-tlsf_queue_take
	.cfi_endproc
	.globl	tlsf_read
	.p2align	1
	.type	tlsf_read,@function
tlsf_read:
	.cfi_startproc
	addi	sp, sp, -32
	.cfi_def_cfa_offset 32
	sd	ra, 24(sp)
	sd	s0, 16(sp)
	sd	s1, 8(sp)
	sd	s2, 0(sp)
	.cfi_offset ra, -8
	.cfi_offset s0, -16
	.cfi_offset s1, -24
	.cfi_offset s2, -32
	addi	s0, sp, 32
	.cfi_def_cfa s0, 0
	.cfi_remember_state
	mv	a6, a4
	mv	a4, a0
	lbu	s1, 8(a0)
	li	a0, 32
	beqz	s1, .LBB95_22
	ld	s2, 0(a4)
	lbu	a4, 0(s2)
	beqz	a4, .LBB95_22
	seqz	a0, a6
	slli	a0, a0, 12
	lbu	a4, 16(s2)
	lw	t0, 24(s2)
	add	a6, a6, a0
	srli	a7, a1, 32
	sb	zero, 0(s2)
	sext.w	a0, a1
	beqz	a4, .LBB95_10
	bne	t0, a0, .LBB95_19
	lw	a0, 56(s2)
	sext.w	a4, a7
	bgeu	a4, a0, .LBB95_18
	ld	a0, 72(s2)
	srli	a4, a1, 35
	andi	a4, a4, -8
	add	a0, a0, a4
	ld	a0, 0(a0)
	srl	a0, a0, a7
	andi	a0, a0, 1
	beqz	a0, .LBB95_18
	addi	a0, s2, 48
	ld	t0, 0(a0)
	slli	a4, a7, 3
	add	a4, a4, t0
	lbu	s1, 0(a4)
	andi	s1, s1, 1
	bnez	s1, .LBB95_18
	ld	s1, 8(a4)
	bne	s1, a2, .LBB95_18
	lwu	a1, 16(a4)
	slli	a2, a3, 32
	srli	a2, a2, 32
	add	a2, a2, a5
	bltu	a1, a2, .LBB95_16
	mv	a1, a7
	mv	a2, a3
	mv	a3, a6
	mv	a4, a5
	call	tlsf_heap.region.Region.read.5
	li	a0, 0
	j	.LBB95_20
.LBB95_10:
	bne	t0, a0, .LBB95_19
	lw	a0, 56(s2)
	sext.w	a4, a7
	bgeu	a4, a0, .LBB95_18
	ld	a0, 72(s2)
	srli	a4, a1, 35
	andi	a4, a4, -8
	add	a0, a0, a4
	ld	a0, 0(a0)
	srl	a0, a0, a7
	andi	a0, a0, 1
	beqz	a0, .LBB95_18
	addi	a0, s2, 48
	ld	t0, 0(a0)
	slli	a4, a7, 3
	add	t0, t0, a4
	lbu	a4, 0(t0)
	andi	a4, a4, 1
	bnez	a4, .LBB95_18
	ld	a4, 8(t0)
	bne	a4, a2, .LBB95_18
	lwu	a1, 16(t0)
	slli	a2, a3, 32
	srli	a2, a2, 32
	add	a2, a2, a5
	bgeu	a1, a2, .LBB95_23
.LBB95_16:
	li	a0, 4
	li	a1, 1
	andi	a1, a1, 1
	beqz	a1, .LBB95_20
.LBB95_17:
	zext.b	a0, a0
.Lpcrel_hi34:
	auipc	a1, %pcrel_hi(.Lswitch.table.tlsf_write)
	slli	a0, a0, 2
	addi	a1, a1, %pcrel_lo(.Lpcrel_hi34)
	add	a0, a0, a1
	lw	a0, 0(a0)
	j	.LBB95_21
.LBB95_18:
	mv	t0, a1
.LBB95_19:
	mv	a0, a1
	mv	a1, t0
	call	tlsf_heap.refusal.Refusal.of_name
	li	a1, 1
	andi	a1, a1, 1
	bnez	a1, .LBB95_17
.LBB95_20:
	li	a0, 0
.LBB95_21:
	li	a1, 1
	sb	a1, 0(s2)
.LBB95_22:
	.cfi_def_cfa sp, 32
	ld	ra, 24(sp)
	ld	s0, 16(sp)
	ld	s1, 8(sp)
	ld	s2, 0(sp)
	.cfi_restore ra
	.cfi_restore s0
	.cfi_restore s1
	.cfi_restore s2
	addi	sp, sp, 32
	.cfi_def_cfa_offset 0
	ret
.LBB95_23:
	.cfi_restore_state
	mv	a1, a7
	mv	a2, a3
	mv	a3, a6
	mv	a4, a5
	call	tlsf_heap.region.Region.read.4
	li	a0, 0
	j	.LBB95_20
.Lfunc_end95:
	.size	tlsf_read, .Lfunc_end95-tlsf_read
	.cfi_endproc
	.section	.rodata.cst32,"aM",@progbits,32
.LCPI96_0:
	.ascii	"\000\001\034\002\035\016\030\003\036\026\024\017\031\021\004\b\037\033\r\027\025\023\020\007\032\f\022\006\013\005\n\t"
	.text
	.globl	tlsf_reallocate
	.p2align	1
	.type	tlsf_reallocate,@function
tlsf_reallocate:
	.cfi_startproc
	lbu	a4, 8(a0)
	li	a3, 32
	beqz	a4, .LBB96_75
	addi	sp, sp, -176
	.cfi_def_cfa_offset 176
	sd	ra, 168(sp)
	sd	s0, 160(sp)
	sd	s1, 152(sp)
	sd	s2, 144(sp)
	sd	s3, 136(sp)
	sd	s4, 128(sp)
	sd	s5, 120(sp)
	sd	s6, 112(sp)
	sd	s7, 104(sp)
	sd	s8, 96(sp)
	sd	s9, 88(sp)
	sd	s10, 80(sp)
	sd	s11, 72(sp)
	.cfi_offset ra, -8
	.cfi_offset s0, -16
	.cfi_offset s1, -24
	.cfi_offset s2, -32
	.cfi_offset s3, -40
	.cfi_offset s4, -48
	.cfi_offset s5, -56
	.cfi_offset s6, -64
	.cfi_offset s7, -72
	.cfi_offset s8, -80
	.cfi_offset s9, -88
	.cfi_offset s10, -96
	.cfi_offset s11, -104
	addi	s0, sp, 176
	.cfi_def_cfa s0, 0
	.cfi_remember_state
	ld	s8, 0(a0)
	lbu	a4, 0(s8)
	beqz	a4, .LBB96_74
	li	a3, -1
	srli	a3, a3, 32
	sd	a2, -144(s0)
	bltu	a2, a3, .LBB96_4
	sd	a3, -144(s0)
.LBB96_4:
	sb	zero, 0(s8)
	lbu	t1, 0(a1)
	lbu	a4, 1(a1)
	lbu	a5, 2(a1)
	lbu	s1, 3(a1)
	lbu	a6, 4(a1)
	lbu	a7, 5(a1)
	lbu	t0, 6(a1)
	lbu	t3, 7(a1)
	slli	a4, a4, 8
	slli	a5, a5, 16
	slli	s1, s1, 24
	or	t1, a4, t1
	or	t2, s1, a5
	lbu	s1, 8(a1)
	lbu	a4, 9(a1)
	lbu	a5, 10(a1)
	lbu	a3, 11(a1)
	slli	a7, a7, 8
	slli	t0, t0, 16
	slli	t3, t3, 24
	slli	a4, a4, 8
	slli	a5, a5, 16
	slli	a3, a3, 24
	or	a6, a7, a6
	or	a7, t3, t0
	or	t0, a4, s1
	or	t3, a3, a5
	lbu	a5, 13(a1)
	lbu	s1, 12(a1)
	lbu	a4, 14(a1)
	lbu	a3, 15(a1)
	slli	a5, a5, 8
	or	a5, a5, s1
	slli	a4, a4, 16
	slli	a3, a3, 24
	or	a3, a3, a4
	or	s7, t2, t1
	or	s3, a7, a6
	or	a4, t3, t0
	or	a5, a5, a3
	lbu	s1, 16(s8)
	lw	a3, 24(s8)
	slli	a5, a5, 32
	or	s10, a5, a4
	sext.w	a4, s7
	beqz	s1, .LBB96_19
	bne	a4, a3, .LBB96_34
	lw	a4, 56(s8)
	sext.w	a5, s3
	mv	a3, s7
	bgeu	a5, a4, .LBB96_34
	ld	a3, 72(s8)
	srli	a4, s3, 3
	andi	a4, a4, -8
	add	a3, a3, a4
	ld	a3, 0(a3)
	srl	a3, a3, s3
	andi	a4, a3, 1
	mv	a3, s7
	beqz	a4, .LBB96_34
	addi	ra, s8, 48
	ld	a6, 0(ra)
	slli	a7, s3, 3
	add	a5, a6, a7
	ld	s1, 0(a5)
	andi	a4, s1, 1
	mv	a3, s7
	bnez	a4, .LBB96_34
	ld	a4, 8(a5)
	mv	a3, s7
	bne	a4, s10, .LBB96_34
	seqz	s5, a2
	ld	a2, -144(s0)
	add	a2, a2, s5
	addi	a2, a2, 31
	srli	t4, a2, 3
	sext.w	a4, t4
	srliw	s4, s1, 2
	bgeu	s4, a4, .LBB96_35
	andi	a3, s1, 2
	bnez	a3, .LBB96_13
	add	a3, s4, s3
	slli	a3, a3, 32
	srli	a3, a3, 29
	add	a3, a3, a6
	ld	a3, 0(a3)
	andi	a5, a3, 1
	bnez	a5, .LBB96_14
.LBB96_13:
	li	a3, 0
.LBB96_14:
	srliw	a5, a3, 2
	add	a5, a5, s4
	bgeu	a5, a4, .LBB96_52
	sd	s10, -128(s0)
	ld	s10, 32(s8)
	li	a3, -3
	sw	s7, -136(s0)
	sw	s3, -132(s0)
	bltu	a3, s10, .LBB96_73
	lui	a3, 32768
	addi	a3, a3, 7
	bltu	a3, a2, .LBB96_31
	ori	a2, t4, 32
	lui	a3, 349525
	lui	a4, 209715
	srliw	a5, a2, 1
	addi	a3, a3, 1365
	or	a2, a2, a5
	srliw	a5, a2, 2
	or	a2, a2, a5
	srliw	a5, a2, 4
	or	a2, a2, a5
	srliw	a5, a2, 8
	or	a2, a2, a5
	srliw	a5, a2, 16
	or	a2, a2, a5
	not	a2, a2
	srli	a5, a2, 1
	and	a3, a3, a5
	lui	a5, 61681
	addi	a4, a4, 819
	sub	a2, a2, a3
	and	a3, a2, a4
	srli	a2, a2, 2
	and	a2, a2, a4
	lui	a4, 4112
	add	a2, a2, a3
	srli	a3, a2, 4
	add	a2, a2, a3
	li	a3, 26
	addi	a5, a5, -241
	and	a2, a2, a5
	addi	a5, t4, -1
	addi	a4, a4, 257
	mul	a2, a2, a4
	srliw	a2, a2, 24
	sub	a3, a3, a2
	srlw	a4, a5, a3
	slli	a3, a3, 5
	add	a3, a3, a4
	addiw	a2, a3, 1
	addi	a2, a2, -1
	srli	a3, a2, 5
	slli	a5, a3, 2
	add	a5, a5, s8
	lw	a5, 108(a5)
	srlw	a4, a5, a4
	andi	a4, a4, -2
	beqz	a4, .LBB96_78
	neg	a3, a4
	and	a3, a3, a4
	lui	a4, 30667
	addi	a4, a4, 1329
	mul	a3, a3, a4
.Lpcrel_hi41:
	auipc	a4, %pcrel_hi(.LCPI96_0)
	srliw	a3, a3, 27
	addi	a4, a4, %pcrel_lo(.Lpcrel_hi41)
	add	a3, a3, a4
	lbu	a3, 0(a3)
	add	a2, a2, a3
	j	.LBB96_86
.LBB96_19:
	bne	a4, a3, .LBB96_34
	lw	a4, 56(s8)
	sext.w	a5, s3
	mv	a3, s7
	bgeu	a5, a4, .LBB96_34
	ld	a3, 72(s8)
	srli	a4, s3, 3
	andi	a4, a4, -8
	add	a3, a3, a4
	ld	a3, 0(a3)
	srl	a3, a3, s3
	andi	a4, a3, 1
	mv	a3, s7
	beqz	a4, .LBB96_34
	addi	ra, s8, 48
	ld	a4, 0(ra)
	slli	a7, s3, 3
	add	a5, a4, a7
	ld	s6, 0(a5)
	andi	s1, s6, 1
	mv	a3, s7
	bnez	s1, .LBB96_34
	ld	s1, 8(a5)
	mv	a3, s7
	bne	s1, s10, .LBB96_34
	seqz	s5, a2
	ld	a2, -144(s0)
	add	a2, a2, s5
	addi	a2, a2, 31
	srli	s9, a2, 3
	sext.w	s1, s9
	srliw	s4, s6, 2
	bgeu	s4, s1, .LBB96_43
	andi	a3, s6, 2
	bnez	a3, .LBB96_27
	add	a3, s4, s3
	slli	a3, a3, 32
	srli	a3, a3, 29
	add	a3, a3, a4
	ld	a3, 0(a3)
	andi	a5, a3, 1
	bnez	a5, .LBB96_28
.LBB96_27:
	li	a3, 0
.LBB96_28:
	srliw	a5, a3, 2
	add	a5, a5, s4
	bgeu	a5, s1, .LBB96_59
	sd	s10, -128(s0)
	ld	s10, 32(s8)
	li	a3, -3
	sw	s7, -136(s0)
	sw	s3, -132(s0)
	bltu	a3, s10, .LBB96_73
	lui	a3, 2048
	addi	a3, a3, 7
	bgeu	a3, a2, .LBB96_76
.LBB96_31:
	lw	a1, 8(s8)
	lw	a0, 12(s8)
	addiw	a1, a1, 1
	snez	a2, a1
	addi	a2, a2, -1
	or	a1, a1, a2
	lw	s9, -144(s0)
	sw	a1, 8(s8)
	bltu	a0, s9, .LBB96_33
	mv	s9, a0
.LBB96_33:
	li	a3, 1
	sb	a3, 0(s8)
	sw	s9, 12(s8)
	j	.LBB96_74
.LBB96_34:
	mv	a0, s7
	mv	a1, a3
	call	tlsf_heap.refusal.Refusal.of_name
	zext.b	a0, a0
	li	a1, 1
	sb	a1, 0(s8)
	addi	a0, a0, -3
	seqz	a3, a0
	addi	a3, a3, 3
	j	.LBB96_74
.LBB96_35:
	ld	s2, 32(s8)
	li	a2, -1
	beq	s2, a2, .LBB96_73
	lw	s11, 16(a5)
	ld	a3, -144(s0)
	sext.w	a2, a3
	sd	a3, 16(a5)
	bgeu	s11, a2, .LBB96_41
	andi	s6, s11, 7
	sd	a0, -160(s0)
	beqz	s6, .LBB96_39
	ld	a2, 0(ra)
	slli	a3, s11, 32
	srli	a3, a3, 32
	add	a3, a3, a7
	addi	a3, a3, 24
	andi	a3, a3, -8
	add	a2, a2, a3
	sd	a2, -168(s0)
	ld	a2, 0(a2)
.Lpcrel_hi39:
	auipc	a3, %pcrel_hi(.Lstatic.0)
	li	a4, 8
	sd	a2, -136(s0)
	addi	a5, s0, -136
	addi	a3, a3, %pcrel_lo(.Lpcrel_hi39)
	sub	a2, a4, s6
	add	a3, a3, s6
	or	a0, a5, s6
	sd	s5, -152(s0)
	mv	s5, a1
	mv	a1, a3
	mv	s9, t4
	call	tlsf_memory_cpy
	mv	t4, s9
	addi	ra, s8, 48
	ld	a0, -160(s0)
	mv	a1, s5
	ld	s5, -152(s0)
	ld	a2, -136(s0)
	ld	a3, -168(s0)
	sd	a2, 0(a3)
.LBB96_39:
	srliw	a2, s11, 3
	snez	a3, s6
	ld	a5, -144(s0)
	srliw	a4, a5, 3
	add	a2, a2, a3
	andi	a3, a5, 7
	snez	a3, a3
	add	a3, a3, a4
	beq	a3, a2, .LBB96_41
	sub	a3, a3, a2
	ld	a4, 0(ra)
	add	a2, a2, s3
	addi	a2, a2, 3
	slli	a5, a3, 32
	slli	a2, a2, 32
	srli	a2, a2, 29
	add	a0, a4, a2
	srli	a2, a5, 29
	mv	s11, s5
	mv	s5, a1
	li	a1, 0
	mv	s9, ra
	mv	s6, t4
	call	tlsf_memory_set
	mv	t4, s6
	mv	ra, s9
	ld	a0, -160(s0)
	mv	a1, s5
	mv	s5, s11
.LBB96_41:
	addiw	a3, t4, 4
	mv	a2, s4
	bltu	s4, a3, .LBB96_51
	mv	s6, a0
	mv	a0, ra
	mv	s11, a1
	mv	a1, s3
	mv	a2, s1
	mv	a3, t4
	mv	a4, s2
	mv	s1, t4
	call	tlsf_heap.refitting.split_off.5
	mv	a0, s6
	mv	a1, s11
	mv	a2, s1
	j	.LBB96_51
.LBB96_43:
	ld	s11, 32(s8)
	li	a2, -1
	beq	s11, a2, .LBB96_73
	lw	s1, 16(a5)
	ld	a3, -144(s0)
	sext.w	a2, a3
	sd	a3, 16(a5)
	bgeu	s1, a2, .LBB96_49
	andi	s2, s1, 7
	sd	a0, -160(s0)
	beqz	s2, .LBB96_47
	ld	a2, 0(ra)
	slli	a3, s1, 32
	srli	a3, a3, 32
	add	a3, a3, a7
	addi	a3, a3, 24
	andi	a3, a3, -8
	sd	s5, -152(s0)
	add	s5, a2, a3
	ld	a2, 0(s5)
.Lpcrel_hi35:
	auipc	a3, %pcrel_hi(.Lstatic.0)
	li	a4, 8
	sd	a2, -136(s0)
	addi	a5, s0, -136
	addi	a3, a3, %pcrel_lo(.Lpcrel_hi35)
	sub	a2, a4, s2
	add	a3, a3, s2
	or	a0, a5, s2
	sd	s9, -168(s0)
	mv	s9, a1
	mv	a1, a3
	call	tlsf_memory_cpy
	addi	ra, s8, 48
	ld	a0, -160(s0)
	mv	a1, s9
	ld	s9, -168(s0)
	ld	a2, -136(s0)
	sd	a2, 0(s5)
	ld	s5, -152(s0)
.LBB96_47:
	srliw	a2, s1, 3
	snez	a3, s2
	ld	a5, -144(s0)
	srliw	a4, a5, 3
	add	a2, a2, a3
	andi	a3, a5, 7
	snez	a3, a3
	add	a3, a3, a4
	beq	a3, a2, .LBB96_49
	sub	a3, a3, a2
	ld	a4, 0(ra)
	add	a2, a2, s3
	addi	a2, a2, 3
	slli	a5, a3, 32
	slli	a2, a2, 32
	srli	a2, a2, 29
	add	a0, a4, a2
	srli	a2, a5, 29
	mv	s1, a1
	li	a1, 0
	mv	s2, ra
	call	tlsf_memory_set
	mv	ra, s2
	ld	a0, -160(s0)
	mv	a1, s1
.LBB96_49:
	addiw	a3, s9, 4
	mv	a2, s4
	bltu	s4, a3, .LBB96_51
	mv	s2, a0
	mv	a0, ra
	mv	s1, a1
	mv	a1, s3
	mv	a2, s6
	mv	a3, s9
	mv	a4, s11
	call	tlsf_heap.refitting.split_off.4
	mv	a0, s2
	mv	a1, s1
	mv	a2, s9
.LBB96_51:
	lw	a3, 40(s8)
	ld	a4, 32(s8)
	sub	a2, a2, s4
	add	a2, a2, a3
	addi	a4, a4, 1
	sd	a4, 32(s8)
	sw	a2, 40(s8)
	j	.LBB96_69
.LBB96_52:
	ld	a5, 32(s8)
	li	a2, -1
	beq	a5, a2, .LBB96_73
	sd	s5, -152(s0)
	ld	s9, -144(s0)
	sext.w	s6, s9
	mv	s2, a0
	mv	a0, ra
	mv	s11, a1
	mv	a1, s3
	mv	a2, s1
	mv	a4, t4
	mv	s1, a7
	call	tlsf_heap.refitting.recut.5
	mv	a4, s1
	addi	a5, s8, 48
	mv	a1, s11
	mv	a2, a0
	mv	a0, s2
	ld	a3, 0(a5)
	add	a3, a3, s1
	lw	s1, 16(a3)
	slli	a2, a2, 32
	srli	s5, a2, 32
	sd	s9, 16(a3)
	bgeu	s1, s6, .LBB96_58
	andi	s6, s1, 7
	beqz	s6, .LBB96_56
	ld	a0, 0(a5)
	slli	a1, s1, 32
	srli	a1, a1, 32
	add	a1, a1, a4
	addi	a1, a1, 24
	andi	a1, a1, -8
	add	s9, a0, a1
	ld	a0, 0(s9)
.Lpcrel_hi40:
	auipc	a1, %pcrel_hi(.Lstatic.0)
	li	a2, 8
	sd	a0, -136(s0)
	addi	a0, s0, -136
	addi	a1, a1, %pcrel_lo(.Lpcrel_hi40)
	sub	a2, a2, s6
	add	a1, a1, s6
	or	a0, a0, s6
	call	tlsf_memory_cpy
	addi	a5, s8, 48
	mv	a0, s2
	mv	a1, s11
	ld	a2, -136(s0)
	sd	a2, 0(s9)
.LBB96_56:
	srliw	s1, s1, 3
	snez	a2, s6
	ld	a3, -144(s0)
	srliw	a4, a3, 3
	add	a2, a2, s1
	andi	a3, a3, 7
	snez	a3, a3
	add	a3, a3, a4
	beq	a3, a2, .LBB96_58
	sub	a3, a3, a2
	ld	a0, 0(a5)
	add	a2, a2, s3
	addi	a2, a2, 3
	slli	a3, a3, 32
	slli	a2, a2, 32
	srli	a2, a2, 29
	add	a0, a0, a2
	srli	a2, a3, 29
	li	a1, 0
	call	tlsf_memory_set
	mv	a0, s2
	mv	a1, s11
.LBB96_58:
	lw	a2, 40(s8)
	lw	a3, 44(s8)
	sub	a4, s5, s4
	j	.LBB96_66
.LBB96_59:
	ld	a5, 32(s8)
	li	a2, -1
	beq	a5, a2, .LBB96_73
	sd	s5, -152(s0)
	ld	s2, -144(s0)
	sext.w	s5, s2
	sd	a0, -160(s0)
	mv	a0, ra
	mv	s11, a1
	mv	a1, s3
	mv	a2, s6
	mv	a4, s9
	mv	s1, a7
	call	tlsf_heap.refitting.recut.4
	addi	a5, s8, 48
	mv	a1, s11
	mv	a2, a0
	ld	a0, -160(s0)
	ld	a3, 0(a5)
	add	a3, a3, s1
	lw	s9, 16(a3)
	slli	a2, a2, 32
	srli	s6, a2, 32
	sd	s2, 16(a3)
	bgeu	s9, s5, .LBB96_65
	andi	s2, s9, 7
	beqz	s2, .LBB96_63
	ld	a0, 0(a5)
	slli	a1, s9, 32
	srli	a1, a1, 32
	add	a1, a1, s1
	addi	a1, a1, 24
	andi	a1, a1, -8
	mv	s1, s6
	add	s6, a0, a1
	ld	a0, 0(s6)
.Lpcrel_hi36:
	auipc	a1, %pcrel_hi(.Lstatic.0)
	li	a2, 8
	sd	a0, -136(s0)
	addi	a0, s0, -136
	addi	a1, a1, %pcrel_lo(.Lpcrel_hi36)
	sub	a2, a2, s2
	add	a1, a1, s2
	or	a0, a0, s2
	call	tlsf_memory_cpy
	addi	a5, s8, 48
	ld	a0, -160(s0)
	mv	a1, s11
	ld	a2, -136(s0)
	sd	a2, 0(s6)
	mv	s6, s1
.LBB96_63:
	srliw	s1, s9, 3
	snez	a2, s2
	ld	a3, -144(s0)
	srliw	a4, a3, 3
	add	a2, a2, s1
	andi	a3, a3, 7
	snez	a3, a3
	add	a3, a3, a4
	beq	a3, a2, .LBB96_65
	sub	a3, a3, a2
	ld	a0, 0(a5)
	add	a2, a2, s3
	addi	a2, a2, 3
	slli	a3, a3, 32
	slli	a2, a2, 32
	srli	a2, a2, 29
	add	a0, a0, a2
	srli	a2, a3, 29
	li	a1, 0
	call	tlsf_memory_set
	ld	a0, -160(s0)
	mv	a1, s11
.LBB96_65:
	lw	a2, 40(s8)
	lw	a3, 44(s8)
	sub	a4, s6, s4
.LBB96_66:
	addw	a2, a2, a4
	sw	a2, 40(s8)
	bgeu	a3, a2, .LBB96_68
	sw	a2, 44(s8)
.LBB96_68:
	ld	a2, 32(s8)
	addi	a2, a2, 1
	sd	a2, 32(s8)
	ld	s5, -152(s0)
.LBB96_69:
	li	a2, 1
	ld	a3, -144(s0)
	add	a3, a3, s5
	addi	a3, a3, -1
	andi	a3, a3, 8
	sb	a2, 0(s8)
	beqz	a3, .LBB96_72
	lbu	a2, 28(a0)
	bnez	a2, .LBB96_72
	li	a2, 1
	sb	a2, 28(a0)
.LBB96_72:
	li	a3, 0
	srli	a6, s7, 24
	srli	t1, s7, 16
	srli	a4, s7, 8
	srli	a7, s3, 24
	srli	t2, s3, 16
	srli	a0, s3, 8
	srli	t0, s10, 56
	srli	a5, s10, 48
	srli	a2, s10, 40
	srli	s1, s10, 32
	sb	s7, 0(a1)
	sb	a4, 1(a1)
	sb	t1, 2(a1)
	sb	a6, 3(a1)
	srli	a4, s10, 24
	sb	s3, 4(a1)
	sb	a0, 5(a1)
	sb	t2, 6(a1)
	sb	a7, 7(a1)
	srli	a0, s10, 16
	sb	s1, 12(a1)
	sb	a2, 13(a1)
	sb	a5, 14(a1)
	sb	t0, 15(a1)
	srli	a2, s10, 8
	sb	s10, 8(a1)
	sb	a2, 9(a1)
	sb	a0, 10(a1)
	sb	a4, 11(a1)
	j	.LBB96_74
.LBB96_73:
	li	a0, 1
	sb	a0, 0(s8)
	li	a3, 2
.LBB96_74:
	.cfi_def_cfa sp, 176
	ld	ra, 168(sp)
	ld	s0, 160(sp)
	ld	s1, 152(sp)
	ld	s2, 144(sp)
	ld	s3, 136(sp)
	ld	s4, 128(sp)
	ld	s5, 120(sp)
	ld	s6, 112(sp)
	ld	s7, 104(sp)
	ld	s8, 96(sp)
	ld	s9, 88(sp)
	ld	s10, 80(sp)
	ld	s11, 72(sp)
	.cfi_restore ra
	.cfi_restore s0
	.cfi_restore s1
	.cfi_restore s2
	.cfi_restore s3
	.cfi_restore s4
	.cfi_restore s5
	.cfi_restore s6
	.cfi_restore s7
	.cfi_restore s8
	.cfi_restore s9
	.cfi_restore s10
	.cfi_restore s11
	addi	sp, sp, 176
	.cfi_def_cfa_offset 0
.LBB96_75:
	mv	a0, a3
	ret
.LBB96_76:
	.cfi_restore_state
	ori	a2, s9, 16
	lui	a3, 349525
	lui	a5, 209715
	srliw	s1, a2, 1
	addi	a3, a3, 1365
	or	a2, a2, s1
	srliw	s1, a2, 2
	or	a2, a2, s1
	srliw	s1, a2, 4
	or	a2, a2, s1
	srliw	s1, a2, 8
	or	a2, a2, s1
	srliw	s1, a2, 16
	or	a2, a2, s1
	not	s1, a2
	srli	a2, s1, 1
	and	a2, a2, a3
	lui	a3, 61681
	addi	a5, a5, 819
	sub	s1, s1, a2
	and	a2, s1, a5
	srli	s1, s1, 2
	and	a5, a5, s1
	lui	s1, 4112
	add	a2, a2, a5
	srli	a5, a2, 4
	add	a2, a2, a5
	li	a5, 27
	addi	a3, a3, -241
	and	a2, a2, a3
	addi	a3, s9, -1
	addi	s1, s1, 257
	mul	a2, a2, s1
	srliw	a2, a2, 24
	sub	a5, a5, a2
	srlw	s1, a3, a5
	slli	a5, a5, 4
	add	a5, a5, s1
	addiw	a2, a5, 1
	addi	a2, a2, -1
	srli	a3, a2, 4
	slli	a5, a3, 2
	add	a5, a5, s8
	lw	a5, 108(a5)
	andi	s1, s1, 15
	srlw	a5, a5, s1
	andi	a5, a5, -2
	beqz	a5, .LBB96_81
	neg	a3, a5
	and	a3, a3, a5
	lui	a5, 30667
	addi	a5, a5, 1329
	mul	a3, a3, a5
.Lpcrel_hi37:
	auipc	a5, %pcrel_hi(.LCPI96_0)
	srliw	a3, a3, 27
	addi	a5, a5, %pcrel_lo(.Lpcrel_hi37)
	add	a3, a3, a5
	lbu	a3, 0(a3)
	add	a2, a2, a3
	j	.LBB96_110
.LBB96_78:
	lw	a2, 104(s8)
	li	a4, -2
	sllw	a3, a4, a3
	and	a2, a2, a3
	beqz	a2, .LBB96_31
	neg	a3, a2
	lui	a4, 30667
.Lpcrel_hi42:
	auipc	a5, %pcrel_hi(.LCPI96_0)
	and	a2, a2, a3
	addi	a3, a4, 1329
	mul	a2, a2, a3
	srliw	a2, a2, 27
	addi	a4, a5, %pcrel_lo(.Lpcrel_hi42)
	add	a2, a2, a4
	lbu	a2, 0(a2)
	slli	a5, a2, 2
	add	a5, a5, s8
	lw	a5, 108(a5)
	beqz	a5, .LBB96_84
	neg	s1, a5
	and	a5, a5, s1
	mul	a3, a5, a3
	srliw	a3, a3, 27
	add	a3, a3, a4
	lbu	a3, 0(a3)
	j	.LBB96_85
.LBB96_81:
	lw	a2, 104(s8)
	li	a5, -2
	sllw	a3, a5, a3
	and	a2, a2, a3
	beqz	a2, .LBB96_31
	neg	a3, a2
	lui	a5, 30667
.Lpcrel_hi38:
	auipc	s1, %pcrel_hi(.LCPI96_0)
	and	a2, a2, a3
	addi	a3, a5, 1329
	mul	a2, a2, a3
	srliw	a2, a2, 27
	addi	a5, s1, %pcrel_lo(.Lpcrel_hi38)
	add	a2, a2, a5
	lbu	a6, 0(a2)
	slli	a2, a6, 2
	add	a2, a2, s8
	lw	s1, 108(a2)
	beqz	s1, .LBB96_108
	neg	a2, s1
	and	a2, a2, s1
	mul	a2, a2, a3
	srliw	a2, a2, 27
	add	a2, a2, a5
	lbu	a3, 0(a2)
	j	.LBB96_109
.LBB96_84:
	li	a3, 32
.LBB96_85:
	slli	a2, a2, 5
	add	a2, a2, a3
.LBB96_86:
	slli	a3, a2, 2
	add	a3, a3, s8
	lwu	s2, 192(a3)
	slli	s4, s2, 3
	add	a4, a6, s4
	lw	a4, 16(a4)
	li	a5, -1
	beq	a4, a5, .LBB96_88
	slli	a2, a4, 32
	srli	a2, a2, 29
	add	a2, a2, a6
	ld	s1, 16(a2)
	slli	a5, a5, 32
	or	a5, a5, s1
	sd	a5, 16(a2)
	ld	a6, 0(ra)
	sw	a4, 192(a3)
	j	.LBB96_90
.LBB96_88:
	sw	a5, 192(a3)
	srli	a3, a2, 5
	slli	a4, a3, 2
	add	a5, s8, a4
	lw	s1, 108(a5)
	li	a4, 1
	sllw	a2, a4, a2
	not	a2, a2
	and	a2, a2, s1
	sw	a2, 108(a5)
	bnez	a2, .LBB96_90
	lw	a2, 104(s8)
	sllw	a3, a4, a3
	not	a3, a3
	and	a2, a2, a3
	sw	a2, 104(s8)
.LBB96_90:
	add	s1, a6, s4
	ld	a5, 0(s1)
	slli	a2, t4, 2
	subw	a3, a5, a2
	li	a2, 15
	bltu	a2, a3, .LBB96_92
	addi	a5, a5, -1
	sd	a5, 0(s1)
	sd	s10, 8(s1)
	ld	a2, -144(s0)
	sd	a2, 16(s1)
	srliw	a2, a5, 2
	j	.LBB96_98
.LBB96_92:
	mv	s7, a7
	lui	t2, 131072
	srliw	a7, a3, 2
	li	t0, -1
	slli	a4, a3, 32
	slli	t1, s2, 32
	add	t3, s2, t4
	mv	s6, t4
	add	t4, t4, s2
	li	t5, 1
	andi	t6, a3, 2
	srli	a4, a4, 32
	slli	a2, t3, 32
	or	a3, t1, a4
	sub	a5, a5, a4
	srli	t1, a2, 29
	sd	a5, 0(s1)
	sd	s10, 8(s1)
	ld	a4, -144(s0)
	sd	a4, 16(s1)
	add	a6, a6, t1
	sd	a3, 0(a6)
	sd	s10, 8(a6)
	ld	a3, 72(s8)
	addi	t2, t2, -8
	srli	a4, t4, 3
	and	a4, a4, t2
	add	a3, a3, a4
	ld	a4, 0(a3)
	srli	a6, t0, 32
	sll	a5, t5, t3
	srli	a2, a2, 32
	or	a4, a4, a5
	sd	a4, 0(a3)
	slli	t0, a2, 32
	bnez	t6, .LBB96_94
	ld	a2, 0(ra)
	add	a3, a7, t3
	slli	a3, a3, 32
	srli	a3, a3, 29
	add	a2, a2, a3
	ld	a3, 0(a2)
	and	a3, a3, a6
	or	a3, a3, t0
	sd	a3, 0(a2)
.LBB96_94:
	ori	a2, a7, 32
	lui	a3, 349525
	lui	a4, 209715
	srli	a5, a2, 1
	addi	a3, a3, 1365
	or	a2, a2, a5
	srli	a5, a2, 2
	or	a2, a2, a5
	srli	a5, a2, 4
	or	a2, a2, a5
	slli	a5, a2, 34
	srli	a5, a5, 42
	or	a2, a2, a5
	slli	a5, a2, 33
	srli	a5, a5, 49
	or	a2, a2, a5
	not	a2, a2
	srli	a5, a2, 1
	and	a3, a3, a5
	lui	a5, 61681
	addi	a4, a4, 819
	sub	a2, a2, a3
	and	a3, a2, a4
	srli	a2, a2, 2
	and	a2, a2, a4
	lui	a4, 4112
	add	a2, a2, a3
	srli	a3, a2, 4
	add	a2, a2, a3
	li	a3, 26
	addi	a5, a5, -241
	addi	a4, a4, 257
	and	a2, a2, a5
	mul	a2, a2, a4
	srliw	a2, a2, 24
	sub	a3, a3, a2
	srlw	a5, a7, a3
	slli	a3, a3, 5
	add	a3, a3, a5
	slli	a2, a3, 2
	add	a2, a2, s8
	lw	a4, 192(a2)
	ld	s1, 0(ra)
	sw	t3, 192(a2)
	bltz	a4, .LBB96_96
	li	a2, -1
	add	t1, t1, s1
	slli	a2, a2, 32
	or	a2, a2, a4
	slli	a4, a4, 3
	sd	a2, 16(t1)
	add	a4, a4, s1
	ld	a2, 16(a4)
	and	a2, a2, a6
	or	a2, a2, t0
	sd	a2, 16(a4)
	j	.LBB96_97
.LBB96_96:
	add	t1, t1, s1
	li	a2, -1
	srli	a3, a3, 5
	li	a6, 1
	sd	a2, 16(t1)
	slli	a2, a3, 2
	add	a2, a2, s8
	lw	s1, 104(s8)
	lw	a4, 108(a2)
	sllw	a3, a6, a3
	sllw	a5, a6, a5
	or	a3, a3, s1
	or	a4, a4, a5
	sw	a3, 104(s8)
	sw	a4, 108(a2)
.LBB96_97:
	mv	t4, s6
	mv	a2, s6
	mv	a7, s7
.LBB96_98:
	mv	s11, s5
	lw	a3, 40(s8)
	lw	a4, 44(s8)
	addw	a2, a2, a3
	sw	a2, 40(s8)
	bgeu	a4, a2, .LBB96_100
	sw	a2, 44(s8)
.LBB96_100:
	ld	a2, 32(s8)
	lw	s7, 24(s8)
	addi	a3, a2, 1
	addiw	a2, t4, -3
	sd	a3, 32(s8)
	beqz	a2, .LBB96_102
	ld	a3, 0(ra)
	addi	a4, s2, 3
	slli	a4, a4, 32
	srli	a4, a4, 29
	add	a3, a3, a4
	slli	a2, a2, 3
	mv	s5, a0
	mv	a0, a3
	mv	s9, a1
	li	a1, 0
	mv	s6, ra
	mv	s1, a7
	call	tlsf_memory_set
	mv	a7, s1
	mv	ra, s6
	mv	a0, s5
	mv	a1, s9
.LBB96_102:
	ld	a2, 0(ra)
	add	a3, a2, a7
	add	s4, s4, a2
	lw	a4, 16(a3)
	lw	a3, 16(s4)
	bltu	a3, a4, .LBB96_104
	mv	a3, a4
.LBB96_104:
	mv	s4, a0
	mv	s6, a1
	addi	a1, s3, 3
	addi	s3, s2, 3
	andi	s5, a3, 7
	srliw	s1, a3, 3
	beqz	s5, .LBB96_106
	add	a0, s1, a1
	slli	a0, a0, 3
	add	a0, a0, a2
	ld	a0, 0(a0)
	sd	a0, -120(s0)
	mv	a0, a2
	mv	a2, s3
	mv	a3, s1
	mv	s9, ra
	call	tlsf_words.cells.copy_run
	ld	a0, 0(s9)
	add	s1, s1, s3
	slli	s1, s1, 3
	add	s1, s1, a0
	ld	a0, 0(s1)
	sd	a0, -112(s0)
	addi	a0, s0, -112
	addi	a1, s0, -120
	mv	a2, s5
	call	tlsf_memory_cpy
	ld	a0, -112(s0)
	sd	a0, 0(s1)
	j	.LBB96_107
.LBB96_106:
	mv	a0, a2
	mv	a2, s3
	mv	a3, s1
	call	tlsf_words.cells.copy_run
.LBB96_107:
	mv	s5, s11
	addi	a1, s0, -136
	addi	a0, s8, 24
	call	tlsf_heap.heap.Heap.release_live.5
	mv	s3, s2
	mv	a1, s6
	mv	a0, s4
	j	.LBB96_69
.LBB96_108:
	li	a3, 32
.LBB96_109:
	slli	a2, a6, 4
	add	a2, a2, a3
.LBB96_110:
	slli	a3, a2, 2
	add	a3, a3, s8
	lwu	s6, 192(a3)
	slli	s4, s6, 3
	add	a5, a4, s4
	lw	a5, 16(a5)
	li	s1, -1
	beq	a5, s1, .LBB96_112
	slli	a2, a5, 32
	srli	a2, a2, 29
	add	a2, a2, a4
	ld	a4, 16(a2)
	slli	s1, s1, 32
	or	a4, a4, s1
	sd	a4, 16(a2)
	ld	a4, 0(ra)
	sw	a5, 192(a3)
	j	.LBB96_114
.LBB96_112:
	sw	s1, 192(a3)
	srli	a3, a2, 4
	slli	a5, a3, 2
	add	a5, a5, s8
	lw	s1, 108(a5)
	andi	a2, a2, 15
	li	a6, 1
	sllw	a2, a6, a2
	not	a2, a2
	and	a2, a2, s1
	sw	a2, 108(a5)
	bnez	a2, .LBB96_114
	lw	a2, 104(s8)
	sllw	a3, a6, a3
	not	a3, a3
	and	a2, a2, a3
	sw	a2, 104(s8)
.LBB96_114:
	add	s1, a4, s4
	ld	a5, 0(s1)
	slli	a2, s9, 2
	subw	a3, a5, a2
	li	a2, 15
	bltu	a2, a3, .LBB96_116
	addi	a5, a5, -1
	sd	a5, 0(s1)
	sd	s10, 8(s1)
	ld	a2, -144(s0)
	sd	a2, 16(s1)
	srliw	a2, a5, 2
	j	.LBB96_122
.LBB96_116:
	mv	s2, a7
	lui	a6, 131072
	srliw	a7, a3, 2
	li	t0, -1
	slli	a2, a3, 32
	slli	t1, s6, 32
	add	t2, s6, s9
	add	t3, s6, s9
	li	t4, 1
	andi	t5, a3, 2
	srli	a2, a2, 32
	slli	a3, t2, 32
	or	t6, t1, a2
	sub	a5, a5, a2
	srli	t1, a3, 29
	sd	a5, 0(s1)
	sd	s10, 8(s1)
	ld	a2, -144(s0)
	sd	a2, 16(s1)
	add	a4, a4, t1
	sd	t6, 0(a4)
	sd	s10, 8(a4)
	ld	a2, 72(s8)
	addi	a6, a6, -8
	srli	a4, t3, 3
	and	a4, a4, a6
	add	a2, a2, a4
	ld	a4, 0(a2)
	srli	a6, t0, 32
	sll	a5, t4, t2
	srli	a3, a3, 32
	or	a4, a4, a5
	sd	a4, 0(a2)
	slli	t0, a3, 32
	bnez	t5, .LBB96_118
	ld	a2, 0(ra)
	add	a3, a7, t2
	slli	a3, a3, 32
	srli	a3, a3, 29
	add	a2, a2, a3
	ld	a3, 0(a2)
	and	a3, a3, a6
	or	a3, a3, t0
	sd	a3, 0(a2)
.LBB96_118:
	ori	a2, a7, 16
	lui	a3, 349525
	lui	a4, 209715
	srli	a5, a2, 1
	addi	a3, a3, 1365
	or	a2, a2, a5
	srli	a5, a2, 2
	or	a2, a2, a5
	srli	a5, a2, 4
	or	a2, a2, a5
	slli	a5, a2, 34
	srli	a5, a5, 42
	or	a2, a2, a5
	slli	a5, a2, 33
	srli	a5, a5, 49
	or	a2, a2, a5
	not	a2, a2
	srli	a5, a2, 1
	and	a3, a3, a5
	lui	a5, 61681
	addi	a4, a4, 819
	sub	a2, a2, a3
	and	a3, a2, a4
	srli	a2, a2, 2
	and	a2, a2, a4
	lui	a4, 4112
	add	a2, a2, a3
	srli	a3, a2, 4
	add	a2, a2, a3
	li	a3, 27
	addi	a5, a5, -241
	addi	a4, a4, 257
	and	a2, a2, a5
	mul	a2, a2, a4
	srliw	a2, a2, 24
	sub	a3, a3, a2
	srlw	a5, a7, a3
	slli	a3, a3, 4
	add	a3, a3, a5
	slli	a2, a3, 2
	add	a2, a2, s8
	lw	a4, 192(a2)
	ld	s1, 0(ra)
	sw	t2, 192(a2)
	bltz	a4, .LBB96_120
	li	a2, -1
	add	t1, t1, s1
	slli	a2, a2, 32
	or	a2, a2, a4
	slli	a4, a4, 3
	sd	a2, 16(t1)
	add	a4, a4, s1
	ld	a2, 16(a4)
	and	a2, a2, a6
	or	a2, a2, t0
	sd	a2, 16(a4)
	j	.LBB96_121
.LBB96_120:
	add	t1, t1, s1
	li	a2, -1
	srli	a3, a3, 4
	li	a6, 1
	andi	a5, a5, 15
	sd	a2, 16(t1)
	slli	a2, a3, 2
	add	a2, a2, s8
	lw	s1, 104(s8)
	lw	a4, 108(a2)
	sllw	a3, a6, a3
	sllw	a5, a6, a5
	or	a3, a3, s1
	or	a4, a4, a5
	sw	a3, 104(s8)
	sw	a4, 108(a2)
.LBB96_121:
	mv	a2, s9
	mv	a7, s2
.LBB96_122:
	lw	a3, 40(s8)
	lw	a4, 44(s8)
	addw	a2, a2, a3
	sw	a2, 40(s8)
	bgeu	a4, a2, .LBB96_124
	sw	a2, 44(s8)
.LBB96_124:
	ld	a2, 32(s8)
	lw	s7, 24(s8)
	addi	a3, a2, 1
	addiw	a2, s9, -3
	sd	a3, 32(s8)
	beqz	a2, .LBB96_126
	ld	a3, 0(ra)
	addi	a4, s6, 3
	slli	a4, a4, 32
	srli	a4, a4, 29
	add	a3, a3, a4
	slli	a2, a2, 3
	mv	s2, a0
	mv	a0, a3
	mv	s9, s6
	mv	s6, a1
	li	a1, 0
	mv	s11, ra
	mv	s1, a7
	call	tlsf_memory_set
	mv	a7, s1
	mv	ra, s11
	mv	a0, s2
	mv	a1, s6
	mv	s6, s9
.LBB96_126:
	mv	s11, s5
	ld	a2, 0(ra)
	add	a3, a2, a7
	add	s4, s4, a2
	lw	a4, 16(a3)
	lw	a3, 16(s4)
	bltu	a3, a4, .LBB96_128
	mv	a3, a4
.LBB96_128:
	mv	s2, a0
	mv	s4, a1
	addi	a1, s3, 3
	addi	s3, s6, 3
	andi	s5, a3, 7
	srliw	s1, a3, 3
	beqz	s5, .LBB96_130
	add	a0, s1, a1
	slli	a0, a0, 3
	add	a0, a0, a2
	ld	a0, 0(a0)
	sd	a0, -120(s0)
	mv	a0, a2
	mv	a2, s3
	mv	a3, s1
	mv	s9, s6
	mv	s6, ra
	call	tlsf_words.cells.copy_run
	ld	a0, 0(s6)
	mv	s6, s9
	add	s1, s1, s3
	slli	s1, s1, 3
	add	s1, s1, a0
	ld	a0, 0(s1)
	sd	a0, -112(s0)
	addi	a0, s0, -112
	addi	a1, s0, -120
	mv	a2, s5
	call	tlsf_memory_cpy
	ld	a0, -112(s0)
	sd	a0, 0(s1)
	j	.LBB96_131
.LBB96_130:
	mv	a0, a2
	mv	a2, s3
	mv	a3, s1
	call	tlsf_words.cells.copy_run
.LBB96_131:
	mv	s5, s11
	addi	a1, s0, -136
	addi	a0, s8, 24
	call	tlsf_heap.heap.Heap.release_live.4
	mv	s3, s6
	mv	a1, s4
	mv	a0, s2
	j	.LBB96_69
.Lfunc_end96:
	.size	tlsf_reallocate, .Lfunc_end96-tlsf_reallocate
	.cfi_endproc
	.globl	tlsf_release
	.p2align	1
	.type	tlsf_release,@function
tlsf_release:
	.cfi_startproc
	addi	sp, sp, -16
	.cfi_def_cfa_offset 16
	sd	ra, 8(sp)
	sd	s0, 0(sp)
	.cfi_offset ra, -8
	.cfi_offset s0, -16
	addi	s0, sp, 16
	.cfi_def_cfa s0, 0
	srli	a3, a1, 32
	call	tlsf_c.heap_calls.release_named
	slli	a0, a0, 32
	srli	a0, a0, 32
	.cfi_def_cfa sp, 16
	ld	ra, 8(sp)
	ld	s0, 0(sp)
	.cfi_restore ra
	.cfi_restore s0
	addi	sp, sp, 16
	.cfi_def_cfa_offset 0
	ret
.Lfunc_end97:
	.size	tlsf_release, .Lfunc_end97-tlsf_release
	.cfi_endproc
	.globl	tlsf_release_all
	.p2align	1
	.type	tlsf_release_all,@function
tlsf_release_all:
	.cfi_startproc
	addi	sp, sp, -112
	.cfi_def_cfa_offset 112
	sd	ra, 104(sp)
	sd	s0, 96(sp)
	sd	s1, 88(sp)
	sd	s2, 80(sp)
	sd	s3, 72(sp)
	sd	s4, 64(sp)
	sd	s5, 56(sp)
	sd	s6, 48(sp)
	sd	s7, 40(sp)
	sd	s8, 32(sp)
	sd	s9, 24(sp)
	sd	s10, 16(sp)
	sd	s11, 8(sp)
	.cfi_offset ra, -8
	.cfi_offset s0, -16
	.cfi_offset s1, -24
	.cfi_offset s2, -32
	.cfi_offset s3, -40
	.cfi_offset s4, -48
	.cfi_offset s5, -56
	.cfi_offset s6, -64
	.cfi_offset s7, -72
	.cfi_offset s8, -80
	.cfi_offset s9, -88
	.cfi_offset s10, -96
	.cfi_offset s11, -104
	addi	s0, sp, 112
	.cfi_def_cfa s0, 0
	lbu	a3, 8(a0)
	beqz	a3, .LBB98_7
	ld	s6, 0(a0)
	lbu	a0, 0(s6)
	beqz	a0, .LBB98_7
	lbu	a3, 16(s6)
	seqz	a0, a1
	slli	a0, a0, 12
	sb	zero, 0(s6)
	beqz	a3, .LBB98_5
	beqz	a2, .LBB98_44
	lui	s5, 131072
	addi	s2, s6, 48
	add	a0, a0, a1
	li	s3, -1
	lui	a1, 349525
	lui	a3, 209715
	lui	a4, 61681
	lui	a5, 4112
	li	s4, 26
	addi	s5, s5, -8
	addi	s1, a0, 8
	addi	s7, a1, 1365
	addi	s8, a3, 819
	addi	s9, a4, -241
	addi	s10, a5, 257
	li	t4, 1
	j	.LBB98_11
.LBB98_5:
	beqz	a2, .LBB98_44
	lui	s5, 131072
	addi	s2, s6, 48
	add	a0, a0, a1
	li	s3, -1
	lui	a1, 349525
	lui	a3, 209715
	lui	a4, 61681
	lui	a5, 4112
	li	s4, 27
	addi	s5, s5, -8
	addi	s1, a0, 8
	addi	s7, a1, 1365
	addi	s8, a3, 819
	addi	s9, a4, -241
	addi	s10, a5, 257
	li	t4, 1
	j	.LBB98_29
.LBB98_7:
	li	a0, 0
	call	tlsf_c.call_fault.CallFault.refusal
	j	.LBB98_45
.LBB98_8:
	addi	a0, a3, 1
	sd	a0, 32(s6)
	mv	a0, s2
	mv	s11, a2
	mv	a2, t0
	call	tlsf_heap.fitting.merge_next.5
.LBB98_9:
	li	t4, 1
	mv	a2, s11
.LBB98_10:
	addi	a2, a2, -1
	addi	s1, s1, 16
	beqz	a2, .LBB98_44
.LBB98_11:
	lbu	a0, -7(s1)
	lbu	a1, -8(s1)
	lbu	a3, -6(s1)
	lb	a4, -5(s1)
	slli	a0, a0, 8
	or	a0, a0, a1
	lw	a1, 24(s6)
	slli	a3, a3, 16
	slli	a4, a4, 24
	or	a3, a3, a4
	or	a0, a0, a3
	bne	a0, a1, .LBB98_10
	lbu	a0, -3(s1)
	lbu	a1, -4(s1)
	lbu	a3, -2(s1)
	lbu	a4, -1(s1)
	slli	a0, a0, 8
	or	a0, a0, a1
	lw	a1, 56(s6)
	slli	a3, a3, 16
	slli	a4, a4, 24
	or	a3, a3, a4
	or	a4, a3, a0
	sext.w	a0, a4
	bgeu	a0, a1, .LBB98_10
	ld	a0, 72(s6)
	srli	a1, a4, 3
	and	a1, a1, s5
	add	a0, a0, a1
	ld	a0, 0(a0)
	srl	a0, a0, a4
	andi	a0, a0, 1
	beqz	a0, .LBB98_10
	ld	a6, 0(s2)
	slli	a7, a4, 3
	add	t2, a6, a7
	ld	t0, 0(t2)
	andi	a1, t0, 1
	bnez	a1, .LBB98_10
	lbu	a1, 1(s1)
	lbu	a3, 2(s1)
	lbu	a5, 3(s1)
	lbu	a0, 0(s1)
	slli	a1, a1, 8
	slli	a3, a3, 16
	slli	a5, a5, 24
	or	t1, a1, a0
	or	t3, a5, a3
	lbu	a1, 5(s1)
	lbu	a5, 4(s1)
	lbu	a0, 6(s1)
	lbu	a3, 7(s1)
	slli	a1, a1, 8
	or	a1, a1, a5
	slli	a0, a0, 16
	slli	a3, a3, 24
	or	a0, a0, a3
	or	a3, t3, t1
	ld	a5, 8(t2)
	or	a0, a0, a1
	slli	a0, a0, 32
	or	a0, a0, a3
	bne	a5, a0, .LBB98_10
	ld	a3, 32(s6)
	beq	a3, s3, .LBB98_10
	lw	a0, 40(s6)
	srliw	t1, t0, 2
	sub	a0, a0, t1
	andi	a1, t0, 2
	sw	a0, 40(s6)
	bnez	a1, .LBB98_19
	add	a0, t1, a4
	slli	a0, a0, 32
	srli	a0, a0, 29
	add	a0, a0, a6
	ld	a1, 0(a0)
	bnez	a4, .LBB98_20
	j	.LBB98_21
.LBB98_19:
	li	a1, 0
	beqz	a4, .LBB98_21
.LBB98_20:
	srli	a0, t0, 29
	andi	a0, a0, -8
	add	a0, a0, a6
	ld	a6, 0(a0)
	andi	a0, a6, 1
	bnez	a0, .LBB98_24
.LBB98_21:
	andi	a0, a1, 1
	bnez	a0, .LBB98_8
	addi	t0, t0, 1
	ori	a0, t1, 32
	sd	t0, 0(t2)
	sd	a3, 8(t2)
	srli	a1, a0, 1
	ld	a6, 32(s6)
	or	a0, a0, a1
	srli	a1, a0, 2
	or	a0, a0, a1
	srli	a1, a0, 4
	or	a0, a0, a1
	slli	a1, a0, 34
	srli	a1, a1, 42
	or	a0, a0, a1
	slli	a1, a0, 33
	srli	a1, a1, 49
	or	a0, a0, a1
	not	a0, a0
	srli	a1, a0, 1
	and	a1, a1, s7
	sub	a0, a0, a1
	and	a1, a0, s8
	srli	a0, a0, 2
	and	a0, a0, s8
	add	a0, a0, a1
	srli	a1, a0, 4
	add	a0, a0, a1
	and	a0, a0, s9
	mul	a0, a0, s10
	srliw	a0, a0, 24
	sub	a1, s4, a0
	srlw	t0, t1, a1
	slli	a1, a1, 5
	add	a1, a1, t0
	slli	a3, a1, 2
	add	a3, a3, s6
	lw	a0, 192(a3)
	ld	a5, 48(s6)
	addi	a6, a6, 1
	sd	a6, 32(s6)
	sw	a4, 192(a3)
	add	a7, a7, a5
	bltz	a0, .LBB98_25
	slli	a1, s3, 32
	or	a1, a1, a0
	slli	a0, a0, 3
	add	a0, a0, a5
	sd	a1, 16(a7)
	sw	a4, 20(a0)
	j	.LBB98_10
.LBB98_24:
	addi	a0, a3, 1
	sd	a0, 32(s6)
	mv	a0, s2
	mv	s11, a2
	mv	a2, a6
	mv	a5, t0
	call	tlsf_heap.fitting.merge_before.5
	j	.LBB98_9
.LBB98_25:
	sd	s3, 16(a7)
	srli	a1, a1, 5
	slli	a0, a1, 2
	add	a0, a0, s6
	lw	a3, 104(s6)
	lw	a4, 108(a0)
	sllw	a5, t4, t0
	sllw	a1, t4, a1
	or	a1, a1, a3
	or	a4, a4, a5
	sw	a1, 104(s6)
	sw	a4, 108(a0)
	j	.LBB98_10
.LBB98_26:
	addi	a0, a3, 1
	sd	a0, 32(s6)
	mv	a0, s2
	mv	s11, a2
	mv	a2, t0
	call	tlsf_heap.fitting.merge_next.4
.LBB98_27:
	li	t4, 1
	mv	a2, s11
.LBB98_28:
	addi	a2, a2, -1
	addi	s1, s1, 16
	beqz	a2, .LBB98_44
.LBB98_29:
	lbu	a0, -7(s1)
	lbu	a1, -8(s1)
	lbu	a3, -6(s1)
	lb	a4, -5(s1)
	slli	a0, a0, 8
	or	a0, a0, a1
	lw	a1, 24(s6)
	slli	a3, a3, 16
	slli	a4, a4, 24
	or	a3, a3, a4
	or	a0, a0, a3
	bne	a0, a1, .LBB98_28
	lbu	a0, -3(s1)
	lbu	a1, -4(s1)
	lbu	a3, -2(s1)
	lbu	a4, -1(s1)
	slli	a0, a0, 8
	or	a0, a0, a1
	lw	a1, 56(s6)
	slli	a3, a3, 16
	slli	a4, a4, 24
	or	a3, a3, a4
	or	a4, a3, a0
	sext.w	a0, a4
	bgeu	a0, a1, .LBB98_28
	ld	a0, 72(s6)
	srli	a1, a4, 3
	and	a1, a1, s5
	add	a0, a0, a1
	ld	a0, 0(a0)
	srl	a0, a0, a4
	andi	a0, a0, 1
	beqz	a0, .LBB98_28
	ld	a6, 0(s2)
	slli	a7, a4, 3
	add	t2, a6, a7
	ld	t0, 0(t2)
	andi	a1, t0, 1
	bnez	a1, .LBB98_28
	lbu	a1, 1(s1)
	lbu	a3, 2(s1)
	lbu	a5, 3(s1)
	lbu	a0, 0(s1)
	slli	a1, a1, 8
	slli	a3, a3, 16
	slli	a5, a5, 24
	or	t1, a1, a0
	or	t3, a5, a3
	lbu	a1, 5(s1)
	lbu	a5, 4(s1)
	lbu	a0, 6(s1)
	lbu	a3, 7(s1)
	slli	a1, a1, 8
	or	a1, a1, a5
	slli	a0, a0, 16
	slli	a3, a3, 24
	or	a0, a0, a3
	or	a3, t3, t1
	ld	a5, 8(t2)
	or	a0, a0, a1
	slli	a0, a0, 32
	or	a0, a0, a3
	bne	a5, a0, .LBB98_28
	ld	a3, 32(s6)
	beq	a3, s3, .LBB98_28
	lw	a0, 40(s6)
	srliw	t1, t0, 2
	sub	a0, a0, t1
	andi	a1, t0, 2
	sw	a0, 40(s6)
	bnez	a1, .LBB98_37
	add	a0, t1, a4
	slli	a0, a0, 32
	srli	a0, a0, 29
	add	a0, a0, a6
	ld	a1, 0(a0)
	bnez	a4, .LBB98_38
	j	.LBB98_39
.LBB98_37:
	li	a1, 0
	beqz	a4, .LBB98_39
.LBB98_38:
	srli	a0, t0, 29
	andi	a0, a0, -8
	add	a0, a0, a6
	ld	a6, 0(a0)
	andi	a0, a6, 1
	bnez	a0, .LBB98_42
.LBB98_39:
	andi	a0, a1, 1
	bnez	a0, .LBB98_26
	addi	t0, t0, 1
	ori	a0, t1, 16
	sd	t0, 0(t2)
	sd	a3, 8(t2)
	srli	a1, a0, 1
	ld	a6, 32(s6)
	or	a0, a0, a1
	srli	a1, a0, 2
	or	a0, a0, a1
	srli	a1, a0, 4
	or	a0, a0, a1
	slli	a1, a0, 34
	srli	a1, a1, 42
	or	a0, a0, a1
	slli	a1, a0, 33
	srli	a1, a1, 49
	or	a0, a0, a1
	not	a0, a0
	srli	a1, a0, 1
	and	a1, a1, s7
	sub	a0, a0, a1
	and	a1, a0, s8
	srli	a0, a0, 2
	and	a0, a0, s8
	add	a0, a0, a1
	srli	a1, a0, 4
	add	a0, a0, a1
	and	a0, a0, s9
	mul	a0, a0, s10
	srliw	a0, a0, 24
	sub	a1, s4, a0
	srlw	t0, t1, a1
	slli	a1, a1, 4
	add	a1, a1, t0
	slli	a3, a1, 2
	add	a3, a3, s6
	lw	a0, 192(a3)
	ld	a5, 48(s6)
	addi	a6, a6, 1
	sd	a6, 32(s6)
	sw	a4, 192(a3)
	add	a7, a7, a5
	bltz	a0, .LBB98_43
	slli	a1, s3, 32
	or	a1, a1, a0
	slli	a0, a0, 3
	add	a0, a0, a5
	sd	a1, 16(a7)
	sw	a4, 20(a0)
	j	.LBB98_28
.LBB98_42:
	addi	a0, a3, 1
	sd	a0, 32(s6)
	mv	a0, s2
	mv	s11, a2
	mv	a2, a6
	mv	a5, t0
	call	tlsf_heap.fitting.merge_before.4
	j	.LBB98_27
.LBB98_43:
	sd	s3, 16(a7)
	srli	a1, a1, 4
	andi	a0, t0, 15
	slli	a3, a1, 2
	add	a3, a3, s6
	lw	a4, 104(s6)
	lw	a5, 108(a3)
	sllw	a1, t4, a1
	sllw	a0, t4, a0
	or	a1, a1, a4
	or	a0, a0, a5
	sw	a1, 104(s6)
	sw	a0, 108(a3)
	j	.LBB98_28
.LBB98_44:
	li	a0, 0
	li	a1, 1
	sb	a1, 0(s6)
.LBB98_45:
	sext.w	a0, a0
	.cfi_def_cfa sp, 112
	ld	ra, 104(sp)
	ld	s0, 96(sp)
	ld	s1, 88(sp)
	ld	s2, 80(sp)
	ld	s3, 72(sp)
	ld	s4, 64(sp)
	ld	s5, 56(sp)
	ld	s6, 48(sp)
	ld	s7, 40(sp)
	ld	s8, 32(sp)
	ld	s9, 24(sp)
	ld	s10, 16(sp)
	ld	s11, 8(sp)
	.cfi_restore ra
	.cfi_restore s0
	.cfi_restore s1
	.cfi_restore s2
	.cfi_restore s3
	.cfi_restore s4
	.cfi_restore s5
	.cfi_restore s6
	.cfi_restore s7
	.cfi_restore s8
	.cfi_restore s9
	.cfi_restore s10
	.cfi_restore s11
	addi	sp, sp, 112
	.cfi_def_cfa_offset 0
	ret
.Lfunc_end98:
	.size	tlsf_release_all, .Lfunc_end98-tlsf_release_all
	.cfi_endproc
	.globl	tlsf_release_place
	.p2align	1
	.type	tlsf_release_place,@function
tlsf_release_place:
	.cfi_startproc
	addi	sp, sp, -32
	.cfi_def_cfa_offset 32
	sd	ra, 24(sp)
	sd	s0, 16(sp)
	sd	s1, 8(sp)
	.cfi_offset ra, -8
	.cfi_offset s0, -16
	.cfi_offset s1, -24
	addi	s0, sp, 32
	.cfi_def_cfa s0, 0
	.cfi_remember_state
	lbu	a2, 8(a0)
	beqz	a2, .LBB99_22
	ld	s1, 0(a0)
	lbu	a0, 0(s1)
	beqz	a0, .LBB99_22
	mv	t3, a1
	lbu	a2, 16(s1)
	lw	a1, 56(s1)
	sb	zero, 0(s1)
	addi	a0, s1, 48
	sext.w	t2, t3
	beqz	a2, .LBB99_9
	bgeu	t2, a1, .LBB99_16
	ld	a1, 72(s1)
	srliw	a3, t3, 6
	slli	a3, a3, 3
	add	a1, a1, a3
	ld	a1, 0(a1)
	srl	a1, a1, t3
	andi	a1, a1, 1
	beqz	a1, .LBB99_16
	ld	a4, 0(a0)
	slli	a6, t3, 32
	srli	a7, a6, 29
	add	t1, a4, a7
	ld	a5, 0(t1)
	andi	a1, a5, 1
	bnez	a1, .LBB99_16
	ld	a3, 32(s1)
	li	a1, -1
	beq	a3, a1, .LBB99_15
	lw	a1, 40(s1)
	srliw	t0, a5, 2
	sub	a1, a1, t0
	andi	a2, a5, 2
	sw	a1, 40(s1)
	bnez	a2, .LBB99_17
	add	a1, t0, t3
	slli	a1, a1, 32
	srli	a1, a1, 29
	add	a1, a1, a4
	ld	a1, 0(a1)
	bnez	t2, .LBB99_18
	j	.LBB99_19
.LBB99_9:
	bgeu	t2, a1, .LBB99_16
	ld	a1, 72(s1)
	srliw	a2, t3, 6
	slli	a2, a2, 3
	add	a1, a1, a2
	ld	a1, 0(a1)
	srl	a1, a1, t3
	andi	a1, a1, 1
	beqz	a1, .LBB99_16
	ld	a2, 0(a0)
	slli	a6, t3, 32
	srli	a7, a6, 29
	add	t1, a2, a7
	ld	a5, 0(t1)
	andi	a1, a5, 1
	bnez	a1, .LBB99_16
	ld	a3, 32(s1)
	li	a1, -1
	beq	a3, a1, .LBB99_15
	lw	a1, 40(s1)
	srliw	t0, a5, 2
	sub	a1, a1, t0
	andi	a4, a5, 2
	sw	a1, 40(s1)
	bnez	a4, .LBB99_25
	add	a1, t0, t3
	slli	a1, a1, 32
	srli	a1, a1, 29
	add	a1, a1, a2
	ld	a1, 0(a1)
	bnez	t2, .LBB99_26
	j	.LBB99_27
.LBB99_15:
	li	a0, 2
	j	.LBB99_34
.LBB99_16:
	lw	a0, 24(s1)
	mv	a1, a0
	call	tlsf_heap.refusal.Refusal.of_name
	zext.b	a0, a0
	addi	a0, a0, -3
	seqz	a0, a0
	addi	a0, a0, 3
	j	.LBB99_34
.LBB99_17:
	li	a1, 0
	beqz	t2, .LBB99_19
.LBB99_18:
	srli	a2, a5, 29
	andi	a2, a2, -8
	add	a2, a2, a4
	ld	a2, 0(a2)
	andi	a4, a2, 1
	bnez	a4, .LBB99_24
.LBB99_19:
	andi	a2, a1, 1
	bnez	a2, .LBB99_23
	addi	a5, a5, 1
	ori	a0, t0, 32
	lui	a1, 349525
	lui	a2, 209715
	sd	a5, 0(t1)
	sd	a3, 8(t1)
	lui	a3, 61681
	srli	a4, a0, 1
	addi	a1, a1, 1365
	or	a0, a0, a4
	srli	a4, a0, 2
	or	a0, a0, a4
	srli	a4, a0, 4
	or	a0, a0, a4
	slli	a4, a0, 34
	srli	a4, a4, 42
	or	a0, a0, a4
	slli	a4, a0, 33
	srli	a4, a4, 49
	or	a0, a0, a4
	not	a0, a0
	srli	a4, a0, 1
	and	a1, a1, a4
	lui	a4, 4112
	addi	a2, a2, 819
	sub	a0, a0, a1
	and	a1, a0, a2
	srli	a0, a0, 2
	and	a0, a0, a2
	li	a2, 26
	addi	a3, a3, -241
	addi	a4, a4, 257
	add	a0, a0, a1
	srli	a1, a0, 4
	add	a0, a0, a1
	ld	a5, 32(s1)
	and	a0, a0, a3
	mul	a0, a0, a4
	srliw	a0, a0, 24
	sub	a2, a2, a0
	srlw	a1, t0, a2
	slli	a2, a2, 5
	add	a4, a1, a2
	slli	a0, a4, 2
	add	a0, a0, s1
	lw	a2, 192(a0)
	ld	a3, 48(s1)
	sw	t3, 192(a0)
	addi	a5, a5, 1
	sd	a5, 32(s1)
	bgez	a2, .LBB99_29
	li	a0, 0
	add	a3, a3, a7
	li	a2, -1
	srli	a4, a4, 5
	li	a6, 1
	j	.LBB99_33
.LBB99_22:
	li	a0, 0
	call	tlsf_c.call_fault.CallFault.refusal
	sext.w	a0, a0
	.cfi_def_cfa sp, 32
	ld	ra, 24(sp)
	ld	s0, 16(sp)
	ld	s1, 8(sp)
	.cfi_restore ra
	.cfi_restore s0
	.cfi_restore s1
	addi	sp, sp, 32
	.cfi_def_cfa_offset 0
	ret
.LBB99_23:
	.cfi_restore_state
	addi	a2, a3, 1
	sd	a2, 32(s1)
	mv	a2, a5
	mv	a4, t3
	call	tlsf_heap.fitting.merge_next.5
	li	a0, 0
	j	.LBB99_34
.LBB99_24:
	addi	a4, a3, 1
	sd	a4, 32(s1)
	mv	a4, t3
	call	tlsf_heap.fitting.merge_before.5
	li	a0, 0
	j	.LBB99_34
.LBB99_25:
	li	a1, 0
	beqz	t2, .LBB99_27
.LBB99_26:
	srli	a4, a5, 29
	andi	a4, a4, -8
	add	a2, a2, a4
	ld	a2, 0(a2)
	andi	a4, a2, 1
	bnez	a4, .LBB99_31
.LBB99_27:
	andi	a2, a1, 1
	bnez	a2, .LBB99_30
	addi	a5, a5, 1
	ori	a0, t0, 16
	lui	a1, 349525
	lui	a2, 209715
	sd	a5, 0(t1)
	sd	a3, 8(t1)
	lui	a3, 61681
	srli	a4, a0, 1
	addi	a1, a1, 1365
	or	a0, a0, a4
	srli	a4, a0, 2
	or	a0, a0, a4
	srli	a4, a0, 4
	or	a0, a0, a4
	slli	a4, a0, 34
	srli	a4, a4, 42
	or	a0, a0, a4
	slli	a4, a0, 33
	srli	a4, a4, 49
	or	a0, a0, a4
	not	a0, a0
	srli	a4, a0, 1
	and	a1, a1, a4
	lui	a4, 4112
	addi	a2, a2, 819
	sub	a0, a0, a1
	and	a1, a0, a2
	srli	a0, a0, 2
	and	a0, a0, a2
	li	a2, 27
	addi	a3, a3, -241
	addi	a4, a4, 257
	add	a0, a0, a1
	srli	a1, a0, 4
	add	a0, a0, a1
	ld	a5, 32(s1)
	and	a0, a0, a3
	mul	a0, a0, a4
	srliw	a0, a0, 24
	sub	a2, a2, a0
	srlw	a1, t0, a2
	slli	a2, a2, 4
	add	a4, a1, a2
	slli	a0, a4, 2
	add	a0, a0, s1
	lw	a2, 192(a0)
	ld	a3, 48(s1)
	sw	t3, 192(a0)
	addi	a5, a5, 1
	sd	a5, 32(s1)
	bltz	a2, .LBB99_32
.LBB99_29:
	li	a0, 0
	add	a7, a7, a3
	slli	a1, a2, 3
	add	a1, a1, a3
	li	a3, -1
	slli	a3, a3, 32
	or	a2, a2, a3
	srli	a3, a6, 32
	sd	a2, 16(a7)
	sw	a3, 20(a1)
	j	.LBB99_34
.LBB99_30:
	addi	a2, a3, 1
	sd	a2, 32(s1)
	mv	a2, a5
	mv	a4, t3
	call	tlsf_heap.fitting.merge_next.4
	li	a0, 0
	j	.LBB99_34
.LBB99_31:
	addi	a4, a3, 1
	sd	a4, 32(s1)
	mv	a4, t3
	call	tlsf_heap.fitting.merge_before.4
	li	a0, 0
	j	.LBB99_34
.LBB99_32:
	li	a0, 0
	add	a3, a3, a7
	li	a2, -1
	srli	a4, a4, 4
	li	a6, 1
	andi	a1, a1, 15
.LBB99_33:
	sd	a2, 16(a3)
	slli	a2, a4, 2
	add	a2, a2, s1
	lw	a3, 104(s1)
	lw	a5, 108(a2)
	sllw	a4, a6, a4
	sllw	a1, a6, a1
	or	a3, a3, a4
	or	a1, a1, a5
	sw	a3, 104(s1)
	sw	a1, 108(a2)
.LBB99_34:
	li	a1, 1
	sb	a1, 0(s1)
	sext.w	a0, a0
	.cfi_def_cfa sp, 32
	ld	ra, 24(sp)
	ld	s0, 16(sp)
	ld	s1, 8(sp)
	.cfi_restore ra
	.cfi_restore s0
	.cfi_restore s1
	addi	sp, sp, 32
	.cfi_def_cfa_offset 0
	ret
.Lfunc_end99:
	.size	tlsf_release_place, .Lfunc_end99-tlsf_release_place
	.cfi_endproc
	.globl	tlsf_report
	.p2align	1
	.type	tlsf_report,@function
tlsf_report:
	.cfi_startproc
	mv	a2, a0
	lbu	a3, 8(a0)
	li	a0, 32
	beqz	a3, .LBB100_34
	ld	a3, 0(a2)
	lbu	a2, 0(a3)
	beqz	a2, .LBB100_34
	addi	sp, sp, -128
	.cfi_def_cfa_offset 128
	sd	ra, 120(sp)
	sd	s0, 112(sp)
	sd	s1, 104(sp)
	sd	s2, 96(sp)
	sd	s3, 88(sp)
	sd	s4, 80(sp)
	sd	s5, 72(sp)
	sd	s6, 64(sp)
	sd	s7, 56(sp)
	sd	s8, 48(sp)
	sd	s9, 40(sp)
	sd	s10, 32(sp)
	sd	s11, 24(sp)
	.cfi_offset ra, -8
	.cfi_offset s0, -16
	.cfi_offset s1, -24
	.cfi_offset s2, -32
	.cfi_offset s3, -40
	.cfi_offset s4, -48
	.cfi_offset s5, -56
	.cfi_offset s6, -64
	.cfi_offset s7, -72
	.cfi_offset s8, -80
	.cfi_offset s9, -88
	.cfi_offset s10, -96
	.cfi_offset s11, -104
	lbu	a2, 16(a3)
	ld	a6, 32(a3)
	lw	a0, 56(a3)
	sb	zero, 0(a3)
	sd	a3, 16(sp)
	beqz	a2, .LBB100_15
	beqz	a0, .LBB100_30
	li	a4, 0
	li	s5, 0
	li	t1, 0
	li	t0, 0
	li	t2, 0
	li	t6, 0
	li	t5, 0
	ld	s0, 48(a3)
	mv	s2, a6
	j	.LBB100_6
.LBB100_5:
	lw	a2, 16(a5)
	addi	t5, t5, 1
	add	t6, t6, s1
	add	t2, t2, a2
	addw	a4, a4, s1
	bgeu	a4, a0, .LBB100_12
.LBB100_6:
	slli	a2, a4, 32
	srli	a2, a2, 29
	add	a5, s0, a2
	ld	a2, 0(a5)
	andi	a3, a2, 1
	srliw	s1, a2, 2
	beqz	a3, .LBB100_5
	mv	a3, s1
	bltu	s5, s1, .LBB100_9
	mv	a3, s5
.LBB100_9:
	ld	a5, 8(a5)
	bltu	a5, s2, .LBB100_11
	mv	a5, s2
.LBB100_11:
	addi	t0, t0, 1
	addw	t1, s1, t1
	mv	s5, a3
	mv	s2, a5
	addw	a4, a4, s1
	bltu	a4, a0, .LBB100_6
.LBB100_12:
	beqz	s5, .LBB100_31
	ori	a0, s5, 32
	lui	a2, 349525
	srliw	a3, a0, 1
	addi	a2, a2, 1365
	or	a0, a0, a3
	srliw	a3, a0, 2
	or	a0, a0, a3
	srliw	a3, a0, 4
	or	a0, a0, a3
	srliw	a3, a0, 8
	or	a0, a0, a3
	srliw	a3, a0, 16
	or	a0, a0, a3
	not	a0, a0
	srli	a3, a0, 1
	and	a2, a2, a3
	lui	a3, 209715
	addi	a3, a3, 819
	sub	a0, a0, a2
	and	a2, a0, a3
	srli	a0, a0, 2
	and	a0, a0, a3
	lui	a3, 61681
	add	a0, a0, a2
	srli	a2, a0, 4
	add	a0, a0, a2
	lui	a2, 4112
	addi	a3, a3, -241
	and	a0, a0, a3
	li	a3, 26
	addi	a2, a2, 257
	mul	a0, a0, a2
	srliw	a0, a0, 24
	sub	a3, a3, a0
	srlw	a0, s5, a3
	slli	a3, a3, 5
	add	a4, a0, a3
	srliw	a3, a4, 5
	beqz	a3, .LBB100_28
	li	a2, 16
	andi	a0, a0, 31
	j	.LBB100_27
.LBB100_15:
	beqz	a0, .LBB100_30
	li	a4, 0
	li	s5, 0
	li	t1, 0
	li	t0, 0
	li	t2, 0
	li	t6, 0
	li	t5, 0
	ld	s0, 48(a3)
	mv	s2, a6
	j	.LBB100_18
.LBB100_17:
	lw	a2, 16(a5)
	addi	t5, t5, 1
	add	t6, t6, s1
	add	t2, t2, a2
	addw	a4, a4, s1
	bgeu	a4, a0, .LBB100_24
.LBB100_18:
	slli	a3, a4, 32
	srli	a3, a3, 29
	add	a5, s0, a3
	ld	a3, 0(a5)
	andi	a2, a3, 1
	srliw	s1, a3, 2
	beqz	a2, .LBB100_17
	mv	a3, s1
	bltu	s5, s1, .LBB100_21
	mv	a3, s5
.LBB100_21:
	ld	a5, 8(a5)
	bltu	a5, s2, .LBB100_23
	mv	a5, s2
.LBB100_23:
	addi	t0, t0, 1
	addw	t1, s1, t1
	mv	s5, a3
	mv	s2, a5
	addw	a4, a4, s1
	bltu	a4, a0, .LBB100_18
.LBB100_24:
	beqz	s5, .LBB100_31
	ori	a0, s5, 16
	lui	a2, 349525
	srliw	a3, a0, 1
	addi	a2, a2, 1365
	or	a0, a0, a3
	srliw	a3, a0, 2
	or	a0, a0, a3
	srliw	a3, a0, 4
	or	a0, a0, a3
	srliw	a3, a0, 8
	or	a0, a0, a3
	srliw	a3, a0, 16
	or	a0, a0, a3
	not	a0, a0
	srli	a3, a0, 1
	and	a2, a2, a3
	lui	a3, 209715
	addi	a3, a3, 819
	sub	a0, a0, a2
	and	a2, a0, a3
	srli	a0, a0, 2
	and	a0, a0, a3
	lui	a3, 61681
	add	a0, a0, a2
	srli	a2, a0, 4
	add	a0, a0, a2
	lui	a2, 4112
	addi	a3, a3, -241
	and	a0, a0, a3
	li	a3, 27
	addi	a2, a2, 257
	mul	a0, a0, a2
	srliw	a0, a0, 24
	sub	a3, a3, a0
	srlw	a0, s5, a3
	slli	a3, a3, 4
	add	a4, a0, a3
	srliw	a3, a4, 4
	beqz	a3, .LBB100_28
	li	a2, 8
	andi	a0, a0, 15
.LBB100_27:
	sllw	a4, a2, a3
	addi	a3, a3, -1
	sllw	a0, a0, a3
	add	a4, a4, a0
.LBB100_28:
	slli	a4, a4, 3
	addi	a7, a4, -24
	beqz	t1, .LBB100_32
.LBB100_29:
	slli	a0, t1, 32
	li	a2, 1000
	srli	a0, a0, 32
	mul	a3, s5, a2
	divu	a0, a3, a0
	sub	t4, a2, a0
	j	.LBB100_33
.LBB100_30:
	li	t6, 0
	li	t2, 0
	li	t5, 0
	li	t0, 0
	li	t1, 0
	li	s5, 0
	li	a7, 0
	li	t4, 0
	mv	s2, a6
	j	.LBB100_33
.LBB100_31:
	li	a7, 0
	bnez	t1, .LBB100_29
.LBB100_32:
	li	t4, 0
.LBB100_33:
	li	a0, 0
	slli	s6, t6, 3
	sub	a2, a6, s2
	srli	s2, t5, 8
	sb	t5, 0(a1)
	srli	s3, t5, 24
	srli	a4, t5, 16
	srli	a5, t6, 8
	sb	t6, 4(a1)
	srli	s4, t6, 24
	srli	s0, t6, 16
	srli	s9, t2, 24
	srli	s10, t2, 16
	srli	s1, t2, 8
	srli	s11, t0, 24
	srli	ra, t0, 16
	srli	a6, t0, 8
	srli	s7, t1, 24
	srli	s8, t1, 16
	srli	t3, t1, 8
	srli	a3, s5, 24
	sd	a3, 8(sp)
	srli	t5, s5, 16
	sb	s2, 1(a1)
	srli	s2, s5, 8
	sb	a4, 2(a1)
	srli	t6, a7, 24
	sb	s3, 3(a1)
	srli	s3, a7, 16
	sb	a5, 5(a1)
	srli	a3, a7, 8
	sb	s0, 6(a1)
	sb	s4, 7(a1)
	srli	s4, t4, 24
	sub	s6, s6, t2
	sb	t2, 8(a1)
	sb	s1, 9(a1)
	sb	s10, 10(a1)
	sb	s9, 11(a1)
	srli	a5, t4, 16
	sb	t0, 12(a1)
	sb	a6, 13(a1)
	sb	ra, 14(a1)
	sb	s11, 15(a1)
	srli	s1, t4, 8
	sb	zero, 36(a1)
	sb	zero, 37(a1)
	sb	zero, 38(a1)
	sb	zero, 39(a1)
	sb	t1, 16(a1)
	sb	t3, 17(a1)
	sb	s8, 18(a1)
	sb	s7, 19(a1)
	li	a6, 1
	sb	s5, 20(a1)
	sb	s2, 21(a1)
	sb	t5, 22(a1)
	ld	a4, 8(sp)
	sb	a4, 23(a1)
	sb	a7, 24(a1)
	sb	a3, 25(a1)
	sb	s3, 26(a1)
	sb	t6, 27(a1)
	sb	t4, 28(a1)
	sb	s1, 29(a1)
	sb	a5, 30(a1)
	sb	s4, 31(a1)
	srli	a7, a2, 56
	srli	a5, a2, 48
	srli	s1, a2, 40
	srli	s0, a2, 32
	srli	t0, a2, 24
	srli	t3, a2, 16
	srli	a4, a2, 8
	srli	t1, s6, 24
	srli	t2, s6, 16
	srli	a3, s6, 8
	sb	s0, 44(a1)
	sb	s1, 45(a1)
	sb	a5, 46(a1)
	sb	a7, 47(a1)
	sb	a2, 40(a1)
	sb	a4, 41(a1)
	sb	t3, 42(a1)
	sb	t0, 43(a1)
	sb	s6, 32(a1)
	sb	a3, 33(a1)
	sb	t2, 34(a1)
	sb	t1, 35(a1)
	ld	a1, 16(sp)
	sb	a6, 0(a1)
	ld	ra, 120(sp)
	ld	s0, 112(sp)
	ld	s1, 104(sp)
	ld	s2, 96(sp)
	ld	s3, 88(sp)
	ld	s4, 80(sp)
	ld	s5, 72(sp)
	ld	s6, 64(sp)
	ld	s7, 56(sp)
	ld	s8, 48(sp)
	ld	s9, 40(sp)
	ld	s10, 32(sp)
	ld	s11, 24(sp)
	.cfi_restore ra
	.cfi_restore s0
	.cfi_restore s1
	.cfi_restore s2
	.cfi_restore s3
	.cfi_restore s4
	.cfi_restore s5
	.cfi_restore s6
	.cfi_restore s7
	.cfi_restore s8
	.cfi_restore s9
	.cfi_restore s10
	.cfi_restore s11
	addi	sp, sp, 128
	.cfi_def_cfa_offset 0
.LBB100_34:
	ret
.Lfunc_end100:
	.size	tlsf_report, .Lfunc_end100-tlsf_report
	.cfi_endproc
	.globl	tlsf_reset
	.p2align	1
	.type	tlsf_reset,@function
tlsf_reset:
	.cfi_startproc
	mv	a1, a0
	lbu	a2, 8(a0)
	li	a0, 32
	beqz	a2, .LBB101_19
	addi	sp, sp, -64
	.cfi_def_cfa_offset 64
	sd	ra, 56(sp)
	sd	s0, 48(sp)
	sd	s1, 40(sp)
	sd	s2, 32(sp)
	sd	s3, 24(sp)
	sd	s4, 16(sp)
	sd	s5, 8(sp)
	sd	s6, 0(sp)
	.cfi_offset ra, -8
	.cfi_offset s0, -16
	.cfi_offset s1, -24
	.cfi_offset s2, -32
	.cfi_offset s3, -40
	.cfi_offset s4, -48
	.cfi_offset s5, -56
	.cfi_offset s6, -64
	addi	s0, sp, 64
	.cfi_def_cfa s0, 0
	ld	s1, 0(a1)
	lbu	a1, 0(s1)
	beqz	a1, .LBB101_18
	lbu	a0, 16(s1)
	ld	s4, 32(s1)
	sb	zero, 0(s1)
	beqz	a0, .LBB101_8
	li	a0, -1
	beq	s4, a0, .LBB101_13
	ld	a2, 80(s1)
	beqz	a2, .LBB101_6
	ld	a0, 72(s1)
	slli	a2, a2, 3
	li	a1, 0
	call	tlsf_memory_set
.LBB101_6:
	li	s5, -1
	addi	s3, s1, 104
	slli	s6, s5, 32
	addi	s6, s6, 3
	addi	s2, s1, 192
	lui	a2, 1
	addi	a2, a2, -1532
	li	a1, 255
	mv	a0, s2
	call	tlsf_memory_set
	li	a2, 88
	mv	a0, s3
	li	a1, 0
	call	tlsf_memory_set
	ld	a0, 48(s1)
	ld	a1, 56(s1)
	lui	a2, 349525
	lui	a3, 209715
	addi	a2, a2, 1365
	slli	a4, a1, 2
	or	a4, a4, s6
	sd	a4, 0(a0)
	sd	s4, 8(a0)
	ori	a0, a1, 32
	srliw	a4, a0, 1
	or	a0, a0, a4
	srliw	a4, a0, 2
	or	a0, a0, a4
	srliw	a4, a0, 4
	or	a0, a0, a4
	srliw	a4, a0, 8
	or	a0, a0, a4
	srliw	a4, a0, 16
	or	a0, a0, a4
	not	a0, a0
	srli	a4, a0, 1
	and	a2, a2, a4
	lui	a4, 61681
	addi	a3, a3, 819
	sub	a0, a0, a2
	and	a2, a0, a3
	srli	a0, a0, 2
	and	a0, a0, a3
	ld	a3, 72(s1)
	add	a0, a0, a2
	srli	a2, a0, 4
	add	a0, a0, a2
	lui	a2, 4112
	addi	a4, a4, -241
	and	a0, a0, a4
	ld	a4, 0(a3)
	addi	a2, a2, 257
	mul	a0, a0, a2
	li	a2, 26
	ori	a4, a4, 1
	srliw	a0, a0, 24
	sub	a2, a2, a0
	srlw	a0, a1, a2
	slli	a2, a2, 5
	add	a2, a2, a0
	slli	a2, a2, 32
	sd	a4, 0(a3)
	srli	a1, a2, 30
	add	s2, s2, a1
	lw	a3, 0(s2)
	ld	a1, 48(s1)
	sw	zero, 0(s2)
	bgez	a3, .LBB101_12
	srli	a2, a2, 32
	sd	s5, 16(a1)
	li	a1, 1
	srli	a2, a2, 5
	j	.LBB101_15
.LBB101_8:
	li	a0, -1
	beq	s4, a0, .LBB101_13
	ld	a2, 80(s1)
	beqz	a2, .LBB101_11
	ld	a0, 72(s1)
	slli	a2, a2, 3
	li	a1, 0
	call	tlsf_memory_set
.LBB101_11:
	li	s5, -1
	addi	s3, s1, 104
	slli	s6, s5, 32
	addi	s6, s6, 3
	addi	s2, s1, 192
	lui	a2, 1
	addi	a2, a2, -1532
	li	a1, 255
	mv	a0, s2
	call	tlsf_memory_set
	li	a2, 88
	mv	a0, s3
	li	a1, 0
	call	tlsf_memory_set
	ld	a0, 48(s1)
	ld	a1, 56(s1)
	lui	a2, 349525
	lui	a3, 209715
	addi	a2, a2, 1365
	slli	a4, a1, 2
	or	a4, a4, s6
	sd	a4, 0(a0)
	sd	s4, 8(a0)
	ori	a0, a1, 16
	srliw	a4, a0, 1
	or	a0, a0, a4
	srliw	a4, a0, 2
	or	a0, a0, a4
	srliw	a4, a0, 4
	or	a0, a0, a4
	srliw	a4, a0, 8
	or	a0, a0, a4
	srliw	a4, a0, 16
	or	a0, a0, a4
	not	a0, a0
	srli	a4, a0, 1
	and	a2, a2, a4
	lui	a4, 61681
	addi	a3, a3, 819
	sub	a0, a0, a2
	and	a2, a0, a3
	srli	a0, a0, 2
	and	a0, a0, a3
	ld	a3, 72(s1)
	add	a0, a0, a2
	srli	a2, a0, 4
	add	a0, a0, a2
	lui	a2, 4112
	addi	a4, a4, -241
	and	a0, a0, a4
	ld	a4, 0(a3)
	addi	a2, a2, 257
	mul	a0, a0, a2
	li	a2, 27
	ori	a4, a4, 1
	srliw	a0, a0, 24
	sub	a2, a2, a0
	srlw	a0, a1, a2
	slli	a2, a2, 4
	add	a2, a2, a0
	slli	a2, a2, 32
	sd	a4, 0(a3)
	srli	a1, a2, 30
	add	s2, s2, a1
	lw	a3, 0(s2)
	ld	a1, 48(s1)
	sw	zero, 0(s2)
	bltz	a3, .LBB101_14
.LBB101_12:
	add	s6, s6, a3
	slli	a3, a3, 3
	addi	s6, s6, -3
	sd	s6, 16(a1)
	add	a1, a1, a3
	lwu	a0, 16(a1)
	sd	a0, 16(a1)
	j	.LBB101_16
.LBB101_13:
	li	a0, 2
	j	.LBB101_17
.LBB101_14:
	srli	a2, a2, 32
	sd	s5, 16(a1)
	li	a1, 1
	andi	a0, a0, 15
	srli	a2, a2, 4
.LBB101_15:
	slli	a3, a2, 2
	add	a3, a3, s1
	lw	a4, 104(s1)
	lw	a5, 108(a3)
	sllw	a0, a1, a0
	sllw	a1, a1, a2
	or	a1, a1, a4
	or	a0, a0, a5
	sw	a1, 104(s1)
	sw	a0, 108(a3)
.LBB101_16:
	li	a0, 0
	ld	a1, 32(s1)
	addi	a1, a1, 1
	sd	a1, 32(s1)
	sw	zero, 40(s1)
.LBB101_17:
	li	a1, 1
	sb	a1, 0(s1)
.LBB101_18:
	.cfi_def_cfa sp, 64
	ld	ra, 56(sp)
	ld	s0, 48(sp)
	ld	s1, 40(sp)
	ld	s2, 32(sp)
	ld	s3, 24(sp)
	ld	s4, 16(sp)
	ld	s5, 8(sp)
	ld	s6, 0(sp)
	.cfi_restore ra
	.cfi_restore s0
	.cfi_restore s1
	.cfi_restore s2
	.cfi_restore s3
	.cfi_restore s4
	.cfi_restore s5
	.cfi_restore s6
	addi	sp, sp, 64
	.cfi_def_cfa_offset 0
.LBB101_19:
	ret
.Lfunc_end101:
	.size	tlsf_reset, .Lfunc_end101-tlsf_reset
	.cfi_endproc
	.globl	tlsf_resize
	.p2align	1
	.type	tlsf_resize,@function
tlsf_resize:
	.cfi_startproc
	addi	sp, sp, -112
	.cfi_def_cfa_offset 112
	sd	ra, 104(sp)
	sd	s0, 96(sp)
	sd	s1, 88(sp)
	sd	s2, 80(sp)
	sd	s3, 72(sp)
	sd	s4, 64(sp)
	sd	s5, 56(sp)
	sd	s6, 48(sp)
	sd	s7, 40(sp)
	sd	s8, 32(sp)
	sd	s9, 24(sp)
	sd	s10, 16(sp)
	sd	s11, 8(sp)
	.cfi_offset ra, -8
	.cfi_offset s0, -16
	.cfi_offset s1, -24
	.cfi_offset s2, -32
	.cfi_offset s3, -40
	.cfi_offset s4, -48
	.cfi_offset s5, -56
	.cfi_offset s6, -64
	.cfi_offset s7, -72
	.cfi_offset s8, -80
	.cfi_offset s9, -88
	.cfi_offset s10, -96
	.cfi_offset s11, -104
	addi	s0, sp, 112
	.cfi_def_cfa s0, 0
	mv	s3, a0
	lbu	a0, 8(a0)
	beqz	a0, .LBB102_50
	ld	s1, 0(s3)
	lbu	a0, 0(s1)
	beqz	a0, .LBB102_50
	li	a0, -1
	srli	a0, a0, 32
	mv	s8, a3
	bltu	a3, a0, .LBB102_4
	mv	s8, a0
.LBB102_4:
	srli	s6, a1, 32
	sb	zero, 0(s1)
	seqz	a0, a3
	lbu	a4, 16(s1)
	lw	a3, 24(s1)
	add	a0, a0, s8
	addi	a0, a0, 31
	srli	s2, a0, 3
	sext.w	a0, a1
	beqz	a4, .LBB102_19
	bne	a3, a0, .LBB102_39
	lw	a0, 56(s1)
	sext.w	a3, s6
	bgeu	a3, a0, .LBB102_38
	ld	a0, 72(s1)
	srli	a3, a1, 35
	andi	a3, a3, -8
	add	a0, a0, a3
	ld	a0, 0(a0)
	srl	a0, a0, s6
	andi	a0, a0, 1
	beqz	a0, .LBB102_38
	addi	a6, s1, 48
	ld	a3, 0(a6)
	slli	s10, s6, 3
	add	a4, a3, s10
	ld	s7, 0(a4)
	andi	a0, s7, 1
	bnez	a0, .LBB102_38
	ld	a0, 8(a4)
	bne	a0, a2, .LBB102_38
	sext.w	a0, s2
	srliw	s9, s7, 2
	bgeu	s9, a0, .LBB102_30
	andi	a1, s7, 2
	bnez	a1, .LBB102_13
	add	a1, s9, s6
	slli	a1, a1, 32
	srli	a1, a1, 29
	add	a1, a1, a3
	ld	a3, 0(a1)
	andi	a1, a3, 1
	bnez	a1, .LBB102_14
.LBB102_13:
	li	a3, 0
.LBB102_14:
	srliw	a1, a3, 2
	add	a1, a1, s9
	bltu	a1, a0, .LBB102_29
	ld	a5, 32(s1)
	li	a0, -1
	beq	a5, a0, .LBB102_63
	sext.w	s4, s8
	mv	a0, a6
	mv	a1, s6
	mv	a2, s7
	mv	a4, s2
	mv	s11, a6
	call	tlsf_heap.refitting.recut.5
	ld	a1, 0(s11)
	add	a1, a1, s10
	lw	s7, 16(a1)
	slli	a0, a0, 32
	srli	s5, a0, 32
	sd	s8, 16(a1)
	bgeu	s7, s4, .LBB102_58
	mv	a3, s11
	andi	s4, s7, 7
	beqz	s4, .LBB102_56
	ld	a0, 0(a3)
	slli	a1, s7, 32
	srli	a1, a1, 32
	add	a1, a1, s10
	addi	a1, a1, 24
	andi	a1, a1, -8
	add	s10, a0, a1
	ld	a0, 0(s10)
.Lpcrel_hi46:
	auipc	a1, %pcrel_hi(.Lstatic.0)
	li	a2, 8
	sd	a0, -112(s0)
	addi	a0, s0, -112
	addi	a1, a1, %pcrel_lo(.Lpcrel_hi46)
	j	.LBB102_55
.LBB102_19:
	bne	a3, a0, .LBB102_39
	lw	a0, 56(s1)
	sext.w	a3, s6
	bgeu	a3, a0, .LBB102_38
	ld	a0, 72(s1)
	srli	a3, a1, 35
	andi	a3, a3, -8
	add	a0, a0, a3
	ld	a0, 0(a0)
	srl	a0, a0, s6
	andi	a0, a0, 1
	beqz	a0, .LBB102_38
	addi	a6, s1, 48
	ld	a3, 0(a6)
	slli	s10, s6, 3
	add	a4, a3, s10
	ld	s5, 0(a4)
	andi	a0, s5, 1
	bnez	a0, .LBB102_38
	ld	a0, 8(a4)
	bne	a0, a2, .LBB102_38
	sext.w	a0, s2
	srliw	s9, s5, 2
	bgeu	s9, a0, .LBB102_40
	andi	a1, s5, 2
	bnez	a1, .LBB102_27
	add	a1, s9, s6
	slli	a1, a1, 32
	srli	a1, a1, 29
	add	a1, a1, a3
	ld	a3, 0(a1)
	andi	a1, a3, 1
	bnez	a1, .LBB102_28
.LBB102_27:
	li	a3, 0
.LBB102_28:
	srliw	a1, a3, 2
	add	a1, a1, s9
	bgeu	a1, a0, .LBB102_51
.LBB102_29:
	li	a0, 1
	sb	a0, 0(s1)
	li	a0, 10
	j	.LBB102_65
.LBB102_30:
	ld	s5, 32(s1)
	li	a0, -1
	beq	s5, a0, .LBB102_63
	lw	s11, 16(a4)
	sext.w	a0, s8
	sd	s8, 16(a4)
	bgeu	s11, a0, .LBB102_36
	andi	s4, s11, 7
	beqz	s4, .LBB102_34
	ld	a0, 0(a6)
	slli	a1, s11, 32
	srli	a1, a1, 32
	add	a1, a1, s10
	addi	a1, a1, 24
	andi	a1, a1, -8
	add	s10, a0, a1
	ld	a0, 0(s10)
.Lpcrel_hi45:
	auipc	a1, %pcrel_hi(.Lstatic.0)
	li	a2, 8
	sd	a0, -112(s0)
	addi	a0, s0, -112
	addi	a1, a1, %pcrel_lo(.Lpcrel_hi45)
	sub	a2, a2, s4
	add	a1, a1, s4
	or	a0, a0, s4
	call	tlsf_memory_cpy
	addi	a6, s1, 48
	ld	a0, -112(s0)
	sd	a0, 0(s10)
.LBB102_34:
	srliw	a0, s11, 3
	snez	a1, s4
	add	a0, a0, a1
	srliw	a1, s8, 3
	andi	a2, s8, 7
	snez	a2, a2
	add	a1, a1, a2
	beq	a1, a0, .LBB102_36
	sub	a1, a1, a0
	ld	a2, 0(a6)
	add	a0, a0, s6
	addi	a0, a0, 3
	slli	a1, a1, 32
	slli	a0, a0, 32
	srli	a0, a0, 29
	add	a0, a0, a2
	srli	a2, a1, 29
	li	a1, 0
	mv	s4, a6
	call	tlsf_memory_set
	mv	a6, s4
.LBB102_36:
	addiw	a1, s2, 4
	mv	a0, s9
	bltu	s9, a1, .LBB102_49
	mv	a0, a6
	mv	a1, s6
	mv	a2, s7
	mv	a3, s2
	mv	a4, s5
	call	tlsf_heap.refitting.split_off.5
	j	.LBB102_48
.LBB102_38:
	mv	a3, a1
.LBB102_39:
	mv	a0, a1
	mv	a1, a3
	call	tlsf_heap.refusal.Refusal.of_name
	zext.b	a0, a0
	li	a1, 1
	sb	a1, 0(s1)
	addi	a0, a0, -3
	seqz	a0, a0
	addi	a0, a0, 3
	j	.LBB102_65
.LBB102_40:
	ld	s7, 32(s1)
	li	a0, -1
	beq	s7, a0, .LBB102_63
	lw	s11, 16(a4)
	sext.w	a0, s8
	sd	s8, 16(a4)
	bgeu	s11, a0, .LBB102_46
	andi	s4, s11, 7
	beqz	s4, .LBB102_44
	ld	a0, 0(a6)
	slli	a1, s11, 32
	srli	a1, a1, 32
	add	a1, a1, s10
	addi	a1, a1, 24
	andi	a1, a1, -8
	add	s10, a0, a1
	ld	a0, 0(s10)
.Lpcrel_hi43:
	auipc	a1, %pcrel_hi(.Lstatic.0)
	li	a2, 8
	sd	a0, -112(s0)
	addi	a0, s0, -112
	addi	a1, a1, %pcrel_lo(.Lpcrel_hi43)
	sub	a2, a2, s4
	add	a1, a1, s4
	or	a0, a0, s4
	call	tlsf_memory_cpy
	addi	a6, s1, 48
	ld	a0, -112(s0)
	sd	a0, 0(s10)
.LBB102_44:
	srliw	a0, s11, 3
	snez	a1, s4
	add	a0, a0, a1
	srliw	a1, s8, 3
	andi	a2, s8, 7
	snez	a2, a2
	add	a1, a1, a2
	beq	a1, a0, .LBB102_46
	sub	a1, a1, a0
	ld	a2, 0(a6)
	add	a0, a0, s6
	addi	a0, a0, 3
	slli	a1, a1, 32
	slli	a0, a0, 32
	srli	a0, a0, 29
	add	a0, a0, a2
	srli	a2, a1, 29
	li	a1, 0
	mv	s4, a6
	call	tlsf_memory_set
	mv	a6, s4
.LBB102_46:
	addiw	a1, s2, 4
	mv	a0, s9
	bltu	s9, a1, .LBB102_49
	mv	a0, a6
	mv	a1, s6
	mv	a2, s5
	mv	a3, s2
	mv	a4, s7
	call	tlsf_heap.refitting.split_off.4
.LBB102_48:
	mv	a0, s2
.LBB102_49:
	lw	a1, 40(s1)
	ld	a2, 32(s1)
	sub	a0, a0, s9
	add	a0, a0, a1
	addi	a2, a2, 1
	sd	a2, 32(s1)
	sw	a0, 40(s1)
	li	a0, 1
	andi	a1, s2, 1
	sb	a0, 0(s1)
	bnez	a1, .LBB102_61
	j	.LBB102_62
.LBB102_50:
	li	a0, 0
	call	tlsf_c.call_fault.CallFault.refusal
	j	.LBB102_65
.LBB102_51:
	ld	a5, 32(s1)
	li	a0, -1
	beq	a5, a0, .LBB102_63
	sext.w	s4, s8
	mv	a0, a6
	mv	a1, s6
	mv	a2, s5
	mv	a4, s2
	mv	s11, a6
	call	tlsf_heap.refitting.recut.4
	ld	a1, 0(s11)
	add	a1, a1, s10
	lw	s7, 16(a1)
	slli	a0, a0, 32
	srli	s5, a0, 32
	sd	s8, 16(a1)
	bgeu	s7, s4, .LBB102_58
	mv	a3, s11
	andi	s4, s7, 7
	beqz	s4, .LBB102_56
	ld	a0, 0(a3)
	slli	a1, s7, 32
	srli	a1, a1, 32
	add	a1, a1, s10
	addi	a1, a1, 24
	andi	a1, a1, -8
	add	s10, a0, a1
	ld	a0, 0(s10)
.Lpcrel_hi44:
	auipc	a1, %pcrel_hi(.Lstatic.0)
	li	a2, 8
	sd	a0, -112(s0)
	addi	a0, s0, -112
	addi	a1, a1, %pcrel_lo(.Lpcrel_hi44)
.LBB102_55:
	sub	a2, a2, s4
	add	a1, a1, s4
	or	a0, a0, s4
	call	tlsf_memory_cpy
	mv	a3, s11
	ld	a0, -112(s0)
	sd	a0, 0(s10)
.LBB102_56:
	srliw	a0, s7, 3
	snez	a1, s4
	add	a0, a0, a1
	srliw	a1, s8, 3
	andi	a2, s8, 7
	snez	a2, a2
	add	a1, a1, a2
	beq	a1, a0, .LBB102_58
	sub	a1, a1, a0
	ld	a2, 0(a3)
	add	a0, a0, s6
	addi	a0, a0, 3
	slli	a1, a1, 32
	slli	a0, a0, 32
	srli	a0, a0, 29
	add	a0, a0, a2
	srli	a2, a1, 29
	li	a1, 0
	call	tlsf_memory_set
.LBB102_58:
	lw	a0, 40(s1)
	lw	a1, 44(s1)
	sub	a2, s5, s9
	addw	a0, a0, a2
	sw	a0, 40(s1)
	bgeu	a1, a0, .LBB102_60
	sw	a0, 44(s1)
.LBB102_60:
	ld	a0, 32(s1)
	addi	a0, a0, 1
	sd	a0, 32(s1)
	li	a0, 1
	andi	a1, s2, 1
	sb	a0, 0(s1)
	beqz	a1, .LBB102_62
.LBB102_61:
	lbu	a0, 28(s3)
	beqz	a0, .LBB102_64
.LBB102_62:
	li	a0, 0
	j	.LBB102_65
.LBB102_63:
	li	a0, 1
	sb	a0, 0(s1)
	li	a0, 2
	j	.LBB102_65
.LBB102_64:
	li	a1, 1
	sb	a1, 28(s3)
.LBB102_65:
	sext.w	a0, a0
	.cfi_def_cfa sp, 112
	ld	ra, 104(sp)
	ld	s0, 96(sp)
	ld	s1, 88(sp)
	ld	s2, 80(sp)
	ld	s3, 72(sp)
	ld	s4, 64(sp)
	ld	s5, 56(sp)
	ld	s6, 48(sp)
	ld	s7, 40(sp)
	ld	s8, 32(sp)
	ld	s9, 24(sp)
	ld	s10, 16(sp)
	ld	s11, 8(sp)
	.cfi_restore ra
	.cfi_restore s0
	.cfi_restore s1
	.cfi_restore s2
	.cfi_restore s3
	.cfi_restore s4
	.cfi_restore s5
	.cfi_restore s6
	.cfi_restore s7
	.cfi_restore s8
	.cfi_restore s9
	.cfi_restore s10
	.cfi_restore s11
	addi	sp, sp, 112
	.cfi_def_cfa_offset 0
	ret
.Lfunc_end102:
	.size	tlsf_resize, .Lfunc_end102-tlsf_resize
	.cfi_endproc
	.section	.rodata.cst32,"aM",@progbits,32
.LCPI103_0:
	.ascii	"\000\001\034\002\035\016\030\003\036\026\024\017\031\021\004\b\037\033\r\027\025\023\020\007\032\f\022\006\013\005\n\t"
	.text
	.globl	tlsf_resize_place
	.p2align	1
	.type	tlsf_resize_place,@function
tlsf_resize_place:
	.cfi_startproc
	addi	sp, sp, -128
	.cfi_def_cfa_offset 128
	sd	ra, 120(sp)
	sd	s0, 112(sp)
	sd	s1, 104(sp)
	sd	s2, 96(sp)
	sd	s3, 88(sp)
	sd	s4, 80(sp)
	sd	s5, 72(sp)
	sd	s6, 64(sp)
	sd	s7, 56(sp)
	sd	s8, 48(sp)
	sd	s9, 40(sp)
	sd	s10, 32(sp)
	.cfi_offset ra, -8
	.cfi_offset s0, -16
	.cfi_offset s1, -24
	.cfi_offset s2, -32
	.cfi_offset s3, -40
	.cfi_offset s4, -48
	.cfi_offset s5, -56
	.cfi_offset s6, -64
	.cfi_offset s7, -72
	.cfi_offset s8, -80
	.cfi_offset s9, -88
	.cfi_offset s10, -96
	addi	s0, sp, 128
	.cfi_def_cfa s0, 0
	.cfi_remember_state
	lbu	a4, 8(a0)
	beqz	a4, .LBB103_36
	ld	s1, 0(a0)
	lbu	a0, 0(s1)
	beqz	a0, .LBB103_36
	li	a0, -1
	srli	a0, a0, 32
	mv	s5, a2
	bltu	a2, a0, .LBB103_4
	mv	s5, a0
.LBB103_4:
	lbu	a4, 16(s1)
	lw	a0, 56(s1)
	sb	zero, 0(s1)
	addi	s2, s1, 24
	addi	s4, s1, 48
	beqz	a4, .LBB103_19
	sext.w	a4, a1
	bgeu	a4, a0, .LBB103_34
	ld	a0, 72(s1)
	srliw	a4, a1, 6
	slli	a4, a4, 3
	add	a0, a0, a4
	ld	a0, 0(a0)
	srl	a0, a0, a1
	andi	a0, a0, 1
	beqz	a0, .LBB103_34
	ld	t4, 0(s4)
	slli	t1, a1, 32
	srli	s6, t1, 29
	add	a0, t4, s6
	ld	a6, 0(a0)
	andi	a4, a6, 1
	bnez	a4, .LBB103_34
	lw	a4, 16(a0)
	sext.w	s8, s5
	bltu	s8, a4, .LBB103_10
	mv	s8, a4
.LBB103_10:
	seqz	a2, a2
	add	a2, a2, s5
	addi	a2, a2, 31
	srli	s3, a2, 3
	sext.w	a5, s3
	srliw	s7, a6, 2
	bgeu	s7, a5, .LBB103_37
	andi	a4, a6, 2
	bnez	a4, .LBB103_13
	add	a4, s7, a1
	slli	a4, a4, 32
	srli	a4, a4, 29
	add	a4, a4, t4
	ld	a7, 0(a4)
	andi	a4, a7, 1
	bnez	a4, .LBB103_14
.LBB103_13:
	li	a7, 0
.LBB103_14:
	srliw	a4, a7, 2
	add	a4, a4, s7
	bgeu	a4, a5, .LBB103_45
	lw	a5, 0(s2)
	ld	t5, 32(s1)
	ld	a0, 8(a0)
	li	a4, -3
	sw	a5, -128(s0)
	sw	a1, -124(s0)
	sd	a0, -120(s0)
	bltu	a4, t5, .LBB103_54
	lui	a0, 32768
	addi	a0, a0, 7
	bltu	a0, a2, .LBB103_31
	ori	a0, s3, 32
	lui	a1, 349525
	lui	a2, 209715
	srliw	a4, a0, 1
	addi	a1, a1, 1365
	or	a0, a0, a4
	srliw	a4, a0, 2
	or	a0, a0, a4
	srliw	a4, a0, 4
	or	a0, a0, a4
	srliw	a4, a0, 8
	or	a0, a0, a4
	srliw	a4, a0, 16
	or	a0, a0, a4
	not	a0, a0
	srli	a4, a0, 1
	and	a1, a1, a4
	lui	a4, 61681
	addi	a2, a2, 819
	sub	a0, a0, a1
	and	a1, a0, a2
	srli	a0, a0, 2
	and	a0, a0, a2
	lui	a2, 4112
	add	a0, a0, a1
	srli	a1, a0, 4
	add	a0, a0, a1
	li	a1, 26
	addi	a4, a4, -241
	and	a0, a0, a4
	addi	a4, s3, -1
	addi	a2, a2, 257
	mul	a0, a0, a2
	srliw	a0, a0, 24
	sub	a1, a1, a0
	srlw	a2, a4, a1
	slli	a1, a1, 5
	add	a1, a1, a2
	addiw	a0, a1, 1
	addi	a0, a0, -1
	srli	a1, a0, 5
	slli	a4, a1, 2
	add	a4, a4, s1
	lw	a4, 108(a4)
	srlw	a2, a4, a2
	andi	a2, a2, -2
	beqz	a2, .LBB103_57
	neg	a1, a2
	and	a1, a1, a2
	lui	a2, 30667
	addi	a2, a2, 1329
	mul	a1, a1, a2
.Lpcrel_hi49:
	auipc	a2, %pcrel_hi(.LCPI103_0)
	srliw	a1, a1, 27
	addi	a2, a2, %pcrel_lo(.Lpcrel_hi49)
	add	a1, a1, a2
	lbu	a1, 0(a1)
	add	a0, a0, a1
	j	.LBB103_65
.LBB103_19:
	sext.w	a4, a1
	bgeu	a4, a0, .LBB103_34
	ld	a0, 72(s1)
	srliw	a4, a1, 6
	slli	a4, a4, 3
	add	a0, a0, a4
	ld	a0, 0(a0)
	srl	a0, a0, a1
	andi	a0, a0, 1
	beqz	a0, .LBB103_34
	ld	t4, 0(s4)
	slli	t1, a1, 32
	srli	s6, t1, 29
	add	a0, t4, s6
	ld	a6, 0(a0)
	andi	a4, a6, 1
	bnez	a4, .LBB103_34
	lw	a4, 16(a0)
	sext.w	s8, s5
	bltu	s8, a4, .LBB103_24
	mv	s8, a4
.LBB103_24:
	seqz	a2, a2
	add	a2, a2, s5
	addi	a2, a2, 31
	srli	s3, a2, 3
	sext.w	a5, s3
	srliw	s7, a6, 2
	bgeu	s7, a5, .LBB103_40
	andi	a4, a6, 2
	bnez	a4, .LBB103_27
	add	a4, s7, a1
	slli	a4, a4, 32
	srli	a4, a4, 29
	add	a4, a4, t4
	ld	a7, 0(a4)
	andi	a4, a7, 1
	bnez	a4, .LBB103_28
.LBB103_27:
	li	a7, 0
.LBB103_28:
	srliw	a4, a7, 2
	add	a4, a4, s7
	bgeu	a4, a5, .LBB103_47
	lw	a5, 0(s2)
	ld	t5, 32(s1)
	ld	a0, 8(a0)
	li	a4, -3
	sw	a5, -128(s0)
	sw	a1, -124(s0)
	sd	a0, -120(s0)
	bltu	a4, t5, .LBB103_54
	lui	a0, 2048
	addi	a0, a0, 7
	bgeu	a0, a2, .LBB103_55
.LBB103_31:
	lw	a1, 8(s1)
	lw	a0, 12(s1)
	addiw	a1, a1, 1
	snez	a2, a1
	addi	a2, a2, -1
	or	a1, a1, a2
	sext.w	s5, s5
	sw	a1, 8(s1)
	bltu	a0, s5, .LBB103_33
	mv	s5, a0
.LBB103_33:
	li	a0, 1
	sb	a0, 0(s1)
	sw	s5, 12(s1)
	j	.LBB103_35
.LBB103_34:
	li	a0, 1
	sb	a0, 0(s1)
	li	a0, 4
.LBB103_35:
	sext.w	a0, a0
	.cfi_def_cfa sp, 128
	ld	ra, 120(sp)
	ld	s0, 112(sp)
	ld	s1, 104(sp)
	ld	s2, 96(sp)
	ld	s3, 88(sp)
	ld	s4, 80(sp)
	ld	s5, 72(sp)
	ld	s6, 64(sp)
	ld	s7, 56(sp)
	ld	s8, 48(sp)
	ld	s9, 40(sp)
	ld	s10, 32(sp)
	.cfi_restore ra
	.cfi_restore s0
	.cfi_restore s1
	.cfi_restore s2
	.cfi_restore s3
	.cfi_restore s4
	.cfi_restore s5
	.cfi_restore s6
	.cfi_restore s7
	.cfi_restore s8
	.cfi_restore s9
	.cfi_restore s10
	addi	sp, sp, 128
	.cfi_def_cfa_offset 0
	ret
.LBB103_36:
	.cfi_restore_state
	li	a0, 0
	call	tlsf_c.call_fault.CallFault.refusal
	j	.LBB103_35
.LBB103_37:
	ld	a4, 32(s1)
	li	a2, -1
	beq	a4, a2, .LBB103_54
	slli	s8, s8, 32
	srli	a2, s8, 32
	addiw	a5, s3, 4
	sd	a2, 16(a0)
	mv	a0, s7
	bltu	s7, a5, .LBB103_44
	mv	a0, s4
	mv	s2, a1
	mv	a2, a6
	mv	s8, a3
	mv	a3, s3
	call	tlsf_heap.refitting.split_off.5
	j	.LBB103_43
.LBB103_40:
	ld	a4, 32(s1)
	li	a2, -1
	beq	a4, a2, .LBB103_54
	slli	s8, s8, 32
	srli	a2, s8, 32
	addiw	a5, s3, 4
	sd	a2, 16(a0)
	mv	a0, s7
	bltu	s7, a5, .LBB103_44
	mv	a0, s4
	mv	s2, a1
	mv	a2, a6
	mv	s8, a3
	mv	a3, s3
	call	tlsf_heap.refitting.split_off.4
.LBB103_43:
	mv	a1, s2
	mv	a3, s8
	mv	a0, s3
.LBB103_44:
	lw	a2, 40(s1)
	ld	a4, 32(s1)
	sub	a0, a0, s7
	add	a0, a0, a2
	addi	a4, a4, 1
	sd	a4, 32(s1)
	sw	a0, 40(s1)
	j	.LBB103_52
.LBB103_45:
	ld	a5, 32(s1)
	li	a0, -1
	beq	a5, a0, .LBB103_54
	mv	s2, a3
	mv	a0, s4
	mv	s9, a1
	mv	a2, a6
	mv	a3, a7
	mv	a4, s3
	call	tlsf_heap.refitting.recut.5
	j	.LBB103_49
.LBB103_47:
	ld	a5, 32(s1)
	li	a0, -1
	beq	a5, a0, .LBB103_54
	mv	s2, a3
	mv	a0, s4
	mv	s9, a1
	mv	a2, a6
	mv	a3, a7
	mv	a4, s3
	call	tlsf_heap.refitting.recut.4
.LBB103_49:
	ld	a1, 48(s1)
	slli	s8, s8, 32
	add	a1, a1, s6
	srli	a2, s8, 32
	sd	a2, 16(a1)
	lw	a1, 40(s1)
	lw	a2, 44(s1)
	sub	a1, a1, s7
	addw	a0, a0, a1
	sw	a0, 40(s1)
	bgeu	a2, a0, .LBB103_51
	sw	a0, 44(s1)
.LBB103_51:
	ld	a0, 32(s1)
	addi	a0, a0, 1
	sd	a0, 32(s1)
	mv	a3, s2
	mv	a1, s9
.LBB103_52:
	ld	a0, 0(s4)
	add	a0, a0, s6
	sd	s5, 16(a0)
.LBB103_53:
	li	a0, 0
	li	a2, 1
	sb	a2, 0(s1)
	sw	a1, 0(a3)
	j	.LBB103_35
.LBB103_54:
	li	a0, 1
	sb	a0, 0(s1)
	li	a0, 2
	j	.LBB103_35
.LBB103_55:
	ori	a0, s3, 16
	lui	a1, 349525
	lui	a2, 209715
	srliw	a4, a0, 1
	addi	a1, a1, 1365
	or	a0, a0, a4
	srliw	a4, a0, 2
	or	a0, a0, a4
	srliw	a4, a0, 4
	or	a0, a0, a4
	srliw	a4, a0, 8
	or	a0, a0, a4
	srliw	a4, a0, 16
	or	a0, a0, a4
	not	a0, a0
	srli	a4, a0, 1
	and	a1, a1, a4
	lui	a4, 61681
	addi	a2, a2, 819
	sub	a0, a0, a1
	and	a1, a0, a2
	srli	a0, a0, 2
	and	a0, a0, a2
	lui	a2, 4112
	add	a0, a0, a1
	srli	a1, a0, 4
	add	a0, a0, a1
	li	a1, 27
	addi	a4, a4, -241
	and	a0, a0, a4
	addi	a4, s3, -1
	addi	a2, a2, 257
	mul	a0, a0, a2
	srliw	a0, a0, 24
	sub	a1, a1, a0
	srlw	a2, a4, a1
	slli	a1, a1, 4
	add	a1, a1, a2
	addiw	a0, a1, 1
	addi	a0, a0, -1
	srli	a1, a0, 4
	slli	a4, a1, 2
	add	a4, a4, s1
	lw	a4, 108(a4)
	andi	a2, a2, 15
	srlw	a2, a4, a2
	andi	a2, a2, -2
	beqz	a2, .LBB103_60
	neg	a1, a2
	and	a1, a1, a2
	lui	a2, 30667
	addi	a2, a2, 1329
	mul	a1, a1, a2
.Lpcrel_hi47:
	auipc	a2, %pcrel_hi(.LCPI103_0)
	srliw	a1, a1, 27
	addi	a2, a2, %pcrel_lo(.Lpcrel_hi47)
	add	a1, a1, a2
	lbu	a1, 0(a1)
	add	a0, a0, a1
	j	.LBB103_86
.LBB103_57:
	lw	a0, 104(s1)
	li	a2, -2
	sllw	a1, a2, a1
	and	a0, a0, a1
	beqz	a0, .LBB103_31
	neg	a1, a0
	lui	a2, 30667
.Lpcrel_hi50:
	auipc	a4, %pcrel_hi(.LCPI103_0)
	and	a0, a0, a1
	addi	a1, a2, 1329
	mul	a0, a0, a1
	srliw	a0, a0, 27
	addi	a2, a4, %pcrel_lo(.Lpcrel_hi50)
	add	a0, a0, a2
	lbu	a0, 0(a0)
	slli	a4, a0, 2
	add	a4, a4, s1
	lw	a5, 108(a4)
	beqz	a5, .LBB103_63
	neg	a4, a5
	and	a4, a4, a5
	mul	a1, a4, a1
	srliw	a1, a1, 27
	add	a1, a1, a2
	lbu	a1, 0(a1)
	j	.LBB103_64
.LBB103_60:
	lw	a0, 104(s1)
	li	a2, -2
	sllw	a1, a2, a1
	and	a0, a0, a1
	beqz	a0, .LBB103_31
	neg	a1, a0
	lui	a2, 30667
.Lpcrel_hi48:
	auipc	a4, %pcrel_hi(.LCPI103_0)
	and	a0, a0, a1
	addi	a1, a2, 1329
	mul	a0, a0, a1
	srliw	a0, a0, 27
	addi	a2, a4, %pcrel_lo(.Lpcrel_hi48)
	add	a0, a0, a2
	lbu	a0, 0(a0)
	slli	a4, a0, 2
	add	a4, a4, s1
	lw	a5, 108(a4)
	beqz	a5, .LBB103_84
	neg	a4, a5
	and	a4, a4, a5
	mul	a1, a4, a1
	srliw	a1, a1, 27
	add	a1, a1, a2
	lbu	a1, 0(a1)
	j	.LBB103_85
.LBB103_63:
	li	a1, 32
.LBB103_64:
	slli	a0, a0, 5
	add	a0, a0, a1
.LBB103_65:
	slli	a1, a0, 2
	add	a1, a1, s1
	lwu	t3, 192(a1)
	slli	a6, t3, 3
	add	a2, t4, a6
	lw	a2, 16(a2)
	li	a5, -1
	beq	a2, a5, .LBB103_67
	slli	a0, a2, 32
	srli	a0, a0, 29
	add	a0, a0, t4
	ld	a4, 16(a0)
	slli	a5, a5, 32
	or	a4, a4, a5
	sd	a4, 16(a0)
	ld	t4, 0(s4)
	sw	a2, 192(a1)
	j	.LBB103_69
.LBB103_67:
	sw	a5, 192(a1)
	srli	a1, a0, 5
	slli	a2, a1, 2
	add	a4, s1, a2
	lw	a5, 108(a4)
	li	a2, 1
	sllw	a0, a2, a0
	not	a0, a0
	and	a0, a0, a5
	sw	a0, 108(a4)
	bnez	a0, .LBB103_69
	lw	a0, 104(s1)
	sllw	a1, a2, a1
	not	a1, a1
	and	a0, a0, a1
	sw	a0, 104(s1)
.LBB103_69:
	add	a0, t4, a6
	ld	a1, 0(a0)
	slli	a2, s3, 2
	subw	a2, a1, a2
	li	a4, 15
	bltu	a4, a2, .LBB103_71
	addi	a1, a1, -1
	sd	a1, 0(a0)
	sd	t5, 8(a0)
	sd	s5, 16(a0)
	srliw	s3, a1, 2
	j	.LBB103_76
.LBB103_71:
	lui	s7, 131072
	srliw	a7, a2, 2
	li	t6, -1
	slli	a5, a2, 32
	slli	t0, t3, 32
	add	t2, t3, s3
	add	s8, t3, s3
	li	s9, 1
	andi	s10, a2, 2
	srli	a5, a5, 32
	slli	a4, t2, 32
	or	a2, t0, a5
	sub	a1, a1, a5
	srli	t0, a4, 29
	sd	a1, 0(a0)
	sd	t5, 8(a0)
	sd	s5, 16(a0)
	add	t4, t4, t0
	sd	a2, 0(t4)
	sd	t5, 8(t4)
	ld	a0, 72(s1)
	addi	s7, s7, -8
	srli	a1, s8, 3
	and	a1, a1, s7
	add	a0, a0, a1
	ld	a1, 0(a0)
	srli	t4, t6, 32
	sll	a2, s9, t2
	srli	a4, a4, 32
	or	a1, a1, a2
	sd	a1, 0(a0)
	slli	t5, a4, 32
	bnez	s10, .LBB103_73
	ld	a0, 0(s4)
	add	a1, a7, t2
	slli	a1, a1, 32
	srli	a1, a1, 29
	add	a0, a0, a1
	ld	a1, 0(a0)
	and	a1, a1, t4
	or	a1, a1, t5
	sd	a1, 0(a0)
.LBB103_73:
	ori	a0, a7, 32
	lui	a1, 349525
	lui	a2, 209715
	srli	a5, a0, 1
	addi	a1, a1, 1365
	or	a0, a0, a5
	srli	a5, a0, 2
	or	a0, a0, a5
	srli	a5, a0, 4
	or	a0, a0, a5
	slli	a5, a0, 34
	srli	a5, a5, 42
	or	a0, a0, a5
	slli	a5, a0, 33
	srli	a5, a5, 49
	or	a0, a0, a5
	not	a0, a0
	srli	a5, a0, 1
	and	a1, a1, a5
	lui	a5, 61681
	addi	a2, a2, 819
	sub	a0, a0, a1
	and	a1, a0, a2
	srli	a0, a0, 2
	and	a0, a0, a2
	lui	a2, 4112
	add	a0, a0, a1
	srli	a1, a0, 4
	add	a0, a0, a1
	li	a1, 26
	addi	a5, a5, -241
	addi	a2, a2, 257
	and	a0, a0, a5
	mul	a0, a0, a2
	srliw	a0, a0, 24
	sub	a1, a1, a0
	srlw	a0, a7, a1
	slli	a1, a1, 5
	add	a1, a1, a0
	slli	a2, a1, 2
	add	a2, a2, s1
	lw	a5, 192(a2)
	ld	a4, 0(s4)
	sw	t2, 192(a2)
	bltz	a5, .LBB103_75
	li	a0, -1
	add	t0, t0, a4
	slli	a0, a0, 32
	or	a0, a0, a5
	slli	a5, a5, 3
	sd	a0, 16(t0)
	add	a4, a4, a5
	ld	a0, 16(a4)
	and	a0, a0, t4
	or	a0, a0, t5
	sd	a0, 16(a4)
	j	.LBB103_76
.LBB103_75:
	add	a4, a4, t0
	li	a2, -1
	srli	a1, a1, 5
	li	a7, 1
	sd	a2, 16(a4)
	slli	a2, a1, 2
	add	a2, a2, s1
	lw	a4, 104(s1)
	lw	a5, 108(a2)
	sllw	a1, a7, a1
	sllw	a0, a7, a0
	or	a1, a1, a4
	or	a0, a0, a5
	sw	a1, 104(s1)
	sw	a0, 108(a2)
.LBB103_76:
	lw	a0, 40(s1)
	lw	a1, 44(s1)
	addw	a0, a0, s3
	sw	a0, 40(s1)
	bgeu	a1, a0, .LBB103_78
	sw	a0, 44(s1)
.LBB103_78:
	ld	a1, 32(s1)
	ld	a0, 48(s1)
	addi	a1, a1, 1
	sd	a1, 32(s1)
	add	s6, s6, a0
	add	a6, a6, a0
	lw	a4, 16(s6)
	lw	a2, 16(a6)
	srli	a1, t1, 32
	bltu	a2, a4, .LBB103_80
	mv	a2, a4
.LBB103_80:
	mv	s7, a3
	addi	a1, a1, 3
	mv	s8, t3
	addi	s3, t3, 3
	andi	s5, a2, 7
	srliw	s6, a2, 3
	beqz	s5, .LBB103_82
	add	a2, s6, a1
	slli	a2, a2, 3
	add	a2, a2, a0
	ld	a2, 0(a2)
	sd	a2, -112(s0)
	mv	a2, s3
	mv	a3, s6
	call	tlsf_words.cells.copy_run
	ld	a0, 0(s4)
	add	s3, s3, s6
	slli	s3, s3, 3
	add	s3, s3, a0
	ld	a0, 0(s3)
	sd	a0, -104(s0)
	addi	a0, s0, -104
	addi	a1, s0, -112
	mv	a2, s5
	call	tlsf_memory_cpy
	ld	a0, -104(s0)
	sd	a0, 0(s3)
	j	.LBB103_83
.LBB103_82:
	mv	a2, s3
	mv	a3, s6
	call	tlsf_words.cells.copy_run
.LBB103_83:
	addi	a1, s0, -128
	mv	a0, s2
	call	tlsf_heap.heap.Heap.release_live.5
	j	.LBB103_105
.LBB103_84:
	li	a1, 32
.LBB103_85:
	slli	a0, a0, 4
	add	a0, a0, a1
.LBB103_86:
	slli	a1, a0, 2
	add	a1, a1, s1
	lwu	t3, 192(a1)
	slli	a6, t3, 3
	add	a2, t4, a6
	lw	a2, 16(a2)
	li	a5, -1
	beq	a2, a5, .LBB103_88
	slli	a0, a2, 32
	srli	a0, a0, 29
	add	a0, a0, t4
	ld	a4, 16(a0)
	slli	a5, a5, 32
	or	a4, a4, a5
	sd	a4, 16(a0)
	ld	t4, 0(s4)
	sw	a2, 192(a1)
	j	.LBB103_90
.LBB103_88:
	sw	a5, 192(a1)
	srli	a1, a0, 4
	slli	a2, a1, 2
	add	a2, a2, s1
	lw	a4, 108(a2)
	andi	a5, a0, 15
	li	a0, 1
	sllw	a5, a0, a5
	not	a5, a5
	and	a4, a4, a5
	sw	a4, 108(a2)
	bnez	a4, .LBB103_90
	lw	a2, 104(s1)
	sllw	a0, a0, a1
	not	a0, a0
	and	a0, a0, a2
	sw	a0, 104(s1)
.LBB103_90:
	add	a0, t4, a6
	ld	a1, 0(a0)
	slli	a2, s3, 2
	subw	a2, a1, a2
	li	a4, 15
	bltu	a4, a2, .LBB103_92
	addi	a1, a1, -1
	sd	a1, 0(a0)
	sd	t5, 8(a0)
	sd	s5, 16(a0)
	srliw	s3, a1, 2
	j	.LBB103_97
.LBB103_92:
	lui	s7, 131072
	srliw	a7, a2, 2
	li	t6, -1
	slli	a5, a2, 32
	slli	t0, t3, 32
	add	t2, t3, s3
	add	s8, t3, s3
	li	s9, 1
	andi	s10, a2, 2
	srli	a5, a5, 32
	slli	a4, t2, 32
	or	a2, t0, a5
	sub	a1, a1, a5
	srli	t0, a4, 29
	sd	a1, 0(a0)
	sd	t5, 8(a0)
	sd	s5, 16(a0)
	add	t4, t4, t0
	sd	a2, 0(t4)
	sd	t5, 8(t4)
	ld	a0, 72(s1)
	addi	s7, s7, -8
	srli	a1, s8, 3
	and	a1, a1, s7
	add	a0, a0, a1
	ld	a1, 0(a0)
	srli	t4, t6, 32
	sll	a2, s9, t2
	srli	a4, a4, 32
	or	a1, a1, a2
	sd	a1, 0(a0)
	slli	t5, a4, 32
	bnez	s10, .LBB103_94
	ld	a0, 0(s4)
	add	a1, a7, t2
	slli	a1, a1, 32
	srli	a1, a1, 29
	add	a0, a0, a1
	ld	a1, 0(a0)
	and	a1, a1, t4
	or	a1, a1, t5
	sd	a1, 0(a0)
.LBB103_94:
	ori	a0, a7, 16
	lui	a1, 349525
	lui	a2, 209715
	srli	a5, a0, 1
	addi	a1, a1, 1365
	or	a0, a0, a5
	srli	a5, a0, 2
	or	a0, a0, a5
	srli	a5, a0, 4
	or	a0, a0, a5
	slli	a5, a0, 34
	srli	a5, a5, 42
	or	a0, a0, a5
	slli	a5, a0, 33
	srli	a5, a5, 49
	or	a0, a0, a5
	not	a0, a0
	srli	a5, a0, 1
	and	a1, a1, a5
	lui	a5, 61681
	addi	a2, a2, 819
	sub	a0, a0, a1
	and	a1, a0, a2
	srli	a0, a0, 2
	and	a0, a0, a2
	lui	a2, 4112
	add	a0, a0, a1
	srli	a1, a0, 4
	add	a0, a0, a1
	li	a1, 27
	addi	a5, a5, -241
	addi	a2, a2, 257
	and	a0, a0, a5
	mul	a0, a0, a2
	srliw	a0, a0, 24
	sub	a1, a1, a0
	srlw	a0, a7, a1
	slli	a1, a1, 4
	add	a1, a1, a0
	slli	a2, a1, 2
	add	a2, a2, s1
	lw	a5, 192(a2)
	ld	a4, 0(s4)
	sw	t2, 192(a2)
	bltz	a5, .LBB103_96
	li	a0, -1
	add	t0, t0, a4
	slli	a0, a0, 32
	or	a0, a0, a5
	slli	a5, a5, 3
	sd	a0, 16(t0)
	add	a4, a4, a5
	ld	a0, 16(a4)
	and	a0, a0, t4
	or	a0, a0, t5
	sd	a0, 16(a4)
	j	.LBB103_97
.LBB103_96:
	add	a4, a4, t0
	li	a2, -1
	srli	a1, a1, 4
	li	a7, 1
	andi	a0, a0, 15
	sd	a2, 16(a4)
	slli	a2, a1, 2
	add	a2, a2, s1
	lw	a4, 104(s1)
	lw	a5, 108(a2)
	sllw	a1, a7, a1
	sllw	a0, a7, a0
	or	a1, a1, a4
	or	a0, a0, a5
	sw	a1, 104(s1)
	sw	a0, 108(a2)
.LBB103_97:
	lw	a0, 40(s1)
	lw	a1, 44(s1)
	addw	a0, a0, s3
	sw	a0, 40(s1)
	bgeu	a1, a0, .LBB103_99
	sw	a0, 44(s1)
.LBB103_99:
	ld	a1, 32(s1)
	ld	a0, 48(s1)
	addi	a1, a1, 1
	sd	a1, 32(s1)
	add	s6, s6, a0
	add	a6, a6, a0
	lw	a4, 16(s6)
	lw	a2, 16(a6)
	srli	a1, t1, 32
	bltu	a2, a4, .LBB103_101
	mv	a2, a4
.LBB103_101:
	mv	s7, a3
	addi	a1, a1, 3
	mv	s8, t3
	addi	s3, t3, 3
	andi	s5, a2, 7
	srliw	s6, a2, 3
	beqz	s5, .LBB103_103
	add	a2, s6, a1
	slli	a2, a2, 3
	add	a2, a2, a0
	ld	a2, 0(a2)
	sd	a2, -112(s0)
	mv	a2, s3
	mv	a3, s6
	call	tlsf_words.cells.copy_run
	ld	a0, 0(s4)
	add	s3, s3, s6
	slli	s3, s3, 3
	add	s3, s3, a0
	ld	a0, 0(s3)
	sd	a0, -104(s0)
	addi	a0, s0, -104
	addi	a1, s0, -112
	mv	a2, s5
	call	tlsf_memory_cpy
	ld	a0, -104(s0)
	sd	a0, 0(s3)
	j	.LBB103_104
.LBB103_103:
	mv	a2, s3
	mv	a3, s6
	call	tlsf_words.cells.copy_run
.LBB103_104:
	addi	a1, s0, -128
	mv	a0, s2
	call	tlsf_heap.heap.Heap.release_live.4
.LBB103_105:
	mv	a3, s7
	mv	a1, s8
	j	.LBB103_53
.Lfunc_end103:
	.size	tlsf_resize_place, .Lfunc_end103-tlsf_resize_place
	.cfi_endproc
	.globl	tlsf_take
	.p2align	1
	.type	tlsf_take,@function
tlsf_take:
	.cfi_startproc
	addi	sp, sp, -64
	.cfi_def_cfa_offset 64
	sd	ra, 56(sp)
	sd	s0, 48(sp)
	sd	s1, 40(sp)
	sd	s2, 32(sp)
	sd	s3, 24(sp)
	sd	s4, 16(sp)
	sd	s5, 8(sp)
	sd	s6, 0(sp)
	.cfi_offset ra, -8
	.cfi_offset s0, -16
	.cfi_offset s1, -24
	.cfi_offset s2, -32
	.cfi_offset s3, -40
	.cfi_offset s4, -48
	.cfi_offset s5, -56
	.cfi_offset s6, -64
	addi	s0, sp, 64
	.cfi_def_cfa s0, 0
	.cfi_remember_state
	lbu	a2, 8(a0)
	beqz	a2, .LBB104_9
	ld	a2, 0(a0)
	lbu	a0, 1(a2)
	beqz	a0, .LBB104_9
	lbu	a0, 0(a2)
	li	a3, 1
	bne	a0, a3, .LBB104_10
	ld	a3, 32(a2)
	ld	a0, 40(a2)
	ld	a4, 24(a2)
	sltu	a5, a0, a3
	slli	a6, a4, 1
	neg	a5, a5
	and	a5, a5, a6
	neg	a5, a5
	sub	a0, a0, a3
	sb	zero, 1(a2)
	bne	a0, a5, .LBB104_6
	ld	a0, 8(a2)
	fence	rw, rw
	ld	a0, 128(a0)
	fence	r, rw
	ld	a3, 32(a2)
	ld	a4, 24(a2)
	sltu	a5, a0, a3
	slli	a6, a4, 1
	neg	a5, a5
	and	a5, a5, a6
	neg	a6, a5
	sub	a5, a0, a3
	sd	a0, 40(a2)
	bne	a5, a6, .LBB104_6
	li	a0, 35
	j	.LBB104_7
.LBB104_6:
	li	a0, 0
	slli	a7, a4, 1
	addi	a6, a3, 1
	sltu	a5, a3, a4
	ld	t0, 8(a2)
	ld	t1, 16(a2)
	addi	a7, a7, -1
	addi	a5, a5, -1
	sltu	a7, a3, a7
	and	a4, a4, a5
	neg	a5, a7
	sub	a3, a3, a4
	and	a4, a5, a6
	slli	a5, a3, 3
	slli	a3, a3, 4
	add	a3, a3, a5
	add	a3, a3, t1
	lbu	a5, 8(a3)
	lbu	a6, 9(a3)
	lbu	a7, 10(a3)
	lb	t1, 11(a3)
	lbu	t2, 12(a3)
	lbu	t3, 13(a3)
	lbu	t4, 14(a3)
	lb	t5, 15(a3)
	lbu	t6, 16(a3)
	lbu	s4, 17(a3)
	lbu	s2, 18(a3)
	lbu	s3, 19(a3)
	lbu	s1, 20(a3)
	lbu	s5, 21(a3)
	lbu	s6, 22(a3)
	lbu	a3, 23(a3)
	fence	rw, w
	sd	a4, 0(t0)
	fence	rw, rw
	sd	a4, 32(a2)
	sb	a5, 0(a1)
	sb	a6, 1(a1)
	sb	a7, 2(a1)
	sb	t1, 3(a1)
	sb	t2, 4(a1)
	sb	t3, 5(a1)
	sb	t4, 6(a1)
	sb	t5, 7(a1)
	sb	s1, 12(a1)
	sb	s5, 13(a1)
	sb	s6, 14(a1)
	sb	a3, 15(a1)
	sb	t6, 8(a1)
	sb	s4, 9(a1)
	sb	s2, 10(a1)
	sb	s3, 11(a1)
.LBB104_7:
	li	a1, 1
	sb	a1, 1(a2)
.LBB104_8:
	sext.w	a0, a0
	.cfi_def_cfa sp, 64
	ld	ra, 56(sp)
	ld	s0, 48(sp)
	ld	s1, 40(sp)
	ld	s2, 32(sp)
	ld	s3, 24(sp)
	ld	s4, 16(sp)
	ld	s5, 8(sp)
	ld	s6, 0(sp)
	.cfi_restore ra
	.cfi_restore s0
	.cfi_restore s1
	.cfi_restore s2
	.cfi_restore s3
	.cfi_restore s4
	.cfi_restore s5
	.cfi_restore s6
	addi	sp, sp, 64
	.cfi_def_cfa_offset 0
	ret
.LBB104_9:
	.cfi_restore_state
	li	a0, 0
	j	.LBB104_11
.LBB104_10:
	li	a0, 2
.LBB104_11:
	call	tlsf_c.call_fault.CallFault.refusal
	j	.LBB104_8
.Lfunc_end104:
	.size	tlsf_take, .Lfunc_end104-tlsf_take
	.cfi_endproc
	.globl	tlsf_take_all
	.p2align	1
	.type	tlsf_take_all,@function
tlsf_take_all:
	.cfi_startproc
	addi	sp, sp, -848
	.cfi_def_cfa_offset 848
	sd	ra, 840(sp)
	sd	s0, 832(sp)
	sd	s1, 824(sp)
	sd	s2, 816(sp)
	sd	s3, 808(sp)
	sd	s4, 800(sp)
	sd	s5, 792(sp)
	sd	s6, 784(sp)
	sd	s7, 776(sp)
	.cfi_offset ra, -8
	.cfi_offset s0, -16
	.cfi_offset s1, -24
	.cfi_offset s2, -32
	.cfi_offset s3, -40
	.cfi_offset s4, -48
	.cfi_offset s5, -56
	.cfi_offset s6, -64
	.cfi_offset s7, -72
	addi	s0, sp, 848
	.cfi_def_cfa s0, 0
	.cfi_remember_state
	mv	s2, a3
	lbu	a3, 8(a0)
	beqz	a3, .LBB105_22
	ld	s6, 0(a0)
	lbu	a0, 1(s6)
	beqz	a0, .LBB105_22
	lbu	a0, 0(s6)
	li	a3, 1
	bne	a0, a3, .LBB105_25
	seqz	s5, a1
	li	a0, 32
	sb	zero, 1(s6)
	mv	s4, a2
	bltu	a2, a0, .LBB105_5
	li	s4, 32
.LBB105_5:
	ld	a0, 32(s6)
	ld	a4, 40(s6)
	ld	a6, 24(s6)
	sltu	a5, a4, a0
	slli	a3, a6, 1
	neg	a5, a5
	and	a3, a3, a5
	sub	a5, a4, a0
	add	a3, a3, a5
	slli	s5, s5, 12
	bgeu	a3, s4, .LBB105_9
	ld	a0, 8(s6)
	fence	rw, rw
	ld	a4, 128(a0)
	fence	r, rw
	ld	a0, 32(s6)
	ld	a6, 24(s6)
	sltu	a3, a4, a0
	slli	a5, a6, 1
	neg	a3, a3
	and	a3, a3, a5
	sub	a5, a4, a0
	add	a5, a5, a3
	sd	a4, 40(s6)
	bltu	a5, s4, .LBB105_8
	mv	a5, s4
.LBB105_8:
	mv	s4, a5
.LBB105_9:
	add	s5, s5, a1
	li	a1, 21
	addi	s3, s6, 8
	bltu	s4, a1, .LBB105_12
	addi	a0, s0, -840
	li	a2, 768
	li	a1, 0
	call	tlsf_memory_set
	addi	a1, s0, -840
	mv	a0, s3
	mv	a2, s4
	call	tlsf_post.take_end.TakeEnd.take_slice
	addi	s5, s5, 8
	addi	a0, s0, -824
	slli	a1, s4, 4
	add	a6, s5, a1
.LBB105_11:
	lw	a2, -8(a0)
	lw	a3, -4(a0)
	ld	a4, 0(a0)
	srli	a7, a2, 24
	srli	t1, a2, 16
	srli	t5, a2, 8
	srli	t0, a3, 24
	srli	t3, a3, 16
	srli	s1, a3, 8
	srli	t2, a4, 56
	srli	t4, a4, 48
	srli	a5, a4, 40
	srli	a1, a4, 32
	sb	a2, -8(s5)
	sb	t5, -7(s5)
	sb	t1, -6(s5)
	sb	a7, -5(s5)
	srli	a2, a4, 24
	sb	a3, -4(s5)
	sb	s1, -3(s5)
	sb	t3, -2(s5)
	sb	t0, -1(s5)
	srli	a3, a4, 16
	sb	a1, 4(s5)
	sb	a5, 5(s5)
	sb	t4, 6(s5)
	sb	t2, 7(s5)
	srli	a1, a4, 8
	sb	a4, 0(s5)
	sb	a1, 1(s5)
	sb	a3, 2(s5)
	sb	a2, 3(s5)
	addi	s5, s5, 16
	addi	a0, a0, 24
	bne	s5, a6, .LBB105_11
	j	.LBB105_19
.LBB105_12:
	li	a1, 2
	bltu	s4, a1, .LBB105_15
	addi	a0, s0, -840
	li	a2, 480
	li	a1, 0
	call	tlsf_memory_set
	addi	a1, s0, -840
	mv	a0, s3
	mv	a2, s4
	call	tlsf_post.take_end.TakeEnd.take_slice
	addi	s5, s5, 8
	addi	a0, s0, -824
	slli	a1, s4, 4
	add	a6, s5, a1
.LBB105_14:
	lw	a2, -8(a0)
	lw	a3, -4(a0)
	ld	a4, 0(a0)
	srli	a7, a2, 24
	srli	t1, a2, 16
	srli	t5, a2, 8
	srli	t0, a3, 24
	srli	t3, a3, 16
	srli	s1, a3, 8
	srli	t2, a4, 56
	srli	t4, a4, 48
	srli	a5, a4, 40
	srli	a1, a4, 32
	sb	a2, -8(s5)
	sb	t5, -7(s5)
	sb	t1, -6(s5)
	sb	a7, -5(s5)
	srli	a2, a4, 24
	sb	a3, -4(s5)
	sb	s1, -3(s5)
	sb	t3, -2(s5)
	sb	t0, -1(s5)
	srli	a3, a4, 16
	sb	a1, 4(s5)
	sb	a5, 5(s5)
	sb	t4, 6(s5)
	sb	t2, 7(s5)
	srli	a1, a4, 8
	sb	a4, 0(s5)
	sb	a1, 1(s5)
	sb	a3, 2(s5)
	sb	a2, 3(s5)
	addi	s5, s5, 16
	addi	a0, a0, 24
	bne	s5, a6, .LBB105_14
	j	.LBB105_19
.LBB105_15:
	li	a1, 1
	bne	s4, a1, .LBB105_23
	sltu	a1, a4, a0
	slli	a2, a6, 1
	neg	a1, a1
	and	a1, a1, a2
	neg	a1, a1
	sub	a4, a4, a0
	bne	a4, a1, .LBB105_18
	ld	a0, 8(s6)
	fence	rw, rw
	ld	a1, 128(a0)
	fence	r, rw
	ld	a0, 32(s6)
	ld	a6, 24(s6)
	sltu	a2, a1, a0
	slli	a3, a6, 1
	neg	a2, a2
	and	a2, a2, a3
	neg	a2, a2
	sub	a3, a1, a0
	sd	a1, 40(s6)
	beq	a3, a2, .LBB105_19
.LBB105_18:
	slli	a1, a6, 1
	addi	a2, a0, 1
	sltu	a3, a0, a6
	ld	a7, 8(s6)
	ld	a5, 16(s6)
	addi	a1, a1, -1
	addi	a3, a3, -1
	sltu	a1, a0, a1
	and	a3, a3, a6
	neg	a1, a1
	sub	a0, a0, a3
	and	a1, a1, a2
	slli	a2, a0, 3
	slli	a0, a0, 4
	add	a0, a0, a2
	add	a0, a0, a5
	lbu	a2, 8(a0)
	lbu	a3, 9(a0)
	lbu	a5, 10(a0)
	lb	s1, 11(a0)
	lbu	t6, 12(a0)
	lbu	a6, 13(a0)
	lbu	t0, 14(a0)
	lb	t1, 15(a0)
	lbu	t2, 16(a0)
	lbu	t3, 17(a0)
	lbu	t4, 18(a0)
	lbu	t5, 19(a0)
	lbu	a4, 20(a0)
	lbu	s3, 21(a0)
	lbu	s7, 22(a0)
	lbu	a0, 23(a0)
	fence	rw, w
	sd	a1, 0(a7)
	fence	rw, rw
	sd	a1, 32(s6)
	sb	a2, 0(s5)
	sb	a3, 1(s5)
	sb	a5, 2(s5)
	sb	s1, 3(s5)
	sb	t6, 4(s5)
	sb	a6, 5(s5)
	sb	t0, 6(s5)
	sb	t1, 7(s5)
	sb	a4, 12(s5)
	sb	s3, 13(s5)
	sb	s7, 14(s5)
	sb	a0, 15(s5)
	sb	t2, 8(s5)
	sb	t3, 9(s5)
	sb	t4, 10(s5)
	sb	t5, 11(s5)
.LBB105_19:
	li	a0, 1
	sb	a0, 1(s6)
.LBB105_20:
	li	a0, 0
	sd	s4, 0(s2)
.LBB105_21:
	sext.w	a0, a0
	.cfi_def_cfa sp, 848
	ld	ra, 840(sp)
	ld	s0, 832(sp)
	ld	s1, 824(sp)
	ld	s2, 816(sp)
	ld	s3, 808(sp)
	ld	s4, 800(sp)
	ld	s5, 792(sp)
	ld	s6, 784(sp)
	ld	s7, 776(sp)
	.cfi_restore ra
	.cfi_restore s0
	.cfi_restore s1
	.cfi_restore s2
	.cfi_restore s3
	.cfi_restore s4
	.cfi_restore s5
	.cfi_restore s6
	.cfi_restore s7
	addi	sp, sp, 848
	.cfi_def_cfa_offset 0
	ret
.LBB105_22:
	.cfi_restore_state
	li	a0, 0
	call	tlsf_c.call_fault.CallFault.refusal
	j	.LBB105_21
.LBB105_23:
	sb	a1, 1(s6)
	beqz	a2, .LBB105_20
	li	a0, 35
	j	.LBB105_21
.LBB105_25:
	li	a0, 2
	call	tlsf_c.call_fault.CallFault.refusal
	j	.LBB105_21
.Lfunc_end105:
	.size	tlsf_take_all, .Lfunc_end105-tlsf_take_all
	.cfi_endproc
	.globl	tlsf_take_close
	.p2align	1
	.type	tlsf_take_close,@function
tlsf_take_close:
	.cfi_startproc
	lbu	a2, 8(a0)
	li	a1, 32
	beqz	a2, .LBB106_4
	ld	a2, 0(a0)
	lbu	a3, 1(a2)
	beqz	a3, .LBB106_4
	lbu	a1, 0(a2)
	li	a3, 1
	bne	a1, a3, .LBB106_5
	addi	sp, sp, -144
	.cfi_def_cfa_offset 144
	sd	ra, 136(sp)
	sd	s0, 128(sp)
	sd	s1, 120(sp)
	sd	s2, 112(sp)
	sd	s3, 104(sp)
	sd	s4, 96(sp)
	.cfi_offset ra, -8
	.cfi_offset s0, -16
	.cfi_offset s1, -24
	.cfi_offset s2, -32
	.cfi_offset s3, -40
	.cfi_offset s4, -48
	addi	s0, sp, 144
	.cfi_def_cfa s0, 0
	sb	zero, 1(a2)
	lbu	a1, 1(a0)
	lbu	a2, 2(a0)
	lbu	a3, 3(a0)
	lbu	a4, 0(a0)
	slli	a1, a1, 8
	slli	a2, a2, 16
	slli	a3, a3, 24
	or	a1, a1, a4
	or	a2, a2, a3
	lbu	a3, 5(a0)
	lbu	a4, 4(a0)
	lbu	a5, 6(a0)
	lbu	s1, 7(a0)
	slli	a3, a3, 8
	or	a3, a3, a4
	slli	a5, a5, 16
	slli	s1, s1, 24
	or	a5, a5, s1
	or	a1, a1, a2
	or	a3, a3, a5
	slli	a3, a3, 32
	or	s1, a3, a1
	li	a2, 16
	li	a1, 0
	call	tlsf_memory_set
	lbu	s3, 0(s1)
	lbu	s4, 1(s1)
	addi	a1, s1, 8
	addi	s2, s0, -136
	li	a2, 40
	mv	a0, s2
	call	tlsf_memory_cpy
	mv	a0, s1
	call	tlsf_memory_dealloc
	sd	zero, -96(s0)
	sb	s3, -96(s0)
	sb	s4, -95(s0)
	addi	a0, s0, -88
	li	a2, 40
	mv	a1, s2
	call	tlsf_memory_cpy
	addi	a0, s0, -96
	call	tlsf_c.tlsf_c.any_end.AnyEnd.Destruct.drop
	li	a1, 0
	.cfi_def_cfa sp, 144
	ld	ra, 136(sp)
	ld	s0, 128(sp)
	ld	s1, 120(sp)
	ld	s2, 112(sp)
	ld	s3, 104(sp)
	ld	s4, 96(sp)
	.cfi_restore ra
	.cfi_restore s0
	.cfi_restore s1
	.cfi_restore s2
	.cfi_restore s3
	.cfi_restore s4
	addi	sp, sp, 144
	.cfi_def_cfa_offset 0
.LBB106_4:
	mv	a0, a1
	ret
.LBB106_5:
	li	a0, 40
	ret
.Lfunc_end106:
	.size	tlsf_take_close, .Lfunc_end106-tlsf_take_close
	.cfi_endproc
	.globl	tlsf_words
	.p2align	1
	.type	tlsf_words,@function
tlsf_words:
	.cfi_startproc
	li	a5, -1
	srli	a5, a5, 32
	mv	a7, a2
	bltu	a2, a5, .LBB107_2
	mv	a7, a5
.LBB107_2:
	andi	a5, a0, -2
	sext.w	a5, a5
	li	a4, 4
	bne	a5, a4, .LBB107_8
	sext.w	a5, a1
	beqz	a5, .LBB107_26
	sext.w	a0, a0
	li	a4, 4
	bne	a0, a4, .LBB107_9
	lui	a0, 2048
	addi	a4, a0, -24
	li	a0, 5
	bltu	a4, a2, .LBB107_27
	slli	a1, a1, 32
	li	a4, 9
	srli	a6, a1, 32
	bgeu	a2, a4, .LBB107_12
	slli	a1, a6, 2
	j	.LBB107_18
.LBB107_8:
	li	a0, 34
	ret
.LBB107_9:
	lui	a0, 32768
	addi	a4, a0, -24
	li	a0, 5
	bltu	a4, a2, .LBB107_27
	slli	a1, a1, 32
	li	a4, 9
	srli	a6, a1, 32
	bgeu	a2, a4, .LBB107_14
	slli	a1, a6, 2
	j	.LBB107_23
.LBB107_12:
	addi	a7, a7, 31
	lui	a1, 349525
	lui	t1, 209715
	lui	t0, 61681
	srliw	a5, a7, 3
	addi	a1, a1, 1365
	ori	a2, a5, 16
	srli	a4, a2, 1
	or	a2, a2, a4
	srli	a4, a2, 2
	or	a2, a2, a4
	slli	a4, a2, 35
	srli	a4, a4, 39
	or	a2, a2, a4
	slli	a4, a2, 33
	srli	a4, a4, 41
	or	a2, a2, a4
	srliw	a4, a2, 16
	or	a2, a2, a4
	not	a2, a2
	srli	a4, a2, 1
	and	a1, a1, a4
	lui	a7, 4112
	addi	a4, t1, 819
	sub	a2, a2, a1
	and	a1, a2, a4
	srli	a2, a2, 2
	and	a2, a2, a4
	li	t1, 27
	addi	a4, t0, -241
	addi	a7, a7, 257
	add	a1, a1, a2
	srli	a2, a1, 4
	add	a1, a1, a2
	addi	a2, a5, 3
	addi	a5, a5, -1
	and	a1, a1, a4
	mul	a4, a2, a6
	sub	a2, a4, a2
	sltu	a4, a4, a2
	addi	t2, a4, -1
	mul	a1, a1, a7
	srliw	a1, a1, 24
	sub	a4, t1, a1
	srlw	t0, a5, a4
	addi	a5, t0, 1
	srliw	a1, a5, 4
	add	a1, a1, a4
	and	a7, t2, a2
	addi	a7, a7, 1
	beqz	a1, .LBB107_16
	andi	a5, a5, 15
	addi	a2, a1, -1
	sllw	a2, a5, a2
	li	a4, 8
	sllw	a1, a4, a1
	add	a1, a1, a2
	addi	a1, a1, -1
	slli	a1, a1, 32
	srli	a1, a1, 32
	j	.LBB107_17
.LBB107_14:
	addi	a7, a7, 31
	lui	a1, 349525
	lui	t1, 209715
	lui	t0, 61681
	srliw	a5, a7, 3
	addi	a1, a1, 1365
	ori	a2, a5, 32
	srli	a4, a2, 1
	or	a2, a2, a4
	srli	a4, a2, 2
	or	a2, a2, a4
	slli	a4, a2, 35
	srli	a4, a4, 39
	or	a2, a2, a4
	slli	a4, a2, 33
	srli	a4, a4, 41
	or	a2, a2, a4
	srliw	a4, a2, 16
	or	a2, a2, a4
	not	a2, a2
	srli	a4, a2, 1
	and	a1, a1, a4
	lui	a7, 4112
	addi	a4, t1, 819
	sub	a2, a2, a1
	and	a1, a2, a4
	srli	a2, a2, 2
	and	a2, a2, a4
	li	t1, 26
	addi	a4, t0, -241
	addi	a7, a7, 257
	add	a1, a1, a2
	srli	a2, a1, 4
	add	a1, a1, a2
	addi	a2, a5, 3
	addi	a5, a5, -1
	and	a1, a1, a4
	mul	a4, a2, a6
	sub	a2, a4, a2
	sltu	a4, a4, a2
	addi	t2, a4, -1
	mul	a1, a1, a7
	srliw	a1, a1, 24
	sub	a4, t1, a1
	srlw	t0, a5, a4
	addi	a5, t0, 1
	srliw	a1, a5, 5
	add	a1, a1, a4
	and	a7, t2, a2
	addi	a7, a7, 1
	beqz	a1, .LBB107_21
	andi	a5, a5, 31
	addi	a2, a1, -1
	sllw	a2, a5, a2
	li	a4, 16
	sllw	a1, a4, a1
	add	a1, a1, a2
	addi	a1, a1, -1
	slli	a1, a1, 32
	srli	a1, a1, 32
	j	.LBB107_22
.LBB107_16:
	slli	a4, a4, 4
	addw	a1, t0, a4
.LBB107_17:
	mul	a1, a1, a6
	add	a1, a1, a7
.LBB107_18:
	li	a2, 4
	mv	a4, a1
	bltu	a2, a1, .LBB107_20
	li	a4, 4
.LBB107_20:
	lui	a2, 256
	bgeu	a2, a1, .LBB107_26
	j	.LBB107_27
.LBB107_21:
	slli	a4, a4, 5
	addw	a1, t0, a4
.LBB107_22:
	mul	a1, a1, a6
	add	a1, a1, a7
.LBB107_23:
	li	a2, 4
	mv	a4, a1
	bltu	a2, a1, .LBB107_25
	li	a4, 4
.LBB107_25:
	lui	a2, 4096
	addi	a2, a2, 1
	bgeu	a1, a2, .LBB107_27
.LBB107_26:
	li	a0, 0
	sw	a4, 0(a3)
.LBB107_27:
	ret
.Lfunc_end107:
	.size	tlsf_words, .Lfunc_end107-tlsf_words
	.cfi_endproc
	.globl	tlsf_offsets_report
	.p2align	1
	.type	tlsf_offsets_report,@function
tlsf_offsets_report:
	.cfi_startproc
	addi	sp, sp, -80
	.cfi_def_cfa_offset 80
	sd	ra, 72(sp)
	sd	s0, 64(sp)
	sd	s1, 56(sp)
	sd	s2, 48(sp)
	sd	s3, 40(sp)
	sd	s4, 32(sp)
	sd	s5, 24(sp)
	sd	s6, 16(sp)
	sd	s7, 8(sp)
	sd	s8, 0(sp)
	.cfi_offset ra, -8
	.cfi_offset s0, -16
	.cfi_offset s1, -24
	.cfi_offset s2, -32
	.cfi_offset s3, -40
	.cfi_offset s4, -48
	.cfi_offset s5, -56
	.cfi_offset s6, -64
	.cfi_offset s7, -72
	.cfi_offset s8, -80
	addi	s0, sp, 80
	.cfi_def_cfa s0, 0
	.cfi_remember_state
	lbu	a2, 8(a0)
	beqz	a2, .LBB108_21
	ld	a6, 0(a0)
	lbu	a0, 1(a6)
	beqz	a0, .LBB108_21
	lbu	a0, 0(a6)
	bnez	a0, .LBB108_22
	lbu	a0, 8(a6)
	lw	t1, 48(a6)
	sb	zero, 1(a6)
	beqz	a0, .LBB108_11
	beqz	t1, .LBB108_18
	li	a4, 0
	li	t3, 0
	li	t2, 0
	li	a7, 0
	ld	t0, 40(a6)
	li	a2, 0
	j	.LBB108_7
.LBB108_6:
	addi	a2, a2, 1
	add	a7, a7, a5
	addw	a4, a4, a5
	bgeu	a4, t1, .LBB108_19
.LBB108_7:
	slli	a3, a4, 32
	srli	a3, a3, 29
	add	a3, a3, t0
	ld	a3, 0(a3)
	andi	a0, a3, 1
	srliw	a5, a3, 2
	beqz	a0, .LBB108_6
	mv	a3, a5
	bltu	t3, a5, .LBB108_10
	mv	a3, t3
.LBB108_10:
	add	t2, t2, a5
	mv	t3, a3
	addw	a4, a4, a5
	bltu	a4, t1, .LBB108_7
	j	.LBB108_19
.LBB108_11:
	beqz	t1, .LBB108_18
	li	a4, 0
	li	t3, 0
	li	t2, 0
	li	a7, 0
	ld	t0, 40(a6)
	li	a2, 0
	j	.LBB108_14
.LBB108_13:
	addi	a2, a2, 1
	add	a7, a7, a0
	addw	a4, a4, a0
	bgeu	a4, t1, .LBB108_19
.LBB108_14:
	slli	a0, a4, 32
	srli	a0, a0, 29
	add	a0, a0, t0
	ld	a0, 0(a0)
	andi	a3, a0, 1
	srliw	a0, a0, 2
	beqz	a3, .LBB108_13
	mv	a5, a0
	bltu	t3, a0, .LBB108_17
	mv	a5, t3
.LBB108_17:
	add	t2, t2, a0
	mv	t3, a5
	addw	a4, a4, a0
	bltu	a4, t1, .LBB108_14
	j	.LBB108_19
.LBB108_18:
	li	a7, 0
	li	t2, 0
	li	t3, 0
	li	a2, 0
.LBB108_19:
	li	a0, 0
	slli	t2, t2, 32
	slli	a7, a7, 32
	addi	t0, a6, 2047
	li	t1, 1
	srli	t4, a2, 24
	srli	a3, a2, 16
	srli	a4, a2, 8
	srli	t2, t2, 32
	srli	a7, a7, 32
	lwu	a5, 705(t0)
	sb	t1, 1(a6)
	sb	a2, 0(a1)
	sb	a4, 1(a1)
	sb	a3, 2(a1)
	sb	t4, 3(a1)
	sb	zero, 4(a1)
	sb	zero, 5(a1)
	sb	zero, 6(a1)
	sb	zero, 7(a1)
	mul	a3, a5, a7
	mul	a4, a5, t2
	mul	a2, a5, t3
	srli	a6, a3, 56
	srli	a7, a3, 48
	srli	t0, a3, 40
	srli	s4, a3, 32
	srli	t1, a3, 24
	srli	t2, a3, 16
	srli	t3, a3, 8
	srli	t4, a4, 56
	srli	t5, a4, 48
	srli	t6, a4, 40
	srli	s1, a4, 32
	srli	s2, a4, 24
	srli	s3, a4, 16
	srli	s7, a4, 8
	srli	s5, a2, 56
	srli	s6, a2, 48
	srli	s8, a2, 40
	sb	s4, 12(a1)
	sb	t0, 13(a1)
	sb	a7, 14(a1)
	sb	a6, 15(a1)
	srli	a5, a2, 32
	sb	a3, 8(a1)
	sb	t3, 9(a1)
	sb	t2, 10(a1)
	sb	t1, 11(a1)
	srli	a3, a2, 24
	sb	s1, 20(a1)
	sb	t6, 21(a1)
	sb	t5, 22(a1)
	sb	t4, 23(a1)
	srli	s1, a2, 16
	sb	a4, 16(a1)
	sb	s7, 17(a1)
	sb	s3, 18(a1)
	sb	s2, 19(a1)
	srli	a4, a2, 8
	sb	a5, 28(a1)
	sb	s8, 29(a1)
	sb	s6, 30(a1)
	sb	s5, 31(a1)
	sb	a2, 24(a1)
	sb	a4, 25(a1)
	sb	s1, 26(a1)
	sb	a3, 27(a1)
.LBB108_20:
	sext.w	a0, a0
	.cfi_def_cfa sp, 80
	ld	ra, 72(sp)
	ld	s0, 64(sp)
	ld	s1, 56(sp)
	ld	s2, 48(sp)
	ld	s3, 40(sp)
	ld	s4, 32(sp)
	ld	s5, 24(sp)
	ld	s6, 16(sp)
	ld	s7, 8(sp)
	ld	s8, 0(sp)
	.cfi_restore ra
	.cfi_restore s0
	.cfi_restore s1
	.cfi_restore s2
	.cfi_restore s3
	.cfi_restore s4
	.cfi_restore s5
	.cfi_restore s6
	.cfi_restore s7
	.cfi_restore s8
	addi	sp, sp, 80
	.cfi_def_cfa_offset 0
	ret
.LBB108_21:
	.cfi_restore_state
	li	a0, 0
	j	.LBB108_23
.LBB108_22:
	li	a0, 2
.LBB108_23:
	call	tlsf_c.call_fault.CallFault.refusal
	j	.LBB108_20
.Lfunc_end108:
	.size	tlsf_offsets_report, .Lfunc_end108-tlsf_offsets_report
	.cfi_endproc
	.globl	tlsf_write
	.p2align	1
	.type	tlsf_write,@function
tlsf_write:
	.cfi_startproc
	addi	sp, sp, -32
	.cfi_def_cfa_offset 32
	sd	ra, 24(sp)
	sd	s0, 16(sp)
	sd	s1, 8(sp)
	sd	s2, 0(sp)
	.cfi_offset ra, -8
	.cfi_offset s0, -16
	.cfi_offset s1, -24
	.cfi_offset s2, -32
	addi	s0, sp, 32
	.cfi_def_cfa s0, 0
	.cfi_remember_state
	mv	a6, a4
	mv	a4, a0
	lbu	s1, 8(a0)
	li	a0, 32
	beqz	s1, .LBB109_22
	ld	s2, 0(a4)
	lbu	a4, 0(s2)
	beqz	a4, .LBB109_22
	seqz	a0, a6
	slli	a0, a0, 12
	lbu	a4, 16(s2)
	lw	t0, 24(s2)
	add	a6, a6, a0
	srli	a7, a1, 32
	sb	zero, 0(s2)
	sext.w	a0, a1
	beqz	a4, .LBB109_10
	bne	t0, a0, .LBB109_19
	lw	a0, 56(s2)
	sext.w	a4, a7
	bgeu	a4, a0, .LBB109_18
	ld	a0, 72(s2)
	srli	a4, a1, 35
	andi	a4, a4, -8
	add	a0, a0, a4
	ld	a0, 0(a0)
	srl	a0, a0, a7
	andi	a0, a0, 1
	beqz	a0, .LBB109_18
	addi	a0, s2, 48
	ld	t0, 0(a0)
	slli	a4, a7, 3
	add	a4, a4, t0
	lbu	s1, 0(a4)
	andi	s1, s1, 1
	bnez	s1, .LBB109_18
	ld	s1, 8(a4)
	bne	s1, a2, .LBB109_18
	lwu	a1, 16(a4)
	slli	a2, a3, 32
	srli	a2, a2, 32
	add	a2, a2, a5
	bltu	a1, a2, .LBB109_16
	mv	a1, a7
	mv	a2, a3
	mv	a3, a6
	mv	a4, a5
	call	tlsf_heap.region.Region.write.5
	li	a0, 0
	j	.LBB109_20
.LBB109_10:
	bne	t0, a0, .LBB109_19
	lw	a0, 56(s2)
	sext.w	a4, a7
	bgeu	a4, a0, .LBB109_18
	ld	a0, 72(s2)
	srli	a4, a1, 35
	andi	a4, a4, -8
	add	a0, a0, a4
	ld	a0, 0(a0)
	srl	a0, a0, a7
	andi	a0, a0, 1
	beqz	a0, .LBB109_18
	addi	a0, s2, 48
	ld	t0, 0(a0)
	slli	a4, a7, 3
	add	t0, t0, a4
	lbu	a4, 0(t0)
	andi	a4, a4, 1
	bnez	a4, .LBB109_18
	ld	a4, 8(t0)
	bne	a4, a2, .LBB109_18
	lwu	a1, 16(t0)
	slli	a2, a3, 32
	srli	a2, a2, 32
	add	a2, a2, a5
	bgeu	a1, a2, .LBB109_23
.LBB109_16:
	li	a0, 4
	li	a1, 1
	andi	a1, a1, 1
	beqz	a1, .LBB109_20
.LBB109_17:
	zext.b	a0, a0
.Lpcrel_hi51:
	auipc	a1, %pcrel_hi(.Lswitch.table.tlsf_write)
	slli	a0, a0, 2
	addi	a1, a1, %pcrel_lo(.Lpcrel_hi51)
	add	a0, a0, a1
	lw	a0, 0(a0)
	j	.LBB109_21
.LBB109_18:
	mv	t0, a1
.LBB109_19:
	mv	a0, a1
	mv	a1, t0
	call	tlsf_heap.refusal.Refusal.of_name
	li	a1, 1
	andi	a1, a1, 1
	bnez	a1, .LBB109_17
.LBB109_20:
	li	a0, 0
.LBB109_21:
	li	a1, 1
	sb	a1, 0(s2)
.LBB109_22:
	.cfi_def_cfa sp, 32
	ld	ra, 24(sp)
	ld	s0, 16(sp)
	ld	s1, 8(sp)
	ld	s2, 0(sp)
	.cfi_restore ra
	.cfi_restore s0
	.cfi_restore s1
	.cfi_restore s2
	addi	sp, sp, 32
	.cfi_def_cfa_offset 0
	ret
.LBB109_23:
	.cfi_restore_state
	mv	a1, a7
	mv	a2, a3
	mv	a3, a6
	mv	a4, a5
	call	tlsf_heap.region.Region.write.4
	li	a0, 0
	j	.LBB109_20
.Lfunc_end109:
	.size	tlsf_write, .Lfunc_end109-tlsf_write
	.cfi_endproc
	.globl	tlsf_pools_write
	.p2align	1
	.type	tlsf_pools_write,@function
tlsf_pools_write:
	.cfi_startproc
	addi	sp, sp, -32
	.cfi_def_cfa_offset 32
	sd	ra, 24(sp)
	sd	s0, 16(sp)
	sd	s1, 8(sp)
	sd	s2, 0(sp)
	.cfi_offset ra, -8
	.cfi_offset s0, -16
	.cfi_offset s1, -24
	.cfi_offset s2, -32
	addi	s0, sp, 32
	.cfi_def_cfa s0, 0
	mv	a6, a4
	lbu	a4, 8(a0)
	beqz	a4, .LBB110_21
	ld	s2, 0(a0)
	lbu	a0, 1(s2)
	beqz	a0, .LBB110_21
	lbu	a0, 0(s2)
	li	a4, 1
	bne	a0, a4, .LBB110_26
	srli	a7, a1, 32
	seqz	a4, a6
	sext.w	t2, a1
	sb	zero, 1(s2)
	lbu	t0, 8(s2)
	lw	s1, 16(s2)
	ld	t1, 32(s2)
	slli	a4, a4, 12
	add	a6, a6, a4
	sltu	a4, t2, s1
	subw	s1, a1, s1
	not	a0, a4
	sltu	a4, t2, s1
	addi	a4, a4, -1
	and	a4, a4, s1
	slli	a4, a4, 32
	srli	a4, a4, 32
	sltu	s1, a4, t1
	and	s1, s1, a0
	beqz	t0, .LBB110_12
	beqz	s1, .LBB110_20
	ld	a0, 24(s2)
	lui	s1, 1
	addi	s1, s1, -1304
	mul	a4, a4, s1
	add	a4, a4, a0
	lw	t1, 0(a4)
	bne	t1, t2, .LBB110_23
	lw	a0, 32(a4)
	sext.w	s1, a7
	bgeu	s1, a0, .LBB110_22
	ld	a0, 48(a4)
	srli	s1, a1, 35
	andi	s1, s1, -8
	add	a0, a0, s1
	ld	a0, 0(a0)
	srl	a0, a0, a7
	andi	a0, a0, 1
	beqz	a0, .LBB110_22
	addi	a0, a4, 24
	ld	s1, 0(a0)
	slli	a4, a7, 3
	add	a4, a4, s1
	lbu	s1, 0(a4)
	andi	s1, s1, 1
	bnez	s1, .LBB110_22
	ld	s1, 8(a4)
	bne	s1, a2, .LBB110_22
	lwu	a1, 16(a4)
	slli	a2, a3, 32
	srli	a2, a2, 32
	add	a2, a2, a5
	bltu	a1, a2, .LBB110_19
	mv	a1, a7
	mv	a2, a3
	mv	a3, a6
	mv	a4, a5
	call	tlsf_heap.region.Region.write.5
	j	.LBB110_25
.LBB110_12:
	beqz	s1, .LBB110_20
	ld	t0, 24(s2)
	lui	a0, 1
	addi	a0, a0, -1304
	mul	a0, a4, a0
	add	t0, t0, a0
	lw	t1, 0(t0)
	bne	t1, t2, .LBB110_23
	lw	a0, 32(t0)
	sext.w	a4, a7
	bgeu	a4, a0, .LBB110_22
	ld	a0, 48(t0)
	srli	a4, a1, 35
	andi	a4, a4, -8
	add	a0, a0, a4
	ld	a0, 0(a0)
	srl	a0, a0, a7
	andi	a0, a0, 1
	beqz	a0, .LBB110_22
	addi	a0, t0, 24
	ld	s1, 0(a0)
	slli	a4, a7, 3
	add	a4, a4, s1
	lbu	s1, 0(a4)
	andi	s1, s1, 1
	bnez	s1, .LBB110_22
	ld	s1, 8(a4)
	bne	s1, a2, .LBB110_22
	lwu	a1, 16(a4)
	slli	a2, a3, 32
	srli	a2, a2, 32
	add	a2, a2, a5
	bgeu	a1, a2, .LBB110_24
.LBB110_19:
	li	a0, 1
	sb	a0, 1(s2)
	li	a0, 7
	j	.LBB110_28
.LBB110_20:
	li	a0, 1
	sb	a0, 1(s2)
	li	a0, 3
	j	.LBB110_28
.LBB110_21:
	li	a0, 0
	j	.LBB110_27
.LBB110_22:
	mv	t1, a1
.LBB110_23:
	mv	a0, a1
	mv	a1, t1
	call	tlsf_heap.refusal.Refusal.of_name
	zext.b	a0, a0
	li	a1, 1
	sb	a1, 1(s2)
	addi	a0, a0, -3
	seqz	a0, a0
	addi	a0, a0, 3
	j	.LBB110_28
.LBB110_24:
	mv	a1, a7
	mv	a2, a3
	mv	a3, a6
	mv	a4, a5
	call	tlsf_heap.region.Region.write.4
.LBB110_25:
	li	a0, 0
	li	a1, 1
	sb	a1, 1(s2)
	j	.LBB110_28
.LBB110_26:
	li	a0, 2
.LBB110_27:
	call	tlsf_c.call_fault.CallFault.refusal
.LBB110_28:
	sext.w	a0, a0
	.cfi_def_cfa sp, 32
	ld	ra, 24(sp)
	ld	s0, 16(sp)
	ld	s1, 8(sp)
	ld	s2, 0(sp)
	.cfi_restore ra
	.cfi_restore s0
	.cfi_restore s1
	.cfi_restore s2
	addi	sp, sp, 32
	.cfi_def_cfa_offset 0
	ret
.Lfunc_end110:
	.size	tlsf_pools_write, .Lfunc_end110-tlsf_pools_write
	.cfi_endproc
	.type	.Lstatic.0,@object
	.section	.rodata.cst8,"aM",@progbits,8
.Lstatic.0:
	.zero	8
	.size	.Lstatic.0, 8
	.type	.Lswitch.table.tlsf_allocate_aligned,@object
	.section	.rodata,"a",@progbits
	.p2align	3, 0x0
.Lswitch.table.tlsf_allocate_aligned:
	.quad	8589934592
	.quad	12884901888
	.quad	17179869184
	.quad	30064771072
	.quad	42949672960
	.size	.Lswitch.table.tlsf_allocate_aligned, 40
	.type	.Lswitch.table.tlsf_queue_take,@object
	.p2align	2, 0x0
.Lswitch.table.tlsf_queue_take:
	.word	32
	.word	36
	.word	40
	.word	5
	.word	6
	.word	33
	.word	34
	.word	8
	.word	35
	.word	37
	.word	38
	.size	.Lswitch.table.tlsf_queue_take, 44
	.type	.Lswitch.table.tlsf_write,@object
	.p2align	2, 0x0
.Lswitch.table.tlsf_write:
	.word	1
	.word	2
	.word	3
	.word	4
	.word	7
	.size	.Lswitch.table.tlsf_write, 20
	.ident	"rattle logic=dac8208d650f15bf3e2dc313a14fa4c783a3acf887bdfab66e1714b038d9e11b"
	.section	".note.GNU-stack","",@progbits
/* The calls in C: c/pointers.c. */
	.text
	.globl	tlsf_rounded
	.p2align	1
	.type	tlsf_rounded,@function
tlsf_rounded:
	.cfi_startproc
	sltiu	a1, a0, -15
	addi	a0, a0, 7
	andi	a0, a0, -16
	addi	a1, a1, -1
	or	a0, a0, a1
	ori	a0, a0, 8
	ret
.Lp_func_end0:
	.size	tlsf_rounded, .Lp_func_end0-tlsf_rounded
	.cfi_endproc
	.globl	tlsf_place_of
	.p2align	1
	.type	tlsf_place_of,@function
tlsf_place_of:
	.cfi_startproc
	ld	a0, 16(a0)
	sub	a1, a1, a0
	addi	a1, a1, -24
	srli	a0, a1, 3
	slli	a1, a1, 61
	or	a0, a0, a1
	li	a1, -1
	srli	a1, a1, 32
	bltu	a0, a1, .Lp_BB1_2
	mv	a0, a1
.Lp_BB1_2:
	sext.w	a0, a0
	ret
.Lp_func_end1:
	.size	tlsf_place_of, .Lp_func_end1-tlsf_place_of
	.cfi_endproc
	.globl	tlsf_near
	.p2align	1
	.type	tlsf_near,@function
tlsf_near:
	.cfi_startproc
	neg	a1, a0
	andi	a1, a1, 63
	add	a0, a0, a1
	ret
.Lp_func_end2:
	.size	tlsf_near, .Lp_func_end2-tlsf_near
	.cfi_endproc
	.globl	tlsf_base
	.p2align	1
	.type	tlsf_base,@function
tlsf_base:
	.cfi_startproc
	lbu	a1, 8(a0)
	beqz	a1, .Lp_BB3_2
	ld	a0, 16(a0)
	ret
.Lp_BB3_2:
	li	a0, 0
	ret
.Lp_func_end3:
	.size	tlsf_base, .Lp_func_end3-tlsf_base
	.cfi_endproc
	.globl	tlsf_at
	.p2align	1
	.type	tlsf_at,@function
tlsf_at:
	.cfi_startproc
	seqz	a2, a0
	srli	a1, a1, 29
	andi	a1, a1, -8
	add	a0, a0, a1
	addi	a0, a0, 24
	addi	a2, a2, -1
	and	a0, a0, a2
	ret
.Lp_func_end4:
	.size	tlsf_at, .Lp_func_end4-tlsf_at
	.cfi_endproc
	.globl	tlsf_block_size
	.p2align	1
	.type	tlsf_block_size,@function
tlsf_block_size:
	.cfi_startproc
	beqz	a0, .Lp_BB5_2
	lbu	a1, -7(a0)
	lbu	a2, -6(a0)
	lbu	a3, -5(a0)
	lbu	a4, -8(a0)
	slli	a1, a1, 8
	slli	a2, a2, 16
	slli	a3, a3, 24
	or	a1, a1, a4
	or	a2, a2, a3
	lbu	a3, -3(a0)
	lbu	a4, -4(a0)
	lbu	a5, -2(a0)
	lbu	a0, -1(a0)
	slli	a3, a3, 8
	or	a3, a3, a4
	slli	a5, a5, 16
	slli	a0, a0, 24
	or	a0, a0, a5
	or	a1, a1, a2
	or	a0, a0, a3
	slli	a0, a0, 32
	or	a0, a0, a1
.Lp_BB5_2:
	ret
.Lp_func_end5:
	.size	tlsf_block_size, .Lp_func_end5-tlsf_block_size
	.cfi_endproc
	.globl	tlsf_aligned_alloc
	.p2align	1
	.type	tlsf_aligned_alloc,@function
tlsf_aligned_alloc:
	.cfi_startproc
	addi	a3, a1, -1
	xor	a4, a1, a3
	bgeu	a3, a4, .Lp_BB6_6
	addi	sp, sp, -16
	.cfi_def_cfa_offset 16
	sd	ra, 8(sp)
	sd	s0, 0(sp)
	.cfi_offset ra, -8
	.cfi_offset s0, -16
	.cfi_remember_state
	lui	a4, 32768
	bltu	a4, a1, .Lp_BB6_9
	addi	a4, a4, 1
	bgeu	a2, a4, .Lp_BB6_9
	lbu	a4, 28(a0)
	bnez	a4, .Lp_BB6_10
	addi	a2, a2, 7
	lui	a4, 131072
	addi	a4, a4, -16
	and	a2, a2, a4
	li	a5, 16
	addiw	a4, a2, 8
	bltu	a5, a1, .Lp_BB6_7
	mv	s0, a0
	mv	a1, a4
	call	tlsf_allocate_place
	srli	a1, a0, 32
	beqz	a1, .Lp_BB6_8
	j	.Lp_BB6_11
.Lp_BB6_6:
	li	a0, 0
	ret
.Lp_BB6_7:
	.cfi_restore_state
	lwu	a5, 16(a0)
	srli	a2, a1, 3
	and	a3, a3, a5
	srli	a3, a3, 3
	mv	s0, a0
	mv	a1, a4
	call	tlsf_allocate_aligned
	srli	a1, a0, 32
	bnez	a1, .Lp_BB6_11
.Lp_BB6_8:
	ld	a1, 16(s0)
	slli	a0, a0, 3
	add	a0, a0, a1
	addi	a0, a0, 24
	j	.Lp_BB6_12
.Lp_BB6_9:
	call	tlsf_too_long
	j	.Lp_BB6_11
.Lp_BB6_10:
	mv	s0, a0
	mv	a3, a1
	mv	a1, a2
	mv	a2, a3
	call	tlsf_mixed_place
	srli	a1, a0, 32
	beqz	a1, .Lp_BB6_8
.Lp_BB6_11:
	li	a0, 0
.Lp_BB6_12:
	ld	ra, 8(sp)
	ld	s0, 0(sp)
	.cfi_restore ra
	.cfi_restore s0
	addi	sp, sp, 16
	.cfi_def_cfa_offset 0
	ret
.Lp_func_end6:
	.size	tlsf_aligned_alloc, .Lp_func_end6-tlsf_aligned_alloc
	.cfi_endproc
	.globl	tlsf_malloc
	.p2align	1
	.type	tlsf_malloc,@function
tlsf_malloc:
	.cfi_startproc
	lbu	a2, 28(a0)
	bnez	a2, .Lp_BB7_4
	addi	sp, sp, -16
	.cfi_def_cfa_offset 16
	sd	ra, 8(sp)
	sd	s0, 0(sp)
	.cfi_offset ra, -8
	.cfi_offset s0, -16
	mv	s0, a0
	call	tlsf_allocate_payload
	beqz	a0, .Lp_BB7_3
	ld	a1, 16(s0)
	add	a0, a0, a1
.Lp_BB7_3:
	ld	ra, 8(sp)
	ld	s0, 0(sp)
	.cfi_restore ra
	.cfi_restore s0
	addi	sp, sp, 16
	.cfi_def_cfa_offset 0
	ret
.Lp_BB7_4:
	tail	tlsf_malloc_mixed
.Lp_func_end7:
	.size	tlsf_malloc, .Lp_func_end7-tlsf_malloc
	.cfi_endproc
	.section	.text.unlikely.,"ax",@progbits
	.p2align	1
	.type	tlsf_malloc_mixed,@function
tlsf_malloc_mixed:
	.cfi_startproc
	addi	sp, sp, -16
	.cfi_def_cfa_offset 16
	sd	ra, 8(sp)
	sd	s0, 0(sp)
	.cfi_offset ra, -8
	.cfi_offset s0, -16
	.cfi_remember_state
	lbu	a2, 29(a0)
	andi	a2, a2, 239
	bnez	a2, .Lp_BB8_6
	mv	s0, a0
	call	tlsf_allocate_payload
	beqz	a0, .Lp_BB8_4
	ld	a1, 16(s0)
	add	a1, a1, a0
	andi	a0, a1, 15
	beqz	a0, .Lp_BB8_5
	mv	a0, s0
	ld	ra, 8(sp)
	ld	s0, 0(sp)
	.cfi_restore ra
	.cfi_restore s0
	addi	sp, sp, 16
	.cfi_def_cfa_offset 0
	tail	tlsf_malloc_again
.Lp_BB8_4:
	.cfi_restore_state
	.cfi_remember_state
	li	a1, 0
.Lp_BB8_5:
	mv	a0, a1
	ld	ra, 8(sp)
	ld	s0, 0(sp)
	.cfi_restore ra
	.cfi_restore s0
	addi	sp, sp, 16
	.cfi_def_cfa_offset 0
	ret
.Lp_BB8_6:
	.cfi_restore_state
	ld	ra, 8(sp)
	ld	s0, 0(sp)
	.cfi_restore ra
	.cfi_restore s0
	addi	sp, sp, 16
	.cfi_def_cfa_offset 0
	tail	tlsf_malloc_own
.Lp_func_end8:
	.size	tlsf_malloc_mixed, .Lp_func_end8-tlsf_malloc_mixed
	.cfi_endproc
	.text
	.globl	tlsf_words_for
	.p2align	1
	.type	tlsf_words_for,@function
tlsf_words_for:
	.cfi_startproc
	li	a5, 16
	bgeu	a5, a3, .Lp_BB9_5
	lui	a5, 32768
	bgeu	a3, a5, .Lp_BB9_6
.Lp_BB9_2:
	bltu	a2, a5, .Lp_BB9_4
.Lp_BB9_3:
	lui	a2, 32768
.Lp_BB9_4:
	addi	a2, a2, 7
	lui	a5, 131072
	addi	a5, a5, -16
	and	a2, a2, a5
	add	a2, a2, a3
	addi	a2, a2, 40
	mv	a3, a4
	tail	tlsf_words
.Lp_BB9_5:
	li	a3, 16
	lui	a5, 32768
	bltu	a3, a5, .Lp_BB9_2
.Lp_BB9_6:
	lui	a3, 32768
	bgeu	a2, a5, .Lp_BB9_3
	j	.Lp_BB9_4
.Lp_func_end9:
	.size	tlsf_words_for, .Lp_func_end9-tlsf_words_for
	.cfi_endproc
	.globl	tlsf_calloc
	.p2align	1
	.type	tlsf_calloc,@function
tlsf_calloc:
	.cfi_startproc
	addi	sp, sp, -48
	.cfi_def_cfa_offset 48
	sd	ra, 40(sp)
	sd	s0, 32(sp)
	sd	s1, 24(sp)
	.cfi_offset ra, -8
	.cfi_offset s0, -16
	.cfi_offset s1, -24
	.cfi_remember_state
	mv	s0, a0
	sd	zero, 8(sp)
	sd	zero, 16(sp)
	beqz	a2, .Lp_BB10_2
	lui	a0, 32768
	divu	a0, a0, a2
	bltu	a0, a1, .Lp_BB10_4
.Lp_BB10_2:
	lbu	a0, 28(s0)
	mul	s1, a2, a1
	bnez	a0, .Lp_BB10_7
	sltiu	a0, s1, -15
	addi	s1, s1, 7
	andi	s1, s1, -16
	addi	a0, a0, -1
	or	a0, a0, s1
	ori	a1, a0, 8
	addi	a2, sp, 8
	mv	a0, s0
	call	tlsf_allocate
	beqz	a0, .Lp_BB10_5
.Lp_BB10_4:
	li	a0, 0
	j	.Lp_BB10_6
.Lp_BB10_5:
	lwu	a0, 12(sp)
	ld	a1, 16(s0)
	slli	a0, a0, 3
	add	a0, a0, a1
	addi	a0, a0, 24
.Lp_BB10_6:
	ld	ra, 40(sp)
	ld	s0, 32(sp)
	ld	s1, 24(sp)
	.cfi_restore ra
	.cfi_restore s0
	.cfi_restore s1
	addi	sp, sp, 48
	.cfi_def_cfa_offset 0
	ret
.Lp_BB10_7:
	.cfi_restore_state
	mv	a0, s0
	mv	a1, s1
	call	tlsf_malloc_mixed
	beqz	a0, .Lp_BB10_6
	li	a1, 0
	mv	a2, s1
	ld	ra, 40(sp)
	ld	s0, 32(sp)
	ld	s1, 24(sp)
	.cfi_restore ra
	.cfi_restore s0
	.cfi_restore s1
	addi	sp, sp, 48
	.cfi_def_cfa_offset 0
	tail	memset
.Lp_func_end10:
	.size	tlsf_calloc, .Lp_func_end10-tlsf_calloc
	.cfi_endproc
	.globl	tlsf_free
	.p2align	1
	.type	tlsf_free,@function
tlsf_free:
	.cfi_startproc
	beqz	a1, .Lp_BB11_4
	ld	a2, 16(a0)
	sub	a1, a1, a2
	addi	a1, a1, -24
	srli	a2, a1, 3
	slli	a1, a1, 61
	or	a1, a1, a2
	li	a2, -1
	srli	a2, a2, 32
	bltu	a1, a2, .Lp_BB11_3
	mv	a1, a2
.Lp_BB11_3:
	sext.w	a1, a1
	tail	tlsf_release_place
.Lp_BB11_4:
	li	a0, 0
	ret
.Lp_func_end11:
	.size	tlsf_free, .Lp_func_end11-tlsf_free
	.cfi_endproc
	.globl	tlsf_usable_size
	.p2align	1
	.type	tlsf_usable_size,@function
tlsf_usable_size:
	.cfi_startproc
	addi	sp, sp, -32
	.cfi_def_cfa_offset 32
	sd	ra, 24(sp)
	.cfi_offset ra, -8
	ld	a2, 16(a0)
	sd	zero, 8(sp)
	sd	zero, 16(sp)
	sub	a1, a1, a2
	addi	a1, a1, -24
	srli	a2, a1, 3
	slli	a1, a1, 61
	or	a1, a1, a2
	li	a2, -1
	srli	a2, a2, 32
	sw	zero, 4(sp)
	bltu	a1, a2, .Lp_BB12_2
	mv	a1, a2
.Lp_BB12_2:
	sext.w	a1, a1
	addi	a2, sp, 8
	addi	a3, sp, 4
	call	tlsf_place
	lw	a1, 4(sp)
	snez	a0, a0
	addi	a0, a0, -1
	and	a0, a0, a1
	slli	a0, a0, 32
	srli	a0, a0, 32
	ld	ra, 24(sp)
	.cfi_restore ra
	addi	sp, sp, 32
	.cfi_def_cfa_offset 0
	ret
.Lp_func_end12:
	.size	tlsf_usable_size, .Lp_func_end12-tlsf_usable_size
	.cfi_endproc
	.globl	tlsf_name_at
	.p2align	1
	.type	tlsf_name_at,@function
tlsf_name_at:
	.cfi_startproc
	addi	sp, sp, -48
	.cfi_def_cfa_offset 48
	sd	ra, 40(sp)
	sd	s0, 32(sp)
	.cfi_offset ra, -8
	.cfi_offset s0, -16
	mv	s0, a2
	ld	a2, 16(a0)
	sd	zero, 16(sp)
	sd	zero, 24(sp)
	sub	a1, a1, a2
	addi	a1, a1, -24
	srli	a2, a1, 3
	slli	a1, a1, 61
	or	a1, a1, a2
	li	a2, -1
	srli	a2, a2, 32
	sw	zero, 12(sp)
	bltu	a1, a2, .Lp_BB13_2
	mv	a1, a2
.Lp_BB13_2:
	sext.w	a1, a1
	addi	a2, sp, 16
	addi	a3, sp, 12
	call	tlsf_place
	bnez	a0, .Lp_BB13_4
	ld	a1, 16(sp)
	ld	a2, 24(sp)
	sd	a1, 0(s0)
	sd	a2, 8(s0)
.Lp_BB13_4:
	ld	ra, 40(sp)
	ld	s0, 32(sp)
	.cfi_restore ra
	.cfi_restore s0
	addi	sp, sp, 48
	.cfi_def_cfa_offset 0
	ret
.Lp_func_end13:
	.size	tlsf_name_at, .Lp_func_end13-tlsf_name_at
	.cfi_endproc
	.globl	tlsf_realloc
	.p2align	1
	.type	tlsf_realloc,@function
tlsf_realloc:
	.cfi_startproc
	addi	sp, sp, -32
	.cfi_def_cfa_offset 32
	sd	ra, 24(sp)
	sd	s0, 16(sp)
	.cfi_offset ra, -8
	.cfi_offset s0, -16
	.cfi_remember_state
	beqz	a1, .Lp_BB14_8
	beqz	a2, .Lp_BB14_11
	lui	a3, 32768
	bltu	a3, a2, .Lp_BB14_7
	lbu	a3, 28(a0)
	bnez	a3, .Lp_BB14_17
	ld	a3, 16(a0)
	sub	a1, a1, a3
	addi	a1, a1, -24
	srli	a3, a1, 3
	slli	a1, a1, 61
	or	a1, a1, a3
	li	a3, -1
	srli	a3, a3, 32
	bltu	a1, a3, .Lp_BB14_6
	mv	a1, a3
.Lp_BB14_6:
	addi	a2, a2, 7
	lui	a3, 131072
	sw	a1, 12(sp)
	addi	a3, a3, -16
	and	a2, a2, a3
	addiw	a2, a2, 8
	sext.w	a1, a1
	addi	a3, sp, 12
	mv	s0, a0
	call	tlsf_resize_place
	beqz	a0, .Lp_BB14_14
.Lp_BB14_7:
	li	a0, 0
	j	.Lp_BB14_15
.Lp_BB14_8:
	lbu	a1, 28(a0)
	bnez	a1, .Lp_BB14_16
	mv	s0, a0
	mv	a1, a2
	call	tlsf_allocate_payload
	beqz	a0, .Lp_BB14_15
	ld	a1, 16(s0)
	add	a0, a0, a1
	j	.Lp_BB14_15
.Lp_BB14_11:
	ld	a2, 16(a0)
	sub	a1, a1, a2
	addi	a1, a1, -24
	srli	a2, a1, 3
	slli	a1, a1, 61
	or	a1, a1, a2
	li	a2, -1
	srli	a2, a2, 32
	bltu	a1, a2, .Lp_BB14_13
	mv	a1, a2
.Lp_BB14_13:
	sext.w	a1, a1
	call	tlsf_release_place
	li	a0, 0
	j	.Lp_BB14_15
.Lp_BB14_14:
	lwu	a0, 12(sp)
	ld	a1, 16(s0)
	slli	a0, a0, 3
	add	a0, a0, a1
	addi	a0, a0, 24
.Lp_BB14_15:
	ld	ra, 24(sp)
	ld	s0, 16(sp)
	.cfi_restore ra
	.cfi_restore s0
	addi	sp, sp, 32
	.cfi_def_cfa_offset 0
	ret
.Lp_BB14_16:
	.cfi_restore_state
	.cfi_remember_state
	mv	a1, a2
	ld	ra, 24(sp)
	ld	s0, 16(sp)
	.cfi_restore ra
	.cfi_restore s0
	addi	sp, sp, 32
	.cfi_def_cfa_offset 0
	tail	tlsf_malloc_mixed
.Lp_BB14_17:
	.cfi_restore_state
	ld	ra, 24(sp)
	ld	s0, 16(sp)
	.cfi_restore ra
	.cfi_restore s0
	addi	sp, sp, 32
	.cfi_def_cfa_offset 0
	tail	tlsf_realloc_mixed
.Lp_func_end14:
	.size	tlsf_realloc, .Lp_func_end14-tlsf_realloc
	.cfi_endproc
	.section	.text.unlikely.,"ax",@progbits
	.p2align	1
	.type	tlsf_realloc_mixed,@function
tlsf_realloc_mixed:
	.cfi_startproc
	addi	sp, sp, -112
	.cfi_def_cfa_offset 112
	sd	ra, 104(sp)
	sd	s0, 96(sp)
	sd	s1, 88(sp)
	sd	s2, 80(sp)
	sd	s3, 72(sp)
	sd	s4, 64(sp)
	sd	s5, 56(sp)
	sd	s6, 48(sp)
	.cfi_offset ra, -8
	.cfi_offset s0, -16
	.cfi_offset s1, -24
	.cfi_offset s2, -32
	.cfi_offset s3, -40
	.cfi_offset s4, -48
	.cfi_offset s5, -56
	.cfi_offset s6, -64
	mv	s3, a2
	mv	s2, a1
	mv	s0, a0
	ld	a0, 16(a0)
	sub	a0, a1, a0
	addi	a0, a0, -24
	srli	a1, a0, 3
	slli	a0, a0, 61
	or	s1, a0, a1
	li	a0, -1
	srli	a0, a0, 32
	sd	zero, 0(sp)
	sd	zero, 8(sp)
	sd	zero, 16(sp)
	bltu	s1, a0, .Lp_BB15_2
	mv	s1, a0
.Lp_BB15_2:
	lbu	a0, 29(s0)
	andi	a1, a0, 239
	beqz	a1, .Lp_BB15_4
	add	a1, s3, a0
	addi	a1, a1, 23
	neg	a2, a0
	and	a1, a1, a2
	addi	s5, a1, -24
	j	.Lp_BB15_5
.Lp_BB15_4:
	addi	a1, s3, 7
	lui	a2, 131072
	addi	a2, a2, -16
	and	a1, a1, a2
	addiw	s5, a1, 8
.Lp_BB15_5:
	li	a1, 8
	bne	a0, a1, .Lp_BB15_7
	sw	s1, 24(sp)
	sext.w	a1, s1
	addi	a3, sp, 24
	mv	a0, s0
	j	.Lp_BB15_19
.Lp_BB15_7:
	sext.w	s4, s1
	mv	a2, sp
	mv	a0, s0
	mv	a1, s4
	call	tlsf_block_at
	bnez	a0, .Lp_BB15_18
	lw	a0, 8(sp)
	beqz	a0, .Lp_BB15_18
	lwu	a0, 4(sp)
	slli	a1, a0, 3
	addi	a1, a1, -24
	slli	a1, a1, 32
	srli	a1, a1, 32
	sltu	a2, a1, s3
	neg	a2, a2
	or	a1, a1, a2
	bltu	s5, a1, .Lp_BB15_11
	mv	s5, a1
.Lp_BB15_11:
	srli	s6, s5, 3
	addi	s6, s6, 3
	sd	zero, 24(sp)
	sd	zero, 32(sp)
	sd	zero, 40(sp)
	bgeu	a0, s6, .Lp_BB15_18
	lw	a1, 0(sp)
	addw	a1, a1, a0
	addi	a2, sp, 24
	mv	a0, s0
	call	tlsf_block_at
	lw	a1, 32(sp)
	or	a0, a0, a1
	bnez	a0, .Lp_BB15_14
	lw	a0, 4(sp)
	lw	a1, 28(sp)
	add	a0, a0, a1
	slli	a0, a0, 32
	srli	a0, a0, 32
	bgeu	a0, s6, .Lp_BB15_18
.Lp_BB15_14:
	mv	a0, s0
	mv	a1, s3
	call	tlsf_malloc
	beqz	a0, .Lp_BB15_20
	mv	s1, a0
	lwu	a0, 12(sp)
	bltu	s3, a0, .Lp_BB15_17
	mv	s3, a0
.Lp_BB15_17:
	mv	a0, s1
	mv	a1, s2
	mv	a2, s3
	call	memcpy
	lw	a1, 0(sp)
	mv	a0, s0
	call	tlsf_release_place
	j	.Lp_BB15_22
.Lp_BB15_18:
	sw	s1, 24(sp)
	addi	a3, sp, 24
	mv	a0, s0
	mv	a1, s4
.Lp_BB15_19:
	mv	a2, s5
	call	tlsf_resize_place
	beqz	a0, .Lp_BB15_21
.Lp_BB15_20:
	li	s1, 0
	j	.Lp_BB15_22
.Lp_BB15_21:
	lwu	a0, 24(sp)
	ld	a1, 16(s0)
	slli	a0, a0, 3
	add	a0, a0, a1
	addi	s1, a0, 24
.Lp_BB15_22:
	mv	a0, s1
	ld	ra, 104(sp)
	ld	s0, 96(sp)
	ld	s1, 88(sp)
	ld	s2, 80(sp)
	ld	s3, 72(sp)
	ld	s4, 64(sp)
	ld	s5, 56(sp)
	ld	s6, 48(sp)
	.cfi_restore ra
	.cfi_restore s0
	.cfi_restore s1
	.cfi_restore s2
	.cfi_restore s3
	.cfi_restore s4
	.cfi_restore s5
	.cfi_restore s6
	addi	sp, sp, 112
	.cfi_def_cfa_offset 0
	ret
.Lp_func_end15:
	.size	tlsf_realloc_mixed, .Lp_func_end15-tlsf_realloc_mixed
	.cfi_endproc
	.text
	.globl	tlsf_aligned_realloc
	.p2align	1
	.type	tlsf_aligned_realloc,@function
tlsf_aligned_realloc:
	.cfi_startproc
	addi	sp, sp, -128
	.cfi_def_cfa_offset 128
	sd	ra, 120(sp)
	sd	s0, 112(sp)
	sd	s1, 104(sp)
	sd	s2, 96(sp)
	sd	s3, 88(sp)
	sd	s4, 80(sp)
	sd	s5, 72(sp)
	sd	s6, 64(sp)
	sd	s7, 56(sp)
	.cfi_offset ra, -8
	.cfi_offset s0, -16
	.cfi_offset s1, -24
	.cfi_offset s2, -32
	.cfi_offset s3, -40
	.cfi_offset s4, -48
	.cfi_offset s5, -56
	.cfi_offset s6, -64
	.cfi_offset s7, -72
	.cfi_remember_state
	beqz	a1, .Lp_BB16_5
	beqz	a2, .Lp_BB16_3
	addi	s1, a2, -1
	and	a4, a2, s1
	beqz	a4, .Lp_BB16_6
.Lp_BB16_3:
	li	a0, 0
.Lp_BB16_4:
	ld	ra, 120(sp)
	ld	s0, 112(sp)
	ld	s1, 104(sp)
	ld	s2, 96(sp)
	ld	s3, 88(sp)
	ld	s4, 80(sp)
	ld	s5, 72(sp)
	ld	s6, 64(sp)
	ld	s7, 56(sp)
	.cfi_restore ra
	.cfi_restore s0
	.cfi_restore s1
	.cfi_restore s2
	.cfi_restore s3
	.cfi_restore s4
	.cfi_restore s5
	.cfi_restore s6
	.cfi_restore s7
	addi	sp, sp, 128
	.cfi_def_cfa_offset 0
	ret
.Lp_BB16_5:
	.cfi_restore_state
	.cfi_remember_state
	mv	a1, a2
	mv	a2, a3
	ld	ra, 120(sp)
	ld	s0, 112(sp)
	ld	s1, 104(sp)
	ld	s2, 96(sp)
	ld	s3, 88(sp)
	ld	s4, 80(sp)
	ld	s5, 72(sp)
	ld	s6, 64(sp)
	ld	s7, 56(sp)
	.cfi_restore ra
	.cfi_restore s0
	.cfi_restore s1
	.cfi_restore s2
	.cfi_restore s3
	.cfi_restore s4
	.cfi_restore s5
	.cfi_restore s6
	.cfi_restore s7
	addi	sp, sp, 128
	.cfi_def_cfa_offset 0
	tail	tlsf_aligned_alloc
.Lp_BB16_6:
	.cfi_restore_state
	.cfi_remember_state
	beqz	a3, .Lp_BB16_13
	lui	a4, 32768
	bltu	a4, a3, .Lp_BB16_3
	lbu	a4, 29(a0)
	mv	a5, a4
	bnez	a4, .Lp_BB16_10
	li	a5, 16
.Lp_BB16_10:
	and	s1, s1, a1
	bnez	s1, .Lp_BB16_16
	bltu	a5, a2, .Lp_BB16_16
	mv	a2, a3
	ld	ra, 120(sp)
	ld	s0, 112(sp)
	ld	s1, 104(sp)
	ld	s2, 96(sp)
	ld	s3, 88(sp)
	ld	s4, 80(sp)
	ld	s5, 72(sp)
	ld	s6, 64(sp)
	ld	s7, 56(sp)
	.cfi_restore ra
	.cfi_restore s0
	.cfi_restore s1
	.cfi_restore s2
	.cfi_restore s3
	.cfi_restore s4
	.cfi_restore s5
	.cfi_restore s6
	.cfi_restore s7
	addi	sp, sp, 128
	.cfi_def_cfa_offset 0
	tail	tlsf_realloc
.Lp_BB16_13:
	.cfi_restore_state
	ld	a2, 16(a0)
	sub	a1, a1, a2
	addi	a1, a1, -24
	srli	a2, a1, 3
	slli	a1, a1, 61
	or	a1, a1, a2
	li	a2, -1
	srli	a2, a2, 32
	bltu	a1, a2, .Lp_BB16_15
	mv	a1, a2
.Lp_BB16_15:
	sext.w	a1, a1
	call	tlsf_release_place
	j	.Lp_BB16_3
.Lp_BB16_16:
	ld	a5, 16(a0)
	sub	a5, a1, a5
	addi	a5, a5, -24
	srli	s0, a5, 3
	slli	a5, a5, 61
	or	s0, s0, a5
	li	a5, -1
	srli	a5, a5, 32
	sd	zero, 8(sp)
	sd	zero, 16(sp)
	sd	zero, 24(sp)
	bltu	s0, a5, .Lp_BB16_18
	mv	s0, a5
.Lp_BB16_18:
	andi	a5, a4, 239
	mv	s5, a3
	mv	s6, a2
	mv	s2, a1
	beqz	a5, .Lp_BB16_20
	add	a3, a3, a4
	addi	a3, a3, 23
	neg	a1, a4
	and	a1, a1, a3
	addi	s4, a1, -24
	j	.Lp_BB16_21
.Lp_BB16_20:
	addi	a3, a3, 7
	lui	a1, 131072
	addi	a1, a1, -16
	and	a1, a1, a3
	addiw	s4, a1, 8
.Lp_BB16_21:
	sext.w	s7, s0
	addi	a2, sp, 8
	mv	s3, a0
	mv	a1, s7
	call	tlsf_block_at
	bnez	a0, .Lp_BB16_30
	lw	a0, 16(sp)
	beqz	a0, .Lp_BB16_30
	lwu	a3, 12(sp)
	slli	a0, a3, 3
	addi	a0, a0, -24
	slli	a0, a0, 32
	srli	a0, a0, 32
	mv	a2, s5
	sltu	a1, a0, s5
	neg	a1, a1
	or	a0, a0, a1
	bltu	s4, a0, .Lp_BB16_25
	mv	s4, a0
.Lp_BB16_25:
	mv	a0, s3
	mv	a1, s6
	beqz	s1, .Lp_BB16_33
.Lp_BB16_26:
	call	tlsf_aligned_alloc
	beqz	a0, .Lp_BB16_4
	lwu	a1, 20(sp)
	mv	a2, s5
	bltu	s5, a1, .Lp_BB16_29
	mv	a2, a1
.Lp_BB16_29:
	mv	s0, a0
	mv	a1, s2
	call	memcpy
	lw	a1, 8(sp)
	mv	a0, s3
	call	tlsf_release_place
	mv	a0, s0
	j	.Lp_BB16_4
.Lp_BB16_30:
	sw	s0, 32(sp)
	addi	a3, sp, 32
	mv	a0, s3
.Lp_BB16_31:
	mv	a1, s7
	mv	a2, s4
	call	tlsf_resize_place
	bnez	a0, .Lp_BB16_3
	lwu	a0, 32(sp)
	ld	a1, 16(s3)
	slli	a0, a0, 3
	add	a0, a0, a1
	addi	a0, a0, 24
	j	.Lp_BB16_4
.Lp_BB16_33:
	srli	s1, s4, 3
	addi	s1, s1, 3
	sd	zero, 32(sp)
	sd	zero, 40(sp)
	sd	zero, 48(sp)
	bgeu	a3, s1, .Lp_BB16_36
	lw	a1, 8(sp)
	addw	a1, a1, a3
	addi	a2, sp, 32
	call	tlsf_block_at
	lw	a1, 40(sp)
	or	a0, a0, a1
	bnez	a0, .Lp_BB16_37
	lw	a0, 12(sp)
	lw	a1, 36(sp)
	add	a0, a0, a1
	slli	a0, a0, 32
	srli	a3, a0, 32
	mv	a0, s3
	mv	a2, s5
	mv	a1, s6
	bltu	a3, s1, .Lp_BB16_26
.Lp_BB16_36:
	sw	s0, 32(sp)
	addi	a3, sp, 32
	j	.Lp_BB16_31
.Lp_BB16_37:
	mv	a0, s3
	mv	a2, s5
	mv	a1, s6
	j	.Lp_BB16_26
.Lp_func_end16:
	.size	tlsf_aligned_realloc, .Lp_func_end16-tlsf_aligned_realloc
	.cfi_endproc
	.globl	tlsf_allocate_at
	.p2align	1
	.type	tlsf_allocate_at,@function
tlsf_allocate_at:
	.cfi_startproc
	addi	sp, sp, -96
	.cfi_def_cfa_offset 96
	sd	ra, 88(sp)
	sd	s0, 80(sp)
	sd	s1, 72(sp)
	sd	s2, 64(sp)
	sd	s3, 56(sp)
	sd	s4, 48(sp)
	sd	s5, 40(sp)
	sd	s6, 32(sp)
	sd	s7, 24(sp)
	sd	s8, 16(sp)
	sd	s9, 8(sp)
	.cfi_offset ra, -8
	.cfi_offset s0, -16
	.cfi_offset s1, -24
	.cfi_offset s2, -32
	.cfi_offset s3, -40
	.cfi_offset s4, -48
	.cfi_offset s5, -56
	.cfi_offset s6, -64
	.cfi_offset s7, -72
	.cfi_offset s8, -80
	.cfi_offset s9, -88
	.cfi_remember_state
	mv	s3, a4
	mv	s1, a3
	addi	a3, a2, -1
	xor	a4, a2, a3
	bgeu	a3, a4, .Lp_BB17_6
	mv	s0, a0
	lui	a0, 32768
	bltu	a0, a1, .Lp_BB17_15
	addi	a0, a0, 1
	bgeu	a2, a0, .Lp_BB17_15
	mv	s2, a5
	lbu	a0, 28(s0)
	lui	s4, 131072
	addi	s4, s4, -16
	addi	s5, a1, 7
	bnez	a0, .Lp_BB17_16
	mv	s6, a1
	and	a1, s5, s4
	li	a0, 16
	addiw	a1, a1, 8
	bltu	a0, a2, .Lp_BB17_7
	mv	a0, s0
	call	tlsf_allocate_place
	srli	a2, a0, 32
	bnez	a2, .Lp_BB17_14
	j	.Lp_BB17_8
.Lp_BB17_6:
	li	a2, 5
	j	.Lp_BB17_14
.Lp_BB17_7:
	lwu	a0, 16(s0)
	srli	a2, a2, 3
	and	a0, a0, a3
	srli	a3, a0, 3
	mv	a0, s0
	call	tlsf_allocate_aligned
	srli	a2, a0, 32
	bnez	a2, .Lp_BB17_14
.Lp_BB17_8:
	lw	s7, 24(s0)
	andi	a2, s1, 1
	slli	s1, a0, 3
	bnez	a2, .Lp_BB17_13
	ld	a3, 16(s0)
	lbu	a2, 29(s0)
	add	a3, a3, s1
	andi	a4, a2, 239
	addi	a3, a3, 24
	mv	s8, a1
	mv	s9, a0
	beqz	a4, .Lp_BB17_11
	seqz	a0, s6
	add	a0, a0, s6
	add	a0, a0, a2
	addi	a0, a0, 23
	neg	a1, a2
	and	a0, a0, a1
	addi	a2, a0, -24
	j	.Lp_BB17_12
.Lp_BB17_11:
	and	a2, s5, s4
	addiw	a2, a2, 8
.Lp_BB17_12:
	mv	a0, a3
	li	a1, 0
	call	memset
	mv	a0, s9
	mv	a1, s8
.Lp_BB17_13:
	li	a2, 0
	ld	a3, 16(s0)
	sw	s7, 0(s3)
	sw	a0, 4(s3)
	sd	a1, 8(s3)
	add	a3, a3, s1
	addi	a3, a3, 24
	sd	a3, 0(s2)
.Lp_BB17_14:
	sext.w	a0, a2
	ld	ra, 88(sp)
	ld	s0, 80(sp)
	ld	s1, 72(sp)
	ld	s2, 64(sp)
	ld	s3, 56(sp)
	ld	s4, 48(sp)
	ld	s5, 40(sp)
	ld	s6, 32(sp)
	ld	s7, 24(sp)
	ld	s8, 16(sp)
	ld	s9, 8(sp)
	.cfi_restore ra
	.cfi_restore s0
	.cfi_restore s1
	.cfi_restore s2
	.cfi_restore s3
	.cfi_restore s4
	.cfi_restore s5
	.cfi_restore s6
	.cfi_restore s7
	.cfi_restore s8
	.cfi_restore s9
	addi	sp, sp, 96
	.cfi_def_cfa_offset 0
	ret
.Lp_BB17_15:
	.cfi_restore_state
	.cfi_remember_state
	mv	a0, s0
	ld	ra, 88(sp)
	ld	s0, 80(sp)
	ld	s1, 72(sp)
	ld	s2, 64(sp)
	ld	s3, 56(sp)
	ld	s4, 48(sp)
	ld	s5, 40(sp)
	ld	s6, 32(sp)
	ld	s7, 24(sp)
	ld	s8, 16(sp)
	ld	s9, 8(sp)
	.cfi_restore ra
	.cfi_restore s0
	.cfi_restore s1
	.cfi_restore s2
	.cfi_restore s3
	.cfi_restore s4
	.cfi_restore s5
	.cfi_restore s6
	.cfi_restore s7
	.cfi_restore s8
	.cfi_restore s9
	addi	sp, sp, 96
	.cfi_def_cfa_offset 0
	tail	tlsf_too_long
.Lp_BB17_16:
	.cfi_restore_state
	mv	a0, s0
	mv	s6, a1
	call	tlsf_mixed_place
	srli	a2, a0, 32
	bnez	a2, .Lp_BB17_14
	j	.Lp_BB17_8
.Lp_func_end17:
	.size	tlsf_allocate_at, .Lp_func_end17-tlsf_allocate_at
	.cfi_endproc
	.globl	tlsf_payload
	.p2align	1
	.type	tlsf_payload,@function
tlsf_payload:
	.cfi_startproc
	addi	sp, sp, -48
	.cfi_def_cfa_offset 48
	sd	ra, 40(sp)
	sd	s0, 32(sp)
	sd	s1, 24(sp)
	.cfi_offset ra, -8
	.cfi_offset s0, -16
	.cfi_offset s1, -24
	mv	s0, a3
	mv	s1, a1
	sd	zero, 16(sp)
	sw	zero, 12(sp)
	addi	a3, sp, 16
	addi	a4, sp, 12
	call	tlsf_locate
	mv	a1, a0
	li	a0, 0
	bnez	a1, .Lp_BB18_4
	srli	s1, s1, 32
	beqz	s0, .Lp_BB18_3
	lw	a0, 12(sp)
	sw	a0, 0(s0)
.Lp_BB18_3:
	ld	a0, 16(sp)
	slli	s1, s1, 3
	add	a0, a0, s1
	addi	a0, a0, 24
.Lp_BB18_4:
	ld	ra, 40(sp)
	ld	s0, 32(sp)
	ld	s1, 24(sp)
	.cfi_restore ra
	.cfi_restore s0
	.cfi_restore s1
	addi	sp, sp, 48
	.cfi_def_cfa_offset 0
	ret
.Lp_func_end18:
	.size	tlsf_payload, .Lp_func_end18-tlsf_payload
	.cfi_endproc
	.globl	tlsf_pools_name_at
	.p2align	1
	.type	tlsf_pools_name_at,@function
tlsf_pools_name_at:
	.cfi_startproc
	addi	sp, sp, -80
	.cfi_def_cfa_offset 80
	sd	ra, 72(sp)
	sd	s0, 64(sp)
	sd	s1, 56(sp)
	sd	s2, 48(sp)
	sd	s3, 40(sp)
	sd	s4, 32(sp)
	sd	s5, 24(sp)
	.cfi_offset ra, -8
	.cfi_offset s0, -16
	.cfi_offset s1, -24
	.cfi_offset s2, -32
	.cfi_offset s3, -40
	.cfi_offset s4, -48
	.cfi_offset s5, -56
	.cfi_remember_state
	mv	s2, a2
	mv	s5, a1
	mv	s4, a0
	sw	zero, 4(sp)
	sw	zero, 20(sp)
	sd	zero, 8(sp)
	addi	a2, sp, 8
	addi	a3, sp, 20
	li	a1, 0
	call	tlsf_pools_part
	li	s0, 0
	li	s3, 0
	beqz	a0, .Lp_BB19_4
.Lp_BB19_1:
	sub	a0, s5, s0
	addi	a0, a0, -24
	srli	a1, a0, 3
	slli	a0, a0, 61
	or	a2, a0, a1
	li	a0, -1
	srli	a0, a0, 32
	bltu	a2, a0, .Lp_BB19_3
	mv	a2, a0
.Lp_BB19_3:
	sext.w	a2, a2
	addi	a4, sp, 4
	mv	a0, s4
	mv	a1, s3
	mv	a3, s2
	call	tlsf_pools_place
	ld	ra, 72(sp)
	ld	s0, 64(sp)
	ld	s1, 56(sp)
	ld	s2, 48(sp)
	ld	s3, 40(sp)
	ld	s4, 32(sp)
	ld	s5, 24(sp)
	.cfi_restore ra
	.cfi_restore s0
	.cfi_restore s1
	.cfi_restore s2
	.cfi_restore s3
	.cfi_restore s4
	.cfi_restore s5
	addi	sp, sp, 80
	.cfi_def_cfa_offset 0
	ret
.Lp_BB19_4:
	.cfi_restore_state
	li	s1, 0
	j	.Lp_BB19_7
.Lp_BB19_5:
	mv	s0, a0
	mv	s3, s1
.Lp_BB19_6:
	addiw	s1, s1, 1
	addi	a2, sp, 8
	addi	a3, sp, 20
	mv	a0, s4
	mv	a1, s1
	call	tlsf_pools_part
	bnez	a0, .Lp_BB19_1
.Lp_BB19_7:
	ld	a0, 8(sp)
	beqz	s1, .Lp_BB19_5
	sub	a1, s5, a0
	sub	a2, s5, s0
	bgeu	a2, a1, .Lp_BB19_5
	j	.Lp_BB19_6
.Lp_func_end19:
	.size	tlsf_pools_name_at, .Lp_func_end19-tlsf_pools_name_at
	.cfi_endproc
	.globl	tlsf_pools_usable_size
	.p2align	1
	.type	tlsf_pools_usable_size,@function
tlsf_pools_usable_size:
	.cfi_startproc
	addi	sp, sp, -96
	.cfi_def_cfa_offset 96
	sd	ra, 88(sp)
	sd	s0, 80(sp)
	sd	s1, 72(sp)
	sd	s2, 64(sp)
	sd	s3, 56(sp)
	sd	s4, 48(sp)
	.cfi_offset ra, -8
	.cfi_offset s0, -16
	.cfi_offset s1, -24
	.cfi_offset s2, -32
	.cfi_offset s3, -40
	.cfi_offset s4, -48
	.cfi_remember_state
	mv	s4, a1
	mv	s3, a0
	sd	zero, 16(sp)
	sd	zero, 24(sp)
	sw	zero, 12(sp)
	sw	zero, 44(sp)
	sd	zero, 32(sp)
	addi	a2, sp, 32
	addi	a3, sp, 44
	li	a1, 0
	call	tlsf_pools_part
	li	s1, 0
	li	s2, 0
	beqz	a0, .Lp_BB20_4
.Lp_BB20_1:
	sub	a0, s4, s1
	addi	a0, a0, -24
	srli	a1, a0, 3
	slli	a0, a0, 61
	or	a2, a0, a1
	li	a0, -1
	srli	a0, a0, 32
	bltu	a2, a0, .Lp_BB20_3
	mv	a2, a0
.Lp_BB20_3:
	sext.w	a2, a2
	addi	a3, sp, 16
	addi	a4, sp, 12
	mv	a0, s3
	mv	a1, s2
	call	tlsf_pools_place
	lw	a1, 12(sp)
	snez	a0, a0
	addi	a0, a0, -1
	and	a0, a0, a1
	slli	a0, a0, 32
	srli	a0, a0, 32
	ld	ra, 88(sp)
	ld	s0, 80(sp)
	ld	s1, 72(sp)
	ld	s2, 64(sp)
	ld	s3, 56(sp)
	ld	s4, 48(sp)
	.cfi_restore ra
	.cfi_restore s0
	.cfi_restore s1
	.cfi_restore s2
	.cfi_restore s3
	.cfi_restore s4
	addi	sp, sp, 96
	.cfi_def_cfa_offset 0
	ret
.Lp_BB20_4:
	.cfi_restore_state
	li	s0, 0
	j	.Lp_BB20_7
.Lp_BB20_5:
	mv	s1, a0
	mv	s2, s0
.Lp_BB20_6:
	addiw	s0, s0, 1
	addi	a2, sp, 32
	addi	a3, sp, 44
	mv	a0, s3
	mv	a1, s0
	call	tlsf_pools_part
	bnez	a0, .Lp_BB20_1
.Lp_BB20_7:
	ld	a0, 32(sp)
	beqz	s0, .Lp_BB20_5
	sub	a1, s4, a0
	sub	a2, s4, s1
	bgeu	a2, a1, .Lp_BB20_5
	j	.Lp_BB20_6
.Lp_func_end20:
	.size	tlsf_pools_usable_size, .Lp_func_end20-tlsf_pools_usable_size
	.cfi_endproc
	.globl	tlsf_pools_free
	.p2align	1
	.type	tlsf_pools_free,@function
tlsf_pools_free:
	.cfi_startproc
	addi	sp, sp, -96
	.cfi_def_cfa_offset 96
	sd	ra, 88(sp)
	sd	s0, 80(sp)
	sd	s1, 72(sp)
	sd	s2, 64(sp)
	sd	s3, 56(sp)
	sd	s4, 48(sp)
	.cfi_offset ra, -8
	.cfi_offset s0, -16
	.cfi_offset s1, -24
	.cfi_offset s2, -32
	.cfi_offset s3, -40
	.cfi_offset s4, -48
	.cfi_remember_state
	sd	zero, 8(sp)
	sd	zero, 16(sp)
	beqz	a1, .Lp_BB21_6
	mv	s4, a1
	mv	s3, a0
	sw	zero, 28(sp)
	sw	zero, 44(sp)
	sd	zero, 32(sp)
	addi	a2, sp, 32
	addi	a3, sp, 44
	li	a1, 0
	call	tlsf_pools_part
	li	s1, 0
	li	s2, 0
	beqz	a0, .Lp_BB21_8
.Lp_BB21_2:
	sub	a0, s4, s1
	addi	a0, a0, -24
	srli	a1, a0, 3
	slli	a0, a0, 61
	or	a2, a0, a1
	li	a0, -1
	srli	a0, a0, 32
	bltu	a2, a0, .Lp_BB21_4
	mv	a2, a0
.Lp_BB21_4:
	sext.w	a2, a2
	addi	a3, sp, 8
	addi	a4, sp, 28
	mv	a0, s3
	mv	a1, s2
	call	tlsf_pools_place
	bnez	a0, .Lp_BB21_7
	ld	a1, 8(sp)
	ld	a2, 16(sp)
	mv	a0, s3
	call	tlsf_pools_release
	j	.Lp_BB21_7
.Lp_BB21_6:
	li	a0, 0
.Lp_BB21_7:
	ld	ra, 88(sp)
	ld	s0, 80(sp)
	ld	s1, 72(sp)
	ld	s2, 64(sp)
	ld	s3, 56(sp)
	ld	s4, 48(sp)
	.cfi_restore ra
	.cfi_restore s0
	.cfi_restore s1
	.cfi_restore s2
	.cfi_restore s3
	.cfi_restore s4
	addi	sp, sp, 96
	.cfi_def_cfa_offset 0
	ret
.Lp_BB21_8:
	.cfi_restore_state
	li	s0, 0
	j	.Lp_BB21_11
.Lp_BB21_9:
	mv	s1, a0
	mv	s2, s0
.Lp_BB21_10:
	addiw	s0, s0, 1
	addi	a2, sp, 32
	addi	a3, sp, 44
	mv	a0, s3
	mv	a1, s0
	call	tlsf_pools_part
	bnez	a0, .Lp_BB21_2
.Lp_BB21_11:
	ld	a0, 32(sp)
	beqz	s0, .Lp_BB21_9
	sub	a1, s4, a0
	sub	a2, s4, s1
	bgeu	a2, a1, .Lp_BB21_9
	j	.Lp_BB21_10
.Lp_func_end21:
	.size	tlsf_pools_free, .Lp_func_end21-tlsf_pools_free
	.cfi_endproc
	.globl	tlsf_pools_malloc
	.p2align	1
	.type	tlsf_pools_malloc,@function
tlsf_pools_malloc:
	.cfi_startproc
	addi	sp, sp, -64
	.cfi_def_cfa_offset 64
	sd	ra, 56(sp)
	sd	s0, 48(sp)
	.cfi_offset ra, -8
	.cfi_offset s0, -16
	.cfi_remember_state
	mv	s0, a0
	sw	zero, 12(sp)
	addi	a2, sp, 12
	call	tlsf_pools_row
	mv	a1, a0
	li	a0, 0
	bnez	a1, .Lp_BB22_4
	lwu	a1, 12(sp)
	sd	zero, 32(sp)
	sd	zero, 40(sp)
	sw	zero, 28(sp)
	sd	zero, 16(sp)
	addi	a2, sp, 32
	mv	a0, s0
	call	tlsf_pools_allocate
	bnez	a0, .Lp_BB22_3
	addi	a2, sp, 16
	addi	a3, sp, 28
	mv	a0, s0
	li	a1, 0
	call	tlsf_pools_part
	beqz	a0, .Lp_BB22_5
.Lp_BB22_3:
	li	a0, 0
.Lp_BB22_4:
	ld	ra, 56(sp)
	ld	s0, 48(sp)
	.cfi_restore ra
	.cfi_restore s0
	addi	sp, sp, 64
	.cfi_def_cfa_offset 0
	ret
.Lp_BB22_5:
	.cfi_restore_state
	lw	a0, 32(sp)
	lw	a1, 28(sp)
	beq	a0, a1, .Lp_BB22_7
	subw	a1, a0, a1
	addi	a2, sp, 16
	addi	a3, sp, 28
	mv	a0, s0
	call	tlsf_pools_part
	bnez	a0, .Lp_BB22_3
.Lp_BB22_7:
	lwu	a0, 36(sp)
	ld	a1, 16(sp)
	slli	a0, a0, 3
	add	a0, a0, a1
	addi	a0, a0, 24
	j	.Lp_BB22_4
.Lp_func_end22:
	.size	tlsf_pools_malloc, .Lp_func_end22-tlsf_pools_malloc
	.cfi_endproc
	.globl	tlsf_pools_realloc
	.p2align	1
	.type	tlsf_pools_realloc,@function
tlsf_pools_realloc:
	.cfi_startproc
	addi	sp, sp, -112
	.cfi_def_cfa_offset 112
	sd	ra, 104(sp)
	sd	s0, 96(sp)
	sd	s1, 88(sp)
	sd	s2, 80(sp)
	sd	s3, 72(sp)
	sd	s4, 64(sp)
	sd	s5, 56(sp)
	.cfi_offset ra, -8
	.cfi_offset s0, -16
	.cfi_offset s1, -24
	.cfi_offset s2, -32
	.cfi_offset s3, -40
	.cfi_offset s4, -48
	.cfi_offset s5, -56
	.cfi_remember_state
	mv	s2, a2
	mv	s3, a0
	sd	zero, 8(sp)
	sd	zero, 16(sp)
	sw	zero, 4(sp)
	sw	zero, 0(sp)
	beqz	a1, .Lp_BB23_10
	mv	s4, a1
	beqz	s2, .Lp_BB23_11
	sw	zero, 24(sp)
	sd	zero, 40(sp)
	addi	a2, sp, 40
	addi	a3, sp, 24
	mv	a0, s3
	li	a1, 0
	call	tlsf_pools_part
	li	s1, 0
	li	s5, 0
	beqz	a0, .Lp_BB23_14
.Lp_BB23_3:
	sub	a0, s4, s1
	addi	a0, a0, -24
	srli	a1, a0, 3
	slli	a0, a0, 61
	or	a2, a0, a1
	li	a0, -1
	srli	a0, a0, 32
	bltu	a2, a0, .Lp_BB23_5
	mv	a2, a0
.Lp_BB23_5:
	sext.w	a2, a2
	addi	a3, sp, 8
	addi	a4, sp, 4
	mv	a0, s3
	mv	a1, s5
	call	tlsf_pools_place
	bnez	a0, .Lp_BB23_12
	mv	a2, sp
	mv	a0, s3
	mv	a1, s2
	call	tlsf_pools_row
	bnez	a0, .Lp_BB23_12
	lwu	a0, 4(sp)
	lwu	a1, 0(sp)
	bltu	a0, s2, .Lp_BB23_19
	bltu	a1, a0, .Lp_BB23_19
	mv	a0, s4
	j	.Lp_BB23_13
.Lp_BB23_10:
	mv	a0, s3
	mv	a1, s2
	ld	ra, 104(sp)
	ld	s0, 96(sp)
	ld	s1, 88(sp)
	ld	s2, 80(sp)
	ld	s3, 72(sp)
	ld	s4, 64(sp)
	ld	s5, 56(sp)
	.cfi_restore ra
	.cfi_restore s0
	.cfi_restore s1
	.cfi_restore s2
	.cfi_restore s3
	.cfi_restore s4
	.cfi_restore s5
	addi	sp, sp, 112
	.cfi_def_cfa_offset 0
	tail	tlsf_pools_malloc
.Lp_BB23_11:
	.cfi_restore_state
	.cfi_remember_state
	mv	a0, s3
	mv	a1, s4
	call	tlsf_pools_free
.Lp_BB23_12:
	li	a0, 0
.Lp_BB23_13:
	ld	ra, 104(sp)
	ld	s0, 96(sp)
	ld	s1, 88(sp)
	ld	s2, 80(sp)
	ld	s3, 72(sp)
	ld	s4, 64(sp)
	ld	s5, 56(sp)
	.cfi_restore ra
	.cfi_restore s0
	.cfi_restore s1
	.cfi_restore s2
	.cfi_restore s3
	.cfi_restore s4
	.cfi_restore s5
	addi	sp, sp, 112
	.cfi_def_cfa_offset 0
	ret
.Lp_BB23_14:
	.cfi_restore_state
	li	s0, 0
	j	.Lp_BB23_17
.Lp_BB23_15:
	mv	s1, a0
	mv	s5, s0
.Lp_BB23_16:
	addiw	s0, s0, 1
	addi	a2, sp, 40
	addi	a3, sp, 24
	mv	a0, s3
	mv	a1, s0
	call	tlsf_pools_part
	bnez	a0, .Lp_BB23_3
.Lp_BB23_17:
	ld	a0, 40(sp)
	beqz	s0, .Lp_BB23_15
	sub	a1, s4, a0
	sub	a2, s4, s1
	bgeu	a2, a1, .Lp_BB23_15
	j	.Lp_BB23_16
.Lp_BB23_19:
	sd	zero, 40(sp)
	sd	zero, 48(sp)
	sw	zero, 36(sp)
	sd	zero, 24(sp)
	addi	a2, sp, 40
	mv	a0, s3
	call	tlsf_pools_allocate
	bnez	a0, .Lp_BB23_12
	addi	a2, sp, 24
	addi	a3, sp, 36
	mv	a0, s3
	li	a1, 0
	call	tlsf_pools_part
	bnez	a0, .Lp_BB23_12
	lw	a0, 40(sp)
	lw	a1, 36(sp)
	beq	a0, a1, .Lp_BB23_23
	subw	a1, a0, a1
	addi	a2, sp, 24
	addi	a3, sp, 36
	mv	a0, s3
	call	tlsf_pools_part
	bnez	a0, .Lp_BB23_12
.Lp_BB23_23:
	lwu	a1, 44(sp)
	ld	a2, 24(sp)
	lwu	a0, 4(sp)
	slli	a1, a1, 3
	add	a1, a1, a2
	addi	s0, a1, 24
	bltu	s2, a0, .Lp_BB23_25
	mv	s2, a0
.Lp_BB23_25:
	mv	a0, s0
	mv	a1, s4
	mv	a2, s2
	call	memcpy
	ld	a1, 8(sp)
	ld	a2, 16(sp)
	mv	a0, s3
	call	tlsf_pools_release
	mv	a0, s0
	j	.Lp_BB23_13
.Lp_func_end23:
	.size	tlsf_pools_realloc, .Lp_func_end23-tlsf_pools_realloc
	.cfi_endproc
	.globl	tlsf_text_of
	.p2align	1
	.type	tlsf_text_of,@function
tlsf_text_of:
	.cfi_startproc
	li	a1, 40
	bltu	a1, a0, .Lp_BB24_2
	slli	a0, a0, 2
.Lp_pcrel_hi1:
	auipc	a1, %pcrel_hi(.Lp_switch.table.tlsf_text_of.rel)
	addi	a1, a1, %pcrel_lo(.Lp_pcrel_hi1)
	add	a0, a0, a1
	lw	a0, 0(a0)
	add	a0, a0, a1
	ret
.Lp_BB24_2:
.Lp_pcrel_hi0:
	auipc	a0, %pcrel_hi(.L.str.20)
	addi	a0, a0, %pcrel_lo(.Lp_pcrel_hi0)
	ret
.Lp_func_end24:
	.size	tlsf_text_of, .Lp_func_end24-tlsf_text_of
	.cfi_endproc
	.section	.text.unlikely.,"ax",@progbits
	.p2align	1
	.type	tlsf_too_long,@function
tlsf_too_long:
	.cfi_startproc
	addi	sp, sp, -32
	.cfi_def_cfa_offset 32
	sd	ra, 24(sp)
	.cfi_offset ra, -8
	sd	zero, 0(sp)
	sd	zero, 8(sp)
	sd	zero, 16(sp)
	li	a1, -1
	mv	a2, sp
	call	tlsf_block_at
	li	a1, 32
	beq	a0, a1, .Lp_BB25_2
	li	a1, 1
.Lp_BB25_2:
	mv	a0, a1
	ld	ra, 24(sp)
	.cfi_restore ra
	addi	sp, sp, 32
	.cfi_def_cfa_offset 0
	ret
.Lp_func_end25:
	.size	tlsf_too_long, .Lp_func_end25-tlsf_too_long
	.cfi_endproc
	.p2align	1
	.type	tlsf_mixed_place,@function
tlsf_mixed_place:
	.cfi_startproc
	addi	sp, sp, -32
	.cfi_def_cfa_offset 32
	sd	ra, 24(sp)
	sd	s0, 16(sp)
	sd	s1, 8(sp)
	sd	s2, 0(sp)
	.cfi_offset ra, -8
	.cfi_offset s0, -16
	.cfi_offset s1, -24
	.cfi_offset s2, -32
	mv	s0, a0
	lbu	a0, 29(a0)
	mv	s1, a0
	bnez	a0, .Lp_BB26_2
	li	s1, 16
.Lp_BB26_2:
	andi	a3, a0, 239
	beqz	a3, .Lp_BB26_4
	seqz	a3, a1
	add	a1, a1, a3
	add	a1, a1, a0
	addi	a1, a1, 23
	neg	a0, a0
	and	a0, a0, a1
	addi	s2, a0, -24
	bgeu	s1, a2, .Lp_BB26_5
	j	.Lp_BB26_8
.Lp_BB26_4:
	addi	a1, a1, 7
	lui	a0, 131072
	addi	a0, a0, -16
	and	a0, a0, a1
	addiw	s2, a0, 8
	bltu	s1, a2, .Lp_BB26_8
.Lp_BB26_5:
	mv	a0, s0
	mv	a1, s2
	call	tlsf_allocate_place
	srli	a2, a0, 32
	bnez	a2, .Lp_BB26_9
	ld	a2, 16(s0)
	slli	a3, a0, 3
	add	a2, a2, a3
	addi	a2, a2, 24
	addi	a3, s1, -1
	and	a2, a2, a3
	beqz	a2, .Lp_BB26_9
	sext.w	a1, a0
	mv	a0, s0
	call	tlsf_release_place
	mv	a2, s1
.Lp_BB26_8:
	lwu	a0, 16(s0)
	srli	a4, a2, 3
	addi	a2, a2, -1
	and	a0, a0, a2
	srli	a3, a0, 3
	mv	a0, s0
	mv	a1, s2
	mv	a2, a4
	call	tlsf_allocate_aligned
.Lp_BB26_9:
	ld	ra, 24(sp)
	ld	s0, 16(sp)
	ld	s1, 8(sp)
	ld	s2, 0(sp)
	.cfi_restore ra
	.cfi_restore s0
	.cfi_restore s1
	.cfi_restore s2
	addi	sp, sp, 32
	.cfi_def_cfa_offset 0
	ret
.Lp_func_end26:
	.size	tlsf_mixed_place, .Lp_func_end26-tlsf_mixed_place
	.cfi_endproc
	.p2align	1
	.type	tlsf_malloc_own,@function
tlsf_malloc_own:
	.cfi_startproc
	lui	a2, 32768
	bgeu	a2, a1, .Lp_BB27_2
	li	a0, 0
	ret
.Lp_BB27_2:
	addi	sp, sp, -16
	.cfi_def_cfa_offset 16
	sd	ra, 8(sp)
	sd	s0, 0(sp)
	.cfi_offset ra, -8
	.cfi_offset s0, -16
	mv	s0, a0
	li	a2, 1
	call	tlsf_mixed_place
	srli	a1, a0, 32
	bnez	a1, .Lp_BB27_4
	ld	a1, 16(s0)
	slli	a0, a0, 3
	add	a0, a0, a1
	addi	a0, a0, 24
	j	.Lp_BB27_5
.Lp_BB27_4:
	li	a0, 0
.Lp_BB27_5:
	ld	ra, 8(sp)
	ld	s0, 0(sp)
	.cfi_restore ra
	.cfi_restore s0
	addi	sp, sp, 16
	.cfi_def_cfa_offset 0
	ret
.Lp_func_end27:
	.size	tlsf_malloc_own, .Lp_func_end27-tlsf_malloc_own
	.cfi_endproc
	.p2align	1
	.type	tlsf_malloc_again,@function
tlsf_malloc_again:
	.cfi_startproc
	addi	sp, sp, -48
	.cfi_def_cfa_offset 48
	sd	ra, 40(sp)
	sd	s0, 32(sp)
	.cfi_offset ra, -8
	.cfi_offset s0, -16
	mv	s0, a0
	ld	a0, 16(a0)
	sub	a1, a1, a0
	addi	a1, a1, -24
	srli	a0, a1, 3
	slli	a1, a1, 61
	or	a1, a1, a0
	li	a0, -1
	srli	a0, a0, 32
	sd	zero, 8(sp)
	sd	zero, 16(sp)
	sd	zero, 24(sp)
	bltu	a1, a0, .Lp_BB28_2
	mv	a1, a0
.Lp_BB28_2:
	sext.w	a1, a1
	addi	a2, sp, 8
	mv	a0, s0
	call	tlsf_block_at
	bnez	a0, .Lp_BB28_5
	lw	a1, 8(sp)
	mv	a0, s0
	call	tlsf_release_place
	lw	a0, 16(s0)
	lwu	a1, 20(sp)
	slli	a0, a0, 60
	srli	a3, a0, 63
	li	a2, 2
	mv	a0, s0
	call	tlsf_allocate_aligned
	srli	a1, a0, 32
	bnez	a1, .Lp_BB28_5
	ld	a1, 16(s0)
	slli	a0, a0, 3
	add	a0, a0, a1
	addi	a0, a0, 24
	j	.Lp_BB28_6
.Lp_BB28_5:
	li	a0, 0
.Lp_BB28_6:
	ld	ra, 40(sp)
	ld	s0, 32(sp)
	.cfi_restore ra
	.cfi_restore s0
	addi	sp, sp, 48
	.cfi_def_cfa_offset 0
	ret
.Lp_func_end28:
	.size	tlsf_malloc_again, .Lp_func_end28-tlsf_malloc_again
	.cfi_endproc
	.type	.L.str,@object
	.section	.rodata.str1.1,"aMS",@progbits,1
.L.str:
	.asciz	"done"
	.size	.L.str, 5
	.type	.L.str.1,@object
.L.str.1:
	.asciz	"no free block fits"
	.size	.L.str.1, 19
	.type	.L.str.2,@object
.L.str.2:
	.asciz	"the ticks or the numbers are used up"
	.size	.L.str.2, 37
	.type	.L.str.3,@object
.L.str.3:
	.asciz	"a name of another heap"
	.size	.L.str.3, 23
	.type	.L.str.4,@object
.L.str.4:
	.asciz	"no live block has that name or address"
	.size	.L.str.4, 39
	.type	.L.str.5,@object
.L.str.5:
	.asciz	"a size out of range"
	.size	.L.str.5, 20
	.type	.L.str.6,@object
.L.str.6:
	.asciz	"no memory"
	.size	.L.str.6, 10
	.type	.L.str.7,@object
.L.str.7:
	.asciz	"bytes past the end of the payload"
	.size	.L.str.7, 34
	.type	.L.str.8,@object
.L.str.8:
	.asciz	"the lane or queue is full"
	.size	.L.str.8, 26
	.type	.L.str.9,@object
.L.str.9:
	.asciz	"no room where the block stands"
	.size	.L.str.9, 31
	.type	.L.str.10,@object
.L.str.10:
	.asciz	"a line was not written"
	.size	.L.str.10, 23
	.type	.L.str.11,@object
.L.str.11:
	.asciz	"the handle is closed"
	.size	.L.str.11, 21
	.type	.L.str.12,@object
.L.str.12:
	.asciz	"the handle is open already"
	.size	.L.str.12, 27
	.type	.L.str.13,@object
.L.str.13:
	.asciz	"a level is 4 or 5"
	.size	.L.str.13, 18
	.type	.L.str.14,@object
.L.str.14:
	.asciz	"the lane or queue is empty"
	.size	.L.str.14, 27
	.type	.L.str.15,@object
.L.str.15:
	.asciz	"a header is damaged"
	.size	.L.str.15, 20
	.type	.L.str.16,@object
.L.str.16:
	.asciz	"another thread is in the way: try again"
	.size	.L.str.16, 40
	.type	.L.str.17,@object
.L.str.17:
	.asciz	"all blocks of that row are held"
	.size	.L.str.17, 32
	.type	.L.str.18,@object
.L.str.18:
	.asciz	"memory that is null, or past the end of the address space"
	.size	.L.str.18, 58
	.type	.L.str.19,@object
.L.str.19:
	.asciz	"the handle holds something of another kind"
	.size	.L.str.19, 43
	.type	.L.str.20,@object
.L.str.20:
	.asciz	"no answer of this library"
	.size	.L.str.20, 26
	.type	.Lp_switch.table.tlsf_text_of.rel,@object
	.section	.rodata,"a",@progbits
	.p2align	2, 0x0
.Lp_switch.table.tlsf_text_of.rel:
	.word	.L.str-.Lp_switch.table.tlsf_text_of.rel
	.word	.L.str.1-.Lp_switch.table.tlsf_text_of.rel
	.word	.L.str.2-.Lp_switch.table.tlsf_text_of.rel
	.word	.L.str.3-.Lp_switch.table.tlsf_text_of.rel
	.word	.L.str.4-.Lp_switch.table.tlsf_text_of.rel
	.word	.L.str.5-.Lp_switch.table.tlsf_text_of.rel
	.word	.L.str.6-.Lp_switch.table.tlsf_text_of.rel
	.word	.L.str.7-.Lp_switch.table.tlsf_text_of.rel
	.word	.L.str.8-.Lp_switch.table.tlsf_text_of.rel
	.word	.L.str.20-.Lp_switch.table.tlsf_text_of.rel
	.word	.L.str.9-.Lp_switch.table.tlsf_text_of.rel
	.word	.L.str.20-.Lp_switch.table.tlsf_text_of.rel
	.word	.L.str.20-.Lp_switch.table.tlsf_text_of.rel
	.word	.L.str.20-.Lp_switch.table.tlsf_text_of.rel
	.word	.L.str.20-.Lp_switch.table.tlsf_text_of.rel
	.word	.L.str.20-.Lp_switch.table.tlsf_text_of.rel
	.word	.L.str.20-.Lp_switch.table.tlsf_text_of.rel
	.word	.L.str.10-.Lp_switch.table.tlsf_text_of.rel
	.word	.L.str.20-.Lp_switch.table.tlsf_text_of.rel
	.word	.L.str.20-.Lp_switch.table.tlsf_text_of.rel
	.word	.L.str.20-.Lp_switch.table.tlsf_text_of.rel
	.word	.L.str.20-.Lp_switch.table.tlsf_text_of.rel
	.word	.L.str.20-.Lp_switch.table.tlsf_text_of.rel
	.word	.L.str.20-.Lp_switch.table.tlsf_text_of.rel
	.word	.L.str.20-.Lp_switch.table.tlsf_text_of.rel
	.word	.L.str.20-.Lp_switch.table.tlsf_text_of.rel
	.word	.L.str.20-.Lp_switch.table.tlsf_text_of.rel
	.word	.L.str.20-.Lp_switch.table.tlsf_text_of.rel
	.word	.L.str.20-.Lp_switch.table.tlsf_text_of.rel
	.word	.L.str.20-.Lp_switch.table.tlsf_text_of.rel
	.word	.L.str.20-.Lp_switch.table.tlsf_text_of.rel
	.word	.L.str.20-.Lp_switch.table.tlsf_text_of.rel
	.word	.L.str.11-.Lp_switch.table.tlsf_text_of.rel
	.word	.L.str.12-.Lp_switch.table.tlsf_text_of.rel
	.word	.L.str.13-.Lp_switch.table.tlsf_text_of.rel
	.word	.L.str.14-.Lp_switch.table.tlsf_text_of.rel
	.word	.L.str.15-.Lp_switch.table.tlsf_text_of.rel
	.word	.L.str.16-.Lp_switch.table.tlsf_text_of.rel
	.word	.L.str.17-.Lp_switch.table.tlsf_text_of.rel
	.word	.L.str.18-.Lp_switch.table.tlsf_text_of.rel
	.word	.L.str.19-.Lp_switch.table.tlsf_text_of.rel
	.size	.Lp_switch.table.tlsf_text_of.rel, 164
	.ident	"clang version 22.1.8"
	.section	".note.GNU-stack","",@progbits
#endif
/* c/memory.c */
#ifdef TLSF_ONLY_CALLS
#elif defined(TLSF_NO_TLS)
	.text
	.hidden	tlsf_memory_alloc
	.globl	tlsf_memory_alloc
	.p2align	1
	.type	tlsf_memory_alloc,@function
tlsf_memory_alloc:
	.cfi_startproc
	li	a3, 8
.Lm_pcrel_hi0:
	auipc	a2, %pcrel_hi(.Lm__MergedGlobals)
	addi	a2, a2, %pcrel_lo(.Lm_pcrel_hi0)
	bltu	a3, a1, .Lm_BB0_10
	ld	a1, 16(a2)
	beqz	a1, .Lm_BB0_3
	lw	a3, 4(a2)
	addi	a4, a3, -1
	sw	a4, 4(a2)
	beqz	a3, .Lm_BB0_9
.Lm_BB0_3:
	ld	a3, 24(a2)
	beqz	a3, .Lm_BB0_10
	lui	a1, 65536
	bltu	a1, a0, .Lm_BB0_10
	ld	a4, 40(a2)
	addi	a5, a0, 8
	sub	a1, a4, a3
	bltu	a1, a5, .Lm_BB0_10
	ld	a5, 32(a2)
	add	a0, a0, a5
	addi	a0, a0, 7
	remu	a5, a0, a5
	sub	a0, a0, a5
	bgeu	a0, a1, .Lm_BB0_8
	add	a4, a3, a0
.Lm_BB0_8:
	addi	a1, a3, 8
	sd	a4, 24(a2)
	sd	zero, 0(a3)
	snez	a0, a1
	beqz	a1, .Lm_BB0_11
	j	.Lm_BB0_12
.Lm_BB0_9:
	lui	a3, 1
	addi	a3, a3, -1320
	bgeu	a3, a0, .Lm_BB0_13
.Lm_BB0_10:
	li	a1, 0
	li	a0, 0
.Lm_BB0_11:
	addi	a1, a2, 8
.Lm_BB0_12:
	ret
.Lm_BB0_13:
	sd	zero, 0(a1)
	addi	a1, a1, 8
	snez	a0, a1
	beqz	a1, .Lm_BB0_11
	j	.Lm_BB0_12
.Lm_func_end0:
	.size	tlsf_memory_alloc, .Lm_func_end0-tlsf_memory_alloc
	.cfi_endproc
	.hidden	tlsf_memory_dealloc
	.globl	tlsf_memory_dealloc
	.p2align	1
	.type	tlsf_memory_dealloc,@function
tlsf_memory_dealloc:
	.cfi_startproc
	ret
.Lm_func_end1:
	.size	tlsf_memory_dealloc, .Lm_func_end1-tlsf_memory_dealloc
	.cfi_endproc
	.hidden	tlsf_memory_realloc
	.globl	tlsf_memory_realloc
	.p2align	1
	.type	tlsf_memory_realloc,@function
tlsf_memory_realloc:
	.cfi_startproc
	addi	sp, sp, -16
	.cfi_def_cfa_offset 16
	sd	ra, 8(sp)
	sd	s0, 0(sp)
	.cfi_offset ra, -8
	.cfi_offset s0, -16
	.cfi_remember_state
	mv	a7, a1
.Lm_pcrel_hi1:
	auipc	a5, %pcrel_hi(.Lm__MergedGlobals)
	addi	a5, a5, %pcrel_lo(.Lm_pcrel_hi1)
	li	s0, 8
	addi	a1, a5, 8
	bltu	s0, a3, .Lm_BB2_10
	ld	s0, 16(a5)
	beqz	s0, .Lm_BB2_3
	lw	a4, 4(a5)
	addi	a3, a4, -1
	sw	a3, 4(a5)
	beqz	a4, .Lm_BB2_9
.Lm_BB2_3:
	ld	s0, 24(a5)
	beqz	s0, .Lm_BB2_10
	lui	a3, 65536
	bltu	a3, a2, .Lm_BB2_10
	ld	a6, 40(a5)
	addi	a4, a2, 8
	sub	a3, a6, s0
	bltu	a3, a4, .Lm_BB2_10
	ld	a1, 32(a5)
	add	a2, a2, a1
	addi	a2, a2, 7
	remu	a1, a2, a1
	sub	a1, a2, a1
	bgeu	a1, a3, .Lm_BB2_8
	add	a6, s0, a1
.Lm_BB2_8:
	sd	a6, 24(a5)
	j	.Lm_BB2_12
.Lm_BB2_9:
	lui	a3, 1
	addi	a3, a3, -1320
	bgeu	a3, a2, .Lm_BB2_12
.Lm_BB2_10:
	li	a0, 0
.Lm_BB2_11:
	ld	ra, 8(sp)
	ld	s0, 0(sp)
	.cfi_restore ra
	.cfi_restore s0
	addi	sp, sp, 16
	.cfi_def_cfa_offset 0
	ret
.Lm_BB2_12:
	.cfi_restore_state
	sd	zero, 0(s0)
	addi	s0, s0, 8
	mv	a1, a0
	mv	a0, s0
	mv	a2, a7
	call	memcpy
	li	a0, 1
	mv	a1, s0
	j	.Lm_BB2_11
.Lm_func_end2:
	.size	tlsf_memory_realloc, .Lm_func_end2-tlsf_memory_realloc
	.cfi_endproc
	.hidden	tlsf_memory_set
	.weak	tlsf_memory_set
	.p2align	1
	.type	tlsf_memory_set,@function
tlsf_memory_set:
	.cfi_startproc
	tail	memset
.Lm_func_end3:
	.size	tlsf_memory_set, .Lm_func_end3-tlsf_memory_set
	.cfi_endproc
	.hidden	tlsf_memory_cpy
	.weak	tlsf_memory_cpy
	.p2align	1
	.type	tlsf_memory_cpy,@function
tlsf_memory_cpy:
	.cfi_startproc
	tail	memcpy
.Lm_func_end4:
	.size	tlsf_memory_cpy, .Lm_func_end4-tlsf_memory_cpy
	.cfi_endproc
	.hidden	tlsf_memory_move
	.weak	tlsf_memory_move
	.p2align	1
	.type	tlsf_memory_move,@function
tlsf_memory_move:
	.cfi_startproc
	tail	memmove
.Lm_func_end5:
	.size	tlsf_memory_move, .Lm_func_end5-tlsf_memory_move
	.cfi_endproc
	.globl	tlsf_bytes
	.p2align	1
	.type	tlsf_bytes,@function
tlsf_bytes:
	.cfi_startproc
	li	a2, 4
	bgeu	a1, a2, .Lm_BB6_2
	li	a0, 0
	ret
.Lm_BB6_2:
	slli	a1, a1, 32
	srli	a1, a1, 32
	bne	a0, a2, .Lm_BB6_5
	lui	a0, 256
	bltu	a0, a1, .Lm_BB6_6
.Lm_BB6_4:
	slli	a0, a1, 3
	addi	a1, a1, 63
	addi	a0, a0, 23
	srli	a1, a1, 3
	andi	a0, a0, -16
	addi	a1, a1, 16
	andi	a1, a1, -16
	add	a0, a0, a1
	addi	a0, a0, 2047
	addi	a0, a0, 736
	ret
.Lm_BB6_5:
	addi	a0, a0, -5
	seqz	a0, a0
	slli	a0, a0, 24
	bgeu	a0, a1, .Lm_BB6_4
.Lm_BB6_6:
	li	a0, 0
	ret
.Lm_func_end6:
	.size	tlsf_bytes, .Lm_func_end6-tlsf_bytes
	.cfi_endproc
	.globl	tlsf_near_bytes
	.p2align	1
	.type	tlsf_near_bytes,@function
tlsf_near_bytes:
	.cfi_startproc
	li	a2, 4
	bgeu	a1, a2, .Lm_BB7_2
	li	a0, 0
	ret
.Lm_BB7_2:
	slli	a1, a1, 32
	srli	a1, a1, 32
	bne	a0, a2, .Lm_BB7_5
	lui	a0, 256
	bltu	a0, a1, .Lm_BB7_6
.Lm_BB7_4:
	slli	a0, a1, 3
	addi	a1, a1, 63
	addi	a0, a0, 23
	srli	a1, a1, 3
	andi	a0, a0, -16
	andi	a1, a1, -8
	add	a0, a0, a1
	addi	a0, a0, 23
	ret
.Lm_BB7_5:
	addi	a0, a0, -5
	seqz	a0, a0
	slli	a0, a0, 24
	bgeu	a0, a1, .Lm_BB7_4
.Lm_BB7_6:
	li	a0, 0
	ret
.Lm_func_end7:
	.size	tlsf_near_bytes, .Lm_func_end7-tlsf_near_bytes
	.cfi_endproc
	.section	.rodata.cst8,"aM",@progbits,8
	.p2align	3, 0x0
.Lm_CPI8_0:
	.quad	283796062672454641
	.text
	.globl	tlsf_open_in
	.p2align	1
	.type	tlsf_open_in,@function
tlsf_open_in:
	.cfi_startproc
	addi	sp, sp, -32
	.cfi_def_cfa_offset 32
	sd	ra, 24(sp)
	sd	s0, 16(sp)
	sd	s1, 8(sp)
	sd	s2, 0(sp)
	.cfi_offset ra, -8
	.cfi_offset s0, -16
	.cfi_offset s1, -24
	.cfi_offset s2, -32
	mv	s2, a0
	lbu	t0, 29(a0)
	addi	a6, t0, -65
	beqz	t0, .Lm_BB8_6
	li	a0, -57
	bltu	a6, a0, .Lm_BB8_5
	addi	a0, t0, 127
	li	s1, 16
	and	a5, a0, t0
	mv	a0, t0
	bltu	s1, t0, .Lm_BB8_4
	li	a0, 16
.Lm_BB8_4:
	beqz	a5, .Lm_BB8_7
.Lm_BB8_5:
	li	t4, 0
	j	.Lm_BB8_8
.Lm_BB8_6:
	li	a0, 16
.Lm_BB8_7:
	li	a5, -32
	sub	a5, a5, a3
	remu	t4, a5, a0
.Lm_BB8_8:
	li	s0, 0
	not	a7, a3
	beqz	a3, .Lm_BB8_22
	bltu	a7, a4, .Lm_BB8_22
	bltu	a4, t4, .Lm_BB8_22
	li	a0, 4
	sub	t5, a4, t4
	bne	a1, a0, .Lm_BB8_13
	lui	t1, 256
	j	.Lm_BB8_14
.Lm_BB8_13:
	addi	a0, a1, -5
	seqz	t1, a0
	slli	t1, t1, 24
.Lm_BB8_14:
	srli	a0, t5, 4
	li	s1, 177
	bgeu	a0, s1, .Lm_BB8_16
	li	s0, 0
	j	.Lm_BB8_22
.Lm_BB8_16:
	lui	a0, 65536
	bltu	t5, a0, .Lm_BB8_18
	lui	t5, 65536
.Lm_BB8_18:
	slli	t3, t5, 3
	lui	t2, 1048571
.Lm_pcrel_hi2:
	auipc	s1, %pcrel_hi(.Lm_CPI8_0)
	addi	a0, t2, -1920
	ld	s1, %pcrel_lo(.Lm_pcrel_hi2)(s1)
	add	a0, a0, t3
	slli	a0, a0, 32
	srli	a0, a0, 32
	mulhu	s1, a0, s1
	addi	s0, s1, 71
	slli	s1, s1, 3
	addi	s1, s1, 87
.Lm_BB8_19:
	andi	a5, s1, -16
	srli	a0, s0, 3
	addi	a0, a0, 16
	andi	a0, a0, -16
	add	a0, a0, a5
	addi	a0, a0, 2047
	addi	a0, a0, 721
	addi	s0, s0, -1
	addi	s1, s1, -8
	bltu	t5, a0, .Lm_BB8_19
	addi	s0, s0, -62
	bltu	s0, t1, .Lm_BB8_22
	mv	s0, t1
.Lm_BB8_22:
	snez	a0, a3
	sltu	a5, a7, a4
	xori	s1, a5, 1
	and	s1, s1, a0
	bltu	t4, a4, .Lm_BB8_24
	mv	t4, a4
.Lm_BB8_24:
.Lm_pcrel_hi3:
	auipc	a0, %pcrel_hi(.Lm__MergedGlobals)
	addi	a0, a0, %pcrel_lo(.Lm_pcrel_hi3)
	bnez	s1, .Lm_BB8_27
	sd	a0, 24(a0)
	beqz	s1, .Lm_BB8_28
.Lm_BB8_26:
	add	a3, a3, a4
	j	.Lm_BB8_29
.Lm_BB8_27:
	add	a5, a3, t4
	sd	a5, 24(a0)
	bnez	s1, .Lm_BB8_26
.Lm_BB8_28:
	mv	a3, a0
.Lm_BB8_29:
	li	a4, 16
	sd	a4, 32(a0)
	sd	a3, 40(a0)
	beqz	t0, .Lm_BB8_33
	li	a0, -57
	bltu	a6, a0, .Lm_BB8_32
	addi	a0, t0, 127
	and	a0, a0, t0
	beqz	a0, .Lm_BB8_33
.Lm_BB8_32:
	li	s0, 0
.Lm_BB8_33:
	sext.w	a3, s0
	mv	a0, s2
	call	tlsf_open
	beqz	a0, .Lm_BB8_36
	addi	a1, a0, -5
	snez	a1, a1
	or	a1, a1, s1
.Lm_pcrel_hi5:
	auipc	a2, %pcrel_hi(.Lm__MergedGlobals+24)
	sd	zero, %pcrel_lo(.Lm_pcrel_hi5)(a2)
	bnez	a1, .Lm_BB8_39
	li	a0, 39
	j	.Lm_BB8_39
.Lm_BB8_36:
	lbu	a1, 29(s2)
	ori	a1, a1, 16
	li	a2, 16
	beq	a1, a2, .Lm_BB8_38
	li	a1, 1
	sb	a1, 28(s2)
.Lm_BB8_38:
.Lm_pcrel_hi4:
	auipc	a1, %pcrel_hi(.Lm__MergedGlobals+24)
	sd	zero, %pcrel_lo(.Lm_pcrel_hi4)(a1)
.Lm_BB8_39:
	ld	ra, 24(sp)
	ld	s0, 16(sp)
	ld	s1, 8(sp)
	ld	s2, 0(sp)
	.cfi_restore ra
	.cfi_restore s0
	.cfi_restore s1
	.cfi_restore s2
	addi	sp, sp, 32
	.cfi_def_cfa_offset 0
	ret
.Lm_func_end8:
	.size	tlsf_open_in, .Lm_func_end8-tlsf_open_in
	.cfi_endproc
	.globl	tlsf_open_near
	.p2align	1
	.type	tlsf_open_near,@function
tlsf_open_near:
	.cfi_startproc
	addi	sp, sp, -32
	.cfi_def_cfa_offset 32
	sd	ra, 24(sp)
	sd	s0, 16(sp)
	sd	s1, 8(sp)
	.cfi_offset ra, -8
	.cfi_offset s0, -16
	.cfi_offset s1, -24
	neg	a4, a0
.Lm_pcrel_hi6:
	auipc	a5, %pcrel_hi(.Lm__MergedGlobals)
	li	a6, 2
	andi	s0, a4, 63
	addi	s1, a5, %pcrel_lo(.Lm_pcrel_hi6)
	add	s0, s0, a0
	addi	a0, s0, 32
	sw	a6, 4(s1)
	sd	a0, 16(s1)
	lbu	a0, 29(s0)
	beqz	a0, .Lm_BB9_4
	addi	a4, a0, -65
	li	a5, -57
	bltu	a4, a5, .Lm_BB9_3
	addi	a4, a0, 127
	and	a0, a0, a4
	beqz	a0, .Lm_BB9_4
.Lm_BB9_3:
	li	a3, 0
.Lm_BB9_4:
	mv	a0, s0
	call	tlsf_open
	bnez	a0, .Lm_BB9_7
	lbu	a1, 29(s0)
	ori	a1, a1, 16
	li	a2, 16
	beq	a1, a2, .Lm_BB9_7
	li	a1, 1
	sb	a1, 28(s0)
.Lm_BB9_7:
	sd	zero, 16(s1)
	ld	ra, 24(sp)
	ld	s0, 16(sp)
	ld	s1, 8(sp)
	.cfi_restore ra
	.cfi_restore s0
	.cfi_restore s1
	addi	sp, sp, 32
	.cfi_def_cfa_offset 0
	ret
.Lm_func_end9:
	.size	tlsf_open_near, .Lm_func_end9-tlsf_open_near
	.cfi_endproc
	.section	.rodata.cst8,"aM",@progbits,8
	.p2align	3, 0x0
.Lm_CPI10_0:
	.quad	283796062672454641
	.text
	.globl	tlsf_open_near_in
	.p2align	1
	.type	tlsf_open_near_in,@function
tlsf_open_near_in:
	.cfi_startproc
	addi	sp, sp, -32
	.cfi_def_cfa_offset 32
	sd	ra, 24(sp)
	sd	s0, 16(sp)
	sd	s1, 8(sp)
	sd	s2, 0(sp)
	.cfi_offset ra, -8
	.cfi_offset s0, -16
	.cfi_offset s1, -24
	.cfi_offset s2, -32
	neg	a5, a0
.Lm_pcrel_hi7:
	auipc	s1, %pcrel_hi(.Lm__MergedGlobals)
	li	s0, 2
	andi	s2, a5, 63
	addi	t3, s1, %pcrel_lo(.Lm_pcrel_hi7)
	add	s2, s2, a0
	addi	a0, s2, 32
	sw	s0, 4(t3)
	sd	a0, 16(t3)
	lbu	t0, 29(s2)
	addi	a6, t0, -65
	beqz	t0, .Lm_BB10_6
	li	a0, -57
	bltu	a6, a0, .Lm_BB10_5
	addi	a0, t0, 127
	li	s0, 16
	and	s1, a0, t0
	mv	a0, t0
	bltu	s0, t0, .Lm_BB10_4
	li	a0, 16
.Lm_BB10_4:
	beqz	s1, .Lm_BB10_7
.Lm_BB10_5:
	li	t2, 0
	j	.Lm_BB10_8
.Lm_BB10_6:
	li	a0, 16
.Lm_BB10_7:
	li	s1, -32
	sub	s1, s1, a3
	remu	t2, s1, a0
.Lm_BB10_8:
	li	a0, 0
	not	a7, a3
	beqz	a3, .Lm_BB10_21
	bltu	a7, a4, .Lm_BB10_21
	bltu	a4, t2, .Lm_BB10_21
	li	s1, 4
	sub	t4, a4, t2
	bne	a1, s1, .Lm_BB10_19
	lui	t1, 256
	li	s1, 64
	bltu	t4, s1, .Lm_BB10_20
.Lm_BB10_13:
	lui	s1, 65536
	bltu	t4, s1, .Lm_BB10_15
	lui	t4, 65536
.Lm_BB10_15:
	slli	s1, t4, 3
.Lm_pcrel_hi8:
	auipc	s0, %pcrel_hi(.Lm_CPI10_0)
	ld	s0, %pcrel_lo(.Lm_pcrel_hi8)(s0)
	addi	s1, s1, -192
	slli	s1, s1, 32
	srli	s1, s1, 32
	mulhu	s0, s1, s0
	addi	a0, s0, 71
	slli	s0, s0, 3
	addi	s0, s0, 87
.Lm_BB10_16:
	andi	a5, s0, -16
	srli	s1, a0, 3
	andi	s1, s1, -8
	add	a5, a5, s1
	addi	a5, a5, 8
	addi	a0, a0, -1
	addi	s0, s0, -8
	bltu	t4, a5, .Lm_BB10_16
	addi	a0, a0, -62
	bltu	a0, t1, .Lm_BB10_21
	mv	a0, t1
	j	.Lm_BB10_21
.Lm_BB10_19:
	addi	s1, a1, -5
	seqz	t1, s1
	slli	t1, t1, 24
	li	s1, 64
	bgeu	t4, s1, .Lm_BB10_13
.Lm_BB10_20:
	li	a0, 0
.Lm_BB10_21:
	snez	a5, a3
	sltu	s1, a7, a4
	xori	s1, s1, 1
	and	s1, s1, a5
	bltu	t2, a4, .Lm_BB10_23
	mv	t2, a4
.Lm_BB10_23:
	bnez	s1, .Lm_BB10_26
	sd	t3, 24(t3)
	beqz	s1, .Lm_BB10_27
.Lm_BB10_25:
	add	a3, a3, a4
	j	.Lm_BB10_28
.Lm_BB10_26:
	add	t2, t2, a3
	sd	t2, 24(t3)
	bnez	s1, .Lm_BB10_25
.Lm_BB10_27:
	mv	a3, t3
.Lm_BB10_28:
	li	a4, 16
	sd	a4, 32(t3)
	sd	a3, 40(t3)
	beqz	t0, .Lm_BB10_32
	li	a3, -57
	bltu	a6, a3, .Lm_BB10_31
	addi	a3, t0, 127
	and	a3, a3, t0
	beqz	a3, .Lm_BB10_32
.Lm_BB10_31:
	li	a0, 0
.Lm_BB10_32:
	sext.w	a3, a0
	mv	a0, s2
	call	tlsf_open
	beqz	a0, .Lm_BB10_35
	addi	a1, a0, -5
	snez	a1, a1
	or	a1, a1, s1
.Lm_pcrel_hi10:
	auipc	a2, %pcrel_hi(.Lm__MergedGlobals+24)
	sd	zero, %pcrel_lo(.Lm_pcrel_hi10)(a2)
	bnez	a1, .Lm_BB10_38
	li	a0, 39
	j	.Lm_BB10_38
.Lm_BB10_35:
	lbu	a1, 29(s2)
	ori	a1, a1, 16
	li	a2, 16
	beq	a1, a2, .Lm_BB10_37
	li	a1, 1
	sb	a1, 28(s2)
.Lm_BB10_37:
.Lm_pcrel_hi9:
	auipc	a1, %pcrel_hi(.Lm__MergedGlobals+24)
	sd	zero, %pcrel_lo(.Lm_pcrel_hi9)(a1)
.Lm_BB10_38:
.Lm_pcrel_hi11:
	auipc	a1, %pcrel_hi(.Lm__MergedGlobals+16)
	sd	zero, %pcrel_lo(.Lm_pcrel_hi11)(a1)
	ld	ra, 24(sp)
	ld	s0, 16(sp)
	ld	s1, 8(sp)
	ld	s2, 0(sp)
	.cfi_restore ra
	.cfi_restore s0
	.cfi_restore s1
	.cfi_restore s2
	addi	sp, sp, 32
	.cfi_def_cfa_offset 0
	ret
.Lm_func_end10:
	.size	tlsf_open_near_in, .Lm_func_end10-tlsf_open_near_in
	.cfi_endproc
	.globl	tlsf_open_32
	.p2align	1
	.type	tlsf_open_32,@function
tlsf_open_32:
	.cfi_startproc
	addi	sp, sp, -16
	.cfi_def_cfa_offset 16
	sd	ra, 8(sp)
	sd	s0, 0(sp)
	.cfi_offset ra, -8
	.cfi_offset s0, -16
	mv	s0, a0
	lbu	a0, 29(a0)
	beqz	a0, .Lm_BB11_4
	addi	a4, a0, -65
	li	a5, -57
	bltu	a4, a5, .Lm_BB11_3
	addi	a4, a0, 127
	and	a0, a0, a4
	beqz	a0, .Lm_BB11_4
.Lm_BB11_3:
	li	a3, 0
.Lm_BB11_4:
	mv	a0, s0
	call	tlsf_open
	bnez	a0, .Lm_BB11_7
	lbu	a1, 29(s0)
	ori	a1, a1, 16
	li	a2, 16
	beq	a1, a2, .Lm_BB11_7
	li	a1, 1
	sb	a1, 28(s0)
.Lm_BB11_7:
	ld	ra, 8(sp)
	ld	s0, 0(sp)
	.cfi_restore ra
	.cfi_restore s0
	addi	sp, sp, 16
	.cfi_def_cfa_offset 0
	ret
.Lm_func_end11:
	.size	tlsf_open_32, .Lm_func_end11-tlsf_open_32
	.cfi_endproc
	.globl	tlsf_open_in_32
	.p2align	1
	.type	tlsf_open_in_32,@function
tlsf_open_in_32:
	.cfi_startproc
	tail	tlsf_open_in
.Lm_func_end12:
	.size	tlsf_open_in_32, .Lm_func_end12-tlsf_open_in_32
	.cfi_endproc
	.globl	tlsf_open_near_2880
	.p2align	1
	.type	tlsf_open_near_2880,@function
tlsf_open_near_2880:
	.cfi_startproc
	addi	sp, sp, -32
	.cfi_def_cfa_offset 32
	sd	ra, 24(sp)
	sd	s0, 16(sp)
	sd	s1, 8(sp)
	.cfi_offset ra, -8
	.cfi_offset s0, -16
	.cfi_offset s1, -24
	neg	a4, a0
.Lm_pcrel_hi12:
	auipc	a5, %pcrel_hi(.Lm__MergedGlobals)
	li	a6, 2
	andi	s0, a4, 63
	addi	s1, a5, %pcrel_lo(.Lm_pcrel_hi12)
	add	s0, s0, a0
	addi	a0, s0, 32
	sw	a6, 4(s1)
	sd	a0, 16(s1)
	lbu	a0, 29(s0)
	beqz	a0, .Lm_BB13_4
	addi	a4, a0, -65
	li	a5, -57
	bltu	a4, a5, .Lm_BB13_3
	addi	a4, a0, 127
	and	a0, a0, a4
	beqz	a0, .Lm_BB13_4
.Lm_BB13_3:
	li	a3, 0
.Lm_BB13_4:
	mv	a0, s0
	call	tlsf_open
	bnez	a0, .Lm_BB13_7
	lbu	a1, 29(s0)
	ori	a1, a1, 16
	li	a2, 16
	beq	a1, a2, .Lm_BB13_7
	li	a1, 1
	sb	a1, 28(s0)
.Lm_BB13_7:
	sd	zero, 16(s1)
	ld	ra, 24(sp)
	ld	s0, 16(sp)
	ld	s1, 8(sp)
	.cfi_restore ra
	.cfi_restore s0
	.cfi_restore s1
	addi	sp, sp, 32
	.cfi_def_cfa_offset 0
	ret
.Lm_func_end13:
	.size	tlsf_open_near_2880, .Lm_func_end13-tlsf_open_near_2880
	.cfi_endproc
	.globl	tlsf_open_near_in_2880
	.p2align	1
	.type	tlsf_open_near_in_2880,@function
tlsf_open_near_in_2880:
	.cfi_startproc
	tail	tlsf_open_near_in
.Lm_func_end14:
	.size	tlsf_open_near_in_2880, .Lm_func_end14-tlsf_open_near_in_2880
	.cfi_endproc
	.globl	tlsf_lane_bytes
	.p2align	1
	.type	tlsf_lane_bytes,@function
tlsf_lane_bytes:
	.cfi_startproc
	addiw	a1, a0, -1025
	li	a2, -1024
	bgeu	a1, a2, .Lm_BB15_2
	li	a0, 0
	ret
.Lm_BB15_2:
	slli	a1, a0, 3
	slli	a0, a0, 4
	add	a0, a0, a1
	lui	a1, 32
	addi	a0, a0, 135
	addi	a1, a1, -128
	and	a0, a0, a1
	addi	a0, a0, 895
	ret
.Lm_func_end15:
	.size	tlsf_lane_bytes, .Lm_func_end15-tlsf_lane_bytes
	.cfi_endproc
	.globl	tlsf_lane_open_in
	.p2align	1
	.type	tlsf_lane_open_in,@function
tlsf_lane_open_in:
	.cfi_startproc
	addi	sp, sp, -32
	.cfi_def_cfa_offset 32
	sd	ra, 24(sp)
	sd	s0, 16(sp)
	sd	s1, 8(sp)
	.cfi_offset ra, -8
	.cfi_offset s0, -16
	.cfi_offset s1, -24
	li	a5, 1025
	bgeu	a2, a5, .Lm_BB16_2
	slli	a7, a2, 3
	slli	t0, a2, 4
	lui	a6, 32
	neg	a5, a3
	seqz	t1, a3
	not	s1, a3
	add	a7, a7, t0
	addi	a6, a6, -128
	andi	t2, a5, 127
	sltu	s0, s1, a4
	addi	a7, a7, 135
	or	t0, s0, t1
	sltu	s0, a4, t2
	and	a6, a7, a6
	or	a7, t0, s0
	addi	a6, a6, 768
	sub	s0, a4, t2
	sltu	s0, s0, a6
	or	s0, a7, s0
	addiw	s0, s0, -1
	and	a2, a2, s0
	j	.Lm_BB16_3
.Lm_BB16_2:
	neg	a5, a3
	andi	t2, a5, 127
	not	s1, a3
.Lm_BB16_3:
	snez	a5, a3
	sltu	s1, s1, a4
	xori	s0, s1, 1
	and	s0, s0, a5
	bltu	t2, a4, .Lm_BB16_5
	mv	t2, a4
.Lm_BB16_5:
.Lm_pcrel_hi13:
	auipc	s1, %pcrel_hi(.Lm__MergedGlobals)
	addi	s1, s1, %pcrel_lo(.Lm_pcrel_hi13)
	bnez	s0, .Lm_BB16_8
	sd	s1, 24(s1)
	beqz	s0, .Lm_BB16_9
.Lm_BB16_7:
	add	a3, a3, a4
	j	.Lm_BB16_10
.Lm_BB16_8:
	add	a5, a3, t2
	sd	a5, 24(s1)
	bnez	s0, .Lm_BB16_7
.Lm_BB16_9:
	mv	a3, s1
.Lm_BB16_10:
	li	a4, 128
	sd	a4, 32(s1)
	sd	a3, 40(s1)
	call	tlsf_lane_open
	addi	a1, a0, -5
	snez	a1, a1
	or	a1, a1, s0
	sd	zero, 24(s1)
	bnez	a1, .Lm_BB16_12
	li	a0, 39
.Lm_BB16_12:
	ld	ra, 24(sp)
	ld	s0, 16(sp)
	ld	s1, 8(sp)
	.cfi_restore ra
	.cfi_restore s0
	.cfi_restore s1
	addi	sp, sp, 32
	.cfi_def_cfa_offset 0
	ret
.Lm_func_end16:
	.size	tlsf_lane_open_in, .Lm_func_end16-tlsf_lane_open_in
	.cfi_endproc
	.globl	tlsf_queue_bytes
	.p2align	1
	.type	tlsf_queue_bytes,@function
tlsf_queue_bytes:
	.cfi_startproc
	li	a2, 1024
	subw	a3, a2, a0
	subw	a4, a2, a1
	or	a3, a3, a4
	bgeu	a3, a2, .Lm_BB17_2
	slli	a2, a0, 4
	li	a3, 1
	slli	a4, a1, 3
	slli	a1, a1, 5
	addi	a2, a2, 135
	slli	a5, a3, 36
	addi	a1, a1, 135
	addi	a5, a5, -128
	and	a2, a2, a5
	slli	a5, a3, 37
	addi	a5, a5, -128
	and	a1, a1, a5
	slli	a5, a0, 3
	slli	a0, a0, 7
	addi	a4, a4, 519
	slli	a3, a3, 35
	addi	a5, a5, 135
	addi	a3, a3, -128
	and	a4, a4, a3
	and	a3, a3, a5
	add	a1, a1, a4
	add	a0, a0, a2
	slli	a1, a1, 1
	add	a0, a0, a3
	add	a0, a0, a1
	addi	a0, a0, 383
	ret
.Lm_BB17_2:
	li	a0, 0
	ret
.Lm_func_end17:
	.size	tlsf_queue_bytes, .Lm_func_end17-tlsf_queue_bytes
	.cfi_endproc
	.globl	tlsf_queue_open_in
	.p2align	1
	.type	tlsf_queue_open_in,@function
tlsf_queue_open_in:
	.cfi_startproc
	addi	sp, sp, -32
	.cfi_def_cfa_offset 32
	sd	ra, 24(sp)
	sd	s0, 16(sp)
	sd	s1, 8(sp)
	.cfi_offset ra, -8
	.cfi_offset s0, -16
	.cfi_offset s1, -24
	li	a5, 1024
	bltu	a5, a1, .Lm_BB18_3
	li	a5, 1025
	bgeu	a2, a5, .Lm_BB18_3
	slli	a5, a1, 4
	lui	a7, 16
	slli	t1, a2, 3
	lui	a6, 8
	slli	t2, a2, 5
	lui	t0, 32
	slli	t3, a1, 3
	addi	a5, a5, 135
	addi	s0, a7, -128
	and	a7, a5, s0
	seqz	t4, a3
	addi	s0, t2, 135
	addi	s1, t0, -128
	and	t0, s0, s1
	not	s0, a3
	addi	t1, t1, 519
	addi	s1, a6, -128
	addi	a5, t3, 135
	and	a6, t1, s1
	and	t1, a5, s1
	sltu	a5, s0, a4
	or	t2, a5, t4
	slli	s1, a1, 7
	add	a6, a6, t0
	neg	a5, a3
	andi	a5, a5, 127
	add	a7, a7, s1
	sltu	s1, a4, a5
	or	t0, t2, s1
	slli	a6, a6, 1
	add	a7, a7, t1
	add	a6, a6, a7
	addi	a6, a6, 256
	sub	s1, a4, a5
	sltu	s1, s1, a6
	or	s1, t0, s1
	addiw	s1, s1, -1
	and	a2, a2, s1
	j	.Lm_BB18_4
.Lm_BB18_3:
	neg	a5, a3
	andi	a5, a5, 127
	not	s0, a3
.Lm_BB18_4:
	snez	s1, a3
	sltu	s0, s0, a4
	xori	s0, s0, 1
	and	s0, s0, s1
	bltu	a5, a4, .Lm_BB18_6
	mv	a5, a4
.Lm_BB18_6:
.Lm_pcrel_hi14:
	auipc	s1, %pcrel_hi(.Lm__MergedGlobals)
	addi	s1, s1, %pcrel_lo(.Lm_pcrel_hi14)
	bnez	s0, .Lm_BB18_9
	sd	s1, 24(s1)
	beqz	s0, .Lm_BB18_10
.Lm_BB18_8:
	add	a3, a3, a4
	j	.Lm_BB18_11
.Lm_BB18_9:
	add	a5, a5, a3
	sd	a5, 24(s1)
	bnez	s0, .Lm_BB18_8
.Lm_BB18_10:
	mv	a3, s1
.Lm_BB18_11:
	li	a4, 128
	sd	a4, 32(s1)
	sd	a3, 40(s1)
	call	tlsf_queue_open
	addi	a1, a0, -5
	snez	a1, a1
	or	a1, a1, s0
	sd	zero, 24(s1)
	bnez	a1, .Lm_BB18_13
	li	a0, 39
.Lm_BB18_13:
	ld	ra, 24(sp)
	ld	s0, 16(sp)
	ld	s1, 8(sp)
	.cfi_restore ra
	.cfi_restore s0
	.cfi_restore s1
	addi	sp, sp, 32
	.cfi_def_cfa_offset 0
	ret
.Lm_func_end18:
	.size	tlsf_queue_open_in, .Lm_func_end18-tlsf_queue_open_in
	.cfi_endproc
	.globl	tlsf_offsets_bytes
	.p2align	1
	.type	tlsf_offsets_bytes,@function
tlsf_offsets_bytes:
	.cfi_startproc
	li	a2, 4
	bgeu	a1, a2, .Lm_BB19_2
	li	a0, 0
	ret
.Lm_BB19_2:
	slli	a1, a1, 32
	srli	a1, a1, 32
	bne	a0, a2, .Lm_BB19_5
	lui	a0, 256
	bltu	a0, a1, .Lm_BB19_6
.Lm_BB19_4:
	slli	a0, a1, 3
	lui	a2, 131072
	addi	a1, a1, 63
	addi	a0, a0, 23
	addi	a2, a2, -16
	and	a0, a0, a2
	lui	a2, 4096
	srli	a1, a1, 3
	addi	a1, a1, 16
	addi	a2, a2, -16
	and	a1, a1, a2
	add	a0, a0, a1
	addi	a0, a0, 2047
	addi	a0, a0, 736
	ret
.Lm_BB19_5:
	addi	a0, a0, -5
	seqz	a0, a0
	slli	a0, a0, 24
	bgeu	a0, a1, .Lm_BB19_4
.Lm_BB19_6:
	li	a0, 0
	ret
.Lm_func_end19:
	.size	tlsf_offsets_bytes, .Lm_func_end19-tlsf_offsets_bytes
	.cfi_endproc
	.globl	tlsf_offsets_open_in
	.p2align	1
	.type	tlsf_offsets_open_in,@function
tlsf_offsets_open_in:
	.cfi_startproc
	addi	sp, sp, -32
	.cfi_def_cfa_offset 32
	sd	ra, 24(sp)
	sd	s0, 16(sp)
	sd	s1, 8(sp)
	sd	s2, 0(sp)
	.cfi_offset ra, -8
	.cfi_offset s0, -16
	.cfi_offset s1, -24
	.cfi_offset s2, -32
	slli	s1, a4, 32
	li	s0, 4
	srli	s1, s1, 32
	bne	a1, s0, .Lm_BB20_3
	lui	s0, 256
	bltu	s0, s1, .Lm_BB20_4
.Lm_BB20_2:
	slli	t2, s1, 3
	lui	a7, 131072
	addi	t0, s1, 63
	lui	t1, 4096
	seqz	t3, a5
	not	t4, a5
	addi	t2, t2, 23
	addi	a7, a7, -16
	and	a7, t2, a7
	sltu	s0, t4, a6
	or	t2, s0, t3
	neg	s0, a5
	srli	t0, t0, 3
	addi	t1, t1, -16
	andi	t3, s0, 15
	addi	t0, t0, 16
	and	t0, t0, t1
	sltu	s1, a6, t3
	or	t1, t2, s1
	add	a7, a7, t0
	addi	s1, a7, 2047
	addi	a7, s1, 721
	sub	s1, a6, t3
	sltu	s1, s1, a7
	or	s1, t1, s1
	addiw	s1, s1, -1
	and	a4, a4, s1
	j	.Lm_BB20_5
.Lm_BB20_3:
	addi	s0, a1, -5
	seqz	s0, s0
	slli	s0, s0, 24
	bgeu	s0, s1, .Lm_BB20_2
.Lm_BB20_4:
	neg	s0, a5
	andi	t3, s0, 15
	not	t4, a5
.Lm_BB20_5:
	snez	s1, a5
	sltu	s0, t4, a6
	xori	s0, s0, 1
	and	s2, s1, s0
	bltu	t3, a6, .Lm_BB20_7
	mv	t3, a6
.Lm_BB20_7:
.Lm_pcrel_hi15:
	auipc	s1, %pcrel_hi(.Lm__MergedGlobals)
	addi	s1, s1, %pcrel_lo(.Lm_pcrel_hi15)
	bnez	s2, .Lm_BB20_10
	sd	s1, 24(s1)
	beqz	s2, .Lm_BB20_11
.Lm_BB20_9:
	add	a5, a5, a6
	j	.Lm_BB20_12
.Lm_BB20_10:
	add	s0, a5, t3
	sd	s0, 24(s1)
	bnez	s2, .Lm_BB20_9
.Lm_BB20_11:
	mv	a5, s1
.Lm_BB20_12:
	li	s0, 16
	sd	s0, 32(s1)
	sd	a5, 40(s1)
	call	tlsf_offsets_open
	addi	a1, a0, -5
	snez	a1, a1
	or	a1, s2, a1
	sd	zero, 24(s1)
	bnez	a1, .Lm_BB20_14
	li	a0, 39
.Lm_BB20_14:
	ld	ra, 24(sp)
	ld	s0, 16(sp)
	ld	s1, 8(sp)
	ld	s2, 0(sp)
	.cfi_restore ra
	.cfi_restore s0
	.cfi_restore s1
	.cfi_restore s2
	addi	sp, sp, 32
	.cfi_def_cfa_offset 0
	ret
.Lm_func_end20:
	.size	tlsf_offsets_open_in, .Lm_func_end20-tlsf_offsets_open_in
	.cfi_endproc
	.globl	tlsf_pools_bytes
	.p2align	1
	.type	tlsf_pools_bytes,@function
tlsf_pools_bytes:
	.cfi_startproc
	addi	sp, sp, -32
	.cfi_def_cfa_offset 32
	sd	ra, 24(sp)
	sd	s0, 16(sp)
	.cfi_offset ra, -8
	.cfi_offset s0, -16
	mv	s0, a2
	sd	zero, 8(sp)
	sw	zero, 4(sp)
	addi	a3, sp, 8
	addi	a4, sp, 4
	call	tlsf_pools_words
	mv	a1, a0
	li	a0, 0
	bnez	a1, .Lm_BB21_2
	ld	a0, 8(sp)
	lwu	a1, 4(sp)
	lui	a2, 1
	slli	a3, s0, 2
	slli	s0, s0, 3
	addi	a2, a2, -1313
	add	a3, a3, s0
	addi	a4, a2, 9
	mul	a4, a1, a4
	slli	a5, a0, 3
	srli	a0, a0, 3
	slli	s0, a1, 4
	slli	a1, a1, 6
	addi	a4, a4, 23
	andi	a0, a0, -8
	add	a1, a1, s0
	add	a3, a3, a5
	andi	a4, a4, -16
	add	a0, a0, a3
	add	a0, a0, a1
	add	a2, a2, a4
	add	a0, a0, a2
.Lm_BB21_2:
	ld	ra, 24(sp)
	ld	s0, 16(sp)
	.cfi_restore ra
	.cfi_restore s0
	addi	sp, sp, 32
	.cfi_def_cfa_offset 0
	ret
.Lm_func_end21:
	.size	tlsf_pools_bytes, .Lm_func_end21-tlsf_pools_bytes
	.cfi_endproc
	.globl	tlsf_pools_open_in
	.p2align	1
	.type	tlsf_pools_open_in,@function
tlsf_pools_open_in:
	.cfi_startproc
	addi	sp, sp, -32
	.cfi_def_cfa_offset 32
	sd	ra, 24(sp)
	sd	s0, 16(sp)
	sd	s1, 8(sp)
	sd	s2, 0(sp)
	.cfi_offset ra, -8
	.cfi_offset s0, -16
	.cfi_offset s1, -24
	.cfi_offset s2, -32
	neg	s0, a5
	snez	t0, a5
	not	a7, a5
	andi	s0, s0, 15
	sltu	s1, a7, a6
	xori	s1, s1, 1
	and	s2, t0, s1
	bltu	s0, a6, .Lm_BB22_2
	mv	s0, a6
.Lm_BB22_2:
.Lm_pcrel_hi16:
	auipc	s1, %pcrel_hi(.Lm__MergedGlobals)
	addi	s1, s1, %pcrel_lo(.Lm_pcrel_hi16)
	bnez	s2, .Lm_BB22_5
	sd	s1, 24(s1)
	beqz	s2, .Lm_BB22_6
.Lm_BB22_4:
	add	a5, a5, a6
	j	.Lm_BB22_7
.Lm_BB22_5:
	add	s0, s0, a5
	sd	s0, 24(s1)
	bnez	s2, .Lm_BB22_4
.Lm_BB22_6:
	mv	a5, s1
.Lm_BB22_7:
	li	s0, 16
	sd	s0, 32(s1)
	sd	a5, 40(s1)
	call	tlsf_pools_open
	li	a1, 6
	bne	a0, a1, .Lm_BB22_9
	li	a0, 5
.Lm_BB22_9:
	addi	a1, a0, -5
	snez	a1, a1
	or	a1, s2, a1
	sd	zero, 24(s1)
	bnez	a1, .Lm_BB22_11
	li	a0, 39
.Lm_BB22_11:
	ld	ra, 24(sp)
	ld	s0, 16(sp)
	ld	s1, 8(sp)
	ld	s2, 0(sp)
	.cfi_restore ra
	.cfi_restore s0
	.cfi_restore s1
	.cfi_restore s2
	addi	sp, sp, 32
	.cfi_def_cfa_offset 0
	ret
.Lm_func_end22:
	.size	tlsf_pools_open_in, .Lm_func_end22-tlsf_pools_open_in
	.cfi_endproc
	.globl	tlsf_next_number
	.p2align	1
	.type	tlsf_next_number,@function
tlsf_next_number:
	.cfi_startproc
.Lm_pcrel_hi17:
	auipc	a1, %pcrel_hi(tlsf_next_number.calls)
	li	a2, 1
	addi	a1, a1, %pcrel_lo(.Lm_pcrel_hi17)
	amoadd.d	a1, a2, (a1)
	slli	a2, a1, 3
	slliw	a3, a1, 3
	bne	a3, a2, .Lm_BB23_2
	mv	a1, a0
	li	a0, 0
	lui	a3, 524288
	sub	a2, a2, a3
	sw	a2, 0(a1)
	ret
.Lm_BB23_2:
	li	a0, 2
	ret
.Lm_func_end23:
	.size	tlsf_next_number, .Lm_func_end23-tlsf_next_number
	.cfi_endproc
	.type	tlsf_next_number.calls,@object
	.local	tlsf_next_number.calls
	.comm	tlsf_next_number.calls,8,8
	.type	.Lm__MergedGlobals,@object
	.local	.Lm__MergedGlobals
	.comm	.Lm__MergedGlobals,48,8
begin_behind.nothing = .Lm__MergedGlobals
	.size	begin_behind.nothing, 1
pieces_first = .Lm__MergedGlobals+4
	.size	pieces_first, 4
tlsf_memory_alloc.nothing = .Lm__MergedGlobals+8
	.size	tlsf_memory_alloc.nothing, 8
near_room = .Lm__MergedGlobals+16
	.size	near_room, 8
lent = .Lm__MergedGlobals+24
	.size	lent, 8
lent_step = .Lm__MergedGlobals+32
	.size	lent_step, 8
lent_end = .Lm__MergedGlobals+40
	.size	lent_end, 8
	.ident	"clang version 22.1.8"
	.section	".note.GNU-stack","",@progbits
#elif defined(TLSF_NO_MALLOC)
	.text
	.hidden	tlsf_memory_alloc
	.globl	tlsf_memory_alloc
	.p2align	1
	.type	tlsf_memory_alloc,@function
tlsf_memory_alloc:
	.cfi_startproc
	addi	sp, sp, -48
	.cfi_def_cfa_offset 48
	sd	ra, 40(sp)
	sd	s0, 32(sp)
	sd	s1, 24(sp)
	sd	s2, 16(sp)
	sd	s3, 8(sp)
	sd	s4, 0(sp)
	.cfi_offset ra, -8
	.cfi_offset s0, -16
	.cfi_offset s1, -24
	.cfi_offset s2, -32
	.cfi_offset s3, -40
	.cfi_offset s4, -48
	.cfi_remember_state
	li	a2, 8
	bltu	a2, a1, .Lm_BB0_10
	mv	s0, a0
.Lm_pcrel_hi0:
	auipc	a0, %tls_gd_pcrel_hi(near_room)
	addi	a0, a0, %pcrel_lo(.Lm_pcrel_hi0)
	call	__tls_get_addr
	ld	s1, 0(a0)
	beqz	s1, .Lm_BB0_3
.Lm_pcrel_hi1:
	auipc	a0, %tls_gd_pcrel_hi(pieces_first)
	addi	a0, a0, %pcrel_lo(.Lm_pcrel_hi1)
	call	__tls_get_addr
	lw	a1, 0(a0)
	addi	a2, a1, -1
	sw	a2, 0(a0)
	beqz	a1, .Lm_BB0_9
.Lm_BB0_3:
.Lm_pcrel_hi2:
	auipc	a0, %tls_gd_pcrel_hi(lent)
	addi	a0, a0, %pcrel_lo(.Lm_pcrel_hi2)
	call	__tls_get_addr
	ld	s1, 0(a0)
	beqz	s1, .Lm_BB0_10
	mv	s2, a0
.Lm_pcrel_hi3:
	auipc	a0, %tls_gd_pcrel_hi(lent_step)
	addi	a0, a0, %pcrel_lo(.Lm_pcrel_hi3)
	call	__tls_get_addr
	lui	a1, 65536
	bltu	a1, s0, .Lm_BB0_10
	ld	s3, 0(a0)
	addi	s4, s0, 8
.Lm_pcrel_hi4:
	auipc	a0, %tls_gd_pcrel_hi(lent_end)
	addi	a0, a0, %pcrel_lo(.Lm_pcrel_hi4)
	call	__tls_get_addr
	ld	a0, 0(a0)
	sub	a1, a0, s1
	bltu	a1, s4, .Lm_BB0_10
	add	s0, s0, s3
	addi	s0, s0, 7
	remu	a2, s0, s3
	sub	a2, s0, a2
	bgeu	a2, a1, .Lm_BB0_8
	add	a0, s1, a2
.Lm_BB0_8:
	addi	a1, s1, 8
	sd	a0, 0(s2)
	sd	zero, 0(s1)
	snez	a0, a1
	beqz	a1, .Lm_BB0_11
	j	.Lm_BB0_12
.Lm_BB0_9:
	lui	a0, 1
	addi	a0, a0, -1320
	bgeu	a0, s0, .Lm_BB0_13
.Lm_BB0_10:
	li	a1, 0
	li	a0, 0
.Lm_BB0_11:
.Lm_pcrel_hi5:
	auipc	a1, %pcrel_hi(tlsf_memory_alloc.nothing)
	addi	a1, a1, %pcrel_lo(.Lm_pcrel_hi5)
.Lm_BB0_12:
	ld	ra, 40(sp)
	ld	s0, 32(sp)
	ld	s1, 24(sp)
	ld	s2, 16(sp)
	ld	s3, 8(sp)
	ld	s4, 0(sp)
	.cfi_restore ra
	.cfi_restore s0
	.cfi_restore s1
	.cfi_restore s2
	.cfi_restore s3
	.cfi_restore s4
	addi	sp, sp, 48
	.cfi_def_cfa_offset 0
	ret
.Lm_BB0_13:
	.cfi_restore_state
	sd	zero, 0(s1)
	addi	a1, s1, 8
	snez	a0, a1
	beqz	a1, .Lm_BB0_11
	j	.Lm_BB0_12
.Lm_func_end0:
	.size	tlsf_memory_alloc, .Lm_func_end0-tlsf_memory_alloc
	.cfi_endproc
	.hidden	tlsf_memory_dealloc
	.globl	tlsf_memory_dealloc
	.p2align	1
	.type	tlsf_memory_dealloc,@function
tlsf_memory_dealloc:
	.cfi_startproc
	ret
.Lm_func_end1:
	.size	tlsf_memory_dealloc, .Lm_func_end1-tlsf_memory_dealloc
	.cfi_endproc
	.hidden	tlsf_memory_realloc
	.globl	tlsf_memory_realloc
	.p2align	1
	.type	tlsf_memory_realloc,@function
tlsf_memory_realloc:
	.cfi_startproc
	addi	sp, sp, -80
	.cfi_def_cfa_offset 80
	sd	ra, 72(sp)
	sd	s0, 64(sp)
	sd	s1, 56(sp)
	sd	s2, 48(sp)
	sd	s3, 40(sp)
	sd	s4, 32(sp)
	sd	s5, 24(sp)
	sd	s6, 16(sp)
	sd	s7, 8(sp)
	.cfi_offset ra, -8
	.cfi_offset s0, -16
	.cfi_offset s1, -24
	.cfi_offset s2, -32
	.cfi_offset s3, -40
	.cfi_offset s4, -48
	.cfi_offset s5, -56
	.cfi_offset s6, -64
	.cfi_offset s7, -72
	.cfi_remember_state
	mv	s5, a2
.Lm_pcrel_hi6:
	auipc	a2, %pcrel_hi(tlsf_memory_alloc.nothing)
	li	a4, 8
	addi	s1, a2, %pcrel_lo(.Lm_pcrel_hi6)
	bltu	a4, a3, .Lm_BB2_10
	mv	s3, a0
	mv	s2, a1
.Lm_pcrel_hi7:
	auipc	a0, %tls_gd_pcrel_hi(near_room)
	addi	a0, a0, %pcrel_lo(.Lm_pcrel_hi7)
	call	__tls_get_addr
	ld	s0, 0(a0)
	beqz	s0, .Lm_BB2_3
.Lm_pcrel_hi8:
	auipc	a0, %tls_gd_pcrel_hi(pieces_first)
	addi	a0, a0, %pcrel_lo(.Lm_pcrel_hi8)
	call	__tls_get_addr
	lw	a1, 0(a0)
	addi	a2, a1, -1
	sw	a2, 0(a0)
	beqz	a1, .Lm_BB2_9
.Lm_BB2_3:
.Lm_pcrel_hi9:
	auipc	a0, %tls_gd_pcrel_hi(lent)
	addi	a0, a0, %pcrel_lo(.Lm_pcrel_hi9)
	call	__tls_get_addr
	ld	s0, 0(a0)
	beqz	s0, .Lm_BB2_10
	mv	s4, a0
.Lm_pcrel_hi10:
	auipc	a0, %tls_gd_pcrel_hi(lent_step)
	addi	a0, a0, %pcrel_lo(.Lm_pcrel_hi10)
	call	__tls_get_addr
	lui	a1, 65536
	bltu	a1, s5, .Lm_BB2_10
	ld	s6, 0(a0)
	addi	s7, s5, 8
.Lm_pcrel_hi11:
	auipc	a0, %tls_gd_pcrel_hi(lent_end)
	addi	a0, a0, %pcrel_lo(.Lm_pcrel_hi11)
	call	__tls_get_addr
	ld	a0, 0(a0)
	sub	a1, a0, s0
	bltu	a1, s7, .Lm_BB2_10
	add	s5, s5, s6
	addi	s5, s5, 7
	remu	a2, s5, s6
	sub	a2, s5, a2
	bgeu	a2, a1, .Lm_BB2_8
	add	a0, s0, a2
.Lm_BB2_8:
	sd	a0, 0(s4)
	j	.Lm_BB2_12
.Lm_BB2_9:
	lui	a0, 1
	addi	a0, a0, -1320
	bgeu	a0, s5, .Lm_BB2_12
.Lm_BB2_10:
	li	a0, 0
.Lm_BB2_11:
	mv	a1, s1
	ld	ra, 72(sp)
	ld	s0, 64(sp)
	ld	s1, 56(sp)
	ld	s2, 48(sp)
	ld	s3, 40(sp)
	ld	s4, 32(sp)
	ld	s5, 24(sp)
	ld	s6, 16(sp)
	ld	s7, 8(sp)
	.cfi_restore ra
	.cfi_restore s0
	.cfi_restore s1
	.cfi_restore s2
	.cfi_restore s3
	.cfi_restore s4
	.cfi_restore s5
	.cfi_restore s6
	.cfi_restore s7
	addi	sp, sp, 80
	.cfi_def_cfa_offset 0
	ret
.Lm_BB2_12:
	.cfi_restore_state
	sd	zero, 0(s0)
	addi	s1, s0, 8
	mv	a0, s1
	mv	a1, s3
	mv	a2, s2
	call	memcpy
	li	a0, 1
	j	.Lm_BB2_11
.Lm_func_end2:
	.size	tlsf_memory_realloc, .Lm_func_end2-tlsf_memory_realloc
	.cfi_endproc
	.hidden	tlsf_memory_set
	.weak	tlsf_memory_set
	.p2align	1
	.type	tlsf_memory_set,@function
tlsf_memory_set:
	.cfi_startproc
	tail	memset
.Lm_func_end3:
	.size	tlsf_memory_set, .Lm_func_end3-tlsf_memory_set
	.cfi_endproc
	.hidden	tlsf_memory_cpy
	.weak	tlsf_memory_cpy
	.p2align	1
	.type	tlsf_memory_cpy,@function
tlsf_memory_cpy:
	.cfi_startproc
	tail	memcpy
.Lm_func_end4:
	.size	tlsf_memory_cpy, .Lm_func_end4-tlsf_memory_cpy
	.cfi_endproc
	.hidden	tlsf_memory_move
	.weak	tlsf_memory_move
	.p2align	1
	.type	tlsf_memory_move,@function
tlsf_memory_move:
	.cfi_startproc
	tail	memmove
.Lm_func_end5:
	.size	tlsf_memory_move, .Lm_func_end5-tlsf_memory_move
	.cfi_endproc
	.globl	tlsf_bytes
	.p2align	1
	.type	tlsf_bytes,@function
tlsf_bytes:
	.cfi_startproc
	li	a2, 4
	bgeu	a1, a2, .Lm_BB6_2
	li	a0, 0
	ret
.Lm_BB6_2:
	slli	a1, a1, 32
	srli	a1, a1, 32
	bne	a0, a2, .Lm_BB6_5
	lui	a0, 256
	bltu	a0, a1, .Lm_BB6_6
.Lm_BB6_4:
	slli	a0, a1, 3
	addi	a1, a1, 63
	addi	a0, a0, 23
	srli	a1, a1, 3
	andi	a0, a0, -16
	addi	a1, a1, 16
	andi	a1, a1, -16
	add	a0, a0, a1
	addi	a0, a0, 2047
	addi	a0, a0, 736
	ret
.Lm_BB6_5:
	addi	a0, a0, -5
	seqz	a0, a0
	slli	a0, a0, 24
	bgeu	a0, a1, .Lm_BB6_4
.Lm_BB6_6:
	li	a0, 0
	ret
.Lm_func_end6:
	.size	tlsf_bytes, .Lm_func_end6-tlsf_bytes
	.cfi_endproc
	.globl	tlsf_near_bytes
	.p2align	1
	.type	tlsf_near_bytes,@function
tlsf_near_bytes:
	.cfi_startproc
	li	a2, 4
	bgeu	a1, a2, .Lm_BB7_2
	li	a0, 0
	ret
.Lm_BB7_2:
	slli	a1, a1, 32
	srli	a1, a1, 32
	bne	a0, a2, .Lm_BB7_5
	lui	a0, 256
	bltu	a0, a1, .Lm_BB7_6
.Lm_BB7_4:
	slli	a0, a1, 3
	addi	a1, a1, 63
	addi	a0, a0, 23
	srli	a1, a1, 3
	andi	a0, a0, -16
	andi	a1, a1, -8
	add	a0, a0, a1
	addi	a0, a0, 23
	ret
.Lm_BB7_5:
	addi	a0, a0, -5
	seqz	a0, a0
	slli	a0, a0, 24
	bgeu	a0, a1, .Lm_BB7_4
.Lm_BB7_6:
	li	a0, 0
	ret
.Lm_func_end7:
	.size	tlsf_near_bytes, .Lm_func_end7-tlsf_near_bytes
	.cfi_endproc
	.section	.rodata.cst8,"aM",@progbits,8
	.p2align	3, 0x0
.Lm_CPI8_0:
	.quad	283796062672454641
	.text
	.globl	tlsf_open_in
	.p2align	1
	.type	tlsf_open_in,@function
tlsf_open_in:
	.cfi_startproc
	addi	sp, sp, -112
	.cfi_def_cfa_offset 112
	sd	ra, 104(sp)
	sd	s0, 96(sp)
	sd	s1, 88(sp)
	sd	s2, 80(sp)
	sd	s3, 72(sp)
	sd	s4, 64(sp)
	sd	s5, 56(sp)
	sd	s6, 48(sp)
	sd	s7, 40(sp)
	sd	s8, 32(sp)
	sd	s9, 24(sp)
	sd	s10, 16(sp)
	sd	s11, 8(sp)
	.cfi_offset ra, -8
	.cfi_offset s0, -16
	.cfi_offset s1, -24
	.cfi_offset s2, -32
	.cfi_offset s3, -40
	.cfi_offset s4, -48
	.cfi_offset s5, -56
	.cfi_offset s6, -64
	.cfi_offset s7, -72
	.cfi_offset s8, -80
	.cfi_offset s9, -88
	.cfi_offset s10, -96
	.cfi_offset s11, -104
	mv	s11, a4
	mv	s5, a3
	mv	s2, a2
	mv	s3, a1
	mv	s4, a0
	lbu	s6, 29(a0)
	addi	s7, s6, -65
	beqz	s6, .Lm_BB8_6
	li	a0, -57
	bltu	s7, a0, .Lm_BB8_5
	addi	a0, s6, 127
	li	a2, 16
	and	a1, a0, s6
	mv	a0, s6
	bltu	a2, s6, .Lm_BB8_4
	li	a0, 16
.Lm_BB8_4:
	beqz	a1, .Lm_BB8_7
.Lm_BB8_5:
	li	a0, 0
	j	.Lm_BB8_8
.Lm_BB8_6:
	li	a0, 16
.Lm_BB8_7:
	li	a1, -32
	sub	a1, a1, s5
	remu	a0, a1, a0
.Lm_BB8_8:
	li	s8, 0
	not	a1, s5
	beqz	s5, .Lm_BB8_22
	bltu	a1, s11, .Lm_BB8_22
	bltu	s11, a0, .Lm_BB8_22
	li	a2, 4
	sub	a3, s11, a0
	bne	s3, a2, .Lm_BB8_13
	lui	a2, 256
	j	.Lm_BB8_14
.Lm_BB8_13:
	addi	a2, s3, -5
	seqz	a2, a2
	slli	a2, a2, 24
.Lm_BB8_14:
	srli	a4, a3, 4
	li	a5, 177
	bgeu	a4, a5, .Lm_BB8_16
	li	s8, 0
	j	.Lm_BB8_22
.Lm_BB8_16:
	lui	a4, 65536
	bltu	a3, a4, .Lm_BB8_18
	lui	a3, 65536
.Lm_BB8_18:
	slli	a4, a3, 3
	lui	a5, 1048571
.Lm_pcrel_hi12:
	auipc	s1, %pcrel_hi(.Lm_CPI8_0)
	addi	a5, a5, -1920
	ld	s1, %pcrel_lo(.Lm_pcrel_hi12)(s1)
	add	a4, a4, a5
	slli	a4, a4, 32
	srli	a4, a4, 32
	mulhu	a5, a4, s1
	addi	s0, a5, 71
	slli	a5, a5, 3
	addi	a5, a5, 87
.Lm_BB8_19:
	andi	s1, a5, -16
	srli	a4, s0, 3
	addi	a4, a4, 16
	andi	a4, a4, -16
	add	a4, a4, s1
	addi	a4, a4, 2047
	addi	a4, a4, 721
	addi	s0, s0, -1
	addi	a5, a5, -8
	bltu	a3, a4, .Lm_BB8_19
	addi	s8, s0, -62
	bltu	s8, a2, .Lm_BB8_22
	mv	s8, a2
.Lm_BB8_22:
	snez	a2, s5
	sltu	a1, a1, s11
	xori	a1, a1, 1
	and	s10, a2, a1
	bltu	a0, s11, .Lm_BB8_24
	mv	a0, s11
.Lm_BB8_24:
.Lm_pcrel_hi13:
	auipc	s0, %pcrel_hi(begin_behind.nothing)
	addi	s0, s0, %pcrel_lo(.Lm_pcrel_hi13)
	bnez	s10, .Lm_BB8_26
	mv	s1, s0
	j	.Lm_BB8_27
.Lm_BB8_26:
	add	s1, s5, a0
.Lm_BB8_27:
.Lm_pcrel_hi14:
	auipc	a0, %tls_gd_pcrel_hi(lent)
	addi	a0, a0, %pcrel_lo(.Lm_pcrel_hi14)
	call	__tls_get_addr
	mv	s9, a0
	sd	s1, 0(a0)
	beqz	s10, .Lm_BB8_29
	add	s0, s5, s11
.Lm_BB8_29:
.Lm_pcrel_hi15:
	auipc	a0, %tls_gd_pcrel_hi(lent_end)
	addi	a0, a0, %pcrel_lo(.Lm_pcrel_hi15)
	call	__tls_get_addr
	sd	s0, 0(a0)
.Lm_pcrel_hi16:
	auipc	a0, %tls_gd_pcrel_hi(lent_step)
	addi	a0, a0, %pcrel_lo(.Lm_pcrel_hi16)
	call	__tls_get_addr
	li	a1, 16
	sd	a1, 0(a0)
	beqz	s6, .Lm_BB8_33
	li	a0, -57
	bltu	s7, a0, .Lm_BB8_32
	addi	a0, s6, 127
	and	a0, a0, s6
	beqz	a0, .Lm_BB8_33
.Lm_BB8_32:
	li	s8, 0
.Lm_BB8_33:
	sext.w	a3, s8
	mv	a0, s4
	mv	a1, s3
	mv	a2, s2
	call	tlsf_open
	beqz	a0, .Lm_BB8_36
	addi	a1, a0, -5
	snez	a1, a1
	or	a1, a1, s10
	sd	zero, 0(s9)
	bnez	a1, .Lm_BB8_39
	li	a0, 39
	j	.Lm_BB8_39
.Lm_BB8_36:
	lbu	a1, 29(s4)
	ori	a1, a1, 16
	li	a2, 16
	beq	a1, a2, .Lm_BB8_38
	li	a1, 1
	sb	a1, 28(s4)
.Lm_BB8_38:
	sd	zero, 0(s9)
.Lm_BB8_39:
	ld	ra, 104(sp)
	ld	s0, 96(sp)
	ld	s1, 88(sp)
	ld	s2, 80(sp)
	ld	s3, 72(sp)
	ld	s4, 64(sp)
	ld	s5, 56(sp)
	ld	s6, 48(sp)
	ld	s7, 40(sp)
	ld	s8, 32(sp)
	ld	s9, 24(sp)
	ld	s10, 16(sp)
	ld	s11, 8(sp)
	.cfi_restore ra
	.cfi_restore s0
	.cfi_restore s1
	.cfi_restore s2
	.cfi_restore s3
	.cfi_restore s4
	.cfi_restore s5
	.cfi_restore s6
	.cfi_restore s7
	.cfi_restore s8
	.cfi_restore s9
	.cfi_restore s10
	.cfi_restore s11
	addi	sp, sp, 112
	.cfi_def_cfa_offset 0
	ret
.Lm_func_end8:
	.size	tlsf_open_in, .Lm_func_end8-tlsf_open_in
	.cfi_endproc
	.globl	tlsf_open_near
	.p2align	1
	.type	tlsf_open_near,@function
tlsf_open_near:
	.cfi_startproc
	addi	sp, sp, -64
	.cfi_def_cfa_offset 64
	sd	ra, 56(sp)
	sd	s0, 48(sp)
	sd	s1, 40(sp)
	sd	s2, 32(sp)
	sd	s3, 24(sp)
	sd	s4, 16(sp)
	sd	s5, 8(sp)
	.cfi_offset ra, -8
	.cfi_offset s0, -16
	.cfi_offset s1, -24
	.cfi_offset s2, -32
	.cfi_offset s3, -40
	.cfi_offset s4, -48
	.cfi_offset s5, -56
	mv	s4, a3
	mv	s2, a2
	mv	s3, a1
	neg	a1, a0
	andi	s0, a1, 63
	add	s0, s0, a0
	addi	s5, s0, 32
.Lm_pcrel_hi17:
	auipc	a0, %tls_gd_pcrel_hi(near_room)
	addi	a0, a0, %pcrel_lo(.Lm_pcrel_hi17)
	call	__tls_get_addr
	mv	s1, a0
	sd	s5, 0(a0)
.Lm_pcrel_hi18:
	auipc	a0, %tls_gd_pcrel_hi(pieces_first)
	addi	a0, a0, %pcrel_lo(.Lm_pcrel_hi18)
	call	__tls_get_addr
	li	a1, 2
	sw	a1, 0(a0)
	lbu	a0, 29(s0)
	beqz	a0, .Lm_BB9_4
	addi	a1, a0, -65
	li	a2, -57
	bltu	a1, a2, .Lm_BB9_3
	addi	a1, a0, 127
	and	a0, a0, a1
	beqz	a0, .Lm_BB9_4
.Lm_BB9_3:
	li	a3, 0
	j	.Lm_BB9_5
.Lm_BB9_4:
	mv	a3, s4
.Lm_BB9_5:
	mv	a0, s0
	mv	a1, s3
	mv	a2, s2
	call	tlsf_open
	bnez	a0, .Lm_BB9_8
	lbu	a1, 29(s0)
	ori	a1, a1, 16
	li	a2, 16
	beq	a1, a2, .Lm_BB9_8
	li	a1, 1
	sb	a1, 28(s0)
.Lm_BB9_8:
	sd	zero, 0(s1)
	ld	ra, 56(sp)
	ld	s0, 48(sp)
	ld	s1, 40(sp)
	ld	s2, 32(sp)
	ld	s3, 24(sp)
	ld	s4, 16(sp)
	ld	s5, 8(sp)
	.cfi_restore ra
	.cfi_restore s0
	.cfi_restore s1
	.cfi_restore s2
	.cfi_restore s3
	.cfi_restore s4
	.cfi_restore s5
	addi	sp, sp, 64
	.cfi_def_cfa_offset 0
	ret
.Lm_func_end9:
	.size	tlsf_open_near, .Lm_func_end9-tlsf_open_near
	.cfi_endproc
	.section	.rodata.cst8,"aM",@progbits,8
	.p2align	3, 0x0
.Lm_CPI10_0:
	.quad	283796062672454641
	.text
	.globl	tlsf_open_near_in
	.p2align	1
	.type	tlsf_open_near_in,@function
tlsf_open_near_in:
	.cfi_startproc
	addi	sp, sp, -112
	.cfi_def_cfa_offset 112
	sd	ra, 104(sp)
	sd	s0, 96(sp)
	sd	s1, 88(sp)
	sd	s2, 80(sp)
	sd	s3, 72(sp)
	sd	s4, 64(sp)
	sd	s5, 56(sp)
	sd	s6, 48(sp)
	sd	s7, 40(sp)
	sd	s8, 32(sp)
	sd	s9, 24(sp)
	sd	s10, 16(sp)
	sd	s11, 8(sp)
	.cfi_offset ra, -8
	.cfi_offset s0, -16
	.cfi_offset s1, -24
	.cfi_offset s2, -32
	.cfi_offset s3, -40
	.cfi_offset s4, -48
	.cfi_offset s5, -56
	.cfi_offset s6, -64
	.cfi_offset s7, -72
	.cfi_offset s8, -80
	.cfi_offset s9, -88
	.cfi_offset s10, -96
	.cfi_offset s11, -104
	mv	s11, a4
	mv	s8, a3
	sd	a2, 0(sp)
	mv	s4, a1
	neg	a1, a0
	andi	s5, a1, 63
	add	s5, s5, a0
	addi	s0, s5, 32
.Lm_pcrel_hi19:
	auipc	a0, %tls_gd_pcrel_hi(near_room)
	addi	a0, a0, %pcrel_lo(.Lm_pcrel_hi19)
	call	__tls_get_addr
	mv	s3, a0
	sd	s0, 0(a0)
.Lm_pcrel_hi20:
	auipc	a0, %tls_gd_pcrel_hi(pieces_first)
	addi	a0, a0, %pcrel_lo(.Lm_pcrel_hi20)
	call	__tls_get_addr
	li	a1, 2
	sw	a1, 0(a0)
	lbu	s7, 29(s5)
	addi	a1, s7, -65
	beqz	s7, .Lm_BB10_6
	li	a0, -57
	mv	s2, a1
	bltu	a1, a0, .Lm_BB10_5
	addi	a0, s7, 127
	li	a2, 16
	and	a1, a0, s7
	mv	a0, s7
	bltu	a2, s7, .Lm_BB10_4
	li	a0, 16
.Lm_BB10_4:
	beqz	a1, .Lm_BB10_7
.Lm_BB10_5:
	li	a0, 0
	j	.Lm_BB10_8
.Lm_BB10_6:
	mv	s2, a1
	li	a0, 16
.Lm_BB10_7:
	li	a1, -32
	sub	a1, a1, s8
	remu	a0, a1, a0
.Lm_BB10_8:
	li	s9, 0
	not	a1, s8
	beqz	s8, .Lm_BB10_21
	bltu	a1, s11, .Lm_BB10_21
	bltu	s11, a0, .Lm_BB10_21
	li	a2, 4
	sub	a3, s11, a0
	bne	s4, a2, .Lm_BB10_19
	lui	a2, 256
	li	a4, 64
	bltu	a3, a4, .Lm_BB10_20
.Lm_BB10_13:
	lui	a4, 65536
	bltu	a3, a4, .Lm_BB10_15
	lui	a3, 65536
.Lm_BB10_15:
	slli	a4, a3, 3
.Lm_pcrel_hi21:
	auipc	a5, %pcrel_hi(.Lm_CPI10_0)
	ld	a5, %pcrel_lo(.Lm_pcrel_hi21)(a5)
	addi	a4, a4, -192
	slli	a4, a4, 32
	srli	a4, a4, 32
	mulhu	a5, a4, a5
	addi	s0, a5, 71
	slli	a5, a5, 3
	addi	a5, a5, 87
.Lm_BB10_16:
	andi	s1, a5, -16
	srli	a4, s0, 3
	andi	a4, a4, -8
	add	a4, a4, s1
	addi	a4, a4, 8
	addi	s0, s0, -1
	addi	a5, a5, -8
	bltu	a3, a4, .Lm_BB10_16
	addi	s9, s0, -62
	bltu	s9, a2, .Lm_BB10_21
	mv	s9, a2
	j	.Lm_BB10_21
.Lm_BB10_19:
	addi	a2, s4, -5
	seqz	a2, a2
	slli	a2, a2, 24
	li	a4, 64
	bgeu	a3, a4, .Lm_BB10_13
.Lm_BB10_20:
	li	s9, 0
.Lm_BB10_21:
	snez	a2, s8
	sltu	a1, a1, s11
	xori	s1, a1, 1
	and	s1, s1, a2
	bltu	a0, s11, .Lm_BB10_23
	mv	a0, s11
.Lm_BB10_23:
.Lm_pcrel_hi22:
	auipc	s6, %pcrel_hi(begin_behind.nothing)
	addi	s6, s6, %pcrel_lo(.Lm_pcrel_hi22)
	bnez	s1, .Lm_BB10_25
	mv	s0, s6
	j	.Lm_BB10_26
.Lm_BB10_25:
	add	s0, s8, a0
.Lm_BB10_26:
.Lm_pcrel_hi23:
	auipc	a0, %tls_gd_pcrel_hi(lent)
	addi	a0, a0, %pcrel_lo(.Lm_pcrel_hi23)
	call	__tls_get_addr
	mv	s10, a0
	sd	s0, 0(a0)
	beqz	s1, .Lm_BB10_28
	add	s6, s8, s11
.Lm_BB10_28:
.Lm_pcrel_hi24:
	auipc	a0, %tls_gd_pcrel_hi(lent_end)
	addi	a0, a0, %pcrel_lo(.Lm_pcrel_hi24)
	call	__tls_get_addr
	sd	s6, 0(a0)
.Lm_pcrel_hi25:
	auipc	a0, %tls_gd_pcrel_hi(lent_step)
	addi	a0, a0, %pcrel_lo(.Lm_pcrel_hi25)
	call	__tls_get_addr
	li	a1, 16
	sd	a1, 0(a0)
	beqz	s7, .Lm_BB10_32
	li	a0, -57
	bltu	s2, a0, .Lm_BB10_31
	addi	a0, s7, 127
	and	a0, a0, s7
	beqz	a0, .Lm_BB10_32
.Lm_BB10_31:
	li	s9, 0
.Lm_BB10_32:
	sext.w	a3, s9
	mv	a0, s5
	mv	a1, s4
	ld	a2, 0(sp)
	call	tlsf_open
	beqz	a0, .Lm_BB10_35
	addi	a1, a0, -5
	snez	a1, a1
	or	a1, a1, s1
	sd	zero, 0(s10)
	bnez	a1, .Lm_BB10_38
	li	a0, 39
	j	.Lm_BB10_38
.Lm_BB10_35:
	lbu	a1, 29(s5)
	ori	a1, a1, 16
	li	a2, 16
	beq	a1, a2, .Lm_BB10_37
	li	a1, 1
	sb	a1, 28(s5)
.Lm_BB10_37:
	sd	zero, 0(s10)
.Lm_BB10_38:
	sd	zero, 0(s3)
	ld	ra, 104(sp)
	ld	s0, 96(sp)
	ld	s1, 88(sp)
	ld	s2, 80(sp)
	ld	s3, 72(sp)
	ld	s4, 64(sp)
	ld	s5, 56(sp)
	ld	s6, 48(sp)
	ld	s7, 40(sp)
	ld	s8, 32(sp)
	ld	s9, 24(sp)
	ld	s10, 16(sp)
	ld	s11, 8(sp)
	.cfi_restore ra
	.cfi_restore s0
	.cfi_restore s1
	.cfi_restore s2
	.cfi_restore s3
	.cfi_restore s4
	.cfi_restore s5
	.cfi_restore s6
	.cfi_restore s7
	.cfi_restore s8
	.cfi_restore s9
	.cfi_restore s10
	.cfi_restore s11
	addi	sp, sp, 112
	.cfi_def_cfa_offset 0
	ret
.Lm_func_end10:
	.size	tlsf_open_near_in, .Lm_func_end10-tlsf_open_near_in
	.cfi_endproc
	.globl	tlsf_open_32
	.p2align	1
	.type	tlsf_open_32,@function
tlsf_open_32:
	.cfi_startproc
	addi	sp, sp, -16
	.cfi_def_cfa_offset 16
	sd	ra, 8(sp)
	sd	s0, 0(sp)
	.cfi_offset ra, -8
	.cfi_offset s0, -16
	mv	s0, a0
	lbu	a0, 29(a0)
	beqz	a0, .Lm_BB11_4
	addi	a4, a0, -65
	li	a5, -57
	bltu	a4, a5, .Lm_BB11_3
	addi	a4, a0, 127
	and	a0, a0, a4
	beqz	a0, .Lm_BB11_4
.Lm_BB11_3:
	li	a3, 0
.Lm_BB11_4:
	mv	a0, s0
	call	tlsf_open
	bnez	a0, .Lm_BB11_7
	lbu	a1, 29(s0)
	ori	a1, a1, 16
	li	a2, 16
	beq	a1, a2, .Lm_BB11_7
	li	a1, 1
	sb	a1, 28(s0)
.Lm_BB11_7:
	ld	ra, 8(sp)
	ld	s0, 0(sp)
	.cfi_restore ra
	.cfi_restore s0
	addi	sp, sp, 16
	.cfi_def_cfa_offset 0
	ret
.Lm_func_end11:
	.size	tlsf_open_32, .Lm_func_end11-tlsf_open_32
	.cfi_endproc
	.globl	tlsf_open_in_32
	.p2align	1
	.type	tlsf_open_in_32,@function
tlsf_open_in_32:
	.cfi_startproc
	tail	tlsf_open_in
.Lm_func_end12:
	.size	tlsf_open_in_32, .Lm_func_end12-tlsf_open_in_32
	.cfi_endproc
	.globl	tlsf_open_near_2880
	.p2align	1
	.type	tlsf_open_near_2880,@function
tlsf_open_near_2880:
	.cfi_startproc
	addi	sp, sp, -64
	.cfi_def_cfa_offset 64
	sd	ra, 56(sp)
	sd	s0, 48(sp)
	sd	s1, 40(sp)
	sd	s2, 32(sp)
	sd	s3, 24(sp)
	sd	s4, 16(sp)
	sd	s5, 8(sp)
	.cfi_offset ra, -8
	.cfi_offset s0, -16
	.cfi_offset s1, -24
	.cfi_offset s2, -32
	.cfi_offset s3, -40
	.cfi_offset s4, -48
	.cfi_offset s5, -56
	mv	s4, a3
	mv	s2, a2
	mv	s3, a1
	neg	a1, a0
	andi	s0, a1, 63
	add	s0, s0, a0
	addi	s5, s0, 32
.Lm_pcrel_hi26:
	auipc	a0, %tls_gd_pcrel_hi(near_room)
	addi	a0, a0, %pcrel_lo(.Lm_pcrel_hi26)
	call	__tls_get_addr
	mv	s1, a0
	sd	s5, 0(a0)
.Lm_pcrel_hi27:
	auipc	a0, %tls_gd_pcrel_hi(pieces_first)
	addi	a0, a0, %pcrel_lo(.Lm_pcrel_hi27)
	call	__tls_get_addr
	li	a1, 2
	sw	a1, 0(a0)
	lbu	a0, 29(s0)
	beqz	a0, .Lm_BB13_4
	addi	a1, a0, -65
	li	a2, -57
	bltu	a1, a2, .Lm_BB13_3
	addi	a1, a0, 127
	and	a0, a0, a1
	beqz	a0, .Lm_BB13_4
.Lm_BB13_3:
	li	a3, 0
	j	.Lm_BB13_5
.Lm_BB13_4:
	mv	a3, s4
.Lm_BB13_5:
	mv	a0, s0
	mv	a1, s3
	mv	a2, s2
	call	tlsf_open
	bnez	a0, .Lm_BB13_8
	lbu	a1, 29(s0)
	ori	a1, a1, 16
	li	a2, 16
	beq	a1, a2, .Lm_BB13_8
	li	a1, 1
	sb	a1, 28(s0)
.Lm_BB13_8:
	sd	zero, 0(s1)
	ld	ra, 56(sp)
	ld	s0, 48(sp)
	ld	s1, 40(sp)
	ld	s2, 32(sp)
	ld	s3, 24(sp)
	ld	s4, 16(sp)
	ld	s5, 8(sp)
	.cfi_restore ra
	.cfi_restore s0
	.cfi_restore s1
	.cfi_restore s2
	.cfi_restore s3
	.cfi_restore s4
	.cfi_restore s5
	addi	sp, sp, 64
	.cfi_def_cfa_offset 0
	ret
.Lm_func_end13:
	.size	tlsf_open_near_2880, .Lm_func_end13-tlsf_open_near_2880
	.cfi_endproc
	.globl	tlsf_open_near_in_2880
	.p2align	1
	.type	tlsf_open_near_in_2880,@function
tlsf_open_near_in_2880:
	.cfi_startproc
	tail	tlsf_open_near_in
.Lm_func_end14:
	.size	tlsf_open_near_in_2880, .Lm_func_end14-tlsf_open_near_in_2880
	.cfi_endproc
	.globl	tlsf_lane_bytes
	.p2align	1
	.type	tlsf_lane_bytes,@function
tlsf_lane_bytes:
	.cfi_startproc
	addiw	a1, a0, -1025
	li	a2, -1024
	bgeu	a1, a2, .Lm_BB15_2
	li	a0, 0
	ret
.Lm_BB15_2:
	slli	a1, a0, 3
	slli	a0, a0, 4
	add	a0, a0, a1
	lui	a1, 32
	addi	a0, a0, 135
	addi	a1, a1, -128
	and	a0, a0, a1
	addi	a0, a0, 895
	ret
.Lm_func_end15:
	.size	tlsf_lane_bytes, .Lm_func_end15-tlsf_lane_bytes
	.cfi_endproc
	.globl	tlsf_lane_open_in
	.p2align	1
	.type	tlsf_lane_open_in,@function
tlsf_lane_open_in:
	.cfi_startproc
	addi	sp, sp, -80
	.cfi_def_cfa_offset 80
	sd	ra, 72(sp)
	sd	s0, 64(sp)
	sd	s1, 56(sp)
	sd	s2, 48(sp)
	sd	s3, 40(sp)
	sd	s4, 32(sp)
	sd	s5, 24(sp)
	sd	s6, 16(sp)
	sd	s7, 8(sp)
	sd	s8, 0(sp)
	.cfi_offset ra, -8
	.cfi_offset s0, -16
	.cfi_offset s1, -24
	.cfi_offset s2, -32
	.cfi_offset s3, -40
	.cfi_offset s4, -48
	.cfi_offset s5, -56
	.cfi_offset s6, -64
	.cfi_offset s7, -72
	.cfi_offset s8, -80
	mv	s7, a4
	mv	s8, a3
	mv	s4, a2
	mv	s2, a1
	li	a1, 1025
	mv	s3, a0
	bgeu	a2, a1, .Lm_BB16_2
	slli	a0, s4, 3
	slli	a2, s4, 4
	lui	a3, 32
	neg	a4, s8
	seqz	a5, s8
	not	a1, s8
	add	a2, a2, a0
	addi	a3, a3, -128
	andi	a0, a4, 127
	sltu	a4, a1, s7
	addi	a2, a2, 135
	or	a4, a4, a5
	sltu	a5, s7, a0
	and	a2, a2, a3
	or	a4, a4, a5
	addi	a2, a2, 768
	sub	a3, s7, a0
	sltu	a2, a3, a2
	or	a2, a2, a4
	addiw	a2, a2, -1
	and	s4, a2, s4
	j	.Lm_BB16_3
.Lm_BB16_2:
	neg	a0, s8
	andi	a0, a0, 127
	not	a1, s8
.Lm_BB16_3:
	snez	a2, s8
	sltu	a1, a1, s7
	xori	a1, a1, 1
	and	s6, a2, a1
	bltu	a0, s7, .Lm_BB16_5
	mv	a0, s7
.Lm_BB16_5:
.Lm_pcrel_hi28:
	auipc	s1, %pcrel_hi(begin_behind.nothing)
	addi	s1, s1, %pcrel_lo(.Lm_pcrel_hi28)
	bnez	s6, .Lm_BB16_7
	mv	s0, s1
	j	.Lm_BB16_8
.Lm_BB16_7:
	add	s0, s8, a0
.Lm_BB16_8:
.Lm_pcrel_hi29:
	auipc	a0, %tls_gd_pcrel_hi(lent)
	addi	a0, a0, %pcrel_lo(.Lm_pcrel_hi29)
	call	__tls_get_addr
	mv	s5, a0
	sd	s0, 0(a0)
	beqz	s6, .Lm_BB16_10
	add	s1, s8, s7
.Lm_BB16_10:
.Lm_pcrel_hi30:
	auipc	a0, %tls_gd_pcrel_hi(lent_end)
	addi	a0, a0, %pcrel_lo(.Lm_pcrel_hi30)
	call	__tls_get_addr
	sd	s1, 0(a0)
.Lm_pcrel_hi31:
	auipc	a0, %tls_gd_pcrel_hi(lent_step)
	addi	a0, a0, %pcrel_lo(.Lm_pcrel_hi31)
	call	__tls_get_addr
	li	a1, 128
	sd	a1, 0(a0)
	mv	a0, s3
	mv	a1, s2
	mv	a2, s4
	call	tlsf_lane_open
	addi	a1, a0, -5
	snez	a1, a1
	or	a1, s6, a1
	sd	zero, 0(s5)
	bnez	a1, .Lm_BB16_12
	li	a0, 39
.Lm_BB16_12:
	ld	ra, 72(sp)
	ld	s0, 64(sp)
	ld	s1, 56(sp)
	ld	s2, 48(sp)
	ld	s3, 40(sp)
	ld	s4, 32(sp)
	ld	s5, 24(sp)
	ld	s6, 16(sp)
	ld	s7, 8(sp)
	ld	s8, 0(sp)
	.cfi_restore ra
	.cfi_restore s0
	.cfi_restore s1
	.cfi_restore s2
	.cfi_restore s3
	.cfi_restore s4
	.cfi_restore s5
	.cfi_restore s6
	.cfi_restore s7
	.cfi_restore s8
	addi	sp, sp, 80
	.cfi_def_cfa_offset 0
	ret
.Lm_func_end16:
	.size	tlsf_lane_open_in, .Lm_func_end16-tlsf_lane_open_in
	.cfi_endproc
	.globl	tlsf_queue_bytes
	.p2align	1
	.type	tlsf_queue_bytes,@function
tlsf_queue_bytes:
	.cfi_startproc
	li	a2, 1024
	subw	a3, a2, a0
	subw	a4, a2, a1
	or	a3, a3, a4
	bgeu	a3, a2, .Lm_BB17_2
	slli	a2, a0, 4
	li	a3, 1
	slli	a4, a1, 3
	slli	a1, a1, 5
	addi	a2, a2, 135
	slli	a5, a3, 36
	addi	a1, a1, 135
	addi	a5, a5, -128
	and	a2, a2, a5
	slli	a5, a3, 37
	addi	a5, a5, -128
	and	a1, a1, a5
	slli	a5, a0, 3
	slli	a0, a0, 7
	addi	a4, a4, 519
	slli	a3, a3, 35
	addi	a5, a5, 135
	addi	a3, a3, -128
	and	a4, a4, a3
	and	a3, a3, a5
	add	a1, a1, a4
	add	a0, a0, a2
	slli	a1, a1, 1
	add	a0, a0, a3
	add	a0, a0, a1
	addi	a0, a0, 383
	ret
.Lm_BB17_2:
	li	a0, 0
	ret
.Lm_func_end17:
	.size	tlsf_queue_bytes, .Lm_func_end17-tlsf_queue_bytes
	.cfi_endproc
	.globl	tlsf_queue_open_in
	.p2align	1
	.type	tlsf_queue_open_in,@function
tlsf_queue_open_in:
	.cfi_startproc
	addi	sp, sp, -80
	.cfi_def_cfa_offset 80
	sd	ra, 72(sp)
	sd	s0, 64(sp)
	sd	s1, 56(sp)
	sd	s2, 48(sp)
	sd	s3, 40(sp)
	sd	s4, 32(sp)
	sd	s5, 24(sp)
	sd	s6, 16(sp)
	sd	s7, 8(sp)
	sd	s8, 0(sp)
	.cfi_offset ra, -8
	.cfi_offset s0, -16
	.cfi_offset s1, -24
	.cfi_offset s2, -32
	.cfi_offset s3, -40
	.cfi_offset s4, -48
	.cfi_offset s5, -56
	.cfi_offset s6, -64
	.cfi_offset s7, -72
	.cfi_offset s8, -80
	mv	s5, a4
	mv	s6, a3
	mv	s4, a2
	mv	s3, a1
	li	a1, 1024
	mv	s2, a0
	bltu	a1, s3, .Lm_BB18_3
	li	a0, 1025
	bgeu	s4, a0, .Lm_BB18_3
	slli	a0, s3, 4
	lui	a1, 16
	slli	a2, s4, 3
	lui	a3, 8
	slli	a4, s4, 5
	lui	a5, 32
	slli	s1, s3, 3
	addi	a0, a0, 135
	addi	a1, a1, -128
	and	s0, a0, a1
	seqz	a0, s6
	addi	a1, a4, 135
	addi	a4, a5, -128
	and	a4, a4, a1
	not	a1, s6
	addi	a2, a2, 519
	addi	a3, a3, -128
	addi	a5, s1, 135
	and	a2, a2, a3
	and	a3, a3, a5
	sltu	a5, a1, s5
	or	a5, a5, a0
	slli	s1, s3, 7
	add	a2, a2, a4
	neg	a0, s6
	andi	a0, a0, 127
	add	s0, s0, s1
	sltu	a4, s5, a0
	or	a4, a4, a5
	slli	a2, a2, 1
	add	a3, a3, s0
	add	a2, a2, a3
	addi	a2, a2, 256
	sub	a3, s5, a0
	sltu	a2, a3, a2
	or	a2, a2, a4
	addiw	a2, a2, -1
	and	s4, a2, s4
	j	.Lm_BB18_4
.Lm_BB18_3:
	neg	a0, s6
	andi	a0, a0, 127
	not	a1, s6
.Lm_BB18_4:
	snez	a2, s6
	sltu	a1, a1, s5
	xori	a1, a1, 1
	and	s7, a2, a1
	bltu	a0, s5, .Lm_BB18_6
	mv	a0, s5
.Lm_BB18_6:
.Lm_pcrel_hi32:
	auipc	s1, %pcrel_hi(begin_behind.nothing)
	addi	s1, s1, %pcrel_lo(.Lm_pcrel_hi32)
	bnez	s7, .Lm_BB18_8
	mv	s0, s1
	j	.Lm_BB18_9
.Lm_BB18_8:
	add	s0, s6, a0
.Lm_BB18_9:
.Lm_pcrel_hi33:
	auipc	a0, %tls_gd_pcrel_hi(lent)
	addi	a0, a0, %pcrel_lo(.Lm_pcrel_hi33)
	call	__tls_get_addr
	mv	s8, a0
	sd	s0, 0(a0)
	beqz	s7, .Lm_BB18_11
	add	s1, s6, s5
.Lm_BB18_11:
.Lm_pcrel_hi34:
	auipc	a0, %tls_gd_pcrel_hi(lent_end)
	addi	a0, a0, %pcrel_lo(.Lm_pcrel_hi34)
	call	__tls_get_addr
	sd	s1, 0(a0)
.Lm_pcrel_hi35:
	auipc	a0, %tls_gd_pcrel_hi(lent_step)
	addi	a0, a0, %pcrel_lo(.Lm_pcrel_hi35)
	call	__tls_get_addr
	li	a1, 128
	sd	a1, 0(a0)
	mv	a0, s2
	mv	a1, s3
	mv	a2, s4
	call	tlsf_queue_open
	addi	a1, a0, -5
	snez	a1, a1
	or	a1, s7, a1
	sd	zero, 0(s8)
	bnez	a1, .Lm_BB18_13
	li	a0, 39
.Lm_BB18_13:
	ld	ra, 72(sp)
	ld	s0, 64(sp)
	ld	s1, 56(sp)
	ld	s2, 48(sp)
	ld	s3, 40(sp)
	ld	s4, 32(sp)
	ld	s5, 24(sp)
	ld	s6, 16(sp)
	ld	s7, 8(sp)
	ld	s8, 0(sp)
	.cfi_restore ra
	.cfi_restore s0
	.cfi_restore s1
	.cfi_restore s2
	.cfi_restore s3
	.cfi_restore s4
	.cfi_restore s5
	.cfi_restore s6
	.cfi_restore s7
	.cfi_restore s8
	addi	sp, sp, 80
	.cfi_def_cfa_offset 0
	ret
.Lm_func_end18:
	.size	tlsf_queue_open_in, .Lm_func_end18-tlsf_queue_open_in
	.cfi_endproc
	.globl	tlsf_offsets_bytes
	.p2align	1
	.type	tlsf_offsets_bytes,@function
tlsf_offsets_bytes:
	.cfi_startproc
	li	a2, 4
	bgeu	a1, a2, .Lm_BB19_2
	li	a0, 0
	ret
.Lm_BB19_2:
	slli	a1, a1, 32
	srli	a1, a1, 32
	bne	a0, a2, .Lm_BB19_5
	lui	a0, 256
	bltu	a0, a1, .Lm_BB19_6
.Lm_BB19_4:
	slli	a0, a1, 3
	lui	a2, 131072
	addi	a1, a1, 63
	addi	a0, a0, 23
	addi	a2, a2, -16
	and	a0, a0, a2
	lui	a2, 4096
	srli	a1, a1, 3
	addi	a1, a1, 16
	addi	a2, a2, -16
	and	a1, a1, a2
	add	a0, a0, a1
	addi	a0, a0, 2047
	addi	a0, a0, 736
	ret
.Lm_BB19_5:
	addi	a0, a0, -5
	seqz	a0, a0
	slli	a0, a0, 24
	bgeu	a0, a1, .Lm_BB19_4
.Lm_BB19_6:
	li	a0, 0
	ret
.Lm_func_end19:
	.size	tlsf_offsets_bytes, .Lm_func_end19-tlsf_offsets_bytes
	.cfi_endproc
	.globl	tlsf_offsets_open_in
	.p2align	1
	.type	tlsf_offsets_open_in,@function
tlsf_offsets_open_in:
	.cfi_startproc
	addi	sp, sp, -96
	.cfi_def_cfa_offset 96
	sd	ra, 88(sp)
	sd	s0, 80(sp)
	sd	s1, 72(sp)
	sd	s2, 64(sp)
	sd	s3, 56(sp)
	sd	s4, 48(sp)
	sd	s5, 40(sp)
	sd	s6, 32(sp)
	sd	s7, 24(sp)
	sd	s8, 16(sp)
	sd	s9, 8(sp)
	sd	s10, 0(sp)
	.cfi_offset ra, -8
	.cfi_offset s0, -16
	.cfi_offset s1, -24
	.cfi_offset s2, -32
	.cfi_offset s3, -40
	.cfi_offset s4, -48
	.cfi_offset s5, -56
	.cfi_offset s6, -64
	.cfi_offset s7, -72
	.cfi_offset s8, -80
	.cfi_offset s9, -88
	.cfi_offset s10, -96
	mv	s7, a6
	mv	s8, a5
	mv	s6, a4
	mv	s2, a3
	mv	s3, a2
	mv	s5, a1
	mv	s4, a0
	slli	a0, a4, 32
	li	a1, 4
	srli	a0, a0, 32
	bne	s5, a1, .Lm_BB20_3
	lui	a1, 256
	bltu	a1, a0, .Lm_BB20_4
.Lm_BB20_2:
	slli	a2, a0, 3
	lui	a3, 131072
	addi	a0, a0, 63
	lui	a4, 4096
	seqz	a5, s8
	not	a1, s8
	addi	a2, a2, 23
	addi	a3, a3, -16
	and	a2, a2, a3
	sltu	a3, a1, s7
	or	a3, a3, a5
	neg	a5, s8
	srli	s1, a0, 3
	addi	a4, a4, -16
	andi	a0, a5, 15
	addi	s1, s1, 16
	and	a4, a4, s1
	sltu	a5, s7, a0
	or	a3, a3, a5
	add	a2, a2, a4
	addi	a2, a2, 2047
	addi	a2, a2, 721
	sub	a4, s7, a0
	sltu	a2, a4, a2
	or	a2, a2, a3
	addiw	a2, a2, -1
	and	s6, a2, s6
	j	.Lm_BB20_5
.Lm_BB20_3:
	addi	a1, s5, -5
	seqz	a1, a1
	slli	a1, a1, 24
	bgeu	a1, a0, .Lm_BB20_2
.Lm_BB20_4:
	neg	a0, s8
	andi	a0, a0, 15
	not	a1, s8
.Lm_BB20_5:
	snez	a2, s8
	sltu	a1, a1, s7
	xori	a1, a1, 1
	and	s9, a2, a1
	bltu	a0, s7, .Lm_BB20_7
	mv	a0, s7
.Lm_BB20_7:
.Lm_pcrel_hi36:
	auipc	s0, %pcrel_hi(begin_behind.nothing)
	addi	s0, s0, %pcrel_lo(.Lm_pcrel_hi36)
	bnez	s9, .Lm_BB20_9
	mv	s1, s0
	j	.Lm_BB20_10
.Lm_BB20_9:
	add	s1, s8, a0
.Lm_BB20_10:
.Lm_pcrel_hi37:
	auipc	a0, %tls_gd_pcrel_hi(lent)
	addi	a0, a0, %pcrel_lo(.Lm_pcrel_hi37)
	call	__tls_get_addr
	mv	s10, a0
	sd	s1, 0(a0)
	beqz	s9, .Lm_BB20_12
	add	s0, s8, s7
.Lm_BB20_12:
.Lm_pcrel_hi38:
	auipc	a0, %tls_gd_pcrel_hi(lent_end)
	addi	a0, a0, %pcrel_lo(.Lm_pcrel_hi38)
	call	__tls_get_addr
	sd	s0, 0(a0)
.Lm_pcrel_hi39:
	auipc	a0, %tls_gd_pcrel_hi(lent_step)
	addi	a0, a0, %pcrel_lo(.Lm_pcrel_hi39)
	call	__tls_get_addr
	li	a1, 16
	sd	a1, 0(a0)
	mv	a0, s4
	mv	a1, s5
	mv	a2, s3
	mv	a3, s2
	mv	a4, s6
	call	tlsf_offsets_open
	addi	a1, a0, -5
	snez	a1, a1
	or	a1, s9, a1
	sd	zero, 0(s10)
	bnez	a1, .Lm_BB20_14
	li	a0, 39
.Lm_BB20_14:
	ld	ra, 88(sp)
	ld	s0, 80(sp)
	ld	s1, 72(sp)
	ld	s2, 64(sp)
	ld	s3, 56(sp)
	ld	s4, 48(sp)
	ld	s5, 40(sp)
	ld	s6, 32(sp)
	ld	s7, 24(sp)
	ld	s8, 16(sp)
	ld	s9, 8(sp)
	ld	s10, 0(sp)
	.cfi_restore ra
	.cfi_restore s0
	.cfi_restore s1
	.cfi_restore s2
	.cfi_restore s3
	.cfi_restore s4
	.cfi_restore s5
	.cfi_restore s6
	.cfi_restore s7
	.cfi_restore s8
	.cfi_restore s9
	.cfi_restore s10
	addi	sp, sp, 96
	.cfi_def_cfa_offset 0
	ret
.Lm_func_end20:
	.size	tlsf_offsets_open_in, .Lm_func_end20-tlsf_offsets_open_in
	.cfi_endproc
	.globl	tlsf_pools_bytes
	.p2align	1
	.type	tlsf_pools_bytes,@function
tlsf_pools_bytes:
	.cfi_startproc
	addi	sp, sp, -32
	.cfi_def_cfa_offset 32
	sd	ra, 24(sp)
	sd	s0, 16(sp)
	.cfi_offset ra, -8
	.cfi_offset s0, -16
	mv	s0, a2
	sd	zero, 8(sp)
	sw	zero, 4(sp)
	addi	a3, sp, 8
	addi	a4, sp, 4
	call	tlsf_pools_words
	mv	a1, a0
	li	a0, 0
	bnez	a1, .Lm_BB21_2
	ld	a0, 8(sp)
	lwu	a1, 4(sp)
	lui	a2, 1
	slli	a3, s0, 2
	slli	s0, s0, 3
	addi	a2, a2, -1313
	add	a3, a3, s0
	addi	a4, a2, 9
	mul	a4, a1, a4
	slli	a5, a0, 3
	srli	a0, a0, 3
	slli	s0, a1, 4
	slli	a1, a1, 6
	addi	a4, a4, 23
	andi	a0, a0, -8
	add	a1, a1, s0
	add	a3, a3, a5
	andi	a4, a4, -16
	add	a0, a0, a3
	add	a0, a0, a1
	add	a2, a2, a4
	add	a0, a0, a2
.Lm_BB21_2:
	ld	ra, 24(sp)
	ld	s0, 16(sp)
	.cfi_restore ra
	.cfi_restore s0
	addi	sp, sp, 32
	.cfi_def_cfa_offset 0
	ret
.Lm_func_end21:
	.size	tlsf_pools_bytes, .Lm_func_end21-tlsf_pools_bytes
	.cfi_endproc
	.globl	tlsf_pools_open_in
	.p2align	1
	.type	tlsf_pools_open_in,@function
tlsf_pools_open_in:
	.cfi_startproc
	addi	sp, sp, -96
	.cfi_def_cfa_offset 96
	sd	ra, 88(sp)
	sd	s0, 80(sp)
	sd	s1, 72(sp)
	sd	s2, 64(sp)
	sd	s3, 56(sp)
	sd	s4, 48(sp)
	sd	s5, 40(sp)
	sd	s6, 32(sp)
	sd	s7, 24(sp)
	sd	s8, 16(sp)
	sd	s9, 8(sp)
	sd	s10, 0(sp)
	.cfi_offset ra, -8
	.cfi_offset s0, -16
	.cfi_offset s1, -24
	.cfi_offset s2, -32
	.cfi_offset s3, -40
	.cfi_offset s4, -48
	.cfi_offset s5, -56
	.cfi_offset s6, -64
	.cfi_offset s7, -72
	.cfi_offset s8, -80
	.cfi_offset s9, -88
	.cfi_offset s10, -96
	mv	s0, a6
	mv	s1, a5
	mv	s2, a4
	mv	s3, a3
	mv	s4, a2
	mv	s5, a1
	mv	s6, a0
	neg	a0, a5
	snez	a1, a5
	not	a2, a5
	andi	a0, a0, 15
	sltu	a2, a2, a6
	xori	a2, a2, 1
	and	s8, a1, a2
	bltu	a0, a6, .Lm_BB22_2
	mv	a0, s0
.Lm_BB22_2:
.Lm_pcrel_hi40:
	auipc	s9, %pcrel_hi(begin_behind.nothing)
	addi	s9, s9, %pcrel_lo(.Lm_pcrel_hi40)
	bnez	s8, .Lm_BB22_4
	mv	s10, s9
	j	.Lm_BB22_5
.Lm_BB22_4:
	add	s10, s1, a0
.Lm_BB22_5:
.Lm_pcrel_hi41:
	auipc	a0, %tls_gd_pcrel_hi(lent)
	addi	a0, a0, %pcrel_lo(.Lm_pcrel_hi41)
	call	__tls_get_addr
	mv	s7, a0
	sd	s10, 0(a0)
	beqz	s8, .Lm_BB22_7
	add	s9, s1, s0
.Lm_BB22_7:
.Lm_pcrel_hi42:
	auipc	a0, %tls_gd_pcrel_hi(lent_end)
	addi	a0, a0, %pcrel_lo(.Lm_pcrel_hi42)
	call	__tls_get_addr
	sd	s9, 0(a0)
.Lm_pcrel_hi43:
	auipc	a0, %tls_gd_pcrel_hi(lent_step)
	addi	a0, a0, %pcrel_lo(.Lm_pcrel_hi43)
	call	__tls_get_addr
	li	a1, 16
	sd	a1, 0(a0)
	mv	a0, s6
	mv	a1, s5
	mv	a2, s4
	mv	a3, s3
	mv	a4, s2
	call	tlsf_pools_open
	li	a1, 6
	bne	a0, a1, .Lm_BB22_9
	li	a0, 5
.Lm_BB22_9:
	addi	a1, a0, -5
	snez	a1, a1
	or	a1, s8, a1
	sd	zero, 0(s7)
	bnez	a1, .Lm_BB22_11
	li	a0, 39
.Lm_BB22_11:
	ld	ra, 88(sp)
	ld	s0, 80(sp)
	ld	s1, 72(sp)
	ld	s2, 64(sp)
	ld	s3, 56(sp)
	ld	s4, 48(sp)
	ld	s5, 40(sp)
	ld	s6, 32(sp)
	ld	s7, 24(sp)
	ld	s8, 16(sp)
	ld	s9, 8(sp)
	ld	s10, 0(sp)
	.cfi_restore ra
	.cfi_restore s0
	.cfi_restore s1
	.cfi_restore s2
	.cfi_restore s3
	.cfi_restore s4
	.cfi_restore s5
	.cfi_restore s6
	.cfi_restore s7
	.cfi_restore s8
	.cfi_restore s9
	.cfi_restore s10
	addi	sp, sp, 96
	.cfi_def_cfa_offset 0
	ret
.Lm_func_end22:
	.size	tlsf_pools_open_in, .Lm_func_end22-tlsf_pools_open_in
	.cfi_endproc
	.globl	tlsf_next_number
	.p2align	1
	.type	tlsf_next_number,@function
tlsf_next_number:
	.cfi_startproc
.Lm_pcrel_hi44:
	auipc	a1, %pcrel_hi(tlsf_next_number.calls)
	li	a2, 1
	addi	a1, a1, %pcrel_lo(.Lm_pcrel_hi44)
	amoadd.d	a1, a2, (a1)
	slli	a2, a1, 3
	slliw	a3, a1, 3
	bne	a3, a2, .Lm_BB23_2
	mv	a1, a0
	li	a0, 0
	lui	a3, 524288
	sub	a2, a2, a3
	sw	a2, 0(a1)
	ret
.Lm_BB23_2:
	li	a0, 2
	ret
.Lm_func_end23:
	.size	tlsf_next_number, .Lm_func_end23-tlsf_next_number
	.cfi_endproc
	.type	tlsf_memory_alloc.nothing,@object
	.local	tlsf_memory_alloc.nothing
	.comm	tlsf_memory_alloc.nothing,8,8
	.type	near_room,@object
	.section	.tbss,"awT",@nobits
	.p2align	3, 0x0
near_room:
	.quad	0
	.size	near_room, 8
	.type	pieces_first,@object
	.p2align	2, 0x0
pieces_first:
	.word	0
	.size	pieces_first, 4
	.type	lent,@object
	.p2align	3, 0x0
lent:
	.quad	0
	.size	lent, 8
	.type	tlsf_next_number.calls,@object
	.local	tlsf_next_number.calls
	.comm	tlsf_next_number.calls,8,8
	.type	lent_step,@object
	.p2align	3, 0x0
lent_step:
	.quad	0
	.size	lent_step, 8
	.type	lent_end,@object
	.p2align	3, 0x0
lent_end:
	.quad	0
	.size	lent_end, 8
	.type	begin_behind.nothing,@object
	.local	begin_behind.nothing
	.comm	begin_behind.nothing,1,1
	.ident	"clang version 22.1.8"
	.section	".note.GNU-stack","",@progbits
#else
	.text
	.hidden	tlsf_memory_alloc
	.globl	tlsf_memory_alloc
	.p2align	1
	.type	tlsf_memory_alloc,@function
tlsf_memory_alloc:
	.cfi_startproc
	addi	sp, sp, -48
	.cfi_def_cfa_offset 48
	sd	ra, 40(sp)
	sd	s0, 32(sp)
	sd	s1, 24(sp)
	sd	s2, 16(sp)
	sd	s3, 8(sp)
	sd	s4, 0(sp)
	.cfi_offset ra, -8
	.cfi_offset s0, -16
	.cfi_offset s1, -24
	.cfi_offset s2, -32
	.cfi_offset s3, -40
	.cfi_offset s4, -48
	.cfi_remember_state
	li	a2, 8
	bgeu	a2, a1, .Lm_BB0_5
.Lm_BB0_1:
	li	a1, 0
.Lm_BB0_2:
	snez	a0, a1
	bnez	a1, .Lm_BB0_4
.Lm_pcrel_hi6:
	auipc	a1, %pcrel_hi(tlsf_memory_alloc.nothing)
	addi	a1, a1, %pcrel_lo(.Lm_pcrel_hi6)
.Lm_BB0_4:
	ld	ra, 40(sp)
	ld	s0, 32(sp)
	ld	s1, 24(sp)
	ld	s2, 16(sp)
	ld	s3, 8(sp)
	ld	s4, 0(sp)
	.cfi_restore ra
	.cfi_restore s0
	.cfi_restore s1
	.cfi_restore s2
	.cfi_restore s3
	.cfi_restore s4
	addi	sp, sp, 48
	.cfi_def_cfa_offset 0
	ret
.Lm_BB0_5:
	.cfi_restore_state
	mv	s0, a0
.Lm_pcrel_hi0:
	auipc	a0, %tls_gd_pcrel_hi(near_room)
	addi	a0, a0, %pcrel_lo(.Lm_pcrel_hi0)
	call	__tls_get_addr
	ld	s1, 0(a0)
	beqz	s1, .Lm_BB0_7
.Lm_pcrel_hi1:
	auipc	a0, %tls_gd_pcrel_hi(pieces_first)
	addi	a0, a0, %pcrel_lo(.Lm_pcrel_hi1)
	call	__tls_get_addr
	lw	a1, 0(a0)
	addi	a2, a1, -1
	sw	a2, 0(a0)
	beqz	a1, .Lm_BB0_16
.Lm_BB0_7:
.Lm_pcrel_hi2:
	auipc	a0, %tls_gd_pcrel_hi(lent)
	addi	a0, a0, %pcrel_lo(.Lm_pcrel_hi2)
	call	__tls_get_addr
	ld	s1, 0(a0)
	beqz	s1, .Lm_BB0_13
	mv	s2, a0
.Lm_pcrel_hi3:
	auipc	a0, %tls_gd_pcrel_hi(lent_step)
	addi	a0, a0, %pcrel_lo(.Lm_pcrel_hi3)
	call	__tls_get_addr
	lui	a1, 65536
	bltu	a1, s0, .Lm_BB0_1
	ld	s3, 0(a0)
	addi	s4, s0, 8
.Lm_pcrel_hi4:
	auipc	a0, %tls_gd_pcrel_hi(lent_end)
	addi	a0, a0, %pcrel_lo(.Lm_pcrel_hi4)
	call	__tls_get_addr
	ld	a0, 0(a0)
	sub	a1, a0, s1
	bltu	a1, s4, .Lm_BB0_1
	add	s0, s0, s3
	addi	s0, s0, 7
	remu	a2, s0, s3
	sub	a2, s0, a2
	bgeu	a2, a1, .Lm_BB0_12
	add	a0, s1, a2
.Lm_BB0_12:
	addi	a1, s1, 8
	sd	a0, 0(s2)
	sd	zero, 0(s1)
	j	.Lm_BB0_2
.Lm_BB0_13:
	lui	a0, 65536
	bltu	a0, s0, .Lm_BB0_1
.Lm_pcrel_hi5:
	auipc	a0, %tls_gd_pcrel_hi(front)
	addi	a0, a0, %pcrel_lo(.Lm_pcrel_hi5)
	call	__tls_get_addr
	mv	s1, a0
	ld	a0, 0(a0)
	add	a0, a0, s0
	addi	a0, a0, 135
	ori	a0, a0, 127
	call	malloc
	beqz	a0, .Lm_BB0_1
	ld	a1, 0(s1)
	neg	a2, a0
	sd	zero, 0(s1)
	andi	a2, a2, 127
	add	a1, a1, a0
	add	a2, a2, a1
	addi	a1, a2, 8
	sd	a0, 0(a2)
	j	.Lm_BB0_2
.Lm_BB0_16:
	lui	a0, 1
	addi	a0, a0, -1320
	bltu	a0, s0, .Lm_BB0_1
	sd	zero, 0(s1)
	addi	a1, s1, 8
	j	.Lm_BB0_2
.Lm_func_end0:
	.size	tlsf_memory_alloc, .Lm_func_end0-tlsf_memory_alloc
	.cfi_endproc
	.hidden	tlsf_memory_dealloc
	.globl	tlsf_memory_dealloc
	.p2align	1
	.type	tlsf_memory_dealloc,@function
tlsf_memory_dealloc:
	.cfi_startproc
	ld	a0, -8(a0)
	beqz	a0, .Lm_BB1_2
	tail	free
.Lm_BB1_2:
	ret
.Lm_func_end1:
	.size	tlsf_memory_dealloc, .Lm_func_end1-tlsf_memory_dealloc
	.cfi_endproc
	.hidden	tlsf_memory_realloc
	.globl	tlsf_memory_realloc
	.p2align	1
	.type	tlsf_memory_realloc,@function
tlsf_memory_realloc:
	.cfi_startproc
	addi	sp, sp, -48
	.cfi_def_cfa_offset 48
	sd	ra, 40(sp)
	sd	s0, 32(sp)
	sd	s1, 24(sp)
	sd	s2, 16(sp)
	sd	s3, 8(sp)
	.cfi_offset ra, -8
	.cfi_offset s0, -16
	.cfi_offset s1, -24
	.cfi_offset s2, -32
	.cfi_offset s3, -40
	mv	s3, a1
	mv	s2, a0
	mv	a0, a2
	mv	a1, a3
	call	tlsf_memory_alloc
	mv	s0, a0
	mv	s1, a1
	beqz	a0, .Lm_BB2_3
	mv	a0, s1
	mv	a1, s2
	mv	a2, s3
	call	memcpy
	ld	a0, -8(s2)
	beqz	a0, .Lm_BB2_3
	call	free
.Lm_BB2_3:
	mv	a0, s0
	mv	a1, s1
	ld	ra, 40(sp)
	ld	s0, 32(sp)
	ld	s1, 24(sp)
	ld	s2, 16(sp)
	ld	s3, 8(sp)
	.cfi_restore ra
	.cfi_restore s0
	.cfi_restore s1
	.cfi_restore s2
	.cfi_restore s3
	addi	sp, sp, 48
	.cfi_def_cfa_offset 0
	ret
.Lm_func_end2:
	.size	tlsf_memory_realloc, .Lm_func_end2-tlsf_memory_realloc
	.cfi_endproc
	.hidden	tlsf_memory_set
	.weak	tlsf_memory_set
	.p2align	1
	.type	tlsf_memory_set,@function
tlsf_memory_set:
	.cfi_startproc
	tail	memset
.Lm_func_end3:
	.size	tlsf_memory_set, .Lm_func_end3-tlsf_memory_set
	.cfi_endproc
	.hidden	tlsf_memory_cpy
	.weak	tlsf_memory_cpy
	.p2align	1
	.type	tlsf_memory_cpy,@function
tlsf_memory_cpy:
	.cfi_startproc
	tail	memcpy
.Lm_func_end4:
	.size	tlsf_memory_cpy, .Lm_func_end4-tlsf_memory_cpy
	.cfi_endproc
	.hidden	tlsf_memory_move
	.weak	tlsf_memory_move
	.p2align	1
	.type	tlsf_memory_move,@function
tlsf_memory_move:
	.cfi_startproc
	tail	memmove
.Lm_func_end5:
	.size	tlsf_memory_move, .Lm_func_end5-tlsf_memory_move
	.cfi_endproc
	.globl	tlsf_bytes
	.p2align	1
	.type	tlsf_bytes,@function
tlsf_bytes:
	.cfi_startproc
	li	a2, 4
	bgeu	a1, a2, .Lm_BB6_2
	li	a0, 0
	ret
.Lm_BB6_2:
	slli	a1, a1, 32
	srli	a1, a1, 32
	bne	a0, a2, .Lm_BB6_5
	lui	a0, 256
	bltu	a0, a1, .Lm_BB6_6
.Lm_BB6_4:
	slli	a0, a1, 3
	addi	a1, a1, 63
	addi	a0, a0, 23
	srli	a1, a1, 3
	andi	a0, a0, -16
	addi	a1, a1, 16
	andi	a1, a1, -16
	add	a0, a0, a1
	addi	a0, a0, 2047
	addi	a0, a0, 736
	ret
.Lm_BB6_5:
	addi	a0, a0, -5
	seqz	a0, a0
	slli	a0, a0, 24
	bgeu	a0, a1, .Lm_BB6_4
.Lm_BB6_6:
	li	a0, 0
	ret
.Lm_func_end6:
	.size	tlsf_bytes, .Lm_func_end6-tlsf_bytes
	.cfi_endproc
	.globl	tlsf_near_bytes
	.p2align	1
	.type	tlsf_near_bytes,@function
tlsf_near_bytes:
	.cfi_startproc
	li	a2, 4
	bgeu	a1, a2, .Lm_BB7_2
	li	a0, 0
	ret
.Lm_BB7_2:
	slli	a1, a1, 32
	srli	a1, a1, 32
	bne	a0, a2, .Lm_BB7_5
	lui	a0, 256
	bltu	a0, a1, .Lm_BB7_6
.Lm_BB7_4:
	slli	a0, a1, 3
	addi	a1, a1, 63
	addi	a0, a0, 23
	srli	a1, a1, 3
	andi	a0, a0, -16
	andi	a1, a1, -8
	add	a0, a0, a1
	addi	a0, a0, 23
	ret
.Lm_BB7_5:
	addi	a0, a0, -5
	seqz	a0, a0
	slli	a0, a0, 24
	bgeu	a0, a1, .Lm_BB7_4
.Lm_BB7_6:
	li	a0, 0
	ret
.Lm_func_end7:
	.size	tlsf_near_bytes, .Lm_func_end7-tlsf_near_bytes
	.cfi_endproc
	.section	.rodata.cst8,"aM",@progbits,8
	.p2align	3, 0x0
.Lm_CPI8_0:
	.quad	283796062672454641
	.text
	.globl	tlsf_open_in
	.p2align	1
	.type	tlsf_open_in,@function
tlsf_open_in:
	.cfi_startproc
	addi	sp, sp, -112
	.cfi_def_cfa_offset 112
	sd	ra, 104(sp)
	sd	s0, 96(sp)
	sd	s1, 88(sp)
	sd	s2, 80(sp)
	sd	s3, 72(sp)
	sd	s4, 64(sp)
	sd	s5, 56(sp)
	sd	s6, 48(sp)
	sd	s7, 40(sp)
	sd	s8, 32(sp)
	sd	s9, 24(sp)
	sd	s10, 16(sp)
	sd	s11, 8(sp)
	.cfi_offset ra, -8
	.cfi_offset s0, -16
	.cfi_offset s1, -24
	.cfi_offset s2, -32
	.cfi_offset s3, -40
	.cfi_offset s4, -48
	.cfi_offset s5, -56
	.cfi_offset s6, -64
	.cfi_offset s7, -72
	.cfi_offset s8, -80
	.cfi_offset s9, -88
	.cfi_offset s10, -96
	.cfi_offset s11, -104
	mv	s11, a4
	mv	s5, a3
	mv	s2, a2
	mv	s3, a1
	mv	s4, a0
	lbu	s6, 29(a0)
	addi	s7, s6, -65
	beqz	s6, .Lm_BB8_6
	li	a0, -57
	bltu	s7, a0, .Lm_BB8_5
	addi	a0, s6, 127
	li	a2, 16
	and	a1, a0, s6
	mv	a0, s6
	bltu	a2, s6, .Lm_BB8_4
	li	a0, 16
.Lm_BB8_4:
	beqz	a1, .Lm_BB8_7
.Lm_BB8_5:
	li	a0, 0
	j	.Lm_BB8_8
.Lm_BB8_6:
	li	a0, 16
.Lm_BB8_7:
	li	a1, -32
	sub	a1, a1, s5
	remu	a0, a1, a0
.Lm_BB8_8:
	li	s8, 0
	not	a1, s5
	beqz	s5, .Lm_BB8_22
	bltu	a1, s11, .Lm_BB8_22
	bltu	s11, a0, .Lm_BB8_22
	li	a2, 4
	sub	a3, s11, a0
	bne	s3, a2, .Lm_BB8_13
	lui	a2, 256
	j	.Lm_BB8_14
.Lm_BB8_13:
	addi	a2, s3, -5
	seqz	a2, a2
	slli	a2, a2, 24
.Lm_BB8_14:
	srli	a4, a3, 4
	li	a5, 177
	bgeu	a4, a5, .Lm_BB8_16
	li	s8, 0
	j	.Lm_BB8_22
.Lm_BB8_16:
	lui	a4, 65536
	bltu	a3, a4, .Lm_BB8_18
	lui	a3, 65536
.Lm_BB8_18:
	slli	a4, a3, 3
	lui	a5, 1048571
.Lm_pcrel_hi7:
	auipc	s1, %pcrel_hi(.Lm_CPI8_0)
	addi	a5, a5, -1920
	ld	s1, %pcrel_lo(.Lm_pcrel_hi7)(s1)
	add	a4, a4, a5
	slli	a4, a4, 32
	srli	a4, a4, 32
	mulhu	a5, a4, s1
	addi	s0, a5, 71
	slli	a5, a5, 3
	addi	a5, a5, 87
.Lm_BB8_19:
	andi	s1, a5, -16
	srli	a4, s0, 3
	addi	a4, a4, 16
	andi	a4, a4, -16
	add	a4, a4, s1
	addi	a4, a4, 2047
	addi	a4, a4, 721
	addi	s0, s0, -1
	addi	a5, a5, -8
	bltu	a3, a4, .Lm_BB8_19
	addi	s8, s0, -62
	bltu	s8, a2, .Lm_BB8_22
	mv	s8, a2
.Lm_BB8_22:
	snez	a2, s5
	sltu	a1, a1, s11
	xori	a1, a1, 1
	and	s10, a2, a1
	bltu	a0, s11, .Lm_BB8_24
	mv	a0, s11
.Lm_BB8_24:
.Lm_pcrel_hi8:
	auipc	s0, %pcrel_hi(begin_behind.nothing)
	addi	s0, s0, %pcrel_lo(.Lm_pcrel_hi8)
	bnez	s10, .Lm_BB8_26
	mv	s1, s0
	j	.Lm_BB8_27
.Lm_BB8_26:
	add	s1, s5, a0
.Lm_BB8_27:
.Lm_pcrel_hi9:
	auipc	a0, %tls_gd_pcrel_hi(lent)
	addi	a0, a0, %pcrel_lo(.Lm_pcrel_hi9)
	call	__tls_get_addr
	mv	s9, a0
	sd	s1, 0(a0)
	beqz	s10, .Lm_BB8_29
	add	s0, s5, s11
.Lm_BB8_29:
.Lm_pcrel_hi10:
	auipc	a0, %tls_gd_pcrel_hi(lent_end)
	addi	a0, a0, %pcrel_lo(.Lm_pcrel_hi10)
	call	__tls_get_addr
	sd	s0, 0(a0)
.Lm_pcrel_hi11:
	auipc	a0, %tls_gd_pcrel_hi(lent_step)
	addi	a0, a0, %pcrel_lo(.Lm_pcrel_hi11)
	call	__tls_get_addr
	li	a1, 16
	sd	a1, 0(a0)
	beqz	s6, .Lm_BB8_33
	li	a0, -57
	bltu	s7, a0, .Lm_BB8_32
	addi	a0, s6, 127
	and	a0, a0, s6
	beqz	a0, .Lm_BB8_33
.Lm_BB8_32:
	li	s8, 0
.Lm_BB8_33:
	sext.w	a3, s8
	mv	a0, s4
	mv	a1, s3
	mv	a2, s2
	call	tlsf_open
	beqz	a0, .Lm_BB8_36
	addi	a1, a0, -5
	snez	a1, a1
	or	a1, a1, s10
	sd	zero, 0(s9)
	bnez	a1, .Lm_BB8_39
	li	a0, 39
	j	.Lm_BB8_39
.Lm_BB8_36:
	lbu	a1, 29(s4)
	ori	a1, a1, 16
	li	a2, 16
	beq	a1, a2, .Lm_BB8_38
	li	a1, 1
	sb	a1, 28(s4)
.Lm_BB8_38:
	sd	zero, 0(s9)
.Lm_BB8_39:
	ld	ra, 104(sp)
	ld	s0, 96(sp)
	ld	s1, 88(sp)
	ld	s2, 80(sp)
	ld	s3, 72(sp)
	ld	s4, 64(sp)
	ld	s5, 56(sp)
	ld	s6, 48(sp)
	ld	s7, 40(sp)
	ld	s8, 32(sp)
	ld	s9, 24(sp)
	ld	s10, 16(sp)
	ld	s11, 8(sp)
	.cfi_restore ra
	.cfi_restore s0
	.cfi_restore s1
	.cfi_restore s2
	.cfi_restore s3
	.cfi_restore s4
	.cfi_restore s5
	.cfi_restore s6
	.cfi_restore s7
	.cfi_restore s8
	.cfi_restore s9
	.cfi_restore s10
	.cfi_restore s11
	addi	sp, sp, 112
	.cfi_def_cfa_offset 0
	ret
.Lm_func_end8:
	.size	tlsf_open_in, .Lm_func_end8-tlsf_open_in
	.cfi_endproc
	.globl	tlsf_open_near
	.p2align	1
	.type	tlsf_open_near,@function
tlsf_open_near:
	.cfi_startproc
	addi	sp, sp, -64
	.cfi_def_cfa_offset 64
	sd	ra, 56(sp)
	sd	s0, 48(sp)
	sd	s1, 40(sp)
	sd	s2, 32(sp)
	sd	s3, 24(sp)
	sd	s4, 16(sp)
	sd	s5, 8(sp)
	sd	s6, 0(sp)
	.cfi_offset ra, -8
	.cfi_offset s0, -16
	.cfi_offset s1, -24
	.cfi_offset s2, -32
	.cfi_offset s3, -40
	.cfi_offset s4, -48
	.cfi_offset s5, -56
	.cfi_offset s6, -64
	mv	s4, a3
	mv	s2, a2
	mv	s3, a1
	neg	a1, a0
	andi	s6, a1, 63
	add	s6, s6, a0
	addi	s0, s6, 32
.Lm_pcrel_hi12:
	auipc	a0, %tls_gd_pcrel_hi(near_room)
	addi	a0, a0, %pcrel_lo(.Lm_pcrel_hi12)
	call	__tls_get_addr
	mv	s5, a0
	sd	s0, 0(a0)
.Lm_pcrel_hi13:
	auipc	a0, %tls_gd_pcrel_hi(pieces_first)
	addi	a0, a0, %pcrel_lo(.Lm_pcrel_hi13)
	call	__tls_get_addr
	li	a1, 2
	sw	a1, 0(a0)
	lbu	a1, 29(s6)
	zext.b	a0, a1
	beqz	a0, .Lm_BB9_4
	addi	a2, a1, -65
	zext.b	a2, a2
	li	a3, 199
	bltu	a2, a3, .Lm_BB9_3
	addi	a2, a1, 127
	and	a1, a1, a2
	zext.b	a1, a1
	beqz	a1, .Lm_BB9_5
.Lm_BB9_3:
	li	s0, 0
	li	s4, 0
	j	.Lm_BB9_6
.Lm_BB9_4:
	li	s0, 0
	j	.Lm_BB9_6
.Lm_BB9_5:
	addi	a0, a0, -64
	seqz	s0, a0
	slli	s0, s0, 5
.Lm_BB9_6:
.Lm_pcrel_hi14:
	auipc	a0, %tls_gd_pcrel_hi(front)
	addi	a0, a0, %pcrel_lo(.Lm_pcrel_hi14)
	call	__tls_get_addr
	mv	s1, a0
	sd	s0, 0(a0)
	mv	a0, s6
	mv	a1, s3
	mv	a2, s2
	mv	a3, s4
	call	tlsf_open
	bnez	a0, .Lm_BB9_9
	lbu	a1, 29(s6)
	ori	a1, a1, 16
	li	a2, 16
	beq	a1, a2, .Lm_BB9_9
	li	a1, 1
	sb	a1, 28(s6)
.Lm_BB9_9:
	sd	zero, 0(s1)
	sd	zero, 0(s5)
	ld	ra, 56(sp)
	ld	s0, 48(sp)
	ld	s1, 40(sp)
	ld	s2, 32(sp)
	ld	s3, 24(sp)
	ld	s4, 16(sp)
	ld	s5, 8(sp)
	ld	s6, 0(sp)
	.cfi_restore ra
	.cfi_restore s0
	.cfi_restore s1
	.cfi_restore s2
	.cfi_restore s3
	.cfi_restore s4
	.cfi_restore s5
	.cfi_restore s6
	addi	sp, sp, 64
	.cfi_def_cfa_offset 0
	ret
.Lm_func_end9:
	.size	tlsf_open_near, .Lm_func_end9-tlsf_open_near
	.cfi_endproc
	.section	.rodata.cst8,"aM",@progbits,8
	.p2align	3, 0x0
.Lm_CPI10_0:
	.quad	283796062672454641
	.text
	.globl	tlsf_open_near_in
	.p2align	1
	.type	tlsf_open_near_in,@function
tlsf_open_near_in:
	.cfi_startproc
	addi	sp, sp, -112
	.cfi_def_cfa_offset 112
	sd	ra, 104(sp)
	sd	s0, 96(sp)
	sd	s1, 88(sp)
	sd	s2, 80(sp)
	sd	s3, 72(sp)
	sd	s4, 64(sp)
	sd	s5, 56(sp)
	sd	s6, 48(sp)
	sd	s7, 40(sp)
	sd	s8, 32(sp)
	sd	s9, 24(sp)
	sd	s10, 16(sp)
	sd	s11, 8(sp)
	.cfi_offset ra, -8
	.cfi_offset s0, -16
	.cfi_offset s1, -24
	.cfi_offset s2, -32
	.cfi_offset s3, -40
	.cfi_offset s4, -48
	.cfi_offset s5, -56
	.cfi_offset s6, -64
	.cfi_offset s7, -72
	.cfi_offset s8, -80
	.cfi_offset s9, -88
	.cfi_offset s10, -96
	.cfi_offset s11, -104
	mv	s11, a4
	mv	s8, a3
	sd	a2, 0(sp)
	mv	s4, a1
	neg	a1, a0
	andi	s5, a1, 63
	add	s5, s5, a0
	addi	s0, s5, 32
.Lm_pcrel_hi15:
	auipc	a0, %tls_gd_pcrel_hi(near_room)
	addi	a0, a0, %pcrel_lo(.Lm_pcrel_hi15)
	call	__tls_get_addr
	mv	s3, a0
	sd	s0, 0(a0)
.Lm_pcrel_hi16:
	auipc	a0, %tls_gd_pcrel_hi(pieces_first)
	addi	a0, a0, %pcrel_lo(.Lm_pcrel_hi16)
	call	__tls_get_addr
	li	a1, 2
	sw	a1, 0(a0)
	lbu	s7, 29(s5)
	addi	a1, s7, -65
	beqz	s7, .Lm_BB10_6
	li	a0, -57
	mv	s2, a1
	bltu	a1, a0, .Lm_BB10_5
	addi	a0, s7, 127
	li	a2, 16
	and	a1, a0, s7
	mv	a0, s7
	bltu	a2, s7, .Lm_BB10_4
	li	a0, 16
.Lm_BB10_4:
	beqz	a1, .Lm_BB10_7
.Lm_BB10_5:
	li	a0, 0
	j	.Lm_BB10_8
.Lm_BB10_6:
	mv	s2, a1
	li	a0, 16
.Lm_BB10_7:
	li	a1, -32
	sub	a1, a1, s8
	remu	a0, a1, a0
.Lm_BB10_8:
	li	s9, 0
	not	a1, s8
	beqz	s8, .Lm_BB10_21
	bltu	a1, s11, .Lm_BB10_21
	bltu	s11, a0, .Lm_BB10_21
	li	a2, 4
	sub	a3, s11, a0
	bne	s4, a2, .Lm_BB10_19
	lui	a2, 256
	li	a4, 64
	bltu	a3, a4, .Lm_BB10_20
.Lm_BB10_13:
	lui	a4, 65536
	bltu	a3, a4, .Lm_BB10_15
	lui	a3, 65536
.Lm_BB10_15:
	slli	a4, a3, 3
.Lm_pcrel_hi17:
	auipc	a5, %pcrel_hi(.Lm_CPI10_0)
	ld	a5, %pcrel_lo(.Lm_pcrel_hi17)(a5)
	addi	a4, a4, -192
	slli	a4, a4, 32
	srli	a4, a4, 32
	mulhu	a5, a4, a5
	addi	s0, a5, 71
	slli	a5, a5, 3
	addi	a5, a5, 87
.Lm_BB10_16:
	andi	s1, a5, -16
	srli	a4, s0, 3
	andi	a4, a4, -8
	add	a4, a4, s1
	addi	a4, a4, 8
	addi	s0, s0, -1
	addi	a5, a5, -8
	bltu	a3, a4, .Lm_BB10_16
	addi	s9, s0, -62
	bltu	s9, a2, .Lm_BB10_21
	mv	s9, a2
	j	.Lm_BB10_21
.Lm_BB10_19:
	addi	a2, s4, -5
	seqz	a2, a2
	slli	a2, a2, 24
	li	a4, 64
	bgeu	a3, a4, .Lm_BB10_13
.Lm_BB10_20:
	li	s9, 0
.Lm_BB10_21:
	snez	a2, s8
	sltu	a1, a1, s11
	xori	s1, a1, 1
	and	s1, s1, a2
	bltu	a0, s11, .Lm_BB10_23
	mv	a0, s11
.Lm_BB10_23:
.Lm_pcrel_hi18:
	auipc	s6, %pcrel_hi(begin_behind.nothing)
	addi	s6, s6, %pcrel_lo(.Lm_pcrel_hi18)
	bnez	s1, .Lm_BB10_25
	mv	s0, s6
	j	.Lm_BB10_26
.Lm_BB10_25:
	add	s0, s8, a0
.Lm_BB10_26:
.Lm_pcrel_hi19:
	auipc	a0, %tls_gd_pcrel_hi(lent)
	addi	a0, a0, %pcrel_lo(.Lm_pcrel_hi19)
	call	__tls_get_addr
	mv	s10, a0
	sd	s0, 0(a0)
	beqz	s1, .Lm_BB10_28
	add	s6, s8, s11
.Lm_BB10_28:
.Lm_pcrel_hi20:
	auipc	a0, %tls_gd_pcrel_hi(lent_end)
	addi	a0, a0, %pcrel_lo(.Lm_pcrel_hi20)
	call	__tls_get_addr
	sd	s6, 0(a0)
.Lm_pcrel_hi21:
	auipc	a0, %tls_gd_pcrel_hi(lent_step)
	addi	a0, a0, %pcrel_lo(.Lm_pcrel_hi21)
	call	__tls_get_addr
	li	a1, 16
	sd	a1, 0(a0)
	beqz	s7, .Lm_BB10_32
	li	a0, -57
	bltu	s2, a0, .Lm_BB10_31
	addi	a0, s7, 127
	and	a0, a0, s7
	beqz	a0, .Lm_BB10_32
.Lm_BB10_31:
	li	s9, 0
.Lm_BB10_32:
	sext.w	a3, s9
	mv	a0, s5
	mv	a1, s4
	ld	a2, 0(sp)
	call	tlsf_open
	beqz	a0, .Lm_BB10_35
	addi	a1, a0, -5
	snez	a1, a1
	or	a1, a1, s1
	sd	zero, 0(s10)
	bnez	a1, .Lm_BB10_38
	li	a0, 39
	j	.Lm_BB10_38
.Lm_BB10_35:
	lbu	a1, 29(s5)
	ori	a1, a1, 16
	li	a2, 16
	beq	a1, a2, .Lm_BB10_37
	li	a1, 1
	sb	a1, 28(s5)
.Lm_BB10_37:
	sd	zero, 0(s10)
.Lm_BB10_38:
	sd	zero, 0(s3)
	ld	ra, 104(sp)
	ld	s0, 96(sp)
	ld	s1, 88(sp)
	ld	s2, 80(sp)
	ld	s3, 72(sp)
	ld	s4, 64(sp)
	ld	s5, 56(sp)
	ld	s6, 48(sp)
	ld	s7, 40(sp)
	ld	s8, 32(sp)
	ld	s9, 24(sp)
	ld	s10, 16(sp)
	ld	s11, 8(sp)
	.cfi_restore ra
	.cfi_restore s0
	.cfi_restore s1
	.cfi_restore s2
	.cfi_restore s3
	.cfi_restore s4
	.cfi_restore s5
	.cfi_restore s6
	.cfi_restore s7
	.cfi_restore s8
	.cfi_restore s9
	.cfi_restore s10
	.cfi_restore s11
	addi	sp, sp, 112
	.cfi_def_cfa_offset 0
	ret
.Lm_func_end10:
	.size	tlsf_open_near_in, .Lm_func_end10-tlsf_open_near_in
	.cfi_endproc
	.globl	tlsf_open_32
	.p2align	1
	.type	tlsf_open_32,@function
tlsf_open_32:
	.cfi_startproc
	addi	sp, sp, -64
	.cfi_def_cfa_offset 64
	sd	ra, 56(sp)
	sd	s0, 48(sp)
	sd	s1, 40(sp)
	sd	s2, 32(sp)
	sd	s3, 24(sp)
	sd	s4, 16(sp)
	sd	s5, 8(sp)
	.cfi_offset ra, -8
	.cfi_offset s0, -16
	.cfi_offset s1, -24
	.cfi_offset s2, -32
	.cfi_offset s3, -40
	.cfi_offset s4, -48
	.cfi_offset s5, -56
	mv	s4, a3
	mv	s2, a2
	mv	s5, a0
	lbu	a2, 29(a0)
	zext.b	a0, a2
	mv	s3, a1
	beqz	a0, .Lm_BB11_4
	addi	a1, a2, -65
	zext.b	a1, a1
	li	a3, 199
	bltu	a1, a3, .Lm_BB11_3
	addi	a1, a2, 127
	and	a1, a1, a2
	zext.b	a1, a1
	beqz	a1, .Lm_BB11_5
.Lm_BB11_3:
	li	s0, 0
	li	s4, 0
	j	.Lm_BB11_6
.Lm_BB11_4:
	li	s0, 0
	j	.Lm_BB11_6
.Lm_BB11_5:
	addi	a0, a0, -64
	seqz	s0, a0
	slli	s0, s0, 5
.Lm_BB11_6:
.Lm_pcrel_hi22:
	auipc	a0, %tls_gd_pcrel_hi(front)
	addi	a0, a0, %pcrel_lo(.Lm_pcrel_hi22)
	call	__tls_get_addr
	mv	s1, a0
	sd	s0, 0(a0)
	mv	a0, s5
	mv	a1, s3
	mv	a2, s2
	mv	a3, s4
	call	tlsf_open
	bnez	a0, .Lm_BB11_9
	lbu	a1, 29(s5)
	ori	a1, a1, 16
	li	a2, 16
	beq	a1, a2, .Lm_BB11_9
	li	a1, 1
	sb	a1, 28(s5)
.Lm_BB11_9:
	sd	zero, 0(s1)
	ld	ra, 56(sp)
	ld	s0, 48(sp)
	ld	s1, 40(sp)
	ld	s2, 32(sp)
	ld	s3, 24(sp)
	ld	s4, 16(sp)
	ld	s5, 8(sp)
	.cfi_restore ra
	.cfi_restore s0
	.cfi_restore s1
	.cfi_restore s2
	.cfi_restore s3
	.cfi_restore s4
	.cfi_restore s5
	addi	sp, sp, 64
	.cfi_def_cfa_offset 0
	ret
.Lm_func_end11:
	.size	tlsf_open_32, .Lm_func_end11-tlsf_open_32
	.cfi_endproc
	.globl	tlsf_open_in_32
	.p2align	1
	.type	tlsf_open_in_32,@function
tlsf_open_in_32:
	.cfi_startproc
	tail	tlsf_open_in
.Lm_func_end12:
	.size	tlsf_open_in_32, .Lm_func_end12-tlsf_open_in_32
	.cfi_endproc
	.globl	tlsf_open_near_2880
	.p2align	1
	.type	tlsf_open_near_2880,@function
tlsf_open_near_2880:
	.cfi_startproc
	addi	sp, sp, -64
	.cfi_def_cfa_offset 64
	sd	ra, 56(sp)
	sd	s0, 48(sp)
	sd	s1, 40(sp)
	sd	s2, 32(sp)
	sd	s3, 24(sp)
	sd	s4, 16(sp)
	sd	s5, 8(sp)
	sd	s6, 0(sp)
	.cfi_offset ra, -8
	.cfi_offset s0, -16
	.cfi_offset s1, -24
	.cfi_offset s2, -32
	.cfi_offset s3, -40
	.cfi_offset s4, -48
	.cfi_offset s5, -56
	.cfi_offset s6, -64
	mv	s4, a3
	mv	s2, a2
	mv	s3, a1
	neg	a1, a0
	andi	s6, a1, 63
	add	s6, s6, a0
	addi	s0, s6, 32
.Lm_pcrel_hi23:
	auipc	a0, %tls_gd_pcrel_hi(near_room)
	addi	a0, a0, %pcrel_lo(.Lm_pcrel_hi23)
	call	__tls_get_addr
	mv	s5, a0
	sd	s0, 0(a0)
.Lm_pcrel_hi24:
	auipc	a0, %tls_gd_pcrel_hi(pieces_first)
	addi	a0, a0, %pcrel_lo(.Lm_pcrel_hi24)
	call	__tls_get_addr
	li	a1, 2
	sw	a1, 0(a0)
	lbu	a1, 29(s6)
	zext.b	a0, a1
	beqz	a0, .Lm_BB13_4
	addi	a2, a1, -65
	zext.b	a2, a2
	li	a3, 199
	bltu	a2, a3, .Lm_BB13_3
	addi	a2, a1, 127
	and	a1, a1, a2
	zext.b	a1, a1
	beqz	a1, .Lm_BB13_5
.Lm_BB13_3:
	li	s0, 0
	li	s4, 0
	j	.Lm_BB13_6
.Lm_BB13_4:
	li	s0, 0
	j	.Lm_BB13_6
.Lm_BB13_5:
	addi	a0, a0, -64
	seqz	s0, a0
	slli	s0, s0, 5
.Lm_BB13_6:
.Lm_pcrel_hi25:
	auipc	a0, %tls_gd_pcrel_hi(front)
	addi	a0, a0, %pcrel_lo(.Lm_pcrel_hi25)
	call	__tls_get_addr
	mv	s1, a0
	sd	s0, 0(a0)
	mv	a0, s6
	mv	a1, s3
	mv	a2, s2
	mv	a3, s4
	call	tlsf_open
	bnez	a0, .Lm_BB13_9
	lbu	a1, 29(s6)
	ori	a1, a1, 16
	li	a2, 16
	beq	a1, a2, .Lm_BB13_9
	li	a1, 1
	sb	a1, 28(s6)
.Lm_BB13_9:
	sd	zero, 0(s1)
	sd	zero, 0(s5)
	ld	ra, 56(sp)
	ld	s0, 48(sp)
	ld	s1, 40(sp)
	ld	s2, 32(sp)
	ld	s3, 24(sp)
	ld	s4, 16(sp)
	ld	s5, 8(sp)
	ld	s6, 0(sp)
	.cfi_restore ra
	.cfi_restore s0
	.cfi_restore s1
	.cfi_restore s2
	.cfi_restore s3
	.cfi_restore s4
	.cfi_restore s5
	.cfi_restore s6
	addi	sp, sp, 64
	.cfi_def_cfa_offset 0
	ret
.Lm_func_end13:
	.size	tlsf_open_near_2880, .Lm_func_end13-tlsf_open_near_2880
	.cfi_endproc
	.globl	tlsf_open_near_in_2880
	.p2align	1
	.type	tlsf_open_near_in_2880,@function
tlsf_open_near_in_2880:
	.cfi_startproc
	tail	tlsf_open_near_in
.Lm_func_end14:
	.size	tlsf_open_near_in_2880, .Lm_func_end14-tlsf_open_near_in_2880
	.cfi_endproc
	.globl	tlsf_lane_bytes
	.p2align	1
	.type	tlsf_lane_bytes,@function
tlsf_lane_bytes:
	.cfi_startproc
	addiw	a1, a0, -1025
	li	a2, -1024
	bgeu	a1, a2, .Lm_BB15_2
	li	a0, 0
	ret
.Lm_BB15_2:
	slli	a1, a0, 3
	slli	a0, a0, 4
	add	a0, a0, a1
	lui	a1, 32
	addi	a0, a0, 135
	addi	a1, a1, -128
	and	a0, a0, a1
	addi	a0, a0, 895
	ret
.Lm_func_end15:
	.size	tlsf_lane_bytes, .Lm_func_end15-tlsf_lane_bytes
	.cfi_endproc
	.globl	tlsf_lane_open_in
	.p2align	1
	.type	tlsf_lane_open_in,@function
tlsf_lane_open_in:
	.cfi_startproc
	addi	sp, sp, -80
	.cfi_def_cfa_offset 80
	sd	ra, 72(sp)
	sd	s0, 64(sp)
	sd	s1, 56(sp)
	sd	s2, 48(sp)
	sd	s3, 40(sp)
	sd	s4, 32(sp)
	sd	s5, 24(sp)
	sd	s6, 16(sp)
	sd	s7, 8(sp)
	sd	s8, 0(sp)
	.cfi_offset ra, -8
	.cfi_offset s0, -16
	.cfi_offset s1, -24
	.cfi_offset s2, -32
	.cfi_offset s3, -40
	.cfi_offset s4, -48
	.cfi_offset s5, -56
	.cfi_offset s6, -64
	.cfi_offset s7, -72
	.cfi_offset s8, -80
	mv	s7, a4
	mv	s8, a3
	mv	s4, a2
	mv	s2, a1
	li	a1, 1025
	mv	s3, a0
	bgeu	a2, a1, .Lm_BB16_2
	slli	a0, s4, 3
	slli	a2, s4, 4
	lui	a3, 32
	neg	a4, s8
	seqz	a5, s8
	not	a1, s8
	add	a2, a2, a0
	addi	a3, a3, -128
	andi	a0, a4, 127
	sltu	a4, a1, s7
	addi	a2, a2, 135
	or	a4, a4, a5
	sltu	a5, s7, a0
	and	a2, a2, a3
	or	a4, a4, a5
	addi	a2, a2, 768
	sub	a3, s7, a0
	sltu	a2, a3, a2
	or	a2, a2, a4
	addiw	a2, a2, -1
	and	s4, a2, s4
	j	.Lm_BB16_3
.Lm_BB16_2:
	neg	a0, s8
	andi	a0, a0, 127
	not	a1, s8
.Lm_BB16_3:
	snez	a2, s8
	sltu	a1, a1, s7
	xori	a1, a1, 1
	and	s6, a2, a1
	bltu	a0, s7, .Lm_BB16_5
	mv	a0, s7
.Lm_BB16_5:
.Lm_pcrel_hi26:
	auipc	s1, %pcrel_hi(begin_behind.nothing)
	addi	s1, s1, %pcrel_lo(.Lm_pcrel_hi26)
	bnez	s6, .Lm_BB16_7
	mv	s0, s1
	j	.Lm_BB16_8
.Lm_BB16_7:
	add	s0, s8, a0
.Lm_BB16_8:
.Lm_pcrel_hi27:
	auipc	a0, %tls_gd_pcrel_hi(lent)
	addi	a0, a0, %pcrel_lo(.Lm_pcrel_hi27)
	call	__tls_get_addr
	mv	s5, a0
	sd	s0, 0(a0)
	beqz	s6, .Lm_BB16_10
	add	s1, s8, s7
.Lm_BB16_10:
.Lm_pcrel_hi28:
	auipc	a0, %tls_gd_pcrel_hi(lent_end)
	addi	a0, a0, %pcrel_lo(.Lm_pcrel_hi28)
	call	__tls_get_addr
	sd	s1, 0(a0)
.Lm_pcrel_hi29:
	auipc	a0, %tls_gd_pcrel_hi(lent_step)
	addi	a0, a0, %pcrel_lo(.Lm_pcrel_hi29)
	call	__tls_get_addr
	li	a1, 128
	sd	a1, 0(a0)
	mv	a0, s3
	mv	a1, s2
	mv	a2, s4
	call	tlsf_lane_open
	addi	a1, a0, -5
	snez	a1, a1
	or	a1, s6, a1
	sd	zero, 0(s5)
	bnez	a1, .Lm_BB16_12
	li	a0, 39
.Lm_BB16_12:
	ld	ra, 72(sp)
	ld	s0, 64(sp)
	ld	s1, 56(sp)
	ld	s2, 48(sp)
	ld	s3, 40(sp)
	ld	s4, 32(sp)
	ld	s5, 24(sp)
	ld	s6, 16(sp)
	ld	s7, 8(sp)
	ld	s8, 0(sp)
	.cfi_restore ra
	.cfi_restore s0
	.cfi_restore s1
	.cfi_restore s2
	.cfi_restore s3
	.cfi_restore s4
	.cfi_restore s5
	.cfi_restore s6
	.cfi_restore s7
	.cfi_restore s8
	addi	sp, sp, 80
	.cfi_def_cfa_offset 0
	ret
.Lm_func_end16:
	.size	tlsf_lane_open_in, .Lm_func_end16-tlsf_lane_open_in
	.cfi_endproc
	.globl	tlsf_queue_bytes
	.p2align	1
	.type	tlsf_queue_bytes,@function
tlsf_queue_bytes:
	.cfi_startproc
	li	a2, 1024
	subw	a3, a2, a0
	subw	a4, a2, a1
	or	a3, a3, a4
	bgeu	a3, a2, .Lm_BB17_2
	slli	a2, a0, 4
	li	a3, 1
	slli	a4, a1, 3
	slli	a1, a1, 5
	addi	a2, a2, 135
	slli	a5, a3, 36
	addi	a1, a1, 135
	addi	a5, a5, -128
	and	a2, a2, a5
	slli	a5, a3, 37
	addi	a5, a5, -128
	and	a1, a1, a5
	slli	a5, a0, 3
	slli	a0, a0, 7
	addi	a4, a4, 519
	slli	a3, a3, 35
	addi	a5, a5, 135
	addi	a3, a3, -128
	and	a4, a4, a3
	and	a3, a3, a5
	add	a1, a1, a4
	add	a0, a0, a2
	slli	a1, a1, 1
	add	a0, a0, a3
	add	a0, a0, a1
	addi	a0, a0, 383
	ret
.Lm_BB17_2:
	li	a0, 0
	ret
.Lm_func_end17:
	.size	tlsf_queue_bytes, .Lm_func_end17-tlsf_queue_bytes
	.cfi_endproc
	.globl	tlsf_queue_open_in
	.p2align	1
	.type	tlsf_queue_open_in,@function
tlsf_queue_open_in:
	.cfi_startproc
	addi	sp, sp, -80
	.cfi_def_cfa_offset 80
	sd	ra, 72(sp)
	sd	s0, 64(sp)
	sd	s1, 56(sp)
	sd	s2, 48(sp)
	sd	s3, 40(sp)
	sd	s4, 32(sp)
	sd	s5, 24(sp)
	sd	s6, 16(sp)
	sd	s7, 8(sp)
	sd	s8, 0(sp)
	.cfi_offset ra, -8
	.cfi_offset s0, -16
	.cfi_offset s1, -24
	.cfi_offset s2, -32
	.cfi_offset s3, -40
	.cfi_offset s4, -48
	.cfi_offset s5, -56
	.cfi_offset s6, -64
	.cfi_offset s7, -72
	.cfi_offset s8, -80
	mv	s5, a4
	mv	s6, a3
	mv	s4, a2
	mv	s3, a1
	li	a1, 1024
	mv	s2, a0
	bltu	a1, s3, .Lm_BB18_3
	li	a0, 1025
	bgeu	s4, a0, .Lm_BB18_3
	slli	a0, s3, 4
	lui	a1, 16
	slli	a2, s4, 3
	lui	a3, 8
	slli	a4, s4, 5
	lui	a5, 32
	slli	s1, s3, 3
	addi	a0, a0, 135
	addi	a1, a1, -128
	and	s0, a0, a1
	seqz	a0, s6
	addi	a1, a4, 135
	addi	a4, a5, -128
	and	a4, a4, a1
	not	a1, s6
	addi	a2, a2, 519
	addi	a3, a3, -128
	addi	a5, s1, 135
	and	a2, a2, a3
	and	a3, a3, a5
	sltu	a5, a1, s5
	or	a5, a5, a0
	slli	s1, s3, 7
	add	a2, a2, a4
	neg	a0, s6
	andi	a0, a0, 127
	add	s0, s0, s1
	sltu	a4, s5, a0
	or	a4, a4, a5
	slli	a2, a2, 1
	add	a3, a3, s0
	add	a2, a2, a3
	addi	a2, a2, 256
	sub	a3, s5, a0
	sltu	a2, a3, a2
	or	a2, a2, a4
	addiw	a2, a2, -1
	and	s4, a2, s4
	j	.Lm_BB18_4
.Lm_BB18_3:
	neg	a0, s6
	andi	a0, a0, 127
	not	a1, s6
.Lm_BB18_4:
	snez	a2, s6
	sltu	a1, a1, s5
	xori	a1, a1, 1
	and	s7, a2, a1
	bltu	a0, s5, .Lm_BB18_6
	mv	a0, s5
.Lm_BB18_6:
.Lm_pcrel_hi30:
	auipc	s1, %pcrel_hi(begin_behind.nothing)
	addi	s1, s1, %pcrel_lo(.Lm_pcrel_hi30)
	bnez	s7, .Lm_BB18_8
	mv	s0, s1
	j	.Lm_BB18_9
.Lm_BB18_8:
	add	s0, s6, a0
.Lm_BB18_9:
.Lm_pcrel_hi31:
	auipc	a0, %tls_gd_pcrel_hi(lent)
	addi	a0, a0, %pcrel_lo(.Lm_pcrel_hi31)
	call	__tls_get_addr
	mv	s8, a0
	sd	s0, 0(a0)
	beqz	s7, .Lm_BB18_11
	add	s1, s6, s5
.Lm_BB18_11:
.Lm_pcrel_hi32:
	auipc	a0, %tls_gd_pcrel_hi(lent_end)
	addi	a0, a0, %pcrel_lo(.Lm_pcrel_hi32)
	call	__tls_get_addr
	sd	s1, 0(a0)
.Lm_pcrel_hi33:
	auipc	a0, %tls_gd_pcrel_hi(lent_step)
	addi	a0, a0, %pcrel_lo(.Lm_pcrel_hi33)
	call	__tls_get_addr
	li	a1, 128
	sd	a1, 0(a0)
	mv	a0, s2
	mv	a1, s3
	mv	a2, s4
	call	tlsf_queue_open
	addi	a1, a0, -5
	snez	a1, a1
	or	a1, s7, a1
	sd	zero, 0(s8)
	bnez	a1, .Lm_BB18_13
	li	a0, 39
.Lm_BB18_13:
	ld	ra, 72(sp)
	ld	s0, 64(sp)
	ld	s1, 56(sp)
	ld	s2, 48(sp)
	ld	s3, 40(sp)
	ld	s4, 32(sp)
	ld	s5, 24(sp)
	ld	s6, 16(sp)
	ld	s7, 8(sp)
	ld	s8, 0(sp)
	.cfi_restore ra
	.cfi_restore s0
	.cfi_restore s1
	.cfi_restore s2
	.cfi_restore s3
	.cfi_restore s4
	.cfi_restore s5
	.cfi_restore s6
	.cfi_restore s7
	.cfi_restore s8
	addi	sp, sp, 80
	.cfi_def_cfa_offset 0
	ret
.Lm_func_end18:
	.size	tlsf_queue_open_in, .Lm_func_end18-tlsf_queue_open_in
	.cfi_endproc
	.globl	tlsf_offsets_bytes
	.p2align	1
	.type	tlsf_offsets_bytes,@function
tlsf_offsets_bytes:
	.cfi_startproc
	li	a2, 4
	bgeu	a1, a2, .Lm_BB19_2
	li	a0, 0
	ret
.Lm_BB19_2:
	slli	a1, a1, 32
	srli	a1, a1, 32
	bne	a0, a2, .Lm_BB19_5
	lui	a0, 256
	bltu	a0, a1, .Lm_BB19_6
.Lm_BB19_4:
	slli	a0, a1, 3
	lui	a2, 131072
	addi	a1, a1, 63
	addi	a0, a0, 23
	addi	a2, a2, -16
	and	a0, a0, a2
	lui	a2, 4096
	srli	a1, a1, 3
	addi	a1, a1, 16
	addi	a2, a2, -16
	and	a1, a1, a2
	add	a0, a0, a1
	addi	a0, a0, 2047
	addi	a0, a0, 736
	ret
.Lm_BB19_5:
	addi	a0, a0, -5
	seqz	a0, a0
	slli	a0, a0, 24
	bgeu	a0, a1, .Lm_BB19_4
.Lm_BB19_6:
	li	a0, 0
	ret
.Lm_func_end19:
	.size	tlsf_offsets_bytes, .Lm_func_end19-tlsf_offsets_bytes
	.cfi_endproc
	.globl	tlsf_offsets_open_in
	.p2align	1
	.type	tlsf_offsets_open_in,@function
tlsf_offsets_open_in:
	.cfi_startproc
	addi	sp, sp, -96
	.cfi_def_cfa_offset 96
	sd	ra, 88(sp)
	sd	s0, 80(sp)
	sd	s1, 72(sp)
	sd	s2, 64(sp)
	sd	s3, 56(sp)
	sd	s4, 48(sp)
	sd	s5, 40(sp)
	sd	s6, 32(sp)
	sd	s7, 24(sp)
	sd	s8, 16(sp)
	sd	s9, 8(sp)
	sd	s10, 0(sp)
	.cfi_offset ra, -8
	.cfi_offset s0, -16
	.cfi_offset s1, -24
	.cfi_offset s2, -32
	.cfi_offset s3, -40
	.cfi_offset s4, -48
	.cfi_offset s5, -56
	.cfi_offset s6, -64
	.cfi_offset s7, -72
	.cfi_offset s8, -80
	.cfi_offset s9, -88
	.cfi_offset s10, -96
	mv	s7, a6
	mv	s8, a5
	mv	s6, a4
	mv	s2, a3
	mv	s3, a2
	mv	s5, a1
	mv	s4, a0
	slli	a0, a4, 32
	li	a1, 4
	srli	a0, a0, 32
	bne	s5, a1, .Lm_BB20_3
	lui	a1, 256
	bltu	a1, a0, .Lm_BB20_4
.Lm_BB20_2:
	slli	a2, a0, 3
	lui	a3, 131072
	addi	a0, a0, 63
	lui	a4, 4096
	seqz	a5, s8
	not	a1, s8
	addi	a2, a2, 23
	addi	a3, a3, -16
	and	a2, a2, a3
	sltu	a3, a1, s7
	or	a3, a3, a5
	neg	a5, s8
	srli	s1, a0, 3
	addi	a4, a4, -16
	andi	a0, a5, 15
	addi	s1, s1, 16
	and	a4, a4, s1
	sltu	a5, s7, a0
	or	a3, a3, a5
	add	a2, a2, a4
	addi	a2, a2, 2047
	addi	a2, a2, 721
	sub	a4, s7, a0
	sltu	a2, a4, a2
	or	a2, a2, a3
	addiw	a2, a2, -1
	and	s6, a2, s6
	j	.Lm_BB20_5
.Lm_BB20_3:
	addi	a1, s5, -5
	seqz	a1, a1
	slli	a1, a1, 24
	bgeu	a1, a0, .Lm_BB20_2
.Lm_BB20_4:
	neg	a0, s8
	andi	a0, a0, 15
	not	a1, s8
.Lm_BB20_5:
	snez	a2, s8
	sltu	a1, a1, s7
	xori	a1, a1, 1
	and	s9, a2, a1
	bltu	a0, s7, .Lm_BB20_7
	mv	a0, s7
.Lm_BB20_7:
.Lm_pcrel_hi34:
	auipc	s0, %pcrel_hi(begin_behind.nothing)
	addi	s0, s0, %pcrel_lo(.Lm_pcrel_hi34)
	bnez	s9, .Lm_BB20_9
	mv	s1, s0
	j	.Lm_BB20_10
.Lm_BB20_9:
	add	s1, s8, a0
.Lm_BB20_10:
.Lm_pcrel_hi35:
	auipc	a0, %tls_gd_pcrel_hi(lent)
	addi	a0, a0, %pcrel_lo(.Lm_pcrel_hi35)
	call	__tls_get_addr
	mv	s10, a0
	sd	s1, 0(a0)
	beqz	s9, .Lm_BB20_12
	add	s0, s8, s7
.Lm_BB20_12:
.Lm_pcrel_hi36:
	auipc	a0, %tls_gd_pcrel_hi(lent_end)
	addi	a0, a0, %pcrel_lo(.Lm_pcrel_hi36)
	call	__tls_get_addr
	sd	s0, 0(a0)
.Lm_pcrel_hi37:
	auipc	a0, %tls_gd_pcrel_hi(lent_step)
	addi	a0, a0, %pcrel_lo(.Lm_pcrel_hi37)
	call	__tls_get_addr
	li	a1, 16
	sd	a1, 0(a0)
	mv	a0, s4
	mv	a1, s5
	mv	a2, s3
	mv	a3, s2
	mv	a4, s6
	call	tlsf_offsets_open
	addi	a1, a0, -5
	snez	a1, a1
	or	a1, s9, a1
	sd	zero, 0(s10)
	bnez	a1, .Lm_BB20_14
	li	a0, 39
.Lm_BB20_14:
	ld	ra, 88(sp)
	ld	s0, 80(sp)
	ld	s1, 72(sp)
	ld	s2, 64(sp)
	ld	s3, 56(sp)
	ld	s4, 48(sp)
	ld	s5, 40(sp)
	ld	s6, 32(sp)
	ld	s7, 24(sp)
	ld	s8, 16(sp)
	ld	s9, 8(sp)
	ld	s10, 0(sp)
	.cfi_restore ra
	.cfi_restore s0
	.cfi_restore s1
	.cfi_restore s2
	.cfi_restore s3
	.cfi_restore s4
	.cfi_restore s5
	.cfi_restore s6
	.cfi_restore s7
	.cfi_restore s8
	.cfi_restore s9
	.cfi_restore s10
	addi	sp, sp, 96
	.cfi_def_cfa_offset 0
	ret
.Lm_func_end20:
	.size	tlsf_offsets_open_in, .Lm_func_end20-tlsf_offsets_open_in
	.cfi_endproc
	.globl	tlsf_pools_bytes
	.p2align	1
	.type	tlsf_pools_bytes,@function
tlsf_pools_bytes:
	.cfi_startproc
	addi	sp, sp, -32
	.cfi_def_cfa_offset 32
	sd	ra, 24(sp)
	sd	s0, 16(sp)
	.cfi_offset ra, -8
	.cfi_offset s0, -16
	mv	s0, a2
	sd	zero, 8(sp)
	sw	zero, 4(sp)
	addi	a3, sp, 8
	addi	a4, sp, 4
	call	tlsf_pools_words
	mv	a1, a0
	li	a0, 0
	bnez	a1, .Lm_BB21_2
	ld	a0, 8(sp)
	lwu	a1, 4(sp)
	lui	a2, 1
	slli	a3, s0, 2
	slli	s0, s0, 3
	addi	a2, a2, -1313
	add	a3, a3, s0
	addi	a4, a2, 9
	mul	a4, a1, a4
	slli	a5, a0, 3
	srli	a0, a0, 3
	slli	s0, a1, 4
	slli	a1, a1, 6
	addi	a4, a4, 23
	andi	a0, a0, -8
	add	a1, a1, s0
	add	a3, a3, a5
	andi	a4, a4, -16
	add	a0, a0, a3
	add	a0, a0, a1
	add	a2, a2, a4
	add	a0, a0, a2
.Lm_BB21_2:
	ld	ra, 24(sp)
	ld	s0, 16(sp)
	.cfi_restore ra
	.cfi_restore s0
	addi	sp, sp, 32
	.cfi_def_cfa_offset 0
	ret
.Lm_func_end21:
	.size	tlsf_pools_bytes, .Lm_func_end21-tlsf_pools_bytes
	.cfi_endproc
	.globl	tlsf_pools_open_in
	.p2align	1
	.type	tlsf_pools_open_in,@function
tlsf_pools_open_in:
	.cfi_startproc
	addi	sp, sp, -96
	.cfi_def_cfa_offset 96
	sd	ra, 88(sp)
	sd	s0, 80(sp)
	sd	s1, 72(sp)
	sd	s2, 64(sp)
	sd	s3, 56(sp)
	sd	s4, 48(sp)
	sd	s5, 40(sp)
	sd	s6, 32(sp)
	sd	s7, 24(sp)
	sd	s8, 16(sp)
	sd	s9, 8(sp)
	sd	s10, 0(sp)
	.cfi_offset ra, -8
	.cfi_offset s0, -16
	.cfi_offset s1, -24
	.cfi_offset s2, -32
	.cfi_offset s3, -40
	.cfi_offset s4, -48
	.cfi_offset s5, -56
	.cfi_offset s6, -64
	.cfi_offset s7, -72
	.cfi_offset s8, -80
	.cfi_offset s9, -88
	.cfi_offset s10, -96
	mv	s0, a6
	mv	s1, a5
	mv	s2, a4
	mv	s3, a3
	mv	s4, a2
	mv	s5, a1
	mv	s6, a0
	neg	a0, a5
	snez	a1, a5
	not	a2, a5
	andi	a0, a0, 15
	sltu	a2, a2, a6
	xori	a2, a2, 1
	and	s8, a1, a2
	bltu	a0, a6, .Lm_BB22_2
	mv	a0, s0
.Lm_BB22_2:
.Lm_pcrel_hi38:
	auipc	s9, %pcrel_hi(begin_behind.nothing)
	addi	s9, s9, %pcrel_lo(.Lm_pcrel_hi38)
	bnez	s8, .Lm_BB22_4
	mv	s10, s9
	j	.Lm_BB22_5
.Lm_BB22_4:
	add	s10, s1, a0
.Lm_BB22_5:
.Lm_pcrel_hi39:
	auipc	a0, %tls_gd_pcrel_hi(lent)
	addi	a0, a0, %pcrel_lo(.Lm_pcrel_hi39)
	call	__tls_get_addr
	mv	s7, a0
	sd	s10, 0(a0)
	beqz	s8, .Lm_BB22_7
	add	s9, s1, s0
.Lm_BB22_7:
.Lm_pcrel_hi40:
	auipc	a0, %tls_gd_pcrel_hi(lent_end)
	addi	a0, a0, %pcrel_lo(.Lm_pcrel_hi40)
	call	__tls_get_addr
	sd	s9, 0(a0)
.Lm_pcrel_hi41:
	auipc	a0, %tls_gd_pcrel_hi(lent_step)
	addi	a0, a0, %pcrel_lo(.Lm_pcrel_hi41)
	call	__tls_get_addr
	li	a1, 16
	sd	a1, 0(a0)
	mv	a0, s6
	mv	a1, s5
	mv	a2, s4
	mv	a3, s3
	mv	a4, s2
	call	tlsf_pools_open
	li	a1, 6
	bne	a0, a1, .Lm_BB22_9
	li	a0, 5
.Lm_BB22_9:
	addi	a1, a0, -5
	snez	a1, a1
	or	a1, s8, a1
	sd	zero, 0(s7)
	bnez	a1, .Lm_BB22_11
	li	a0, 39
.Lm_BB22_11:
	ld	ra, 88(sp)
	ld	s0, 80(sp)
	ld	s1, 72(sp)
	ld	s2, 64(sp)
	ld	s3, 56(sp)
	ld	s4, 48(sp)
	ld	s5, 40(sp)
	ld	s6, 32(sp)
	ld	s7, 24(sp)
	ld	s8, 16(sp)
	ld	s9, 8(sp)
	ld	s10, 0(sp)
	.cfi_restore ra
	.cfi_restore s0
	.cfi_restore s1
	.cfi_restore s2
	.cfi_restore s3
	.cfi_restore s4
	.cfi_restore s5
	.cfi_restore s6
	.cfi_restore s7
	.cfi_restore s8
	.cfi_restore s9
	.cfi_restore s10
	addi	sp, sp, 96
	.cfi_def_cfa_offset 0
	ret
.Lm_func_end22:
	.size	tlsf_pools_open_in, .Lm_func_end22-tlsf_pools_open_in
	.cfi_endproc
	.globl	tlsf_next_number
	.p2align	1
	.type	tlsf_next_number,@function
tlsf_next_number:
	.cfi_startproc
.Lm_pcrel_hi42:
	auipc	a1, %pcrel_hi(tlsf_next_number.calls)
	li	a2, 1
	addi	a1, a1, %pcrel_lo(.Lm_pcrel_hi42)
	amoadd.d	a1, a2, (a1)
	slli	a2, a1, 3
	slliw	a3, a1, 3
	bne	a3, a2, .Lm_BB23_2
	mv	a1, a0
	li	a0, 0
	lui	a3, 524288
	sub	a2, a2, a3
	sw	a2, 0(a1)
	ret
.Lm_BB23_2:
	li	a0, 2
	ret
.Lm_func_end23:
	.size	tlsf_next_number, .Lm_func_end23-tlsf_next_number
	.cfi_endproc
	.type	tlsf_memory_alloc.nothing,@object
	.local	tlsf_memory_alloc.nothing
	.comm	tlsf_memory_alloc.nothing,8,8
	.type	near_room,@object
	.section	.tbss,"awT",@nobits
	.p2align	3, 0x0
near_room:
	.quad	0
	.size	near_room, 8
	.type	pieces_first,@object
	.p2align	2, 0x0
pieces_first:
	.word	0
	.size	pieces_first, 4
	.type	lent,@object
	.p2align	3, 0x0
lent:
	.quad	0
	.size	lent, 8
	.type	tlsf_next_number.calls,@object
	.local	tlsf_next_number.calls
	.comm	tlsf_next_number.calls,8,8
	.type	lent_step,@object
	.p2align	3, 0x0
lent_step:
	.quad	0
	.size	lent_step, 8
	.type	lent_end,@object
	.p2align	3, 0x0
lent_end:
	.quad	0
	.size	lent_end, 8
	.type	front,@object
	.p2align	3, 0x0
front:
	.quad	0
	.size	front, 8
	.type	begin_behind.nothing,@object
	.local	begin_behind.nothing
	.comm	begin_behind.nothing,1,1
	.ident	"clang version 22.1.8"
	.section	".note.GNU-stack","",@progbits
#endif
