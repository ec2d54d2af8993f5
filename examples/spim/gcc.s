	.file	1 "sum.c"
	.section .mdebug.abi32
	.previous
	.nan	legacy
	.module	fp=32
	.section	.rodata
	.align	2
$LC0:
	.string	"sum "
	.comm	total,4,4
	.text
	.align	2
	.globl	main
	.set	nomips16
	.ent	main
	.type	main, @function
main:
	.frame	$fp,40,$31
	.mask	0xc0000000,-4
	.fmask	0x00000000,0
	addiu	$sp,$sp,-40
	sw	$31,36($sp)
	sw	$fp,32($sp)
	move	$fp,$sp
	sw	$0,24($fp)
	b	$L2
$L3:
	lw	$3,total
	lw	$2,24($fp)
	addu	$2,$3,$2
	sw	$2,total
	lw	$2,24($fp)
	addiu	$2,$2,1
	sw	$2,24($fp)
$L2:
	lw	$2,24($fp)
	slt	$2,$2,11
	bne	$2,$0,$L3
	la	$4,$LC0
	li	$2,4
	syscall
	lw	$4,total
	li	$2,1
	syscall
	move	$sp,$fp
	lw	$31,36($sp)
	lw	$fp,32($sp)
	addiu	$sp,$sp,40
	li	$2,10
	syscall
	.set	macro
	.end	main
	.size	main, .-main
	.ident	"GCC"
