# Reads pairs of numbers, calls binomial on each, prints what it gives, and what wasn't put back.
        .data
grade.sp:       .word 0
grade.count:    .word 0
grade.lost:     .asciiz " registers weren't put back"
grade.stack:    .asciiz " $sp wasn't put back"
        .text
main:   sw $ra, -4($sp)
        addiu $sp, $sp, -8
grade.next:
        jal grade.number
        bltz $v0, grade.end
        move $s0, $v0
        jal grade.number
        move $a1, $v0
        move $a0, $s0
        li $s0, 1000
        li $s1, 1001
        li $s2, 1002
        li $s3, 1003
        li $s4, 1004
        li $s5, 1005
        li $s6, 1006
        li $s7, 1007
        la $t0, grade.sp
        sw $sp, 0($t0)
        li $t0, -7
        li $t1, -7
        li $t2, -7
        li $t3, -7
        jal binomial
        move $a0, $v0
        li $v0, 1
        syscall
        la $t0, grade.sp
        lw $t0, 0($t0)
        beq $t0, $sp, grade.kept
        move $sp, $t0
        la $a0, grade.stack
        li $v0, 4
        syscall
grade.kept:
        addiu $t0, $s0, -1000
        addiu $t1, $s1, -1001
        or $t0, $t0, $t1
        addiu $t1, $s2, -1002
        or $t0, $t0, $t1
        addiu $t1, $s3, -1003
        or $t0, $t0, $t1
        addiu $t1, $s4, -1004
        or $t0, $t0, $t1
        addiu $t1, $s5, -1005
        or $t0, $t0, $t1
        addiu $t1, $s6, -1006
        or $t0, $t0, $t1
        addiu $t1, $s7, -1007
        or $t0, $t0, $t1
        beq $t0, $zero, grade.line
        la $a0, grade.lost
        li $v0, 4
        syscall
grade.line:
        li $a0, 10
        li $v0, 11
        syscall
        beq $zero, $zero, grade.next
grade.end:
        addiu $sp, $sp, 8
        lw $ra, -4($sp)
        jr $ra

# $v0 = the next number of the input, -1 at its end
grade.number:
        li $t4, -1
        li $t5, 10
grade.byte:
        li $v0, 12
        syscall
        addiu $t6, $v0, -48
        sltiu $t7, $t6, 10
        beq $t7, $zero, grade.other
        bgez $t4, grade.digit
        li $t4, 0
grade.digit:
        mult $t4, $t5
        mflo $t4
        addu $t4, $t4, $t6
        beq $zero, $zero, grade.byte
grade.other:
        bgez $t4, grade.number.end
        bgez $v0, grade.byte
grade.number.end:
        move $v0, $t4
        jr $ra
