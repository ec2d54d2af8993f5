# Prints the sums of the first squares, as a stack machine would.
main:
        addiu $sp, $sp, -8
        move $s0, $sp
        li $v0, 0
        sw $v0, 0($s0)
        li $v0, 0
        sw $v0, 4($s0)
L1:
        lw $v0, 0($s0)
        addiu $sp, $sp, -4
        sw $v0, 0($sp)
        li $v0, 40
        lw $v1, 0($sp)
        addiu $sp, $sp, 4
        slt $v0, $v1, $v0
        beq $v0, $zero, L2
        lw $v0, 0($s0)
        addiu $sp, $sp, -4
        sw $v0, 0($sp)
        li $v0, 1
        lw $v1, 0($sp)
        addiu $sp, $sp, 4
        addu $v0, $v1, $v0
        sw $v0, 0($s0)
        lw $v0, 4($s0)
        addiu $sp, $sp, -4
        sw $v0, 0($sp)
        lw $v0, 0($s0)
        addiu $sp, $sp, -4
        sw $v0, 0($sp)
        lw $v0, 0($s0)
        lw $v1, 0($sp)
        addiu $sp, $sp, 4
        mult $v1, $v0
        mflo $v0
        lw $v1, 0($sp)
        addiu $sp, $sp, 4
        addu $v0, $v1, $v0
        sw $v0, 4($s0)
        lw $v0, 4($s0)
        move $a0, $v0
        li $v0, 1
        syscall
        li $a0, 10
        li $v0, 11
        syscall
        beq $zero, $zero, L1
L2:
        move $sp, $s0
        addiu $sp, $sp, 8
        jr $ra
