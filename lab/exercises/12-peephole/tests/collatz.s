# Prints how long the ways down to 1 are, as a stack machine would.
main:
        addiu $sp, $sp, -12
        move $s0, $sp
        li $v0, 1
        sw $v0, 0($s0)
L1:
        lw $v0, 0($s0)
        addiu $sp, $sp, -4
        sw $v0, 0($sp)
        li $v0, 30
        lw $v1, 0($sp)
        addiu $sp, $sp, 4
        slt $v0, $v1, $v0
        beq $v0, $zero, L2
        lw $v0, 0($s0)
        sw $v0, 4($s0)
        li $v0, 0
        sw $v0, 8($s0)
L3:
        li $v0, 1
        addiu $sp, $sp, -4
        sw $v0, 0($sp)
        lw $v0, 4($s0)
        lw $v1, 0($sp)
        addiu $sp, $sp, 4
        slt $v0, $v1, $v0
        beq $v0, $zero, L4
        lw $v0, 4($s0)
        addiu $sp, $sp, -4
        sw $v0, 0($sp)
        li $v0, 2
        lw $v1, 0($sp)
        addiu $sp, $sp, 4
        div $v1, $v0
        mfhi $v0
        beq $v0, $zero, L5
        li $v0, 3
        addiu $sp, $sp, -4
        sw $v0, 0($sp)
        lw $v0, 4($s0)
        lw $v1, 0($sp)
        addiu $sp, $sp, 4
        mult $v1, $v0
        mflo $v0
        addiu $sp, $sp, -4
        sw $v0, 0($sp)
        li $v0, 1
        lw $v1, 0($sp)
        addiu $sp, $sp, 4
        addu $v0, $v1, $v0
        sw $v0, 4($s0)
        j L6
L5:
        lw $v0, 4($s0)
        addiu $sp, $sp, -4
        sw $v0, 0($sp)
        li $v0, 2
        lw $v1, 0($sp)
        addiu $sp, $sp, 4
        div $v1, $v0
        mflo $v0
        sw $v0, 4($s0)
L6:
        lw $v0, 8($s0)
        addiu $sp, $sp, -4
        sw $v0, 0($sp)
        li $v0, 1
        lw $v1, 0($sp)
        addiu $sp, $sp, 4
        addu $v0, $v1, $v0
        sw $v0, 8($s0)
        beq $zero, $zero, L3
L4:
        lw $v0, 8($s0)
        move $a0, $v0
        li $v0, 1
        syscall
        li $a0, 32
        li $v0, 11
        syscall
        lw $v0, 0($s0)
        addiu $sp, $sp, -4
        sw $v0, 0($sp)
        li $v0, 1
        lw $v1, 0($sp)
        addiu $sp, $sp, 4
        addu $v0, $v1, $v0
        sw $v0, 0($s0)
        beq $zero, $zero, L1
L2:
        li $a0, 10
        li $v0, 11
        syscall
        move $sp, $s0
        addiu $sp, $sp, 12
        jr $ra
