# Recursion on the stack: the factorial of 10, with $ra and the argument kept in each activation record.
        .text
        .globl main
main:   addiu $sp, $sp, -4
        sw $ra, 0($sp)
        li $a0, 10
        jal factorial
        move $a0, $v0
        li $v0, 1                   # print_int
        syscall
        lw $ra, 0($sp)
        addiu $sp, $sp, 4
        jr $ra

factorial:
        li $v0, 1
        blez $a0, back
        addiu $sp, $sp, -8
        sw $ra, 4($sp)
        sw $a0, 0($sp)
        addiu $a0, $a0, -1
        jal factorial
        lw $a0, 0($sp)
        lw $ra, 4($sp)
        addiu $sp, $sp, 8
        mult $v0, $a0
        mflo $v0
back:   jr $ra
