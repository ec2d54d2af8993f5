# The factorial of a number that is read, by recursion.
        .data
ask:    .asciiz "Enter a number: "
answer: .asciiz "Its factorial is "
newline: .asciiz "\n"
number: .word 0
        .text
main:   la $a0, ask
        li $v0, 4
        syscall
        li $v0, 5
        syscall
        sw $v0, number
        lw $a0, number
        jal factorial
        move $s0, $v0
        la $a0, answer
        li $v0, 4
        syscall
        move $a0, $s0
        li $v0, 1
        syscall
        la $a0, newline
        li $v0, 4
        syscall
        li $v0, 10
        syscall

factorial:
        subu $sp, $sp, 8
        sw $ra, ($sp)
        sw $s0, 4($sp)
        li $v0, 1
        beq $a0, 0, return
        move $s0, $a0
        sub $a0, $a0, 1
        jal factorial
        mul $v0, $s0, $v0
return: lw $ra, ($sp)
        lw $s0, 4($sp)
        addu $sp, $sp, 8
        jr $ra
