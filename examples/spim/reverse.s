# Reads a line and writes it backwards.
        .data
buffer: .space 64
        .text
        .globl main
main:   li $v0, 8
        la $a0, buffer
        li $a1, 64
        syscall
        li $t0, 0
length: lb $t1, buffer($t0)
        beqz $t1, turn
        beq $t1, 10, turn
        addiu $t0, $t0, 1
        j length
turn:   beqz $t0, done
        addi $t0, $t0, -1
        lb $a0, buffer($t0)
        li $v0, 11
        syscall
        b turn
done:   li $a0, 10
        li $v0, 11
        syscall
        li $v0, 10
        syscall
