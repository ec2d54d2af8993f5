# A table of bytes: how often each of the letters a to e comes in a text.
        .data
text:   .asciiz "abracadabra"
counts: .space 5
        .text
        .globl main
main:   la $s0, text
        la $s1, counts
count:  lbu $t0, 0($s0)
        beq $t0, $zero, tell
        addiu $s0, $s0, 1
        addiu $t0, $t0, -97
        sltiu $t1, $t0, 5
        beq $t1, $zero, count
        addu $t0, $t0, $s1
        lbu $t1, 0($t0)
        addiu $t1, $t1, 1
        sb $t1, 0($t0)
        j count
tell:   addiu $s2, $s1, 5
each:   lbu $a0, 0($s1)
        li $v0, 1                   # print_int
        syscall
        li $a0, 32
        li $v0, 11                  # print_char
        syscall
        addiu $s1, $s1, 1
        bne $s1, $s2, each
        jr $ra
