# Reads numbers up to a 0, and tells their count, the least and the greatest.
        .data
count:  .word 0
least:  .word 0x7fffffff
most:   .word 0x80000000
text:   .asciiz "count, least, greatest:"
        .text
        .globl main
main:
read:   li $v0, 5
        syscall
        beqz $v0, tell
        lw $t0, count
        add $t0, $t0, 1
        sw $t0, count
        lw $t1, least
        bge $v0, $t1, high
        sw $v0, least
high:   lw $t1, most
        ble $v0, $t1, read
        sw $v0, most
        b read
tell:   la $a0, text
        li $v0, 4
        syscall
        la $s0, count
        li $s1, 3
each:   li $a0, 32
        li $v0, 11
        syscall
        lw $a0, 0($s0)
        li $v0, 1
        syscall
        addu $s0, $s0, 4
        subu $s1, $s1, 1
        bnez $s1, each
        jr $ra
