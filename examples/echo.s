# Writes each byte that it reads, and ends with their number where the input ends.
        .text
        .globl main
main:   li $t0, 0                   # bytes so far
        li $t1, -1                  # what read_char answers at the end of input
loop:   li $v0, 12                  # read_char
        syscall
        beq $v0, $t1, ends
        addu $a0, $v0, $zero
        li $v0, 11                  # print_char
        syscall
        addiu $t0, $t0, 1
        j loop
ends:   addu $a0, $t0, $zero
        li $v0, 17                  # exit2
        syscall
