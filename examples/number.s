# Reads an int by service 12, up to the first byte that is no digit, and prints its double.
        .text
        .globl main
main:   li $t0, 0                   # the number so far
        li $t1, 0                   # whether a `-` came first
        li $v0, 12                  # read_char
        syscall
        li $t2, 45
        bne $v0, $t2, digit
        li $t1, 1
next:   li $v0, 12
        syscall
digit:  addiu $t3, $v0, -48         # -1 at the end of input is no digit either
        sltiu $t4, $t3, 10
        beq $t4, $zero, sign
        li $t5, 10
        mult $t0, $t5
        mflo $t0
        addu $t0, $t0, $t3
        j next
sign:   beq $t1, $zero, print
        subu $t0, $zero, $t0
print:  addu $a0, $t0, $t0
        li $v0, 1                   # print_int
        syscall
        li $a0, 10
        li $v0, 11                  # print_char
        syscall
        jr $ra
