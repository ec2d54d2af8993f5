# Prints what `tiger exec` says, and ends with the number of its bytes.
        .data
text:   .asciiz "hello from the machine\n"
        .text
        .globl main
main:   la $t0, text
        la $t1, text
count:  lbu $t2, 0($t1)             # up to the byte 0
        addiu $t1, $t1, 1
        bne $t2, $zero, count
        addu $a0, $t0, $zero
        li $v0, 4                   # print_string
        syscall
        subu $a0, $t1, $t0
        addiu $a0, $a0, -1
        li $v0, 17                  # exit2
        syscall
