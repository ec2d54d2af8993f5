# The sum and the mean of an array, whose elements are reached by label and offset.
        .data
array:  .word 3, 14, 15, 92, 65, 35
length: .word 6
sum:    .asciiz "sum: "
mean:   .asciiz "\nmean: "
        .text
        .globl main
main:   lw   $t0, length
        li   $t1, 0             # offset
        li   $t2, 0             # sum
next:   lw   $t3, array($t1)
        addu $t2, $t2, $t3
        addi $t1, $t1, 4
        sub  $t0, $t0, 1
        bgtz $t0, next
        la   $a0, sum
        li   $v0, 4
        syscall
        move $a0, $t2
        li   $v0, 1
        syscall
        la   $a0, mean
        li   $v0, 4
        syscall
        lw   $t0, length
        div  $a0, $t2, $t0
        li   $v0, 1
        syscall
        lw   $a0, array+12
        neg  $a0, $a0
        syscall
        li   $v0, 10
        syscall
