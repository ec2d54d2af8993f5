# The greatest common divisor of two numbers that are read, and whether they are alike.
        .data
same:   .asciiz ", the same: "
        .text
        .globl main
main:   li   $v0, 5
        syscall
        move $s0, $v0
        li   $v0, 5
        syscall
        move $s1, $v0
        seq  $s2, $s0, $s1
divide: beqz $s1, done
        rem  $t0, $s0, $s1
        move $s0, $s1
        move $s1, $t0
        j    divide
done:   abs  $a0, $s0
        li   $v0, 1
        syscall
        li   $v0, 4
        la   $a0, same
        syscall
        move $a0, $s2
        li   $v0, 1
        syscall
        li   $v0, 10
        syscall
