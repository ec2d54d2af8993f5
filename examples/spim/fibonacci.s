# Fibonacci numbers up to the n-th, where n is read.
        .data
prompt: .asciiz "How many? "
space:  .asciiz " "
        .text
        .globl main
main:
        li   $v0, 4
        la   $a0, prompt
        syscall
        li   $v0, 5
        syscall
        move $t0, $v0
        li   $t1, 0
        li   $t2, 1
loop:   blez $t0, done
        li   $v0, 1
        move $a0, $t1
        syscall
        li   $v0, 4
        la   $a0, space
        syscall
        add  $t3, $t1, $t2
        move $t1, $t2
        move $t2, $t3
        sub  $t0, $t0, 1
        b    loop
done:   li   $v0, 10
        syscall
