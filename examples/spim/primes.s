# The primes below 100 by a sieve of bytes.
        .data
marks:  .byte 0:100
        .text
        .globl main
main:   li   $t0, 2
try:    lbu  $t1, marks($t0)
        bnez $t1, skip
        move $a0, $t0
        li   $v0, 1
        syscall
        li   $a0, 10
        li   $v0, 11
        syscall
        add  $t2, $t0, $t0
strike: bgeu $t2, 100, skip
        li   $t1, 1
        sb   $t1, marks($t2)
        addu $t2, $t2, $t0
        b    strike
skip:   add  $t0, $t0, 1
        slti $t1, $t0, 100
        bnez $t1, try
        li   $v0, 10
        syscall
