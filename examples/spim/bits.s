# A number in hexadecimal, its set bits, and half words.
        .data
digits: .ascii "0123456789abcdef"
halves: .half 258, -2, 7
value:  .word 0xcafe1234
        .text
        .globl main
main:   lw   $s0, value
        li   $s1, 28
each:   srlv $t0, $s0, $s1
        and  $t0, $t0, 15
        lb   $a0, digits($t0)
        li   $v0, 11
        syscall
        sub  $s1, $s1, 4
        bgez $s1, each
        li   $s2, 0
count:  and  $t0, $s0, 1
        add  $s2, $s2, $t0
        srl  $s0, $s0, 1
        bnez $s0, count
        li   $a0, ' '
        li   $v0, 11
        syscall
        move $a0, $s2
        li   $v0, 1
        syscall
        la   $t1, halves
        lh   $a0, 2($t1)
        syscall
        lhu  $a0, 2($t1)
        syscall
        lh   $a0, halves
        not  $a0, $a0
        sh   $a0, 4($t1)
        lh   $a0, halves+4
        syscall
        li   $v0, 10
        syscall
