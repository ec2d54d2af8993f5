# Sorts an array in place and writes it.
        .data
list:   .word 17, 5, -92, 36, 88, 6, 0, -1
        .text
        .globl main
main:   la   $s0, list
        li   $s1, 8
outer:  li   $t0, 1             # place
        li   $s2, 0             # whether something was exchanged
inner:  bge  $t0, $s1, turned
        sll  $t1, $t0, 2
        add  $t1, $t1, $s0
        lw   $t2, -4($t1)
        lw   $t3, 0($t1)
        ble  $t2, $t3, fine
        sw   $t3, -4($t1)
        sw   $t2, 0($t1)
        li   $s2, 1
fine:   addi $t0, $t0, 1
        b    inner
turned: bnez $s2, outer
        li   $t0, 0
write:  mul  $t1, $t0, 4
        lw   $a0, list($t1)
        li   $v0, 1
        syscall
        li   $a0, ' '
        li   $v0, 11
        syscall
        add  $t0, $t0, 1
        bne  $t0, $s1, write
        li   $v0, 10
        syscall
