# A switch by a table of addresses.
        .data
table:  .word zero, one, two, other
names:  .asciiz "zero\n"
        .asciiz "one\n"
        .asciiz "two\n"
many:   .asciiz "many\n"
        .text
        .globl main
main:   li   $s0, 0
again:  move $t0, $s0
        ble  $t0, 3, look
        li   $t0, 3
look:   sll  $t0, $t0, 2
        lw   $t1, table($t0)
        jr   $t1
zero:   la   $a0, names
        b    tell
one:    la   $a0, names+6
        b    tell
two:    la   $a0, names+11
        b    tell
other:  la   $a0, many
tell:   li   $v0, 4
        syscall
        addi $s0, $s0, 1
        blt  $s0, 5, again
        li   $v0, 10
        syscall
