# Reads a line and writes it in capitals, with the number of its letters.
        .data
line:   .space 80
        .align 2
told:   .asciiz "letters: "
        .text
        .globl main
main:   la   $a0, line
        li   $a1, 80
        li   $v0, 8
        syscall
        la   $t0, line
        li   $s0, 0
next:   lb   $t1, 0($t0)
        beqz $t1, done
        blt  $t1, 'a', after
        bgt  $t1, 'z', after
        addi $t1, $t1, -32
        sb   $t1, 0($t0)
        add  $s0, $s0, 1
after:  addi $t0, $t0, 1
        b    next
done:   la   $a0, line
        li   $v0, 4
        syscall
        la   $a0, told
        syscall
        move $a0, $s0
        li   $v0, 1
        syscall
        li   $v0, 10
        syscall
