# Services of MARS: hexadecimal, binary and unsigned numbers, random numbers by a seed, the time.
        .data
line:   .asciiz "\n"
        .text
main:   li $a0, 255
        li $v0, 34
        syscall
        jal next
        li $a0, -2
        li $v0, 34
        syscall
        jal next
        li $a0, 5
        li $v0, 35
        syscall
        jal next
        li $a0, -1
        li $v0, 36
        syscall
        jal next
        li $a0, 12
        li $v0, 36
        syscall
        jal next
        li $a0, 0
        li $a1, 42
        li $v0, 40
        syscall
        li $v0, 41
        syscall
        move $s0, $a0
        li $a0, 0
        li $a1, 42
        li $v0, 40
        syscall
        li $v0, 41
        syscall
        seq $a0, $a0, $s0
        li $v0, 1
        syscall
        jal next
        li $s1, 100
        li $s2, 1
more:   li $a0, 0
        li $a1, 6
        li $v0, 42
        syscall
        sltiu $t0, $a0, 6
        and $s2, $s2, $t0
        addi $s1, $s1, -1
        bgtz $s1, more
        move $a0, $s2
        li $v0, 1
        syscall
        jal next
        li $v0, 30
        syscall
        move $s0, $a0
        li $v0, 30
        syscall
        sgeu $a0, $a0, $s0
        li $v0, 1
        syscall
        li $v0, 10
        syscall
next:   la $a0, line
        li $v0, 4
        syscall
        jr $ra
