# Turns by a register, counts of the bits in front, moves by a condition, calls by a branch; two items on a line.
        .data
gap:    .asciiz " "
        .text
main:   addiu $sp, $sp, -4; sw $ra, 0($sp)
        li $t0, 0x80000001
        li $t1, 4
        rol $a0, $t0, $t1
        jal show
        ror $a0, $t0, $t1
        jal show
        rol $a0, $t0, 1
        jal show
        clz $a0, $t1
        jal show
        clz $a0, $zero
        jal show
        clo $a0, $t0
        jal show
        li $a0, 5
        movz $a0, $t1, $zero
        jal show
        li $a0, 5
        movn $a0, $t1, $zero
        jal show
        li $a0, 9
        bgezal $t1, show
        li $a0, 8
        bltzal $t0, show
        li $a0, 7
        bltzal $t1, show
        lw $ra, 0($sp); addiu $sp, $sp, 4
        li $v0, 10; syscall
show:   li $v0, 1; syscall
        la $a0, gap
        li $v0, 4
        syscall
        jr $ra
