# Products, quotients and remainders without signs, hi and lo set by hand.
        .data
gap:    .asciiz " "
line:   .asciiz "\n"
        .text
main:   li $t0, -2
        li $t1, 3
        multu $t0, $t1
        mfhi $a0
        jal show
        mflo $a0
        jal show
        mult $t0, $t1
        mfhi $a0
        jal show
        mflo $a0
        jal show
        divu $t0, $t1
        mflo $a0
        jal show
        mfhi $a0
        jal show
        divu $t2, $t0, 10
        move $a0, $t2
        jal show
        remu $t2, $t0, $t1
        move $a0, $t2
        jal show
        li $t3, 77
        mthi $t3
        mtlo $t1
        mfhi $a0
        jal show
        mflo $a0
        jal show
        li $t0, 100
        li $t1, 7
        div $t0, $t1
        mfhi $a0
        jal show
        rem $a0, $t0, $t1
        jal show
        la $a0, line
        li $v0, 4
        syscall
        li $v0, 10
        syscall
show:   li $v0, 1
        syscall
        la $a0, gap
        li $v0, 4
        syscall
        jr $ra
