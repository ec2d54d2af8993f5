# Words and halves at any address; statics at an address that is given; a store at the first stack pointer.
        .data 0x10010000
bytes:  .byte 1, 2, 3, 4, 5, 255, 254, 8, 9
gap:    .asciiz " "
        .data 0x10010040
far:    .word 0x01020304
        .text
main:   sw $ra, 0($sp)
        la $s0, bytes
        ulw $a0, 1($s0)
        jal show
        ulh $a0, 5($s0)
        jal show
        ulhu $a0, 5($s0)
        jal show
        lw $t0, far
        usw $t0, 3($s0)
        lbu $a0, 6($s0)
        jal show
        ush $t0, bytes+1
        lbu $a0, 2($s0)
        jal show
        la $a0, far
        subu $a0, $a0, $s0
        jal show
        lw $ra, 0($sp)
        li $v0, 10
        syscall
show:   li $v0, 1
        syscall
        la $a0, gap
        li $v0, 4
        syscall
        jr $ra
