# $v0 = binomial($a0, $a1)
binomial:
        addiu $sp, $sp, -4
        sw $ra, 0($sp)
        li $v0, 1
        lw $ra, 0($sp)
        addiu $sp, $sp, 4
        jr $ra
