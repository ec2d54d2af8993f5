# Counts from 0 to 9, and ends by a `break` whose code stands for an index out of range.
main:   li $a0, 0
next:   li $v0, 1                   # print_int
        syscall
        addiu $a0, $a0, 1
        slti $t0, $a0, 10
        bne $t0, $zero, next
        break 3
