"""Routines of assembly for what `tiger exec` has no instruction or service for, as `scripts/spim` puts them behind a text.

Each is called with the place to go back to in `$k1`, and changes `$at`, `$k0` and `$k1` alone beside its answer.
"""
# A text that runs over its end ends there, as in MARS.
END = """
        .text
        li $v0, 10
        syscall
"""
# Above the first stack pointer a text of SPIM finds its arguments: so there are bytes above it here too.
START = """
main:
        addiu $sp, $sp, -256
        j spim_main
"""
# What reading an int and reading a string do in SPIM, over service 12.
READING = """
spim_read_int:
        addiu $sp, $sp, -8
        sw $t0, 0($sp)
        sw $t1, 4($sp)
        li $t0, 0
        li $t1, 0
spim_blank:
        li $v0, 12
        syscall
        li $k0, 32
        beq $v0, $k0, spim_blank
        li $k0, 9
        beq $v0, $k0, spim_blank
        li $k0, 43
        beq $v0, $k0, spim_digits
        li $k0, 45
        bne $v0, $k0, spim_digit
        li $t1, 1
spim_digits:
        li $v0, 12
        syscall
spim_digit:
        addiu $k0, $v0, -48
        sltiu $at, $k0, 10
        beq $at, $zero, spim_line
        sll $at, $t0, 2
        addu $t0, $t0, $at
        sll $t0, $t0, 1
        addu $t0, $t0, $k0
        j spim_digits
spim_next:
        li $v0, 12
        syscall
spim_line:
        li $k0, 10
        beq $v0, $k0, spim_signed
        bgez $v0, spim_next
spim_signed:
        beq $t1, $zero, spim_int
        subu $t0, $zero, $t0
spim_int:
        move $v0, $t0
        j spim_back
spim_read_string:
        addiu $sp, $sp, -8
        sw $t0, 0($sp)
        sw $t1, 4($sp)
        move $t0, $a0
        move $t1, $a1
spim_byte:
        slti $k0, $t1, 2
        bne $k0, $zero, spim_end
        li $v0, 12
        syscall
        bltz $v0, spim_end
        sb $v0, 0($t0)
        addiu $t0, $t0, 1
        addiu $t1, $t1, -1
        li $k0, 10
        bne $v0, $k0, spim_byte
spim_end:
        li $v0, 8
        blez $t1, spim_back
        sb $zero, 0($t0)
spim_back:
        lw $t0, 0($sp)
        lw $t1, 4($sp)
        addiu $sp, $sp, 8
        jr $k1
"""
# The services 30, 34, 35, 36, 40, 41 and 42 of MARS. Time goes on by a millisecond with each call. Random numbers are the
# upper halves of x * 1103515245 + 12345, two for a number; all generators are one.
OF_MARS = """
spim_time:
        la $at, spim_clock
        lw $a0, 0($at)
        addiu $k0, $a0, 1
        sw $k0, 0($at)
        li $a1, 0
        jr $k1
spim_hex:
        move $k0, $a0
        li $v0, 11
        li $a0, 48
        syscall
        li $a0, 120
        syscall
        li $v0, 34
        move $a0, $k0
        li $k0, 28
        li $at, 4
        j spim_digits_of
spim_bits:
        li $k0, 31
        li $at, 1
spim_digits_of:
        addiu $sp, $sp, -20
        sw $a0, 0($sp)
        sw $t0, 4($sp)
        sw $t1, 8($sp)
        sw $t2, 12($sp)
        sw $v0, 16($sp)
        move $t0, $a0
        move $t1, $k0
        move $t2, $at
        li $v0, 11
spim_digit_of:
        move $a0, $t0
        move $k0, $t1
spim_shift:
        beq $k0, $zero, spim_shifted
        srl $a0, $a0, 1
        addiu $k0, $k0, -1
        j spim_shift
spim_shifted:
        andi $a0, $a0, 15
        li $k0, 4
        beq $t2, $k0, spim_nibble
        andi $a0, $a0, 1
spim_nibble:
        slti $k0, $a0, 10
        bne $k0, $zero, spim_decimal
        addiu $a0, $a0, 39
spim_decimal:
        addiu $a0, $a0, 48
        syscall
        subu $t1, $t1, $t2
        bgez $t1, spim_digit_of
        lw $a0, 0($sp)
        lw $t0, 4($sp)
        lw $t1, 8($sp)
        lw $t2, 12($sp)
        lw $v0, 16($sp)
        addiu $sp, $sp, 20
        jr $k1
spim_unsigned:
        bltz $a0, spim_large
        li $v0, 1
        syscall
        li $v0, 36
        jr $k1
spim_large:
        addiu $sp, $sp, -8
        sw $a0, 0($sp)
        sw $k1, 4($sp)
        move $k0, $a0
        li $at, 10
        la $k1, spim_large_quotient
        j spim_divide
spim_large_quotient:
        li $v0, 1
        la $k0, spim_hi
        lw $a0, 4($k0)
        syscall
        lw $a0, 0($k0)
        syscall
        li $v0, 36
        lw $a0, 0($sp)
        lw $k1, 4($sp)
        addiu $sp, $sp, 8
        jr $k1
spim_seed:
        la $at, spim_random_state
        sw $a1, 0($at)
        jr $k1
spim_next_random:
        la $at, spim_random_state
        lw $a0, 0($at)
        li $k0, 1103515245
        mult $a0, $k0
        mflo $a0
        addiu $a0, $a0, 12345
        sw $a0, 0($at)
        srl $a0, $a0, 16
        jr $k1
spim_random:
        addiu $sp, $sp, -8
        sw $k1, 0($sp)
        la $k1, spim_random_half
        j spim_next_random
spim_random_half:
        sll $a0, $a0, 16
        sw $a0, 4($sp)
        la $k1, spim_random_whole
        j spim_next_random
spim_random_whole:
        lw $k0, 4($sp)
        or $a0, $a0, $k0
        lw $k1, 0($sp)
        addiu $sp, $sp, 8
        jr $k1
spim_below:
        addiu $sp, $sp, -4
        sw $k1, 0($sp)
        la $k1, spim_below_whole
        j spim_random
spim_below_whole:
        srl $k0, $a0, 1
        move $at, $a1
        blez $at, spim_below_end
        div $k0, $at
        mfhi $a0
spim_below_end:
        lw $k1, 0($sp)
        addiu $sp, $sp, 4
        jr $k1
        .data
        .align 2
spim_clock:
        .word CLOCK
spim_random_state:
        .word SEED
        .text
"""
# hi and lo as words of memory, for texts that set them otherwise than by mult and div; and the quotient of $k0 by $at
# without signs, which leaves them as they are where the divisor is 0.
HI_AND_LO = """
spim_divide:
        beq $at, $zero, spim_divided
        addiu $sp, $sp, -16
        sw $t0, 0($sp)
        sw $t1, 4($sp)
        sw $t2, 8($sp)
        sw $t3, 12($sp)
        li $t0, 0
        li $t1, 32
spim_divide_bit:
        srl $t2, $t0, 31
        srl $t3, $k0, 31
        sll $t0, $t0, 1
        or $t0, $t0, $t3
        sll $k0, $k0, 1
        bne $t2, $zero, spim_divide_take
        sltu $t3, $t0, $at
        bne $t3, $zero, spim_divide_next
spim_divide_take:
        subu $t0, $t0, $at
        ori $k0, $k0, 1
spim_divide_next:
        addiu $t1, $t1, -1
        bgtz $t1, spim_divide_bit
        la $at, spim_hi
        sw $t0, 0($at)
        sw $k0, 4($at)
        lw $t0, 0($sp)
        lw $t1, 4($sp)
        lw $t2, 8($sp)
        lw $t3, 12($sp)
        addiu $sp, $sp, 16
spim_divided:
        jr $k1
        .data
        .align 2
spim_hi:
        .word 0, 0
        .text
"""
# The routine of each service that has one.
SERVICES = {
    5: "spim_read_int",
    8: "spim_read_string",
    30: "spim_time",
    34: "spim_hex",
    35: "spim_bits",
    36: "spim_unsigned",
    40: "spim_seed",
    41: "spim_random",
    42: "spim_below",
}
READ = {5, 8}


def service_routines(services):
    """The lines of `spim_service`, which goes to the routine of the service in $v0, and of the routines that are asked for."""
    known = [it for it in sorted(services & set(SERVICES))]
    tests = [line for it in known for line in (f"li $k0, {it}", f"beq $v0, $k0, {SERVICES[it]}")]
    parts = [READING] * bool(services & READ) + [OF_MARS.replace("CLOCK", "0").replace("SEED", "1")] * bool(services - READ)
    return ["spim_service:", *tests, "syscall", "jr $k1", *"".join(parts).splitlines()]
