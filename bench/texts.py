"""Assembly texts that `bench/exec` and `bench/compare` run, each for a number that its time grows with."""
import os
import re
import subprocess

# A line that branches or jumps, and whose delay slot isn't named as filled.
CONTROLS = re.compile(r"(?m)^((?:\w+:)?\s*(?:j|jal|jr|jalr|beq|bne|blez|bgtz|bltz|bgez)\s[^#\n]*)$")


def with_slots(code):
    """A text for a machine with delayed branches: behind each branch and jump stands a `nop`, but where a comment says
    that its delay slot is filled."""
    return CONTROLS.sub(r"\1\n        nop", code)


def text(code, statics="", functions=""):
    """A text whose code begins at main and ends with status 0 after the last line."""
    data = f"        .data\n{statics}" if statics else ""
    return f"{data}        .text\n        .globl main\n{code}        li $v0, 10\n        syscall\n{functions}"


def loop(turns):
    """Two instructions a turn, and a few around them."""
    return text(f"""main:   li $t0, {turns}
turn:   addiu $t0, $t0, -1
        bne $t0, $zero, turn
""")


def sieve(times):
    """The primes below 100,000, so many times: a word for each number."""
    return text(f"""main:   li $s0, {times}
again:  la $t0, marks
        li $t1, 0
        li $t2, 100000
clear:  sll $t3, $t1, 2
        addu $t3, $t3, $t0
        sw $zero, 0($t3)
        addiu $t1, $t1, 1
        bne $t1, $t2, clear
        li $t4, 2
        li $t6, 1
next:   sll $t3, $t4, 2
        addu $t3, $t3, $t0
        lw $t5, 0($t3)
        bne $t5, $zero, skip
        addu $t5, $t4, $t4
strike: slt $t7, $t5, $t2
        beq $t7, $zero, skip
        sll $t3, $t5, 2
        addu $t3, $t3, $t0
        sw $t6, 0($t3)
        addu $t5, $t5, $t4
        j strike
skip:   addiu $t4, $t4, 1
        bne $t4, $t2, next
        addiu $s0, $s0, -1
        bne $s0, $zero, again
""", "marks:  .space 400000\n")


def byte_copy(times):
    """50,000 bytes, so many times."""
    return text(f"""main:   li $s0, {times}
again:  la $t0, from
        la $t1, into
        li $t2, 50000
turn:   lbu $t3, 0($t0)
        sb $t3, 0($t1)
        addiu $t0, $t0, 1
        addiu $t1, $t1, 1
        addiu $t2, $t2, -1
        bne $t2, $zero, turn
        addiu $s0, $s0, -1
        bne $s0, $zero, again
""", "from:   .space 50000\ninto:   .space 50000\n")


def nested_calls(number):
    """Fibonacci's number by calls of itself."""
    return text(f"""main:   li $a0, {number}
        jal fib
""", functions="""fib:    slti $t0, $a0, 2
        beq $t0, $zero, more
        addu $v0, $a0, $zero
        jr $ra
more:   addiu $sp, $sp, -12
        sw $ra, 0($sp)
        sw $a0, 4($sp)
        addiu $a0, $a0, -1
        jal fib
        sw $v0, 8($sp)
        lw $a0, 4($sp)
        addiu $a0, $a0, -2
        jal fib
        lw $t0, 8($sp)
        addu $v0, $v0, $t0
        lw $ra, 0($sp)
        addiu $sp, $sp, 12
        jr $ra
""")


def output(lines):
    """Lines of 64 bytes, each put together and then printed."""
    return text(f"""main:   li $t0, {lines}
        li $t5, 10
turn:   la $t1, line
        addiu $t2, $t1, 63
        li $t3, 97
fill:   sb $t3, 0($t1)
        addiu $t1, $t1, 1
        addiu $t3, $t3, 1
        slti $t4, $t3, 123
        bne $t4, $zero, next
        li $t3, 97
next:   bne $t1, $t2, fill
        sb $t5, 0($t1)
        la $a0, line
        li $v0, 4
        syscall
        addiu $t0, $t0, -1
        bne $t0, $zero, turn
""", "line:   .space 65\n")


def single_bytes(count):
    """So many bytes, one at a time."""
    return text(f"""main:   li $t0, {count}
        li $a0, 46
turn:   li $v0, 11
        syscall
        addiu $t0, $t0, -1
        bne $t0, $zero, turn
""")


LOOP_STEPS = 40_000_000
LONG = {
    "loop": loop(LOOP_STEPS // 2),
    "sieve": sieve(10),
    "byte copy": byte_copy(100),
    "nested calls": nested_calls(29),
    "output": output(65536),
    "single bytes": single_bytes(4 * 1024 * 1024),
}

# The same in so little time that each instruction can be counted.
SHORT = {
    "loop": loop(1_000_000),
    "sieve": sieve(1),
    "byte copy": byte_copy(10),
    "nested calls": nested_calls(20),
    "output": output(4096),
    "single bytes": single_bytes(65536),
}

# Six of the programs of bench/run, which make millions of steps: their built texts are run as those above are.
NUMBER = 'function put(n:int)=(if n>9 then put(n/10); print(chr(ord("0")+n-n/10*10))) '
COMPILED = {
    "calls": "function fib(n:int):int=if n<2 then n else fib(n-1)+fib(n-2) in put(fib(27))",
    "loops": "var s:=0 in for i:=1 to 1000 do for j:=1 to 1000 do s:=s+i-j*(i/1000); put(s)",
    "array sum": "type t=array of int var a:=t[1000] of 3 var s:=0 in for k:=1 to 1200 do"
    " for i:=0 to 999 do s:=s+a[i]; put(s)",
    "matrices": "type r=array of int type m=array of r var n:=64 var a:=m[n] of r[0] of 0 var b:=m[n] of r[0] of 0"
    " var c:=m[n] of r[0] of 0 in for i:=0 to n-1 do (a[i]:=r[n] of i; b[i]:=r[n] of 2; c[i]:=r[n] of 0);"
    " for i:=0 to n-1 do for j:=0 to n-1 do for k:=0 to n-1 do c[i][j]:=c[i][j]+a[i][k]*b[k][j]; put(c[63][63])",
    "sorting": "type t=array of int var n:=1600 var a:=t[n] of 0 var x:=7 in for i:=0 to n-1 do (x:=x*31+11;"
    " x:=x-x/997*997; a[i]:=x); for i:=1 to n-1 do let var v:=a[i] var j:=i-1 in"
    " while if j>=0 then a[j]>v else 0 do (a[j+1]:=a[j]; j:=j-1); a[j+1]:=v end; put(a[0]); put(a[n-1])",
    "queens": "var N:=10 type t=array of int var row:=t[N] of 0 var d1:=t[N+N-1] of 0 var d2:=t[N+N-1] of 0 var found:=0"
    " function try(c:int)=if c=N then found:=found+1 else for r:=0 to N-1 do if row[r]=0 & d1[r+c]=0 & d2[r+N-1-c]=0"
    " then (row[r]:=1; d1[r+c]:=1; d2[r+N-1-c]:=1; try(c+1); row[r]:=0; d1[r+c]:=0; d2[r+N-1-c]:=0)"
    " in try(0); put(found)",
}


def compiled(program, name, folder):
    """The path of the built text of one of them."""
    source, path = os.path.join(folder, "source.tig"), os.path.join(folder, f"{name}, built.s")
    with open(source, "w", encoding="latin-1") as file:
        file.write(f"let {NUMBER}{COMPILED[name]} end\n")
    with open(path, "wb") as file:
        subprocess.run([program, "build", source], stdin=subprocess.DEVNULL, stdout=file, check=True)
    return path
