"""Calls of the program with a file and an input, and what may come of them, for bench/hostile, bench/depth and bench/fuzz."""
import os
import re
import resource
import subprocess
import tempfile

MIB = 1 << 20
REFUSALS = {64, 65, 66, 70}
# what stands after `tiger: ` on a line, and its status
LINES = [
    (rb"usage: tiger .*", 64),
    (rb"\d+:\d+: (L[1-7]|S[12]|T([1-9]|1\d|2[0-2])) [a-zA-Z ]+", 65),
    (rb"line \d+: A([1-9]|10) [a-z ]+", 65),
    (rb"cannot read file", 66),
    (rb"out of memory", 70),
    (rb"read or write failed", 74),
    (rb"nil", 101),
    (rb"index out of range", 102),
    (rb"division by zero", 103),
    (rb"chr out of range", 104),
    (rb"substring out of range", 105),
    (rb"negative size", 106),
    (rb"heap full", 107),
    (rb"stack full", 108),
    (rb"step limit", 109),
    (rb"overflow", 110),
    (rb"(bad address|unaligned|bad word|bad service) 0x[0-9a-f]{8}|break \d+", 111),
]


class Case:
    """Words, of which FILE is the file's name, the file's bytes, and the input."""

    def __init__(self, name, words, text=b"", given=b"input"):
        self.name, self.words, self.text, self.given = name, words, text, given


class Ran:
    """What came of a call: the status (below 0: a signal), the bytes written and the first MiB of them, the last of what was
    told, the bytes read, seconds and bytes of memory. The soft limit on the stack, in KiB, is the caller's where none is told."""

    def __init__(self, program, case, folder, stack=None, environment=None):
        with open(os.path.join(folder, "FILE"), "wb") as file:
            file.write(case.text)
        with open(os.path.join(folder, "input"), "w+b") as given, open(os.path.join(folder, "out"), "w+b") as out, \
                open(os.path.join(folder, "err"), "w+b") as err:
            given.write(case.given)
            given.seek(0)
            process = subprocess.Popen([program, *case.words], stdin=given, stdout=out, stderr=err, cwd=folder,
                                       env=environment or {}, preexec_fn=lambda: limit(stack))
            _, ended, used = os.wait4(process.pid, 0)
            process.returncode = os.waitstatus_to_exitcode(ended)
            self.status, self.read = process.returncode, os.lseek(given.fileno(), 0, os.SEEK_CUR)
            self.out = out.seek(0, os.SEEK_END)
            out.seek(0)
            self.front = out.read(MIB)
            err.seek(max(0, err.seek(0, os.SEEK_END) - 4096))
            self.err = err.read()
        self.seconds, self.memory = used.ru_utime + used.ru_stime, used.ru_maxrss * 1024
        self.watched = "--watch" in case.words

    def wrong(self, mode):
        """What is wrong with it, in words, if anything is."""
        if self.status < 0:
            return f"signal {-self.status} after {self.seconds:.1f} s"
        # the reports of a watched run stand before its line
        said = self.err[self.err.rfind(b"\n", 0, -1) + 1:] if self.watched else self.err
        if not said or self.watched and not said.startswith(b"tiger: "):
            return None if self.status == 0 or mode in ("run", "exec", "gen") else f"status {self.status} with no line"
        due = [status for line, status in LINES if re.fullmatch(rb"tiger: (" + line + rb")\n", said)]
        if due != [self.status]:
            return f"status {self.status} with {self.err[:200]!r}"
        if self.status in REFUSALS and (self.read or self.out):
            return f"status {self.status}, but {self.read} bytes read and {self.out} written"
        return None


def limit(stack):
    resource.setrlimit(resource.RLIMIT_CPU, (120, 120))
    resource.setrlimit(resource.RLIMIT_AS, (2048 * MIB, 2048 * MIB))
    if stack:
        resource.setrlimit(resource.RLIMIT_STACK, (stack * 1024, resource.getrlimit(resource.RLIMIT_STACK)[1]))


def called(program, case, stack=None, environment=None):
    with tempfile.TemporaryDirectory() as folder:
        return Ran(program, case, folder, stack, environment)


def is_signalled(program, case, stack):
    return called(program, case, stack).status < 0


def least_stack(program, case):
    """The least soft limit on the stack, in KiB, with which a call ends by itself, to the next 16; None above 64 MiB."""
    low, high = 0, 512
    while is_signalled(program, case, high * 16):
        low, high = high, 2 * high
        if high > 4096:
            return None
    while high - low > 1:
        middle = (low + high) // 2
        low, high = (middle, high) if is_signalled(program, case, middle * 16) else (low, middle)
    return high * 16
