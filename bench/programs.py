"""The program that the benchmarks run, the time that it takes, and the source of the generator's program."""
import collections
import ctypes
import functools
import os
import re
import resource
import subprocess
import sys
import tempfile
import typing

sys.path.insert(0, os.path.join(os.path.dirname(os.path.abspath(__file__)), "..", "scripts"))
from answering import LAUNCHER, program  # noqa: E402

# Of prctl: what a process leaves behind becomes the caller's.
PR_SET_CHILD_SUBREAPER = 36


@functools.cache
def tiger():
    """The program that TIGER names, or the one that the launcher runs, so that the launcher's start isn't timed."""
    path = program()
    return path if path != LAUNCHER else subprocess.check_output([path, "--program"], text=True).strip()


def generated(count):
    """The source that `tiger gen` compiles."""
    head = 'let var s := 0\nfunction d(i: int) = print(chr(i + ord("0")))\n'
    head += "function p(i: int) = if i > 9 then (p(i / 10); d(i - i / 10 * 10)) else d(i)\nfunction f1(a: int): int = a\n"
    body = "".join(
        f"function f{i}(a: int): int = let var b := a + {i} function g(c: int): int = (s := s + c; b + c)"
        f" in g(f{i - 1}(b)) - a end\n"
        for i in range(2, count + 1)
    )
    return head + body + f'in p(f{count}(0)); print("\\n"); p(s); print("\\n") end\n'


def timed(command, output=subprocess.PIPE):
    """Runs a command without input. Returns what came of it, and the seconds of the processor that it took, which other
    programs at work beside it change little."""
    before = resource.getrusage(resource.RUSAGE_CHILDREN)
    ran = subprocess.run(command, stdin=subprocess.DEVNULL, stdout=output, stderr=subprocess.PIPE)
    after = resource.getrusage(resource.RUSAGE_CHILDREN)
    return ran, after.ru_utime + after.ru_stime - before.ru_utime - before.ru_stime


def accepted_time(command):
    """The time of a command that ends with 0, and whose output is dropped."""
    ran, taken = timed(command, subprocess.DEVNULL)
    if ran.returncode != 0:
        sys.exit(f"{' '.join(command)}: status {ran.returncode}")
    return taken


def least_times(commands, turns):
    """The least time of each command, which take turns, so that a busy moment of the machine falls on all."""
    return [min(times) for times in zip(*([accepted_time(command) for command in commands] for _ in range(turns)))]


class Use(typing.NamedTuple):
    """What a command came to: its status, the seconds of the processor and the most bytes of memory that it took, how many
    bytes it wrote, and what it told."""

    status: int
    seconds: float
    memory: int
    written: int
    told: bytes


def measured(command):
    """Runs a command without input, and drops what it writes. A shell begins it and hands it to this process: to what a
    process takes at most the system counts what its maker had when it made it, and that is a tenth as much of a shell."""
    ctypes.CDLL(None).prctl(PR_SET_CHILD_SUBREAPER, 1)
    with tempfile.TemporaryFile() as written, tempfile.TemporaryFile() as told:
        begin = ["sh", "-c", '"$@" &', "sh", *command]
        subprocess.run(begin, stdin=subprocess.DEVNULL, stdout=written, stderr=told, check=True)
        _, ended, used = os.wait4(-1, 0)
        told.seek(0)
        status, seconds = os.waitstatus_to_exitcode(ended), used.ru_utime + used.ru_stime
        return Use(status, seconds, used.ru_maxrss * 1024, os.fstat(written.fileno()).st_size, told.read())


def most_memory(command):
    """The most bytes that are resident of a command that ends with 0."""
    used = measured(command)
    if used.status != 0:
        sys.exit(f"{' '.join(command)}: status {used.status}")
    return used.memory


def counted(command):
    """The processor's instructions that a command takes, counted by valgrind's callgrind: the same in every run; and how
    often each function is called that the program has a name for."""
    with tempfile.NamedTemporaryFile("r", errors="replace") as file:
        words = ["valgrind", "--tool=callgrind", f"--callgrind-out-file={file.name}", "--compress-strings=no", *command]
        ran = subprocess.run(words, stdin=subprocess.DEVNULL, stdout=subprocess.DEVNULL, stderr=subprocess.PIPE)
        calls = collections.Counter()
        for name, times in re.findall(r"(?m)^cfn=(.*)\ncalls=(\d+)", file.read()):
            calls[name] += int(times)
    return int(re.search(rb"Collected : (\d+)", ran.stderr)[1]), calls


def instructions(command):
    """The processor's instructions alone."""
    return counted(command)[0]


def least_steps(command, most):
    """The least number of steps with which a run ends by itself, by bisection, and that run."""

    def run(steps):
        return subprocess.run([*command, "--steps", str(steps)], stdin=subprocess.DEVNULL, capture_output=True)

    low, high = 0, most
    ran = run(high)
    while high - low > 1:
        middle = (low + high) // 2
        low, high = (middle, high) if run(middle).returncode == 109 else (low, middle)
    return high, ran
