"""Runs a command with limits of time, output and memory, and ends all that it began."""
import dataclasses
import math
import os
import resource
import signal
import subprocess
import tempfile
import time

MEMORY = 4 << 30
# The longest by the clock, for each second of the processor: others may be at work beside.
WAIT = 4


@dataclasses.dataclass(frozen=True)
class Limits:
    """The most seconds of the processor that a command may take, and the most bytes that it may write to either stream."""

    seconds: float = 5
    output: int = 1 << 16


@dataclasses.dataclass(frozen=True)
class Ran:
    """How a command ended: its status, negative for a signal; what it wrote; and why it was ended, if it was."""

    status: int
    out: bytes
    err: bytes
    why: str


def contents(path):
    """The bytes of a file, none where there is no such file."""
    if not os.path.exists(path):
        return b""
    with open(path, "rb") as file:
        return file.read()


def has_ended(pid, seconds):
    """Whether a process ends within its time. It isn't reaped, so that its number stays its own."""
    until = time.monotonic() + seconds
    while not os.waitid(os.P_PID, pid, os.WEXITED | os.WNOWAIT | os.WNOHANG):
        if time.monotonic() > until:
            return False
        time.sleep(0.002)
    return True


def run(words, given, limits, folder=None):
    """Runs a command on an input, in a group of processes of its own, which ends with it."""
    def lower():
        resource.setrlimit(resource.RLIMIT_FSIZE, (limits.output + 1, limits.output + 1))
        seconds = math.ceil(limits.seconds)
        resource.setrlimit(resource.RLIMIT_CPU, (seconds, seconds + 1))
        resource.setrlimit(resource.RLIMIT_AS, (MEMORY, MEMORY))
        resource.setrlimit(resource.RLIMIT_CORE, (0, 0))

    with tempfile.TemporaryFile() as source, tempfile.TemporaryFile() as out, tempfile.TemporaryFile() as err:
        source.write(given)
        source.seek(0)
        begun = subprocess.Popen(words, stdin=source, stdout=out, stderr=err, cwd=folder, preexec_fn=lower,
                                 start_new_session=True)
        in_time = False
        try:
            in_time = has_ended(begun.pid, limits.seconds * WAIT)
        finally:
            os.killpg(begun.pid, signal.SIGKILL)
            begun.wait()
        written = []
        for file in (out, err):
            file.seek(0)
            written.append(file.read())
    in_time = in_time and begun.returncode != -signal.SIGXCPU
    why = "" if in_time else f"it takes more than {limits.seconds} seconds"
    if any(len(it) > limits.output for it in written):
        why = f"it writes more than {limits.output} bytes"
    return Ran(begun.returncode, *written, why)
