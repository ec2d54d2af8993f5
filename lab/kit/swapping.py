"""Runs a program of a student's own in the place of a stage, over texts, and compares with what stands here."""
import dataclasses
import os
import re
import shlex
import sys
import tempfile

import codes
from answering import TOP, program
from limits import Limits, contents, run

SUITE = os.path.join(TOP, "suite")
CODES = os.path.join(TOP, "lab", "exercises", "11-spill", "tests")
# Ends that tell of the room or the steps that are left, which another code may have more or fewer of.
BY_ROOM = (107, 108, 109)
LONG = Limits(20, 1 << 23)
HAS_STEPS = re.compile(rb"(?m)^steps (\d+)$")


@dataclasses.dataclass(frozen=True)
class Row:
    """What came of one text: what is wrong, if anything is, and what ours and theirs cost."""

    name: str
    why: str
    ours: int = 0
    theirs: int = 0


def words_of(command):
    """The words of a command. Those that name files do so from where the script was called."""
    first, *rest = shlex.split(command)
    return [os.path.abspath(first) if os.sep in first else first,
            *(os.path.abspath(it) if os.path.isfile(it) else it for it in rest)]


def words_of_file(path):
    """The words that run a submission: itself if it may be run, else by its ending."""
    path = os.path.abspath(path)
    by = {".py": sys.executable, ".sh": "sh"}.get(os.path.splitext(path)[1])
    return [by, path] if by and not os.access(path, os.X_OK) else [path]


def files_of_suite(folders=("functions", "programs"), ending=".tig"):
    """The programs of folders of the suite that are accepted, in order."""
    for folder in folders:
        for file in sorted(os.listdir(os.path.join(SUITE, folder))):
            path = os.path.join(SUITE, folder, file)
            if file.endswith(ending) and not os.path.exists(path.removesuffix(ending) + ".fault"):
                yield path


def all_folders():
    return sorted(it for it in os.listdir(SUITE) if os.path.isdir(os.path.join(SUITE, it)))


def asked(words, given, limits):
    """What a student's program answers, run in a folder of its own, and what is wrong with its run."""
    try:
        with tempfile.TemporaryDirectory() as folder:
            ran = run(words, given, limits, folder)
    except OSError as error:
        return b"", f"it can't be run: {error.strerror}"
    if not ran.status:
        return ran.out, ran.why
    told = ran.err.decode("latin-1").strip().splitlines()[-1:]
    return ran.out, ran.why or f"it ends with {ran.status}" + "".join(f": {it[:80]!r}" for it in told)


def end_of(text, given, limits):
    """How a run of an assembly text ends, and its steps."""
    with tempfile.NamedTemporaryFile(suffix=".s") as file:
        file.write(text)
        file.flush()
        ran = run([program(), "exec", "--watch", file.name], given, limits)
    line = next((it for it in ran.err.decode("latin-1").splitlines() if it.startswith("tiger: ")), ran.why)
    steps = HAS_STEPS.search(ran.err)
    return (ran.out, ran.status, line), int(steps[1]) if steps else 0


def shown(end):
    return f"{end[0][:40].decode('latin-1')!r}, status {end[1]} {end[2]}".strip()


def text_of(path):
    """The text that `build` makes of a source, or an assembly text as it is; and why there is none."""
    if path.endswith(".s"):
        return contents(path), ""
    built = run([program(), "build", path], b"", LONG)
    return built.out, f"build refuses it: {built.err.decode('latin-1').strip()}" if built.status else ""


def assembly(words, path, limits):
    """An assembly text in, a text out that has to do the same. The cost is the steps of the run."""
    name, (text, why) = os.path.relpath(path, TOP), text_of(path)
    if why:
        return Row(name, why)
    given = contents(os.path.splitext(path)[0] + ".in")
    ours, steps = end_of(text, given, LONG)
    if ours[1] in BY_ROOM:
        return None
    made, why = asked(words, text, dataclasses.replace(limits, output=LONG.output))
    if why:
        return Row(name, why)
    theirs, its = end_of(made, given, LONG)
    return Row(name, "" if ours == theirs else f"{shown(ours)} is due, and it does {shown(theirs)}", steps, its)


def format_(words, path, limits):
    """A source in, its canonical text out. The cost is the lines that differ."""
    name = os.path.relpath(path, TOP)
    due = run([program(), "format", path], b"", LONG)
    if due.status:
        return Row(name, f"format refuses it: {due.err.decode('latin-1').strip()}")
    made, why = asked(words, contents(path), dataclasses.replace(limits, output=LONG.output))
    if why or made == due.out:
        return Row(name, why)
    ours, theirs = due.out.split(b"\n"), made.split(b"\n")
    at = next((at for at, pair in enumerate(zip(ours, theirs)) if pair[0] != pair[1]), min(len(ours), len(theirs)))
    lines = [(it[at:] or [b"no line"])[0][:40].decode("latin-1") for it in (ours, theirs)]
    wrong = sum(x != y for x, y in zip(ours, theirs)) + abs(len(ours) - len(theirs))
    return Row(name, f"line {at + 1}: {lines[0]!r} is due, and it writes {lines[1]!r}", 0, wrong)


def registers_of(text):
    found = re.search(r"(?m)^# registers (\d+)$", text)
    return int(found[1]) if found else 4


def spill(words, path, limits):
    """A code in, an order of temporaries out, that which is to be spilled first in front."""
    name, text = os.path.relpath(path, TOP), contents(path).decode("latin-1")
    ours, _ = codes.cost_of_spills(text, registers_of(text), codes.by_least_use(codes.read_code(text)))
    order, why = asked(words, text.encode("latin-1"), limits)
    if why:
        return Row(name, why, ours)
    try:
        theirs, _ = codes.cost_of_spills(text, registers_of(text), order.decode("latin-1").split())
    except codes.Fault as fault:
        return Row(name, str(fault), ours)
    return Row(name, "", ours, theirs)


STAGES = {"assembly": assembly, "format": format_, "spill": spill}


def files_of(stage, folders=("functions", "programs")):
    """The texts that a stage is tried on where none are named."""
    if stage == "spill":
        return [os.path.join(CODES, it) for it in sorted(os.listdir(CODES)) if it.endswith(".code")]
    return list(files_of_suite(folders))
