"""Tells in which function a run of a source ended, and the call of it, by the text, the labels and
the last steps.

What isn't exact isn't told: the input must be there once more, the run within the time that is
taken for it, and the call within the steps that are looked at. The place of an operation or a call
is told where its function has one alone that can be meant.
"""
import bisect
import os
import re
import subprocess
import time

from answering import program
from places import places
from reading import tree_of

HEAD = re.compile(r"(?m)^function (\d+) (\S+)(?: (\d+):(\d+))?$")
STEPS = re.compile(r"(?m)^steps (\d+)$")
FETCH = re.compile(r"(?m)^0x(\w{8}) 0x(\w{8})$")
# A run is watched again up to so many times, 16 steps earlier each time, and all that takes so many
# seconds.
MOST_RUNS, MOST_SECONDS = 100, 10
RETURN, CALL = 0x03E00008, 3
BODY = 32
# By the line of an end, which parts of the tree can be meant, by their kinds and operators.
MEANT = {
    "nil": ("field", {"."}),
    "index out of range": ("element", {"["}),
    "division by zero": ("operation", {"/"}),
    "overflow": ("operation", {"+", "-", "*", "/"}),
}
# What the runtime's functions are called by in the source, where it isn't by their name.
MADE = {"make_array": "array", "make_record": "record"}


class Function:
    """A function of the source or of the runtime: its label's number, its name, and where it is
    declared, if it is."""

    def __init__(self, label, name, line, column):
        self.label, self.name, self.is_of_runtime = int(label), name, int(label) < BODY
        self.place = (int(line), int(column)) if line else None

    def told(self):
        line, column = self.place or (0, 0)
        return f"'{self.name}' of {line}:{column}" if self.place else "the program's body"


class Run:
    """A run of a source that ended: its words, its input, and the functions of its text."""

    def __init__(self, words, path, data):
        self.words, self.data = [it for it in words if it != "--explain"], data
        self.deadline = time.monotonic() + MOST_SECONDS
        flags = [it for it in words if it == "--fold"]
        shown = self.called("show", path, *flags).stdout.decode("latin-1")
        self.functions = {found[1]: Function(*found.groups()) for found in HEAD.finditer(shown)}
        labels, _ = places(self.called("build", path, *flags).stdout.decode("latin-1"))
        whole = [(at, it) for at, it in labels if re.fullmatch(r"main|f\d+", it)]
        self.begins = [at for at, _ in whole]
        self.labels = [str(BODY) if it == "main" else it[1:] for _, it in whole]

    def called(self, *words, data=b""):
        left = max(0, self.deadline - time.monotonic())
        return subprocess.run([program(), *words], input=data, capture_output=True, timeout=left)

    def watched(self, steps=None):
        """The number of steps of the run, or of its first steps, and the last places with the words
        there."""
        words = list(self.words)
        if steps is not None and "--steps" in words:
            at = words.index("--steps")
            del words[at : at + 2]
        words += ["--watch", *(["--steps", str(steps)] if steps is not None else [])]
        told = self.called(*words, data=self.data).stderr.decode("latin-1")
        found = STEPS.search(told)
        fetches = [(int(at, 16), int(word, 16)) for at, word in FETCH.findall(told)]
        return int(found[1]) if found else 0, fetches

    def function_at(self, at):
        """The function whose code a place is in, or None."""
        index = bisect.bisect_right(self.begins, at) - 1
        return self.functions.get(self.labels[index]) if index >= 0 else None

    def steps_back(self, steps, fetches):
        """Yields the places and words of the last steps, the last one first, as far back as is
        looked."""
        for _ in range(MOST_RUNS):
            yield from reversed(fetches)
            steps -= len(fetches)
            if steps <= 0:
                return
            _, fetches = self.watched(steps)

    def callers(self, steps, fetches):
        """Yields the function in which the run ended, then those by which it was called, as far
        back as is looked."""
        depth = 0
        for number, (at, word) in enumerate(self.steps_back(steps, fetches)):
            if not number:
                yield self.function_at(at)
            elif word == RETURN:
                depth += 1
            elif word >> 26 == CALL and depth:
                depth -= 1
            elif word >> 26 == CALL:
                yield self.function_at(at)


class Source:
    """A source, and what each of its functions has of its own."""

    def __init__(self, path):
        with open(path, encoding="latin-1", newline="") as file:
            self.text = file.read()
        self.tokens, self.tree = tree_of(self.text) or ([], None)

    def place(self, at):
        before = self.text[: self.tokens[at].at]
        return before.count("\n") + 1, len(before) - before.rfind("\n")

    def parts_of(self, function):
        """The parts of a function, or of the program's body, without those of the functions in it.
        """
        if not self.tree:
            return
        all_functions = [it for it in self.tree.all_parts() if it.kind == "function"]
        whole = [it for it in all_functions if self.place(it.first) == function.place]
        left = [*whole[0].parts] if whole else [] if function.place else [self.tree]
        while left:
            part = left.pop()
            yield part
            left += [it for it in part.parts if it.kind != "function"]

    def only(self, function, test):
        """`LINE:COLUMN` of the one part of a function that can be meant, or None where there are
        several."""
        meant = filter(test, self.parts_of(function))
        found = [it.first if it.mark is None else it.mark for it in meant]
        return "{}:{}".format(*self.place(found[0])) if len(found) == 1 else None

    def call_of(self, function, callee):
        """The place of the one call of a function in another."""
        kind = MADE.get(callee.name) if callee.is_of_runtime else None

        def is_meant(part):
            is_called = part.kind == "call" and self.tokens[part.first].text == callee.name
            return part.kind == kind if kind else is_called

        return self.only(function, is_meant)

    def operation_of(self, function, end):
        """The place of the one operation of a function by which a run can end so."""
        if end not in MEANT:
            return None
        kind, marks = MEANT[end]
        return self.only(function, lambda it: it.kind == kind and self.operator(it) in marks)

    def operator(self, part):
        return "-" if part.mark is None else self.tokens[part.mark].text


def in_time(chain):
    """What a chain has, as far as the time allows."""
    try:
        yield from chain
    except subprocess.TimeoutExpired:
        pass


def told_by(source, chain, end):
    """Yields what is told of a chain of functions, the innermost first."""
    inner = next(chain, None)
    function = next(chain, None) if inner and inner.is_of_runtime else inner
    if function is None or function.is_of_runtime:
        return
    is_own = inner is function
    at = source.operation_of(function, end) if is_own else source.call_of(function, inner)
    yield f"in {function.told()}" + (f" at {at}" if at else "")
    if function.place:
        caller = next(chain, None)
        if caller and not caller.is_of_runtime:
            at = source.call_of(caller, function)
            yield f"called in {caller.told()}" + (f" at {at}" if at else "")


def input_again(source, begin):
    """What the run read, where that can be told: of a file, or nothing where the source doesn't
    read."""
    if not any(it.text == "getchar" for it in source.tokens):
        return b""
    try:
        os.lseek(0, begin, os.SEEK_SET)
        with open(0, "rb", closefd=False) as file:
            return file.read()
    except (OSError, TypeError):
        return None


def told_of(words, path, end, begin):
    """The line that tells where a run ended, or nothing. `end` is the line of the end, and `begin`
    where its input began."""
    source = Source(path)
    data = input_again(source, begin)
    if data is None or not source.tree:
        return ""
    try:
        run = Run(words, path, data)
        steps, fetches = run.watched()
    except subprocess.TimeoutExpired:
        return ""
    told = ", ".join(told_by(source, in_time(run.callers(steps, fetches)), end))
    return f"{told}\n" if told else ""
