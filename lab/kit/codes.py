"""Codes over temporaries in the notation of Appel's chapters 10 and 11: what is live, what interferes, and how few registers
do when temporaries are spilled in an order that is told.

A line is `x <- y + 1`, `x <- y`, `x <- mem[y]`, `mem[x] <- y`, `loop:`, `goto loop`, `if x < y goto loop` or `return x`;
behind `#` stands a remark. A temporary is a name.
"""
import dataclasses
import re

NAME = re.compile(r"[A-Za-z_]\w*")
FORMS = [(kind, re.compile(form + r"\s*$")) for kind, form in (
    ("label", r"(\w+)\s*:"), ("goto", r"goto\s+(\w+)"), ("branch", r"if\s+(.+?)\s+goto\s+(\w+)"),
    ("return", r"return\b(.*)"), ("store", r"mem\s*\[(.*)\]\s*<-\s*(.+)"), ("load", r"(\w+)\s*<-\s*mem\s*\[(.*)\]"),
    ("copy", r"(\w+)\s*<-\s*([A-Za-z_]\w*)"), ("sum", r"(\w+)\s*<-\s*(.+)"))]


class Fault(Exception):
    """What is wrong with a code, or with an order."""


@dataclasses.dataclass
class Line:
    """An instruction: its kind, its text, what it uses and defines, where it leads, and how many loops it is in."""

    kind: str
    text: str
    uses: list
    definitions: list
    target: str = ""
    depth: int = 0


def read_line(text):
    for kind, form in FORMS:
        found = form.match(text)
        if not found:
            continue
        parts = found.groups()
        if kind in ("label", "goto"):
            return Line(kind, text, [], [], parts[0])
        if kind == "branch":
            return Line(kind, text, NAME.findall(parts[0]), [], parts[1])
        if kind in ("return", "store"):
            return Line(kind, text, NAME.findall(" ".join(parts)), [])
        return Line(kind, text, NAME.findall(parts[1]), [parts[0]])
    raise Fault(f"no instruction: {text}")


def read_code(text):
    """The lines of a code, each with its depth: from a label up to the last jump back to it is a loop."""
    code = [read_line(it) for line in text.splitlines() if (it := line.split("#")[0].strip())]
    labels = {one.target: at for at, one in enumerate(code) if one.kind == "label"}
    ends = {}
    for at, one in enumerate(code):
        if one.kind in ("goto", "branch"):
            if one.target not in labels:
                raise Fault(f"no label {one.target}")
            if labels[one.target] <= at:
                ends[labels[one.target]] = at
    for begin, end in ends.items():
        for one in code[begin:end + 1]:
            one.depth += 1
    return code


def successors(code):
    labels = {one.target: at for at, one in enumerate(code) if one.kind == "label"}
    for at, one in enumerate(code):
        on = [at + 1] if one.kind not in ("goto", "return") and at + 1 < len(code) else []
        yield on + ([labels[one.target]] if one.kind in ("goto", "branch") else [])


def live_out(code):
    """What is live out of each line: the least solution of the equations of chapter 10."""
    after, into = list(successors(code)), [set() for _ in code]
    while True:
        out = [set().union(*(into[to] for to in on)) for on in after]
        new = [set(one.uses) | (live - set(one.definitions)) for one, live in zip(code, out)]
        if new == into:
            return out
        into = new


def neighbours(code):
    """For each temporary those that interfere with it: what a line defines does so with what is live out of it, but for
    a copy with what it copies."""
    near = {name: set() for one in code for name in one.uses + one.definitions}
    for one, live in zip(code, live_out(code)):
        for to in one.definitions:
            for other in live - {to} - (set(one.uses) if one.kind == "copy" else set()):
                near[to].add(other)
                near[other].add(to)
    return near


def uses_of(code):
    """How often each temporary is used or defined."""
    counts = {name: 0 for one in code for name in one.definitions + one.uses}
    for one in code:
        for name in one.definitions + one.uses:
            counts[name] += 1
    return counts


def by_least_use(code):
    """The order of this repository's own policy: the least used first, of equals the first in the text."""
    counts = uses_of(code)
    return sorted(counts, key=counts.get)


def select(near, registers, rank):
    """A round: simplify, spill by rank where nothing is of low degree, and select. Returns what got no colour."""
    left, stack = {name: set(other) for name, other in near.items()}, []
    while left:
        name = next((it for it in left if len(left[it]) < registers), None) or min(left, key=rank)
        stack.append(name)
        for other in left.pop(name):
            left[other].discard(name)
    colours, without = {}, []
    for name in reversed(stack):
        free = set(range(registers)) - {colours[it] for it in near[name] if it in colours}
        if free:
            colours[name] = min(free)
        else:
            without.append(name)
    return without


def renamed(text, old, new):
    return re.sub(rf"\b{old}\b", new, text)


def with_spills(code, spilled, made):
    """The code in which each use of what was spilled is loaded before, and each definition stored behind."""
    for one in code:
        one = dataclasses.replace(one, uses=list(one.uses), definitions=list(one.definitions))
        before, behind = [], []
        for name in [it for it in dict.fromkeys(one.uses + one.definitions) if it in spilled]:
            new = f"{name}.{len(made)}"
            made.append(new)
            if name in one.uses:
                before.append(Line("load", f"{new} <- slot {name}", [], [new], depth=one.depth))
                one.uses = [new if it == name else it for it in one.uses]
            if name in one.definitions:
                behind.append(Line("store", f"slot {name} <- {new}", [new], [], depth=one.depth))
                one.definitions = [new if it == name else it for it in one.definitions]
        yield from [*before, one, *behind]


def cost_of_spills(text, registers, order):
    """How much the loads and stores cost that come of an order, each 10 times as much for each loop around it (chapter 11).

    Temporaries that aren't named come behind those that are, in the order of the text, and those that are made for loads
    and stores last. A name that isn't one of the code's temporaries is a fault, and so is one that stands twice."""
    code, made, spilled = read_code(text), [], []
    names = list(uses_of(code))
    unknown = next((name for name in order if name not in names), None)
    if unknown is not None:
        raise Fault(f"{unknown[:40]!r} is no temporary of the code")
    if len(set(order)) < len(order):
        raise Fault("a temporary stands twice")
    places = {name: at for at, name in enumerate(dict.fromkeys([*order, *names]))}
    while True:
        near = neighbours(code)
        without = select(near, registers, lambda name: places.get(name, len(places)))
        if not without:
            loads = [one for one in code if "slot " in one.text]
            return sum(10 ** one.depth for one in loads), spilled
        if any(name in made for name in without):
            raise Fault(f"{registers} registers are too few for this order")
        spilled += without
        code = list(with_spills(code, without, made))
