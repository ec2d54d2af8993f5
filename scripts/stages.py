"""Reads the text of `show`: for each function its head and the lines of its stages."""
import re
import subprocess

from answering import program, stop

# In the order in which the compiler works.
STAGES = ("variables tree folded canonical blocks traces instructions live graph registers assembly").split()
HEAD = re.compile(r"function (\d+) (\S+)(?: (\d+):(\d+))?$")
RUN = re.compile(r"(\$?[a-z])(\d+)\.\.\1(\d+)")


class Function:
    """A function of the text: the number of its label, its name, and for each stage its lines, with their margin."""

    def __init__(self, head, label, name):
        self.head, self.label, self.name, self.stages = head, int(label), name, {}

    def is_named(self, word):
        return word in (self.name, str(self.label))

    def part(self, stage):
        """The lines of a stage without the margin of two blanks."""
        if stage not in self.stages:
            stop(f"function {self.label} {self.name} has no stage {stage}")
        return [line[2:] for line in self.stages[stage]]


def members(words):
    """The operands of a list: those of a run, as t5..t13, each by itself."""
    for word in words:
        run = RUN.fullmatch(word)
        if run:
            yield from (f"{run[1]}{it}" for it in range(int(run[2]), int(run[3]) + 1))
        else:
            yield word


class Graph:
    """The graph of a round: for each temporary `low` or `high` and its neighbours, and the moves between nodes."""

    def __init__(self):
        self.degrees, self.near, self.moves = {}, {}, []

    def take(self, words):
        """A line of the stage `graph`."""
        if words[0] == "move":
            self.moves.append(tuple(words[1:]))
        else:
            self.degrees[words[0]], self.near[words[0]] = words[1], [*members(words[2:])]


def graphs_of(function):
    """The graphs of a function's rounds, the first round's first."""
    found = [Graph()]
    for words in map(str.split, function.part("graph")):
        if words[0] == "round":
            found.append(Graph())
        else:
            found[-1].take(words)
    return found


def functions_of(text):
    """The functions of the text, in its order."""
    found, lines = [], None
    for line in text.splitlines():
        head = HEAD.match(line)
        if head:
            found.append(Function(line, head[1], head[2]))
        elif found and line in STAGES:
            lines = found[-1].stages[line] = []
        elif lines is not None and line.startswith("  "):
            lines.append(line)
        else:
            stop(f"this is no line of the text of `show`: {line}")
    return found


def show(path, *flags):
    """The functions of a source, as the program shows them. Where it refuses the source, the script ends as it does."""
    ran = subprocess.run([program(), "show", path, *flags], capture_output=True, text=True, errors="replace", check=False)
    if ran.returncode:
        lines = ran.stderr.splitlines() or [f"show ended with {ran.returncode}"]
        stop(lines[0].removeprefix("tiger: "), ran.returncode)
    return functions_of(ran.stdout)


def one_named(functions, word):
    """The one function of a name, or of a label's number."""
    named = [it for it in functions if it.is_named(word)]
    if len(named) > 1:
        stop(f"{word} is the name of several functions: {', '.join(str(it.label) for it in named)}")
    if not named:
        stop(f"there is no function {word}; there are {', '.join(it.name for it in functions)}")
    return named[0]
