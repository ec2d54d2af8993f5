"""The names of a source's functions, in the order of their labels."""
import re

# In a comment, which may hold others, there are only its ends.
PART = re.compile(r'/\*|"(?:\\.|[^"\\])*"', re.DOTALL)
IN_COMMENT = re.compile(r"/\*|\*/")
WORD = re.compile(r"\b(?:(let|in|end|var|type)|function\s+(\w+))\b")


def bare(source):
    """A source without its comments and strings."""
    depth, at, pieces = 0, 0, []
    while found := (IN_COMMENT if depth else PART).search(source, at):
        if not depth:
            pieces += [source[at : found.start()], " "]
        at = found.end()
        depth += {"/*": 1, "*/": -1}.get(found[0], 0)
    return "".join(pieces) + source[at:]


def function_names(source):
    """The names of the functions of a source, in the order of their labels: those of a group, which stand after one
    another, come before those in their bodies."""
    groups, inner = [], [None]
    for found in WORD.finditer(bare(source)):
        if found[1] == "let":
            inner.append(None)
        elif found[1] == "end":
            inner.pop()
        elif found[1]:
            inner[-1] = None
        else:
            if inner[-1] is None:
                inner[-1] = []
                groups.append(inner[-1])
            inner[-1].append(found[2])
    return [name for group in groups for name in group]
