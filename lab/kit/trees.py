"""Trees in the notation of Appel's chapter 8: read, tried whether they are canonical, and run.

    MOVE(TEMP a, e)  MOVE(MEM(e), e)  EXP(e)  SEQ(s, s)
    CONST 3  TEMP a  MEM(e)  BINOP(PLUS, e, e)  ESEQ(s, e)  CALL(NAME f, e, ..)     of BINOP: PLUS, MINUS, MUL
"""
import random
import re

TOKEN = re.compile(r"\s*(?:([A-Za-z_]\w*)|(-?\d+)|([(),]))")
OPERATORS = {"PLUS": lambda x, y: x + y, "MINUS": lambda x, y: x - y, "MUL": lambda x, y: x * y}
STATES = 300
WORD = 1 << 32
PARTS = {"MOVE": "place e", "EXP": "e", "SEQ": "s s", "MEM": "e", "BINOP": "operator e e", "ESEQ": "s e"}


class Fault(Exception):
    """What is wrong with a tree, or with the statements that are to do what it does."""


def tokens(text):
    place, text = 0, text.rstrip()
    while place < len(text):
        found = TOKEN.match(text, place)
        if not found:
            raise Fault(f"{text[place:place + 10]!r} is in no tree")
        place = found.end()
        yield found[0].strip()


class Reader:
    """Reads a tree as tuples, whose first is the form."""

    def __init__(self, text):
        self.left = [*tokens(text), ""]

    def take(self, due=None):
        word = self.left.pop(0)
        if due and word != due:
            raise Fault(f"{due!r} is due, and {word or 'the end'!r} stands there")
        return word

    def whole(self):
        tree = self.statement()
        if self.left != [""]:
            raise Fault(f"{self.left[0]!r} stands behind the statement")
        return tree

    def parts(self, form):
        self.take("(")
        made = [form]
        for at, kind in enumerate(PARTS[form].split()):
            if at:
                self.take(",")
            made.append(getattr(self, {"e": "expression", "s": "statement"}.get(kind, kind))())
        self.take(")")
        return tuple(made)

    def statement(self):
        form = self.take()
        if form not in ("MOVE", "EXP", "SEQ"):
            raise Fault(f"{form or 'the end'!r} begins no statement")
        return self.parts(form)

    def expression(self):
        form = self.take()
        if form == "CONST":
            return form, int(self.take())
        if form == "TEMP":
            return form, self.take()
        if form == "CALL":
            return self.call()
        if form not in ("MEM", "BINOP", "ESEQ"):
            raise Fault(f"{form or 'the end'!r} begins no expression")
        return self.parts(form)

    def call(self):
        self.take("(")
        self.take("NAME")
        made = ["CALL", self.take()]
        while self.take() == ",":
            made.append(self.expression())
        return tuple(made)

    def place(self):
        tree = self.expression()
        if tree[0] not in ("TEMP", "MEM"):
            raise Fault(f"{tree[0]} is no target of MOVE")
        return tree

    def operator(self):
        word = self.take()
        if word not in OPERATORS:
            raise Fault(f"{word!r} is no operator of BINOP")
        return word


def read(text):
    """The statements of a text, one a line."""
    try:
        return [Reader(it).whole() for line in text.splitlines() if (it := line.split("#")[0].strip())]
    except (ValueError, IndexError):
        raise Fault("the tree ends too early, or has no number behind CONST") from None
    except RecursionError:
        raise Fault("the tree is too deep") from None


def parts_of(tree):
    """A tree and all trees within it."""
    yield tree
    for part in tree[1:]:
        if isinstance(part, tuple):
            yield from parts_of(part)


def temporaries(trees):
    return {part[1] for tree in trees for part in parts_of(tree) if part[0] == "TEMP"}


def is_plain(tree):
    return not any(part[0] in ("ESEQ", "CALL", "SEQ") for part in parts_of(tree))


def is_canonical(tree):
    """No SEQ and ESEQ, and CALL only as all that is moved into a temporary, or dropped (chapter 8)."""
    if tree[0] == "EXP" or tree[0] == "MOVE" and tree[1][0] == "TEMP":
        moved = tree[-1]
        return all(map(is_plain, moved[2:])) if moved[0] == "CALL" else is_plain(moved)
    return tree[0] == "MOVE" and is_plain(tree)


class Machine:
    """Temporaries and memory. A call changes all of the memory, and what it answers depends on its arguments. What was
    stored and called is kept, in its order."""

    def __init__(self, seed, names):
        chance = random.Random(seed)
        self.seed, self.done, self.memory = seed, [], {}
        self.temporaries = {name: chance.randrange(4) for name in sorted(names)}

    def chance(self, *of):
        return random.Random(repr((self.seed, self.calls(), of))).randrange(4)

    def calls(self):
        return sum(one[0] == "call" for one in self.done)

    def run(self, tree):
        if tree[0] == "SEQ":
            self.run(tree[1])
            self.run(tree[2])
        elif tree[0] == "EXP":
            self.value(tree[1])
        elif tree[1][0] == "TEMP":
            self.temporaries[tree[1][1]] = self.value(tree[2])
        else:
            address, value = self.value(tree[1][1]), self.value(tree[2])
            self.memory[address] = value
            self.done.append(("store", address, value))

    def value(self, tree):
        form = tree[0]
        if form == "CONST":
            return tree[1]
        if form == "TEMP":
            if tree[1] not in self.temporaries:
                raise Fault(f"TEMP {tree[1]} is read before anything is moved into it")
            return self.temporaries[tree[1]]
        if form == "MEM":
            address = self.value(tree[1])
            return self.memory.get(address, self.chance("memory", address))
        if form == "BINOP":
            left = self.value(tree[2])
            return OPERATORS[tree[1]](left, self.value(tree[3])) % WORD
        if form == "ESEQ":
            self.run(tree[1])
            return self.value(tree[2])
        arguments = [self.value(it) for it in tree[2:]]
        self.done.append(("call", tree[1], *arguments))
        self.memory = {}
        return self.chance("answer", *arguments)


def ends(trees, names, seed):
    """How a run from a state by chance ends: what was stored and called, and what the temporaries hold."""
    machine = Machine(seed, names)
    for tree in trees:
        machine.run(tree)
    return machine.done, {name: machine.temporaries[name] for name in names}


def differs(original, statements, most):
    """What is wrong with statements as the canonical trees of an original, or an empty text. They may draw so many new
    temporaries at most."""
    odd = next((tree for tree in statements if not is_canonical(tree)), None)
    if odd:
        return f"a {odd[0]} isn't canonical"
    names = temporaries(original)
    drawn = temporaries(statements) - names
    if any(ends(original, names, seed) != ends(statements, names, seed) for seed in range(STATES)):
        return "the statements don't do what the tree does"
    return f"{len(drawn)} new temporaries are drawn, and {most} are enough" if len(drawn) > most else ""
