"""Deep sources of mixed kinds, and the search for the deepest ones, for bench/depth and bench/hostile.

A production writes an int around an int, as `f(` and `)` do; a source is a list of productions in one another. Which are
too many is decided here as the compiler does: by the nesting of the text, and by the nodes of bodies and of the program.
"""
import collections
import functools
import itertools
import re

MOST_BYTES, MOST_NESTING, MOST_LEVEL, MOST_NODES, MOST_BODY, MOST_DEPTH = 262144, 256, 32, 32768, 4096, 8000
HEAD = ("let type r={n:r,i:int,a:l} type l=array of r type t=array of int type q={i:int} type p={n:p}"
        " var w:l:=l[1] of nil var u:=t[1] of 0 var x:=0"
        " function f(a:int):int=a function m(a:int,b:int):int=b function g(a:t):int=a[0] function h(a:q):int=a.i"
        " function j(a:p):int=1 function o(a:int):p=nil in exit(")
TAIL = ") end"
# the nodes of the program's body, of the bodies that the head declares, and the levels of depth around the hole
HEAD_NODES, HEAD_BODIES, HEAD_DEPTH = 40, 13, 2
# How tightly an expression binds: an operand must bind at least as tightly as its place asks for, else it is in brackets.
WHOLE, OR, AND, COMPARED, SUM, TERM, UNARY = range(7)

PARTS = "before after nodes depth need rank is_function"
Production = collections.namedtuple("Production", PARTS, defaults=(WHOLE, UNARY, False))

LEFT = {
    "*": Production("", "*1", 2, 1, TERM, TERM),
    "/": Production("", "/1", 2, 1, TERM, TERM),
    "+": Production("", "+1", 2, 1, SUM, SUM),
    "-": Production("", "-1", 2, 1, SUM, SUM),
    "=": Production("", "=1", 2, 1, SUM, COMPARED),
    "&": Production("", "&1", 2, 1, AND, AND),
    "|": Production("", "|0", 2, 1, OR, OR),
    "negative": Production("-", "", 1, 1, UNARY, UNARY),
}
KINDS = {
    "brackets": Production("(", ")", 1, 1),
    "first of a sequence": Production("(", ";1)", 2, 1),
    "last of a sequence": Production("(1;", ")", 2, 1),
    "right of *": Production("1*", "", 2, 1, UNARY, TERM),
    "right of +": Production("1+", "", 2, 1, TERM, SUM),
    "right of =": Production("1=", "", 2, 1, SUM, COMPARED),
    "right of &": Production("1&", "", 2, 1, COMPARED, AND),
    "right of |": Production("0|", "", 2, 1, AND, OR),
    "call": Production("f(", ")", 1, 1),
    "first argument": Production("m(", ",1)", 2, 1),
    "last argument": Production("m(1,", ")", 2, 1),
    "index of ints": Production("u[", "]", 3, 2),
    "index": Production("w[", "].i", 4, 3),
    "condition": Production("if ", " then 1 else 0", 3, 1, WHOLE, WHOLE),
    "then": Production("if 1 then ", " else 0", 3, 1, WHOLE, WHOLE),
    "else": Production("if 0 then 1 else ", "", 3, 1, WHOLE, WHOLE),
    "scope": Production("let in ", " end", 1, 1),
    "scope of a variable": Production("let var y:=1 in ", " end", 3, 1),
    "value of a variable": Production("let var y:int:=", " in y end", 4, 1),
    "condition of a loop": Production("(while ", " do ();1)", 4, 2),
    "body of a loop": Production("(while 0 do x:=", ";1)", 6, 3),
    "first of a for": Production("(for k:=", " to 1 do ();1)", 5, 2),
    "last of a for": Production("(for k:=0 to ", " do ();1)", 5, 2),
    "body of a for": Production("(for k:=0 to 0 do x:=", ";1)", 7, 3),
    "assigned": Production("(x:=", ";1)", 4, 2),
    "index assigned to": Production("(u[", "]:=1;1)", 6, 3),
    "size of an array": Production("g(t[", "] of 1)", 3, 2),
    "element of an array": Production("g(t[1] of ", ")", 3, 2),
    "field of a record": Production("h(q{i=", "})", 3, 2),
    "record in a record": Production("j(p{n=p{n=o(", ")}})", 6, 5),
    "standard calls": Production("ord(chr(", "))", 2, 2),
    "string": Production("size(concat(chr(", "),\"a\"))", 4, 3),
    "strings compared": Production("chr(", ")=\"a\"", 3, 2, WHOLE, COMPARED),
}
FUNCTION = Production("let function z():int=", " in z() end", 3, 1, WHOLE, UNARY, True)


def chained(k):
    """An index with so many fields behind it."""
    return Production("w[", "]" + ".n" * k + ".i", 4 + k, 3 + k)


def indexed(k):
    """An index with so many fields that are indexed."""
    return Production("w[", "]" + ".a[0]" * k + ".i", 4 + 3 * k, 3 + 2 * k)


# What stands k times between two kinds: left operands, negations, or what stands behind the bracket of an index.
CHAINS = {
    "": lambda k: [],
    **{name: lambda k, it=it: [it] * k for name, it in LEFT.items() if name != "="},
    "* + = & |": lambda k: [LEFT[it] for it in "|" * (k // 6) + "&" * (k // 6) + "=" + "+" * (k // 3) + "*" * (k // 3)],
}


def links(kind, chain, k):
    """The productions of a kind with what stands k times around it, the outermost first."""
    if chain in (".n", ".a[0]"):
        return [(chained if chain == ".n" else indexed)(k)]
    return CHAINS[chain](k) + [KINDS[kind]]


@functools.cache
def effects(text):
    """What each token does to the nesting: opens or closes a bracket, begins anew, or goes one deeper."""
    told = []
    for token in re.findall(r'"[^"]*"|[A-Za-z]\w*|\d+|:=|<>|<=|>=|[^\s]', text):
        if token in ("let", "(", "[", "{"):
            told.append("open")
        elif token in ("end", ")", "}"):
            told.append("close")
        elif token == "]":
            told += ["close", "deeper"]
        elif token in ("in", "type", "var", "function", ";", ","):
            told.append("anew")
        elif token in ("if", "while", "for", "of") or not (token[0].isalnum() or token[0] in '":') or token == ":=":
            told.append("deeper")
    return told


class Nesting:
    """The nesting at a place of a text, and the greatest so far."""

    def __init__(self):
        self.counts, self.now, self.most = [0], 0, 0

    def read(self, text):
        for what in effects(text):
            if what == "open":
                self.counts.append(0)
                self.now += 1
            elif what == "close":
                self.now -= self.counts.pop() + 1
            elif what == "anew":
                self.now -= self.counts[-1]
                self.counts[-1] = 0
            else:
                self.counts[-1] += 1
                self.now += 1
            self.most = max(self.most, self.now)


class Source:
    """A source of productions in one another, the outermost first."""

    def __init__(self, productions):
        befores, afters, self.bodies, self.depth, self.level = [HEAD], [TAIL], [HEAD_NODES], HEAD_DEPTH, 1
        place = WHOLE
        for it in productions:
            if it.rank < place:
                befores.append("(")
                afters.append(")")
                self.bodies[-1] += 1
                self.depth += 1
            befores.append(it.before)
            afters.append(it.after)
            self.bodies[-1] += it.nodes
            self.depth += it.depth
            place = it.need
            if it.is_function:
                self.bodies.append(0)
                self.level += 1
        self.bodies[-1] += 1
        self.depth += 1
        self.pieces = befores + ["1"] + afters[::-1]

    def text(self):
        return "".join(self.pieces).encode()

    def nesting(self):
        nesting = Nesting()
        for piece in self.pieces:
            nesting.read(piece)
        return nesting.most

    def is_within(self, most_depth):
        """Whether it is within the limits of the language, and no deeper than this."""
        return (self.depth <= most_depth and max(self.bodies) <= MOST_BODY and self.level <= MOST_LEVEL
                and sum(self.bodies) + HEAD_BODIES <= MOST_NODES
                and sum(map(len, self.pieces)) <= MOST_BYTES and self.nesting() <= MOST_NESTING)


def repeated(cycle, times, has_functions):
    """A cycle of productions so many times, with a function's head where the body would grow too large."""
    productions, nodes, room = [], HEAD_NODES, MOST_BODY - sum(it.nodes + 1 for it in cycle) - FUNCTION.nodes - 2
    for _ in range(times):
        if has_functions and nodes > room:
            productions.append(FUNCTION)
            nodes = 0
        before = len(productions)
        productions += cycle
        nodes += sum(it.nodes for it in productions[before:]) + sum(
            outer.need > inner.rank for outer, inner in zip(productions[before - 1:], productions[before:]) if before)
    return Source(productions)


def most_times(cycle, has_functions, most_depth):
    """The most repetitions of a cycle that are within the limits."""
    low, high = 0, 1
    while repeated(cycle, high, has_functions).is_within(most_depth):
        low, high = high, 2 * high
    while high - low > 1:
        middle = (low + high) // 2
        low, high = (middle, high) if repeated(cycle, middle, has_functions).is_within(most_depth) else (low, middle)
    return low


class Mixture:
    """Kinds, each with what stands k times around it, repeated as often as may be, with functions in one another or without."""

    def __init__(self, parts, k, has_functions=False):
        self.parts, self.k, self.has_functions = parts, k, has_functions

    def name(self):
        told = " in ".join(f"{kind} ({self.k} of {chain})" if chain else kind for kind, chain in self.parts)
        return told + (" in functions" if self.has_functions else "")

    def cycle(self):
        return list(itertools.chain(*(links(kind, chain, self.k) for kind, chain in self.parts)))

    def source(self, most_depth=MOST_DEPTH):
        """The deepest source that is within the limits and no deeper than this."""
        cycle = self.cycle()
        return repeated(cycle, most_times(cycle, self.has_functions, most_depth), self.has_functions)


def brackets(numbers, inner="1", operator="*1"):
    """Brackets in one another, with so many operators in each, the innermost first."""
    return "(" * len(numbers) + inner + "".join(operator * number + ")" for number in numbers)


def functions_in_one_another(numbers):
    """Functions in one another, each around 15 brackets with so many products in each of them, the innermost first."""
    text = "1"
    for number in numbers:
        text = f"let function f():int={brackets([number] * 15, text)} in f() end"
    return text


# By which it was first met that a text of small nesting may have a deep tree. The last four have trees too deep to be given.
FIRST = {name: f"exit({text})".encode() for name, text in {
    "3 brackets, 210 products in each": brackets([210] * 3),
    "20 brackets, 100 products in each": brackets([100] * 20),
    "20 brackets, 100 sums in each": brackets([100] * 20, operator="+1"),
    "20 brackets, 100 conjunctions in each": brackets([100] * 20, operator="&1"),
    "8 functions, 15 brackets in each, 118 products in each": functions_in_one_another([118] * 8),
    "8 functions, 15 brackets in each, as many products as may be": functions_in_one_another([118] + [135] * 7),
    "80 brackets, as many products as may be": brackets(range(170, 250)),
    "250 brackets, as many products as may be": brackets(range(250)),
}.items()} | {"indices in one another, 64 fields behind each": Mixture([("index", ".n")], 64).source().text()}

# What the search found: what takes most of the stack in each mode, and each kind where it takes most in build.
FOUND = [
    Mixture([("last argument", "*"), ("standard calls", "*")], 64, True),
    Mixture([("call", "*"), ("standard calls", "*")], 64, True),
    Mixture([("first argument", "+"), ("standard calls", "*")], 64, True),
    Mixture([("standard calls", "*"), ("call", "*")], 64, True),
    Mixture([("standard calls", "*"), ("last argument", "*")], 64, True),
    Mixture([("strings compared", "|"), ("last of a sequence", "|")], 64, True),
    Mixture([("last argument", "*"), ("strings compared", "&")], 64, True),
    Mixture([("scope of a variable", "/"), ("standard calls", "*")], 64, True),
    Mixture([("strings compared", "&"), ("brackets", "-")], 64, True),
    Mixture([("strings compared", "&"), ("first of a sequence", "/")], 64, True),
    Mixture([("index", ".n")], 64, True),
    Mixture([("index", ".n")], 16),
    Mixture([("strings compared", "*"), ("index", ".n")], 64, True),
    Mixture([("index", ".n"), ("strings compared", "*")], 64, True),
    Mixture([("condition of a loop", "*"), ("index", ".n")], 64, True),
    Mixture([("brackets", "*")], 64, True),
    Mixture([("scope", "*")], 64, True),
    Mixture([("value of a variable", "*")], 64, True),
    Mixture([("condition", "*")], 64, True),
    Mixture([("assigned", "*")], 64, True),
    Mixture([("element of an array", "*")], 64, True),
    Mixture([("scope of a variable", "*")], 64, True),
    Mixture([("last of a sequence", "*")], 16),
    Mixture([("right of +", "*")], 64, True),
    Mixture([("else", "*")], 64, True),
    Mixture([("then", "*")], 64, True),
    Mixture([("body of a loop", "*")], 64, True),
    Mixture([("first of a sequence", "*")], 16),
    Mixture([("right of |", "*")], 16),
    Mixture([("right of &", "*")], 16),
    Mixture([("last argument", "*")], 16),
    Mixture([("call", "*")], 16),
    Mixture([("first argument", "*")], 16),
    Mixture([("string", "*")], 64, True),
    Mixture([("size of an array", "*")], 64, True),
    Mixture([("standard calls", "*")], 16),
    Mixture([("record in a record", "*")], 64, True),
    Mixture([("field of a record", "*")], 64, True),
    Mixture([("last of a for", "*")], 64, True),
    Mixture([("first of a for", "*")], 64, True),
    Mixture([("index of ints", "*")], 16),
    Mixture([("right of *", "*")], 16),
    Mixture([("right of =", "*")], 16),
    Mixture([("body of a for", "*")], 64, True),
    Mixture([("index assigned to", "*")], 64, True),
    Mixture([("condition of a loop", "*")], 16),
    Mixture([("strings compared", "*")], 16),
    Mixture([("strings compared", "|")], 64, True),
    Mixture([("call", "*"), ("strings compared", "&")], 64, True),
    Mixture([("first argument", "+"), ("strings compared", "|")], 64, True),
]
