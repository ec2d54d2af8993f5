"""Sources as deep and as wide as may be, by a size, and assembly texts of a size, for bench/hostile."""

import array
import itertools
import random

MOST = 4200


def nested(before, inner, after):
    """A source of a size: so many times `before`, `inner`, and as many times `after`."""
    return lambda size: (before * size + inner + after * size).encode()


def joined(first, item, between, last):
    """A source of a size: so many of an item, with something between them."""
    return lambda size: (first + between.join([item] * size) + last).encode()


def counted(first, make, last):
    """A source of a size: a piece for each number below it."""
    return lambda size: (first + "".join(make(n) for n in range(size)) + last).encode()


def in_a_frame(first, make, last):
    return lambda size: first.encode() + make(size) + last.encode()


DEEP = {
    "parentheses": nested("(", "1", ")"),
    "sequences in one another": nested("(1;", "()", ")"),
    "negations": in_a_frame("exit(", nested("-", "1", ""), ")"),
    "sums": joined("exit(", "1", "+", ")"),
    "differences": joined("exit(", "1", "-", ")"),
    "products": joined("exit(", "1", "*", ")"),
    "quotients": joined("exit(", "1", "/", ")"),
    "conjunctions": joined("exit(", "1", "&", ")"),
    "disjunctions": joined("exit(", "0", "|", ")"),
    "comparisons in one another": in_a_frame("exit(", nested("(", "1", "=1)"), ")"),
    "sums to the right": in_a_frame("exit(", nested("1+(", "1", ")"), ")"),
    "fields": in_a_frame("let type r={n:r} function g(a:r):r=a", nested(".n", "", ""), " in () end"),
    "indices": in_a_frame("let type t=array of t function g(a:t):t=a", nested("[0]", "", ""), " in () end"),
    "assignment to fields": in_a_frame("let type r={n:r} function g(a:r)=a", nested(".n", "", ""), ":=a in () end"),
    "indices in one another": in_a_frame("let type t=array of int var a:=t[1] of 0 in exit(", nested("a[", "0", "]"), ") end"),
    "calls in one another": in_a_frame("let function f(n:int):int=n in exit(", nested("f(", "1", ")"), ") end"),
    "standard calls in one another": in_a_frame("print(", nested("concat(\"a\",", "\"b\"", ")"), ")"),
    "records in one another": in_a_frame("let type r={n:r} var a:=", nested("r{n=", "nil", "}"), " in () end"),
    "conditions": nested("if 1 then ", "()", ""),
    "choices": nested("if 1 then () else ", "()", ""),
    "values of choices": in_a_frame("exit(", nested("if 1 then 1 else ", "2", ""), ")"),
    "conditions of conditions": in_a_frame("if ", nested("if ", "1", " then 1 else 0"), " then ()"),
    "loops": nested("while 0 do ", "()", ""),
    "loops with a variable": nested("for i:=0 to 0 do ", "()", ""),
    "loops in parentheses": nested("while 0 do (", "break", ")"),
    "scopes": nested("let in ", "()", " end"),
    "scopes with a variable": nested("let var a:=1 in ", "exit(a)", " end"),
    "values of scopes": in_a_frame("exit(", nested("let var a:=1 in ", "a", " end"), ")"),
    "functions in one another": nested("let function f()=", "()", " in f() end"),
    "a long sequence": joined("(", "0", ";", ")"),
    "many arguments": lambda size: (f"let function f({','.join(f'a{n}:int' for n in range(size))})=() in f("
                                    f"{','.join('1' for _ in range(size))}) end").encode(),
    "many arguments by calls": lambda size: (
        f"let function g():int=1 function f({','.join(f'a{n}:int' for n in range(size))})=() in f("
        f"{','.join('g()' for _ in range(size))}) end").encode(),
    "many copies": lambda size: (
        f"let var s:=0 {' '.join(f'var v{n}:={n}' for n in range(size))} {' '.join(f'var w{n}:=v{n}' for n in range(size))}"
        f" in {''.join(f's:=s+w{n};' for n in range(size))} exit(s) end").encode(),
    "many variables that live long": lambda size: (
        f"let var s:=0 {' '.join(f'var v{n}:={n}' for n in range(size))}"
        f" in {''.join(f's:=s+v{n};' for n in range(size))} exit(s) end").encode(),
    "many variables": counted("let ", lambda n: f"var v{n}:={n} ", "in exit(v0) end"),
    "many functions": counted("let ", lambda n: f"function f{n}()=() ", "in f0() end"),
    "many types": counted("let type t=int ", lambda n: f"type t{n}=t ", "in () end"),
    "many fields": lambda size: (f"let type r={{{','.join(f'f{n}:int' for n in range(size))}}} in () end").encode(),
}


def repeated(piece, first=b"", last=b""):
    """A text of so many bytes at most, of one piece over and over."""
    return lambda size: first + piece * max(0, (size - len(first) - len(last)) // len(piece)) + last


def gathered(pieces):
    """Pieces one after another. No list of them is made: a call seems to take what Python had when it began it."""
    text = bytearray()
    for piece in pieces:
        text += piece
    return bytes(text)


def labels(size):
    """A text of so many bytes at most, all labels."""
    return gathered(b"l%07x:\n" % n for n in range(size // 10))


def short_labels(behind, before=b""):
    """Texts of so many bytes at most, of labels of four bytes in their order, each with the same before it and after it."""
    others = sorted(b"ABCDEFGHIJKLMNOPQRSTUVWXYZ_abcdefghijklmnopqrstuvwxyz0123456789.")
    firsts = [byte for byte in others if bytes([byte]).isalpha() or byte == ord("_")]

    def text(size):
        names = itertools.product(firsts, others, others, others)
        width = len(before) + 4 + len(behind)
        return gathered(before + bytes(name) + behind for name in itertools.islice(names, size // width))
    return text


def shuffled(make, width):
    """Texts of pieces of the same width, in random order, the same each time. No list of them is made."""
    def text(size):
        ordered = make(size)
        places = array.array("L", range(len(ordered) // width))
        random.Random(1).shuffle(places)
        return gathered(ordered[place * width:(place + 1) * width] for place in places)
    return text


def jumps_to_labels(size):
    """A text of labels in one line, a sixteenth of its bytes in number, and of jumps to them in random order."""
    names, dice = short_labels(b":")(size // 16 * 5), random.Random(1)
    count, tail = len(names) // 5, b"main: jr $ra\n"
    places = (5 * dice.randrange(count) for _ in range((size - len(names) - len(tail) - 1) // 7))
    return names + b"\n" + gathered(b"j " + names[place:place + 4] + b"\n" for place in places) + tail


TEXTS = {
    "no-ops": repeated(b"nop\n", b"main:\n"),
    "labels": labels,
    "short labels": short_labels(b":\n"),
    "one line of short labels": short_labels(b":"),
    "short labels in random order": shuffled(short_labels(b":\n"), 6),
    "labels behind eight letters in random order": shuffled(short_labels(b":\n", b"aaaaaaaa"), 14),
    "commas": repeated(b",", b"main: add "),
    "one string": repeated(b"a", b".data\ns: .ascii \"", b"\"\n.text\nmain: jr $ra\n"),
    "one line of blanks": repeated(b" ", b"main: jr $ra"),
    "one line of letters": repeated(b"a"),
    "a comment": repeated(b"#", b"main: jr $ra\n"),
    "newlines": repeated(b"\n", b"main: jr $ra\n"),
    "alignments": repeated(b".align 2\n", b".data\n", b".text\nmain: jr $ra\n"),
    "spaces": repeated(b".space 0\n", b".data\n", b".text\nmain: jr $ra\n"),
    "bytes": repeated(b".byte 0\n", b".data\n", b".text\nmain: jr $ra\n"),
    "one line of bytes": repeated(b", 0", b".data\n.byte 0", b"\n.text\nmain: jr $ra\n"),
    "one line of short operands": repeated(b" 0", b".data\n.byte", b"\n.text\nmain: jr $ra\n"),
    "jumps to one label": repeated(b"j main\n", b"main: jr $ra\n"),
    "jumps to labels in random order": jumps_to_labels,
    "colons": repeated(b"a:", b""),
    "zeros": repeated(b"\0"),
    "quotes": repeated(b'"'),
}


def deepest(is_accepted, make):
    """The source of the greatest size, up to MOST, that is accepted, if what is larger than a refused one is refused."""
    low, high = 0, MOST
    while high - low > 1:
        middle = (low + high) // 2
        low, high = (middle, high) if is_accepted(make(middle)) else (low, middle)
    return make(low)
