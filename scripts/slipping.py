"""Slips from other languages, told by what stands before a fault and at it, and what was expected.
"""
import re

from reading import plain

OPERAND = r"""\s*[\w("]"""
PLACE, SIZE = r"[A-Za-z]\w*(\.\w+|\[[^\[\]]*\])*", r"\w+\.(length|size|len)\b"
# What can't be the begin of a record's fields.
BRACE = r"\{(?!\s*(\}|\w+\s*=[^=]))"
SIMPLE, LONG, NO_VALUE = "identifier|integer|string", "'(if|let|while|for)'", "no value, found int$"
# What is told where an expression can go on by an operator.
BEHIND = r"\nexpected .*'\+'"
# Behind which an expression can't go on.
ENDS = r"(;|\)|\]|,|\Z|(end|do|then|else|in|var|function|type)\b)"
ONE, TWO = "var x := 1", "type t = array of int var v := t [2] of 0"
BRACED = "function f(x: int) { x }"
# Where an expression begins.
BEGINS = r"(^|[^\w)\]}\"\s])\s*$|\b(if|while|then|else|do|of|in|to)\s*$"


class Slip:
    """A slip: the rule, what stands before the mark and at it, and its line of examples/slips.md.
    With `brackets` a bracketed part ends before the mark, and `before` is what stands before that.
    `told` is what the program tells of it."""

    def __init__(self, rule, before, at, row, told=None, brackets=False):
        self.rule, self.before, self.at, self.row = rule, before, at, row
        self.told, self.brackets = told, brackets

    def is_there(self, rule, before, at, explained):
        """Whether a fault is it. `before` has no comments, and nothing in its strings."""
        if rule != self.rule or not re.match(self.at, at):
            return False
        if self.told and not re.search(self.told, "\n".join(explained)):
            return False
        front = before_brackets(before) if self.brackets else before
        return front is not None and re.search(self.before, front) is not None


SLIPS = [
    Slip("L1", r"^$", r"\xef\xbb\xbf", "a byte order mark at the begin"),
    Slip("L1", r"", r"!=", "a != b"),
    Slip("L1", BEGINS, r"!" + OPERAND, "!a"),
    Slip("L1", r"[\w)\]]\s*$", r"%" + OPERAND, "7 % 2"),
    Slip("L1", r"", r"#", "f(x) + 1 # a remark"),
    Slip("L1", r"", r"'[^'\n]*'", "print('a')"),
    Slip("T1", r"", r"(true|false|True|False)\b", "true"),
    Slip("T1", r"", r"(null|NULL|None)\b", "null"),
    Slip("T1", r"", r"return\b", "return 1"),
    Slip("T2", r"", r"return\s*\(", "return 1"),
    Slip("T2", r"", r"(print_int|print_num|printi|println|printf)\b", "print_int(3)"),
    Slip("T6", r"\bdo\s*$", PLACE + r"\s*=", f"let {ONE} in while x do x = 0 end", NO_VALUE),
    Slip("T7", r"", SIZE, f"let {TWO} in v.length end", r" of \d+:\d+$"),
    Slip("T7", r"", SIZE, 'let var s := "a" in s.length end', r"found string$"),
    Slip("S1", r"&$", r"&", "a && b"),
    Slip("S1", r"\|$", r"\|", "a || b"),
    Slip("S1", r"=$", r"=", "if a == 1 then ()"),
    Slip("S1", r"[\w\]]\s*\+$", r"\+\s*" + ENDS, "x++"),
    *(Slip("S1", rf"[\w\]]\s*\{it[2]}$", r"=", it) for it in ("x += 1", "x -= 1", "x *= 2")),
    Slip("S1", r"/$", r"/", "// a remark"),
    Slip("S1", r"", r"//", "// a remark"),
    Slip("S1", r"", r"(elif|elsif|elseif)\b", "if 1 then 2 elif 3 then 4", r"\nexpected .*'else'"),
    Slip("S1", r"", r"(and|or)\b", "if a and b then ()", BEHIND),
    Slip("S1", r"\bnot\s+$", r"\w", "not a", f"found ({SIMPLE}){BEHIND}"),
    Slip("S1", r"\breturn\s+$", r"", "return 1", f"found ({SIMPLE}|'(nil|if|let)'){BEHIND}"),
    Slip("S1", r"\bbegin\s+$", r"", "begin 1 end", f"found ({SIMPLE}|{LONG}){BEHIND}"),
    Slip("S1", r"\bnew\s+$", r"[A-Za-z]", "new t", f"found identifier{BEHIND}"),
    Slip("S1", r"\bfunction\s+\w+\s*$", r"\{", f"let {BRACED} in end", brackets=True),
    Slip("S1", r"\bif\s*$", r"\{", "if (a) { b }", brackets=True),
    Slip("S1", r"\bwhile\s*$", r"\{", "while (a) { b }", brackets=True),
    Slip("S1", r"\b(then|else|do)\s*$", BRACE, "if 1 then { 2 }"),
]
NAME = re.compile(r"[A-Za-z]\w*")
# Those words of the slips that are names where a source declares them.
FOREIGN = {*"true false True False null NULL None return elif elsif elseif and or not".split()}
FOREIGN |= {*"begin new print_int print_num printi println printf".split()}


def before_brackets(text):
    """What stands before the bracket that the last `)` of a text closes, behind which only the type
    of a result may stand."""
    text, depth = re.sub(r"\)\s*:\s*\w+\s*$", ")", text).rstrip(), 0
    if not text.endswith(")"):
        return None
    for at in range(len(text) - 1, -1, -1):
        depth += {")": 1, "(": -1}.get(text[at], 0)
        if not depth:
            return text[:at]
    return None


def is_declared(word, text):
    """Whether a word seems to be declared in a text."""
    return re.search(rf"\b(var|function|type|for)\s+{word}\b|\b{word}\s*:(?!=)", text) is not None


def slip_of(rule, before, at, explained=()):
    """The line of examples/slips.md for the slip that a fault is, by the text before it, the text
    from it on, and what the program says of it; or None. A name that is declared, and one that a
    declared name is near to, is no slip."""
    bare = plain(before)
    words = {*NAME.findall(bare)[-1:], *NAME.findall(at)[:1]} & FOREIGN
    is_near = any(re.search(r"near: .* of \d", it) for it in explained)
    if is_near or any(is_declared(it, bare + at) for it in words):
        return None
    return next((it.row for it in SLIPS if it.is_there(rule, bare, at, explained)), None)
