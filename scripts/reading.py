"""Reads a source that the program accepts: its tokens, and its tree as far as places and dropped
values need it."""
import re
import sys

SPACE = r"[ \t\n\r\f]"
TOKEN = re.compile(
    rf'(?P<blank>{SPACE}+)|(?P<comment>/\*)|(?P<text>"(?:\\{SPACE}+\\|\\\d\d\d|\\\^.|\\["\\nt]|[^"\\\n])*")'
    r"|(?P<number>[0-9]+)|(?P<word>[A-Za-z][A-Za-z0-9_]*)|(?P<sign>:=|<>|<=|>=|[-+*/&|<>=,:;.()\[\]{}])"
)
IN_COMMENT = re.compile(r"/\*|\*/")
KEYWORDS = {*"array break do else end for function if in let nil of then to type var while".split()}
COMPARISONS = {"=", "<>", "<", "<=", ">", ">="}
# The operators of each level, the weakest first.
LEVELS = [{"|"}, {"&"}, COMPARISONS, {"+", "-"}, {"*", "/"}]
# Frames enough for the deepest source that the program takes.
DEPTH = 20_000


class Unread(Exception):
    """The text isn't one that can be read here."""


class Token:
    """A token by its kind, its text and its place, which is the index of its first byte."""

    def __init__(self, kind, text, at):
        self.kind, self.text, self.at, self.end = kind, text, at, at + len(text)

    def is_name(self):
        return self.kind == "word" and self.text not in KEYWORDS


def end_of_comment(source, at):
    """The place behind the comment that begins at a place, or None where nothing closes it."""
    depth = 1
    for found in IN_COMMENT.finditer(source, at + 2):
        depth += 1 if found[0] == "/*" else -1
        if not depth:
            return found.end()
    return None


def pieces(source):
    """Yields each token, comment and run of blanks of a source, and a byte that begins none as one
    of kind `byte`."""
    at = 0
    while at < len(source):
        found = TOKEN.match(source, at)
        kind = found.lastgroup if found else "byte"
        end = found.end() if found else at + 1
        if kind == "comment":
            end = end_of_comment(source, at) or len(source)
        yield Token(kind, source[at:end], at)
        at = end


def tokens(source):
    """The tokens of a source."""
    return [it for it in pieces(source) if it.kind not in ("blank", "comment")]


def plain(source):
    """A source with a blank for each comment, and strings without what is in them."""
    kept = {"comment": " ", "text": '""'}
    return "".join(kept.get(it.kind, it.text) for it in pieces(source))


class Node:
    """A part of the tree: its kind, the first and the last of its tokens by their index, and its
    parts. `mark` is the index of its operator, where it has one."""

    def __init__(self, kind, first, last, parts=(), mark=None):
        self.kind, self.first, self.last = kind, first, last
        self.parts, self.mark = list(parts), mark

    def all_parts(self):
        """Yields itself and all parts of it."""
        left = [self]
        while left:
            yield left[-1]
            left += left.pop().parts


class Reader:
    """Reads the tree of a list of tokens by recursive descent. What isn't so raises Unread."""

    def __init__(self, source):
        self.tokens, self.at = tokens(source), 0

    def text(self, ahead=0):
        return self.tokens[self.at + ahead].text if self.at + ahead < len(self.tokens) else ""

    def take(self, *texts):
        """Goes over a token, which is one of these, or any name where none is given."""
        is_end = self.at >= len(self.tokens)
        if is_end or (self.text() not in texts if texts else not self.tokens[self.at].is_name()):
            raise Unread(f"token {self.at}")
        self.at += 1

    def skip(self, text):
        """Whether a token is there, which is gone over then."""
        is_there = self.text() == text
        self.at += is_there
        return is_there

    def node(self, kind, first, parts=(), mark=None):
        return Node(kind, first, self.at - 1, parts, mark)

    def program(self):
        whole = self.whole()
        if self.at < len(self.tokens):
            raise Unread(f"token {self.at}")
        return whole

    def whole(self, level=0):
        """An expression of a level, or of all."""
        if level == len(LEVELS):
            return self.unary()
        first, left = self.at, self.whole(level + 1)
        while self.text() in LEVELS[level]:
            mark = self.at
            self.at += 1
            kind = "comparison" if LEVELS[level] is COMPARISONS else "operation"
            left = self.node(kind, first, [left, self.whole(level + 1)], mark)
        return left

    def unary(self):
        first = self.at
        if self.skip("-"):
            return self.node("operation", first, [self.unary()])
        return self.primary()

    def primary(self):
        first = self.at
        if first >= len(self.tokens):
            raise Unread("the end")
        token = self.tokens[first]
        if token.kind in ("text", "number") or token.text in ("nil", "break"):
            self.at += 1
            return self.node("break" if token.text == "break" else "literal", first)
        read = {"(": self.sequence, "let": self.scope, "if": self.choice}
        read |= {"while": self.turns, "for": self.counting}
        return read[token.text](first) if token.text in read else self.named(first)

    def several(self, separator, *ends):
        """Expressions between separators, up to a token that is gone over."""
        found = []
        while not any(self.text() == it for it in ends):
            found.append(self.whole())
            if not self.skip(separator):
                break
        self.take(*ends)
        return found

    def sequence(self, first):
        self.take("(")
        return self.node("sequence", first, self.several(";", ")"))

    def choice(self, first):
        self.take("if")
        parts = [self.whole()]
        self.take("then")
        parts.append(self.whole())
        if self.skip("else"):
            parts.append(self.whole())
        return self.node("choice", first, parts)

    def turns(self, first):
        self.take("while")
        condition = self.whole()
        self.take("do")
        return self.node("loop", first, [condition, self.whole()])

    def counting(self, first):
        self.take("for")
        self.take()
        self.take(":=")
        parts = [self.whole()]
        self.take("to")
        parts.append(self.whole())
        self.take("do")
        return self.node("loop", first, [*parts, self.whole()])

    def scope(self, first):
        self.take("let")
        parts = []
        while not self.skip("in"):
            parts += self.declaration()
        body = Node("sequence", self.at, self.at, self.several(";", "end"))
        return self.node("scope", first, [*parts, body])

    def declaration(self):
        """Goes over a declaration, and returns its expression in a list, if it has one."""
        if self.skip("type"):
            self.take()
            self.take("=")
            self.form()
            return []
        is_function = self.skip("function")
        if not is_function:
            self.take("var")
        first = self.at
        self.take()
        if is_function:
            self.form("(", ")")
        if self.skip(":"):
            self.take()
        self.take("=" if is_function else ":=")
        return [self.node("function", first, [self.whole()])] if is_function else [self.whole()]

    def form(self, opener="{", closer="}"):
        """Goes over what stands behind `type NAME =`, or over parameters."""
        if self.skip("array"):
            self.take("of")
            self.take()
        elif self.skip(opener):
            while not self.skip(closer):
                self.at += 1
                if self.at >= len(self.tokens):
                    raise Unread("the end")
        else:
            self.take()

    def named(self, first):
        """What begins with a name: a call, a record, an array, an assignment, or a variable, a
        field or an element."""
        self.take()
        if self.skip("("):
            return self.node("call", first, self.several(",", ")"))
        if self.skip("{"):
            return self.record(first)
        place = self.node("variable", first)
        while self.text() in (".", "["):
            mark = self.at
            if self.skip("."):
                self.take()
                place = self.node("field", first, [place], mark)
                continue
            self.take("[")
            inner = self.whole()
            self.take("]")
            if self.skip("of"):
                return self.node("array", first, [inner, self.whole()], mark)
            place = self.node("element", first, [place, inner], mark)
        mark = self.at
        if self.skip(":="):
            return self.node("assignment", first, [place, self.whole()], mark)
        return place

    def record(self, first):
        parts = []
        while not self.skip("}"):
            self.take()
            self.take("=")
            parts.append(self.whole())
            if not self.skip(","):
                self.take("}")
                break
        return self.node("record", first, parts)


def tree_of(source):
    """The tokens of a source and its tree; or None, where it isn't one that can be read."""
    reader = Reader(source)
    sys.setrecursionlimit(DEPTH)
    try:
        return reader.tokens, reader.program()
    except (Unread, RecursionError):
        return None
