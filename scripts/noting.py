"""Notes on a source that the program accepts: where it has something else than what was likely
meant.

A value that is dropped is told where nothing else can come of it: a literal, a variable, or sums,
products and comparisons of these. What stands behind a loop is told where the layout or the
condition says that it was meant to be in it.
"""
from reading import tree_of

PURE = {"literal", "variable", "operation", "comparison"}
PLACES = {"variable", "field", "element"}
# Calls of these change no variable, and the run goes on behind them.
STANDARD = {*"print flush getchar ord chr size substring concat not".split()}


def hands_on(node, number):
    """Whether the value of a part, by its number, is the value of the whole."""
    is_body = node.kind == "scope" and number == len(node.parts) - 1
    return is_body or node.kind == "choice" and len(node.parts) == 3 and number > 0


class Notes:
    """The notes on a source, each with the place of the token that it stands at."""

    def __init__(self, source, tokens):
        self.source, self.tokens, self.found = source, tokens, []

    def note(self, at, words):
        self.found.append((self.tokens[at].at, words))

    def words_of(self, node):
        """The tokens of a part."""
        return [it.text for it in self.tokens[node.first : node.last + 1]]

    def place(self, at):
        """The line and the column of a token, from 1 on."""
        before = self.source[: self.tokens[at].at]
        return before.count("\n") + 1, len(before) - before.rfind("\n")

    def begins_line(self, at):
        """Whether only blanks stand before a token in its line."""
        before = self.source[: self.tokens[at].at]
        return not before[before.rfind("\n") + 1 :].strip(" \t")

    def look(self, node, is_dropped, is_last=False):
        """Looks at a part whose value is dropped or not; with `is_last` it is the program's value.
        """
        if is_dropped:
            self.look_at_value(node, is_last)
        if node.kind == "sequence":
            self.look_at_loops(node)
            for it in node.parts[:-1]:
                self.look(it, True)
            for it in node.parts[-1:]:
                self.look(it, is_dropped, is_last)
            return
        for number, it in enumerate(node.parts):
            self.look(it, is_dropped and hands_on(node, number), is_last)

    def is_pure(self, node):
        """Whether a part is made of literals, variables and operators alone, and divides by
        nothing."""
        return all(it.kind in PURE for it in node.all_parts()) and "/" not in self.words_of(node)

    def look_at_value(self, node, is_last):
        """Tells a value that is dropped; that of the whole program where it is `PLACE = VALUE`."""
        at = node.first if node.mark is None else node.mark
        is_equality = node.kind == "comparison" and self.tokens[at].text == "="
        if is_equality and node.parts[0].kind in PLACES:
            self.note(at, "this compares, and the value is dropped; did you mean `:=`?")
        elif self.is_pure(node) and not is_last:
            self.note(at, f"the value of this {node.kind} is dropped")

    def look_at_loops(self, node):
        """Tells what stands behind the body of a loop as if it were in it."""
        for loop, behind in zip(node.parts, node.parts[1:]):
            is_loop = loop.kind == "loop"
            if is_loop and (self.is_laid_out_as_body(loop, behind) or self.is_needed(loop, behind)):
                where = "{}:{}".format(*self.place(loop.first))
                words = f"this isn't in the loop of {where}, which ends before the `;`"
                self.note(behind.first, words)

    def is_laid_out_as_body(self, loop, behind):
        """Whether a part begins in the column of a loop's body, further in than the loop, each on a
        line of its own."""
        parts = (loop, loop.parts[-1], behind)
        column, body_column, column_behind = (self.place(it.first)[1] for it in parts)
        is_within = column < body_column == column_behind
        return is_within and all(self.begins_line(it.first) for it in parts)

    def is_needed(self, loop, behind):
        """Whether a part assigns a variable of the condition of a `while`, and nothing in the body
        of that can change one or leave the loop."""
        condition, *_, body = loop.parts
        if len(loop.parts) != 2 or behind.kind != "assignment" or not self.is_pure(condition):
            return False
        names = {*self.words_of(condition)}
        is_of_them = behind.parts[0].kind == "variable" and self.tokens[behind.first].text in names
        return is_of_them and all(self.is_still(it, names) for it in body.all_parts())

    def is_still(self, node, names):
        """Whether a part itself changes none of these variables and leaves no loop."""
        name = self.tokens[node.first].text
        if node.kind == "call":
            return name in STANDARD and not any(it.text == "function" for it in self.tokens)
        is_change = node.kind == "assignment" and node.parts[0].kind == "variable" and name in names
        return not is_change and node.kind not in ("break", "scope")


def notes_on(source):
    """The notes on a source in its order: the place, from 0 on, and the words. There are none where
    it isn't read."""
    read = tree_of(source)
    if not read:
        return []
    notes = Notes(source, read[0])
    notes.look(read[1], True, True)
    return sorted(notes.found)
