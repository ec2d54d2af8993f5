"""The places of labels in the code of an assembly text."""
import re

CODE_BASE = 0x400000
LABEL = re.compile(r"\s*([\w.$]+)\s*:")


def words_of(item):
    """How many words of code an instruction takes."""
    parts = item.replace(",", " ").split()
    if parts[0] == "la":
        return 2
    return 1 if parts[0] != "li" or -32768 <= int(parts[2], 0) <= 65535 else 2


def places(text):
    """The place of each label in the code of an assembly text, in their order, and the number of
    words of the code."""
    labels, count, in_code = [], 0, True
    for line in text.splitlines():
        item = re.sub(r'#.*|"(\\.|[^"\\])*"', "", line)
        while found := LABEL.match(item):
            item = item[found.end() :]
            if in_code:
                labels.append((CODE_BASE + 4 * count, found[1]))
        word = item.split()[:1]
        if word in ([".text"], [".data"]):
            in_code = word == [".text"]
        elif word and in_code and not word[0].startswith("."):
            count += words_of(item)
    return labels, count
