"""Runs the program and tells its line on standard error as compilers do: the place, the source's line, a mark, the cure."""
import os
import re
import subprocess
import sys
import threading

from answering import TOP, program
from noting import notes_on
from slipping import slip_of

FAULT = re.compile(rb"tiger: (\d+):(\d+): ([LST]\d+) (.*)\n")
EXPLAINS = re.compile(rb"tiger:   (.*)\n")
LINE_FAULT = re.compile(rb"tiger: line (\d+): (A\d+) (.*)\n")
# A line of a list: its rule, its source or another key, the place and words that are told of it, and behind the colon what
# to do.
LISTED = re.compile(r"- (?:\*\*(\w+)\*\* )?(?:`(.+?)`|([^`:]+?))(?:,? ((?:\w+ )?\d+(?::\d+)?(?: [A-Za-z ]+)?))?: (.*)")
LINK = re.compile(r"\[[^\]]*\]\(([^)#]+)[^)]*\)")
NAMED = {"T1", "T2", "T3", "T4", "T5", "T7", "T8", "T10", "T11", "T15", "T16", "T17", "T18", "S1", "L1"}

# The modes of which the program explains the faults.
EXPLAINED = {"check", "build", "bare", "run", "alloc", "show", "format"}


def lines_of(page):
    """What a page tells in lines of lists: of each its rule, or None, its source or key, what is told of it, and the cure."""
    with open(os.path.join(TOP, page), encoding="utf-8") as file:
        found = [LISTED.fullmatch(line.rstrip("\n")) for line in file]
    return [(it[1], it[2] or it[3], it[4] or "", it[5]) for it in found if it]


def cures():
    """What to do by docs/FAULTS.md and examples/slips.md, for each rule, each slip and each line of an end."""
    told = lines_of("docs/FAULTS.md") + lines_of("examples/slips.md")
    return {rule or key: LINK.sub(lambda it: os.path.normpath("docs/" + it[1]), cure) for rule, key, _, cure in told}


def cure_of(rule, before, at, explained=()):
    """What to do about a fault, by what stands before it and at it, and what the program says of it."""
    row = slip_of(rule, before, at, explained)
    if row or rule not in ("S1", "T6"):
        return cures()[row or rule]
    return f"examples/slips.md has {'frequent slips' if rule == 'S1' else 'the cases of T6'}"


def marked(path, place, words, line, column, *more):
    """What is told of a place: a line of words, the source's line, a mark that has the tabs that the line has, and more."""
    mark = "".join("\t" if it == "\t" else " " for it in line[: column - 1])
    return os.fsencode(path) + "\n".join([f":{place}: {words}", line, f"{mark}^", *more, ""]).encode("latin-1", "replace")


def source_fault(path, explained, line, column, rule, words):
    with open(path, encoding="latin-1", newline="") as file:
        lines = (file.read() + "\n").split("\n")
    text = lines[line - 1].rstrip("\r")
    before, at = "\n".join([*lines[: line - 1], text[: column - 1]]), "\n".join([text[column - 1 :], *lines[line:]])
    name = re.match(r"[A-Za-z0-9_]+|[:<>]?=|<>|[!-~]", at) if rule in NAMED else None
    named = f"{rule} {words}" + (f" {name[0]}" if name else ", at the line's end" if rule == "S1" and len(text) < column else "")
    return marked(path, f"{line}:{column}", named, text, column, *explained, f"cure: {cure_of(rule, before, at, explained)}")


def text_fault(path, line, rule, words, origins):
    with open(path, encoding="latin-1", newline="") as file:
        lines = (file.read() + "\n").split("\n")
    line = min(origins[line - 1] if origins else line, len(lines))
    text = lines[line - 1].rstrip("\r")
    item = re.match(r"\s*(?:[\w.$]+\s*:\s*)*([^\s#\"]*)", text)
    last = re.search(r"([\w.$]+)\s*(?:#.*)?$", text)
    name = item[1] if rule == "A2" else last[1] if rule == "A5" and last else ""
    column = (last.start(1) if rule == "A5" and last else item.start(1)) + 1
    cure = "docs/MACHINE.md says what is there" if origins and rule == "A2" else cures()[rule]
    return marked(path, line, f"{rule} {words} {name}".rstrip(), text, column, f"cure: {cure}")


def end_of(told):
    """The key of docs/FAULTS.md for the line of an end, where it is one."""
    words = re.fullmatch(r"tiger: ([a-z ]+?)(?: 0x\w+| \d+)?\n", told.decode("latin-1"))
    return words[1] if words and words[1] in cures() else None


def begin_of_input():
    """The place of the input, where it can be read again; else None."""
    try:
        return os.lseek(0, 0, os.SEEK_CUR)
    except OSError:
        return None


def tell_notes(path):
    """Tells what is noted of a source that was accepted, as faults are told."""
    with open(path, encoding="latin-1", newline="") as file:
        source = file.read()
    lines = (source + "\n").split("\n")
    for at, words in notes_on(source):
        line, column = source.count("\n", 0, at) + 1, at - source.rfind("\n", 0, at)
        sys.stderr.buffer.write(marked(path, f"{line}:{column}", f"note: {words}", lines[line - 1].rstrip("\r"), column))
    sys.stderr.buffer.flush()


def tell(told, explained, path, origins, is_open, locate):
    """Writes a line of the program, with what the program explains of it and what is known besides."""
    found, in_text, end = FAULT.fullmatch(told), LINE_FAULT.fullmatch(told), end_of(told)
    if found:
        line, column, *words = (it.decode("latin-1") for it in found.groups())
        told = source_fault(path, explained, int(line), int(column), *words)
    elif in_text:
        line, *words = (it.decode("latin-1") for it in in_text.groups())
        told = text_fault(path, int(line), *words, origins)
    elif end:
        told = b"\n" * is_open + told + locate(end) + f"{cures()[end]}\n".encode()
    sys.stderr.buffer.write(told)
    sys.stderr.buffer.flush()


def run(words, path, origins=None, locate=lambda _: b""):
    """Runs the program on the caller's input; output passes through. Returns the status. Faults are those of the file at
    the path; where its text was rewritten, `origins` has the line of each rewritten one. `locate` tells where a run ended, by
    the words of its end."""
    flags = ["--explain"] if words[0] in EXPLAINED and "--explain" not in words else []
    command = subprocess.Popen([program(), *words, *flags], stdout=subprocess.PIPE, stderr=subprocess.PIPE)
    told, explained = [], []

    def listen():
        for line in command.stderr:
            if told and EXPLAINS.fullmatch(line):
                explained.append(EXPLAINS.fullmatch(line)[1].decode("latin-1"))
            elif FAULT.fullmatch(line) or LINE_FAULT.fullmatch(line) or end_of(line):
                told.append(line)
            else:
                sys.stderr.buffer.write(line)
                sys.stderr.buffer.flush()

    listener = threading.Thread(target=listen)
    listener.start()
    last = b"\n"
    while piece := os.read(command.stdout.fileno(), 65536):
        last = piece[-1:]
        sys.stdout.buffer.write(piece)
        sys.stdout.buffer.flush()
    listener.join()
    for line in told:
        tell(line, explained, path, origins, last != b"\n", locate)
    return command.wait()
