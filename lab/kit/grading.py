"""How a submission is graded: by the kind that an exercise's file exercise.json names, test by test."""
import dataclasses
import hashlib
import json
import os
import re
import tempfile

import codes
import swapping
import trees
from answering import program
from limits import Limits, contents, run

# How often a hash is taken: so a try takes some milliseconds.
TURNS = 20000
MOST_BYTES = 1 << 16


@dataclasses.dataclass(frozen=True)
class Outcome:
    """What came of a test: its name, and what is wrong, if anything is."""

    name: str
    why: str = ""


class Exercise:
    """An exercise: its folder, and what its file exercise.json has."""

    def __init__(self, folder):
        self.folder, self.name = folder, os.path.basename(folder)
        with open(os.path.join(folder, "exercise.json"), encoding="utf-8") as file:
            self.settings = json.load(file)
        self.kind, self.ending = self.settings["kind"], self.settings["ending"]
        self.limits = Limits(self.settings.get("seconds", 5), self.settings.get("output", 1 << 16))

    def tests(self, ending):
        """The names of the tests with a file of that ending, and the paths."""
        folder = os.path.join(self.folder, "tests")
        for file in sorted(os.listdir(folder)):
            if file.endswith(ending):
                yield file.removesuffix(ending), os.path.join(folder, file)

    def grade(self, path):
        """The outcomes of a submission."""
        if self.kind != "stage" and os.path.getsize(path) > MOST_BYTES:
            return [Outcome("size", f"it has more than {MOST_BYTES} bytes")]
        return list(KINDS[self.kind](self, os.path.abspath(path)))


def fault_of(ran):
    """Why a command of the program failed, in its own words."""
    lines = ran.err.decode("latin-1").strip().splitlines()
    return ran.why or (lines[0] if lines else f"it ends with {ran.status}")


def shown(text):
    return repr(text[:50].decode("latin-1")) + ("..." if len(text) > 50 else "")


def run_of(words, name, path, limits):
    """The outcome of a test NAME.in with its NAME.out."""
    ran = run(words, contents(path), limits)
    due = contents(path.removesuffix(".in") + ".out")
    if ran.why or ran.status:
        return Outcome(name, fault_of(ran))
    if ran.out == due:
        return Outcome(name)
    ours, its = due.split(b"\n"), ran.out.split(b"\n")
    at = next((at for at, pair in enumerate(zip(ours, its)) if pair[0] != pair[1]), min(len(ours), len(its)))
    lines = [shown(it[at]) if at < len(it) else "the end" for it in (ours, its)]
    return Outcome(name, f"line {at + 1}: {lines[0]} is due, and it writes {lines[1]}")


def of_a_program(exercise, path):
    """A source: `run` of it on each input has to write the output."""
    checked = run([program(), "check", path], b"", exercise.limits)
    if checked.status or checked.why:
        yield Outcome("check", fault_of(checked))
        return
    for name, given in exercise.tests(".in"):
        words = [program(), "run", path, "--steps", str(exercise.settings["steps"])]
        yield run_of(words, name, given, exercise.limits)


def of_a_routine(exercise, path):
    """An assembly text without `main`, to which the exercise's own is added: `exec` of both on each input."""
    with tempfile.NamedTemporaryFile(suffix=".s") as file:
        file.write(contents(path) + b"\n" + contents(os.path.join(exercise.folder, "tests", "main.s")))
        file.flush()
        for name, given in exercise.tests(".in"):
            words = [program(), "exec", file.name, "--steps", str(exercise.settings["steps"])]
            yield run_of(words, name, given, exercise.limits)


def answers_in(path):
    """The answers of a file: lines `question = answer`, with remarks behind `#`. Words may stand apart by blanks or commas."""
    found = {}
    for line in contents(path).decode("utf-8", "replace").splitlines():
        question, is_one, answer = line.split("#")[0].partition("=")
        if is_one:
            found[question.strip()] = " ".join(answer.replace(",", " ").split())
    return found


def hash_of(question, answer, salt):
    return hashlib.pbkdf2_hmac("sha256", f"{question}={answer.lower()}".encode(), salt.encode(), TURNS).hex()[:32]


def hashed(answers, salt):
    """What stands in exercise.json of the right answers."""
    return {question: hash_of(question, answer, salt) for question, answer in answers.items()}


def of_answers(exercise, path):
    """Answers to questions, of which the hashes of the right ones are kept."""
    given, salt = answers_in(path), exercise.settings["salt"]
    for question, kept in exercise.settings["answers"].items():
        if not given.get(question):
            yield Outcome(question, "no answer")
        else:
            yield Outcome(question, "" if hash_of(question, given[question], salt) == kept else "not so")


def compared(due, given):
    """The outcomes of answers that are sets of words, where the right ones are known here."""
    for question, words in due.items():
        if question not in given:
            yield Outcome(question, "no answer")
        else:
            yield Outcome(question, "" if sorted(given[question].split()) == sorted(words) else "not so")


def of_live_sets(exercise, path):
    """For each line of each code what is live out of it. An empty set is a line without a word behind `=`."""
    due = {}
    for name, code in exercise.tests(".code"):
        for number, live in enumerate(codes.live_out(codes.read_code(contents(code).decode())), 1):
            due[f"{name} {number}"] = live
    yield from compared(due, answers_in(path))


def steps_of(text, label):
    """The lines that `alloc` writes of a function."""
    found = re.search(rf"(?ms)^function {label}\n(.*?)(?=^function |\Z)", text)
    return [line.split() for line in found[1].splitlines()] if found else []


def facts_of(lines):
    """What the questions of an exercise about `alloc` ask of a function's lines."""
    rounds = [at for at, it in enumerate(lines) if it[0] == "round"]
    first = lines[rounds[0] + 1:rounds[1] if len(rounds) > 1 else len(lines)]
    facts = {"rounds": [str(len(rounds))], "spilled": [it[1] for it in first if it[0] == "spilled"],
             "slots": lines[-1][1:]}
    for word in ("briggs", "george"):
        facts[word] = [str(sum(it[-1] == word for it in first))]
    for word in ("constrain", "freeze"):
        facts[word] = [str(sum(it[0] == word for it in first))]
    for it in lines:
        if it[0] in ("colour", "slot"):
            facts[it[1]] = [it[2] if it[0] == "colour" else f"slot{it[2]}"]
    return facts


def of_alloc(exercise, path):
    """Answers about what `alloc` does to the exercise's own source."""
    told = run([program(), "alloc", os.path.join(exercise.folder, "given.tig")], b"", Limits(output=1 << 22))
    facts = facts_of(steps_of(told.out.decode(), exercise.settings["function"]))
    yield from compared({it: facts.get(it, []) for it in exercise.settings["questions"]}, answers_in(path))


def sections(text):
    """The parts of a text behind lines `tree N`, by their names."""
    parts = re.split(r"(?m)^\s*tree\s+(\w+)\s*$", text)
    return dict(zip(parts[1::2], parts[2::2]))


def of_trees(exercise, path):
    """Canonical statements for each tree: any that do what the tree does, with no more temporaries than are enough."""
    try:
        given = sections(contents(path).decode())
    except UnicodeDecodeError:
        given = {}
    for name, tree in exercise.tests(".tree"):
        try:
            why = trees.differs(trees.read(contents(tree).decode()), trees.read(given[name]), exercise.settings["most"][name])
        except KeyError:
            why = "no answer"
        except trees.Fault as fault:
            why = str(fault)
        yield Outcome(f"tree {name}", why)


def of_a_stage(exercise, path):
    """A program in the place of a stage: nothing may be wrong, and its cost at most what is asked for."""
    settings = exercise.settings
    stage, rows = swapping.STAGES[settings["stage"]], []
    own = [it for _, it in exercise.tests(settings["texts"])]
    for text in own + list(swapping.files_of_suite(settings.get("suite", []))):
        row = stage(swapping.words_of_file(path), text, exercise.limits)
        if row:
            rows.append(row)
            most = settings.get("most", {}).get(os.path.basename(text))
            too_much = most is not None and row.theirs > most
            yield Outcome(row.name, row.why or (f"it costs {row.theirs}, and {most} is asked for" if too_much else ""))
    most = settings.get("most", {}).get("all")
    if most is not None:
        cost = sum(row.theirs for row in rows)
        yield Outcome("all", f"all cost {cost}, and {most} is asked for" if cost > most else "")


KINDS = {"program": of_a_program, "routine": of_a_routine, "answers": of_answers, "live": of_live_sets, "alloc": of_alloc,
         "trees": of_trees, "stage": of_a_stage}
