"""The files of vectors/, which its README explains, and what a program has to make of them.

Each input must have its canonical text in both formats, or its error. Each canonical
text must be a fixed point, and come back from the other format. `same` must
distinguish files if and only if they declare different models.
"""

import csv
import subprocess
from collections import namedtuple
from itertools import combinations
from pathlib import Path

ROOT = Path(__file__).resolve().parents[2]
FOLDER = ROOT / "vectors"
DESCRIBED = {
    "README.md",
    "index.tsv",
    "changed-lines.tsv",
    "cuts.tsv",
    "single-bytes.tsv",
    "long-lines.tsv",
    "literals.tsv",
    "sums.tsv",
}
LINE_ENDS = {"LF": b"\n", "CR LF": b"\r\n"}

Entry = namedtuple("Entry", "topic input answer mps lp show")


def rows(name):
    with open(FOLDER / name, newline="") as table:
        return list(csv.reader(table, delimiter="\t", quoting=csv.QUOTE_NONE))[1:]


def content(name):
    return (FOLDER / name).read_bytes()


def form_of(name):
    return name.rsplit(".", 1)[1]


def with_changed_line(name, number, lines):
    """The text that a row of changed-lines.tsv describes."""
    own = content(name).splitlines(keepends=True)
    own[int(number) - 1] = b"".join(line.encode() + b"\n" for line in lines)
    return b"".join(own)


def with_long_line(first, further, length, end, name):
    """The text that a row of long-lines.tsv describes."""
    return first.encode() + further.encode() * (int(length) - 1) + LINE_ENDS[end] + content(name)


class Checker:
    """Runs of the program, and the unexpected results."""

    def __init__(self, program, shows):
        self.program = program
        self.shows = shows
        self.count = 0
        self.wrong = []

    def run(self, *words, text=b""):
        self.count += 1
        done = subprocess.run([self.program, *words], input=text, capture_output=True, cwd=FOLDER)
        return done.returncode, done.stdout, done.stderr

    def wants(self, place, found, expected):
        if found != expected:
            self.wrong.append(f"{place}: {found!r} in place of {expected!r}")

    def converts(self, place, form, to, text, answer):
        """`answer` is the bytes of the text, or the line of an error."""
        if isinstance(answer, bytes):
            expected = (0, answer, b"")
        else:
            expected = (2, b"", answer.encode() + b"\n")
        self.wants(f"{place} to {to}", self.run("canon", form, to, "-", text=text), expected)

    def answers(self, place, form, text, entry):
        """A text has the canonical texts of an entry, or its error."""
        if entry.answer != "model":
            for to in ("mps", "lp"):
                self.converts(place, form, to, text, entry.answer)
            return
        self.converts(place, form, "mps", text, content(entry.mps))
        self.converts(place, form, "lp", text, lp_answer(entry))


def lp_answer(entry):
    return entry.lp if entry.lp.endswith(": NotLp") else content(entry.lp)


def refused(answer):
    return Entry("-", "-", answer, "-", "-", "-")


def check_folder(checker, entries):
    """Each file is described, and each input is in the index once."""
    inputs = [entry.input for entry in entries]
    checker.wants("inputs that stand twice", sorted({name for name in inputs if inputs.count(name) > 1}), [])
    named = DESCRIBED.union(*(entry[1:] for entry in entries))
    checker.wants("files that are not described", sorted({path.name for path in FOLDER.iterdir()} - named), [])
    kept = {}
    for entry in entries:
        checker.wants(f"texts of {entry.mps}", kept.setdefault(entry.mps, entry[3:]), entry[3:])


def check_input(checker, entry):
    form = form_of(entry.input)
    checker.answers(entry.input, form, content(entry.input), entry)
    if not checker.shows:
        return
    if entry.answer != "model":
        shown = (2, b"", entry.answer.encode() + b"\n")
    elif entry.show != "-":
        shown = (0, content(entry.show), b"")
    else:
        return
    checker.wants(f"{entry.input} shown", checker.run("show", form, entry.input), shown)


def check_model(checker, entry):
    """The canonical texts of a model are fixed points, and come back from the other format."""
    names = [name for name in (entry.mps, entry.lp) if not name.endswith(": NotLp")]
    for name in names:
        checker.answers(name, form_of(name), content(name), entry)


def same(checker, first, second, expected):
    words = ("same", form_of(first), first, form_of(second), second)
    checker.wants(" ".join(words), checker.run(*words), expected)


def check_same(checker, models):
    """Inputs of one model are the same as its canonical text; canonical texts are not, nor are their neighbours."""
    for canonical, inputs in models.items():
        for name in inputs:
            same(checker, name, canonical, (0, b"same\n", b""))
            same(checker, canonical, name, (0, b"same\n", b""))
        for first, second in zip(inputs, inputs[1:]):
            same(checker, first, second, (0, b"same\n", b""))
    for (first, own), (second, others) in combinations(models.items(), 2):
        same(checker, first, second, (1, b"not the same\n", b""))
        same(checker, others[-1], own[-1], (1, b"not the same\n", b""))


def check_same_faults(checker, entries, canonical):
    """An error of the first input is reported before one of the second."""
    refusals = [entry for entry in entries if entry.answer != "model"]
    for entry, other in zip(refusals, refusals[1:] + refusals[:1]):
        fault = entry.answer.encode()
        same(checker, entry.input, canonical, (2, b"", b"first: " + fault + b"\n"))
        same(checker, canonical, entry.input, (2, b"", b"second: " + fault + b"\n"))
        same(checker, entry.input, other.input, (2, b"", b"first: " + fault + b"\n"))


def check_changed_lines(checker, entries):
    inputs = {entry.input for entry in entries}
    seen = set()
    for _, name, number, answer, *lines in rows("changed-lines.tsv"):
        text = with_changed_line(name, number, lines)
        place = f"{name} with {lines} for line {number}"
        checker.wants(f"{place} stands twice, or without an index", text in seen or name not in inputs, False)
        seen.add(text)
        checker.answers(place, form_of(name), text, refused(answer))


def check_cuts(checker, entries):
    by_text = {entry.mps: entry for entry in entries} | {entry.lp: entry for entry in entries}
    reached = {}
    for name, least, greatest, answer in rows("cuts.tsv"):
        checker.wants(f"cuts of {name} from", int(least), reached.get(name, -1) + 1)
        reached[name] = int(greatest)
        entry = by_text[name] if answer == "model" else refused(answer)
        for length in range(int(least), int(greatest) + 1):
            checker.answers(f"{name} cut after {length}", form_of(name), content(name)[:length], entry)
    for name, greatest in reached.items():
        checker.wants(f"cuts of {name} to", greatest, len(content(name)))


def check_single_bytes(checker):
    seen = {"mps": [], "lp": []}
    for form, first, last, answer in rows("single-bytes.tsv"):
        for byte in range(int(first), int(last) + 1):
            seen[form].append(byte)
            checker.answers(f"byte {byte}", form, bytes([byte]), refused(answer))
    for form, values in seen.items():
        checker.wants(f"bytes of {form}", values, list(range(256)))


def check_long_lines(checker, entries):
    by_input = {entry.input: entry for entry in entries}
    for first, further, length, end, name, answer in rows("long-lines.tsv"):
        entry = by_input[name] if answer == "model" else refused(answer)
        place = f"{name} behind {length} bytes and {end}"
        checker.answers(place, form_of(name), with_long_line(first, further, length, end, name), entry)


def check_program(checker):
    entries = [Entry(*fields) for fields in rows("index.tsv")]
    models = {}
    for entry in entries:
        if entry.answer == "model":
            models.setdefault(entry.mps, []).append(entry.input)
    check_folder(checker, entries)
    for entry in entries:
        check_input(checker, entry)
    for entry in {entry.mps: entry for entry in entries if entry.answer == "model"}.values():
        check_model(checker, entry)
    check_same(checker, models)
    check_same_faults(checker, entries, next(iter(models)))
    check_changed_lines(checker, entries)
    check_cuts(checker, entries)
    check_single_bytes(checker)
    check_long_lines(checker, entries)
