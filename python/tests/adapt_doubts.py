#!/usr/bin/env python3
"""Check that adapt leaves, or notes, files with words that can be read in two ways.

A random model that adapt has to change is written as LP or MPS, and gets damage of one sort: a section word as the name
of a column or in a list; digits, signs and currencies of other scripts; a number with a tail, as 10_000, 1D3, 0x1F or
100L; a unit after the right-hand sides; a number that is split over two lines. What adapt makes of it is left with a
line and a reason for people, or the model that was written, or, for units, noted. An internal error is a failure: each
sort has its rule.

Prints each file that is wrong, and for each sort how many files were left, noted, unchanged and the same model. With
--wrong the rules are made wrong one by one, as adapt_doubts_wrong.tsv says: the files have to find each, and the check
of the words has to stop each that the table marks so.
"""

import argparse
import random
import re
import subprocess
import sys
from collections import Counter
from collections.abc import Callable
from dataclasses import dataclass, field, replace
from decimal import Decimal
from pathlib import Path

from adapt_package import AdaptError, adapt_rejected
from adapt_rules import rows, tried_wrong
from repository import ROOT

PROGRAM = ROOT / "crates" / "mpslp" / "out" / "mpslp"
WRONG = ROOT / "python" / "tests" / "adapt_doubts_wrong.tsv"
FILES, FILES_IF_WRONG = 20_000, 1_400
MOST_SHOWN = 20

SECTION_WORDS = (
    "st",
    "s.t.",
    "st.",
    "ST",
    "bound",
    "bounds",
    "Bounds",
    "general",
    "Generals",
    "gen",
    "integer",
    "Integers",
    "int",
    "binary",
    "Binaries",
    "bin",
    "semi",
    "semis",
    "end",
    "free",
)
RESERVED = (
    *SECTION_WORDS,
    "subject",
    "such",
    "min",
    "max",
    "minimum",
    "maximum",
    "minimize",
    "Maximize",
    "inf",
    "infinity",
    "sos1",
)
PAIRS = ("subject to", "such that", "Subject To")
SIGNS = ("\u00b7", "\u204e", "\u2217", "\u2022", "\u2027", "\u22c5", "\u2219", "\u00d7", "\uff0a", "\u30fb", "\u2062")
MONEY = ("\u20ac", "\u00a3", "\u00a5", "\uff04", "\u20b9", "\u2116", "\u00b1", "\u2248", "\u00a7", "\u00b0")
TAILS = (
    "_000",
    "_5",
    "D3",
    "d2",
    "D+2",
    "d-1",
    "L",
    "l",
    "UL",
    "f",
    "F",
    "u",
    "k",
    "K",
    "M",
    "G",
    "e",
    "E",
    "e+",
    "E-",
    "e ",
    "kg",
    "EUR",
    "hours",
    "h",
    "%",
    " e3",
    " e+3",
    "'000",
    "#",
    "$",
    "\u20ac",
    "\u00b0",
    "$x",
    "_",
    "x1F",
    "j",
)
UNITS = ("hours", "kg", "EUR", "t", "percent", "pcs", "MWh", "units", "%")
SCRIPTS = (0xFF10, 0x0660, 0x06F0, 0x0966, 0x09E6, 0x0E50, 0x1D7CE, 0x2080)
"""The digit 0 of other scripts, of which the others follow."""


# ---- a model


@dataclass
class Row:
    label: str
    terms: list
    constant: int
    relation: str
    side: str


@dataclass
class Model:
    """A model that adapt has to change, for terms of one column or a number among the terms of a row."""

    is_max: bool
    objective: list
    constant: str
    rows: list
    bounds: dict = field(default_factory=dict)
    integers: list = field(default_factory=list)
    binaries: list = field(default_factory=list)
    is_flipped: bool = False
    """Whether bounds have their numbers first."""


NAMES = ("x", "y", "z", "w", "x1", "y2", "amount", "TO", "that", "cost_a", "Q")


def drawn(source):
    names = source.sample(NAMES, source.randint(2, 6))

    def number():
        return source.choice(("2", "3", "5", "12", "40", "100", "250", "1500", "0.5", "2.5", "12.75", "1e3", "2.5e2"))

    def terms(least):
        chosen = source.sample(names, source.randint(least, min(3, len(names))))
        return [(source.choice("+-"), number() if source.random() < 0.7 else "", name) for name in chosen]

    has_labels = source.random() < 0.6
    count = source.randint(1, 4)
    made = [
        Row(f"r{at}" if has_labels else "", terms(1), 0, source.choice(("<=", ">=", "=")), number())
        for at in range(count)
    ]
    source.choice(made).constant = source.choice((1, 3, 7))
    model = Model(source.random() < 0.5, terms(1), source.choice(("", "", number())), made)
    model.is_flipped = source.random() < 0.2
    for name in source.sample(names, source.randint(0, 2)):
        model.bounds[name] = number()
    model.integers = source.sample(names, source.randint(0, len(names)))
    model.binaries = (
        []
        if source.random() < 0.6
        else [name for name in names if name not in model.integers and name not in model.bounds][:2]
    )
    return model


def expression(terms, gap=" "):
    words = [f"{sign} {number}{gap if number else ''}{name}" for sign, number, name in terms]
    return re.sub(r"^\+ ", "", " ".join(words))


def plain(model):
    """The model with each constant of a row on its right."""
    return replace(
        model, rows=[replace(row, constant=0, side=f"{Decimal(row.side) - row.constant:f}") for row in model.rows]
    )


def lines_of(model, is_glued=False):
    """The lines of a model in LP."""
    gap = "" if is_glued else " "
    yield "max" if model.is_max else "min"
    yield f" cost: {expression(model.objective, gap)}{f' + {model.constant}' if model.constant else ''}"
    yield "subject to"
    for row in model.rows:
        constant = f" + {row.constant}" if row.constant else ""
        yield (
            f" {row.label + ': ' if row.label else ''}{expression(row.terms, gap)}{constant} {row.relation} "
            f"{row.side}"
        )
    if model.bounds:
        yield "bounds"
        yield from (
            f" {number} >= {name}" if model.is_flipped else f" {name} <= {number}"
            for name, number in model.bounds.items()
        )
    for header, names in (("generals", model.integers), ("binaries", model.binaries)):
        if names:
            yield header
            yield from (f" {name}" for name in names)
    yield "end"


def text_of(lines):
    return "\n".join([*lines, ""])


def mps_of(model):
    """The model in MPS, with a first line that adapt has to change."""
    kinds = {"<=": "L", ">=": "G", "=": "E"}
    entries = {}
    for name, terms in [("COST", model.objective), *((f"R{at}", row.terms) for at, row in enumerate(model.rows))]:
        for sign, number, column in terms:
            entries.setdefault(column, []).append((name, ("-" if sign == "-" else "") + (number or "1")))
    yield "name"
    yield "ROWS"
    yield " N  COST"
    yield from (f" {kinds[row.relation]}  R{at}" for at, row in enumerate(model.rows))
    yield "COLUMNS"
    yield from (f"    {column}  {row}  {number}" for column, pairs in entries.items() for row, number in pairs)
    yield "RHS"
    yield from (f"    RHS  R{at}  {row.side}" for at, row in enumerate(model.rows))
    if model.bounds:
        yield "BOUNDS"
        yield from (f" UP  BND  {name}  {number}" for name, number in model.bounds.items() if name in entries)
    yield "ENDATA"


# ---- damage


@dataclass(frozen=True)
class Damaged:
    """A text with damage, and the text that is meant, as a function of the names that are written for names given."""

    text: str
    meant: Callable[[dict], str]
    unit: str = ""


def renamed(model, old, new):
    def terms(items):
        return [(sign, number, new if name == old else name) for sign, number, name in items]

    return replace(
        model,
        objective=terms(model.objective),
        rows=[replace(row, terms=terms(row.terms)) for row in model.rows],
        bounds={new if name == old else name: number for name, number in model.bounds.items()},
        integers=[new if name == old else name for name in model.integers],
        binaries=[new if name == old else name for name in model.binaries],
    )


def columns_of(model):
    """The columns in their order."""
    found = dict.fromkeys(
        name for items in (model.objective, *(row.terms for row in model.rows)) for _, _, name in items
    )
    found.update(dict.fromkeys([*model.bounds, *model.integers, *model.binaries]))
    return list(found)


def meant_with(model, old, word):
    return lambda names: text_of(lines_of(plain(renamed(model, old, names.get(word, word)))))


def section_word_as_column(source, model):
    """A column has a section word as its name, everywhere."""
    old, word = source.choice(columns_of(model)), source.choice(RESERVED)
    return Damaged(text_of(lines_of(renamed(model, old, word), source.random() < 0.1)), meant_with(model, old, word))


def section_word_in_objective(source, model):
    """The objective ends with such a column, which is there only, after a number."""
    word = source.choice((*SECTION_WORDS, *PAIRS))
    number = source.choice(("10", "1000", "2.5", ""))
    made = replace(model, objective=[*model.objective, (source.choice("+-"), number, word)], constant="")
    return Damaged(text_of(lines_of(made)), meant_with(made, word, word))


def section_word_in_list(source, model):
    """A list has such a word, on a line of its own or beside another name."""
    names = columns_of(model)
    listed, word = source.sample(names, source.randint(1, len(names))), source.choice((*RESERVED, *PAIRS))
    at = source.randint(0, len(listed))
    listed[at:at] = [word]
    made = replace(model, integers=listed if source.random() < 0.7 else [], binaries=[])
    if not made.integers:
        made.binaries = listed
    lines = list(lines_of(made))
    if source.random() < 0.5:  # the list on the line of its header, or all on one line
        header = lines.index("generals" if made.integers else "binaries")
        joined = " ".join(line.strip() for line in lines[header + 1 : -1])
        lines[header:-1] = [f"{lines[header]} {joined}"] if source.random() < 0.5 else [lines[header], f" {joined}"]
    if source.random() < 0.3:
        lines = [line.strip() for line in lines]
    return Damaged(text_of(lines), meant_with(made, word, word))


def header_lost_or_moved(source, model):
    """A section word comes again, at the end of a line or on a line of its own, where nothing follows it."""
    lines = list(lines_of(model))
    word = source.choice((*SECTION_WORDS, *PAIRS))
    if source.random() < 0.5:
        lines[source.randrange(1, len(lines) - 1)] += " " + word
    else:
        headers = [at for at, line in enumerate(lines) if line in ("bounds", "generals", "binaries", "end")]
        lines.insert(source.choice(headers) + source.choice((0, 1)), " " * source.randint(0, 1) + word)
    return Damaged(text_of(lines), lambda names: text_of(lines_of(plain(model))), word)


NUMBER = re.compile(r"(?<![A-Za-z0-9_.])(?:[0-9]+\.?[0-9]*)(?:e[0-9]+)?(?![A-Za-z0-9_])")


def places_of_numbers(text):
    return [found.span() for found in NUMBER.finditer(text)]


def look_alike(source, model):
    """A letter of another script in one place of a column."""
    text, letters = text_of(lines_of(model)), dict(
        zip("aeopcyxKMHOTQ", "\u0430\u0435\u043e\u0440\u0441\u0443\u0445\u041a\u041c\u041d\u041e\u0422\u051a")
    )
    places = [
        found.start()
        for name in columns_of(model)
        for found in re.finditer(rf"(?<=[ ]){name}(?= |\n)", text)
        if name[0] in letters
    ]
    places = [
        at for at in places if len(re.findall(rf"(?<![\w.]){re.match(r'[a-zA-Z_0-9]+', text[at:])[0]}(?!\w)", text)) > 1
    ]
    if not places:
        return other_digits(source, model)
    at = source.choice(places)
    return Damaged(
        text[:at] + letters[text[at]] + text[at + 1 :], lambda names: text_of(lines_of(plain(model))), letters[text[at]]
    )


def at_number(source, model, change, most=1):
    """LP with a change of some of its numbers."""
    text = text_of(lines_of(model))
    chosen = sorted(source.sample(places_of_numbers(text), min(most, len(places_of_numbers(text)))), reverse=True)
    for start, end in chosen:
        text = text[:start] + change(text[start:end]) + text[end:]
    return Damaged(text, lambda names: text_of(lines_of(plain(model))))


def other_digits(source, model):
    zero = source.choice(SCRIPTS)

    def change(number):
        if source.random() < 0.7:
            return "".join(chr(zero + int(each)) if each.isdigit() else each for each in number)
        at = source.choice([at for at, each in enumerate(number) if each.isdigit()])
        return number[:at] + chr(zero + int(number[at])) + number[at + 1 :]

    return at_number(source, model, change, source.randint(1, 2))


def other_signs(source, model):
    sign = source.choice(SIGNS)
    text = text_of(lines_of(model))
    gaps = [found.span() for found in re.finditer(r"(?<=[0-9]) (?=[A-Za-z])", text)]
    if not gaps:
        return other_digits(source, model)
    start, end = source.choice(gaps)
    around = source.choice(("", " "))
    return Damaged(text[:start] + around + sign + around + text[end:], lambda names: text_of(lines_of(plain(model))))


def money(source, model):
    sign = source.choice(MONEY)
    gap = source.choice(("", "", " "))
    return at_number(
        source,
        model,
        (lambda number: sign + gap + number) if source.random() < 0.6 else (lambda number: number + gap + sign),
    )


def tails(source, model):
    tail = source.choice(TAILS)
    made = at_number(source, model, lambda number: "0x1F" if tail == "x1F" else number + tail, source.choice((1, 1, 2)))
    return replace(made, unit="e3" if tail == " e3" else "")


def units(source, model):
    """A unit after right-hand sides."""
    unit, gap = source.choice(UNITS), source.choice((" ", " ", ""))
    lines = [
        line + (gap + unit if re.search(r"[<>=]+ [0-9.e]+$", line) and line.strip() and at < 9 else "")
        for at, line in enumerate(lines_of(replace(model, bounds={})))
    ]
    return Damaged(text_of(lines), lambda names: text_of(lines_of(plain(replace(model, bounds={})))), unit)


def split_number(source, model):
    text = text_of(lines_of(model, source.random() < 0.1))
    places = [(start, end) for start, end in places_of_numbers(text) if end - start > 1]
    if not places:
        return tails(source, model)
    start, end = source.choice(places)
    at = source.randint(start + 1, end - 1)
    return Damaged(
        text[:at] + "\n" + " " * source.choice((0, 0, 1)) + text[at:], lambda names: text_of(lines_of(plain(model)))
    )


def split_side(source, model):
    """A right-hand side is split, and the next row starts with a sign."""
    made = replace(
        model,
        rows=[replace(row, label="", side=source.choice(("25", "2.5", "140", "1e3", "0.75"))) for row in model.rows],
    )
    lines = list(lines_of(replace(made, bounds={}, integers=[], binaries=[])))
    at = source.randrange(3, len(lines) - 1)
    place = source.randint(1, len(made.rows[at - 3].side) - 1)
    place += len(lines[at]) - len(made.rows[at - 3].side)
    lines[at : at + 1] = [lines[at][:place], lines[at][place:]]
    if at + 3 < len(lines):
        lines[at + 2] = re.sub(r"^ ?(?=\w)", "+ ", lines[at + 2])
    return Damaged(
        text_of(lines), lambda names: text_of(lines_of(plain(replace(made, bounds={}, integers=[], binaries=[]))))
    )


def in_mps(source, model):
    """A number of MPS in other digits, with a tail, or split over two lines."""
    lines = list(mps_of(model))
    data = [at for at, line in enumerate(lines) if re.search(r" -?[0-9.e]+$", line)]
    at = source.choice(data)
    start = lines[at].rindex(" ") + 1
    number = lines[at][start:]
    way = source.choice(("digits", "tail", "split", "split", "sign"))
    if way == "digits":
        zero = source.choice(SCRIPTS)
        lines[at] = lines[at][:start] + "".join(chr(zero + int(each)) if each.isdigit() else each for each in number)
    elif way == "tail":
        lines[at] += source.choice([tail for tail in TAILS if tail[0] not in "dD" and tail != "x1F"])
    elif way == "sign":
        lines[at] = lines[at][:start] + source.choice((*SIGNS, *MONEY)) + number
    elif len(number) > 1:
        place = source.randint(1, len(number) - 1)
        row = source.choice([line.split()[1] for line in lines[2 : lines.index("COLUMNS")]])
        pair = source.choice(("", f"  {row}  3"))
        lines[at : at + 1] = [lines[at][: start + place], " " * source.choice((0, 0, 4)) + number[place:] + pair]
    return Damaged(text_of(lines), lambda names: text_of(mps_of(model)).replace("name", "NAME", 1))


def word_in_mps(source, model):
    """A keyword of MPS as a column, in a file whose lines are not indented, or some of them."""
    old, word = source.choice(columns_of(model)), source.choice(
        (
            "RHS",
            "BOUNDS",
            "NAME",
            "ROWS",
            "COLUMNS",
            "ENDATA",
            "RANGES",
            "OBJSENSE",
            "MAX",
            "N",
            "UP",
            "rhs",
            "Bounds",
            "'MARKER'",
        )
    )
    made = renamed(model, old, word)
    lines = [line.lstrip() if source.random() < 0.5 else line for line in mps_of(made)]
    return Damaged(text_of(lines), lambda names: text_of(mps_of(made)).replace("name", "NAME", 1))


SORTS = {
    "a section word as a column": section_word_as_column,
    "a section word in the objective": section_word_in_objective,
    "a section word in a list": section_word_in_list,
    "a section word again": header_lost_or_moved,
    "digits of other scripts": other_digits,
    "signs of other scripts": other_signs,
    "currencies": money,
    "letters that look alike": look_alike,
    "tails": tails,
    "units": units,
    "a number over two lines": split_number,
    "a right-hand side over two lines": split_side,
    "numbers of MPS": in_mps,
    "words of MPS": word_in_mps,
}


SORTS_OF_MPS = ("numbers of MPS", "words of MPS")
MAYBE_GLUED = ("a section word as a column", "a number over two lines")
DIALECTS = (None, None, None, None, "glpsol", "pulp")
"""Programs that mean no other model by what is drawn here."""

# ---- what comes of it


def canonical(program, format, text):
    done = subprocess.run([program, "canon", format, "mps", "-"], input=text.encode(), capture_output=True)
    return done.stdout if done.returncode == 0 else None


def judged(program, format, damaged, dialect):
    """What comes of a text, and what is wrong with that, or None."""
    try:
        done = adapt_rejected(damaged.text.encode(), format, dialect)
    except AdaptError as error:
        if "internal error" in error.reason:
            return "left", f"an internal error: {error}"
        return "left", None if error.line is not None else f"left without a line: {error}"
    if not done.changes:
        return "unchanged", None
    said = [str(each) for each in (*done.changes, *done.notes)]
    if damaged.unit and any(
        re.search(f"{re.escape(damaged.unit)}.* comes only after numbers|{damaged.unit}.* is named only here", each)
        for each in said
    ):
        return "noted", None
    found = canonical(program, format, done.text.decode())
    if found is None:
        return "rejected", None
    if found == canonical(program, format, damaged.meant(dict(done.names))):
        return "the same model", None
    return "another model", f"another model: {said}"


def trial(program, number, sort):
    source = random.Random(number)
    made = SORTS[sort](source, drawn(source))
    dialect = source.choice(DIALECTS)
    if dialect == "pulp" and sort in MAYBE_GLUED:  # PuLP has spaces around each name
        dialect = None
    return *judged(program, "mps" if sort in SORTS_OF_MPS else "lp", made, dialect), made.text


def tried(program, first, count):
    """How often each came of each sort, and what is wrong, with the number of the file."""
    counts, wrong, names = Counter(), [], list(SORTS)
    for number in range(first, first + count):
        sort = names[number % len(names)]
        outcome, reported, text = trial(program, number, sort)
        counts[sort, outcome] += 1
        if reported is not None:
            wrong.append(f"file {number}, {sort}: {reported}\n{text}")
    return counts, wrong


def wrong_rules():
    """Lines for the wrong rules that the files do not find, or that the check of the words does not stop."""
    stopped = 0
    for each in tried_wrong(__file__, WRONG, "_adapt", lambda module: ("--files", str(FILES_IF_WRONG))):
        place = f"python/tests/{WRONG.name}:{each.line}"
        if each.error:
            yield f"{place}: {each.error}"
        elif not each.output:
            yield f"{place}: no file finds {each.row['wrong']!r} instead of {each.row['right']!r}"
        elif "another model: " in each.output and each.row["check"] == "stops":
            yield (
                f"{place}: the check does not stop {each.row['wrong']!r} instead of {each.row['right']!r}:\n"
                f"{each.output[:2000]}"
            )
        stopped += "another model: " not in each.output
    print(f"{len(rows(WRONG))} wrong rules, of which the check stops {stopped}")


def arguments():
    parser = argparse.ArgumentParser(description=__doc__, formatter_class=argparse.RawDescriptionHelpFormatter)
    parser.add_argument("--program", type=Path, default=PROGRAM, help="the path of mpslp")
    parser.add_argument("--files", type=int, default=FILES, help=f"how many files ({FILES})")
    parser.add_argument("--first", type=int, default=0, help="the number of the first file (0)")
    parser.add_argument("--wrong", action="store_true", help="make the rules wrong one by one")
    return parser.parse_args()


def main():
    options = arguments()
    if not options.program.exists():
        print("skipped: the program is missing: make run builds it")
        return 0
    counts, wrong = tried(options.program.resolve(), options.first, options.files)
    for sort in SORTS:
        print(
            f"{sort}: "
            + ", ".join(f"{count} {outcome}" for (other, outcome), count in sorted(counts.items()) if other == sort)
        )
    if options.wrong:
        wrong += wrong_rules()
    print(*wrong[:MOST_SHOWN], sep="\n", end="\n" if wrong else "")
    print(f"{options.files} files, {len(wrong)} differ")
    return 1 if wrong else 0


if __name__ == "__main__":
    sys.exit(main())
