"""MPS files with damage that a person might make, and whether what adapt makes of them is what they say.

A text of a random model is damaged in one place: a digit, a space or a semicolon more or less, a name misspelt, two
lines joined, a field doubled, and so on. What adapt makes of it has to be left, or the model of the text without the
damage, or reported by a line of changes for the damaged lines. In no case may a number or the name of a row or a column
be lost that is in the damaged text, unless the line of changes for it shows it, as a range on the objective.
"""

import re
from collections import Counter

from adapt_package import AdaptError, adapt_text

SECTIONS = ("NAME", "OBJSENSE", "OBJNAME", "ROWS", "COLUMNS", "RHS", "RANGES", "BOUNDS", "ENDATA")
LETTERS = "abcxyzABCXYZ"
SHOWN = ("range-on-free", "bound-value")
"""Kinds whose changes show data that is left out."""


# ---- damage


def fields_of(line):
    return [found.span() for found in re.finditer(r"[^ \t]+", line)]


def replaced(line, span, text):
    return line[: span[0]] + text + line[span[1] :]


def a_field(source, line, pattern=r"."):
    """The place of a field that has the pattern, or None."""
    spans = [span for span in fields_of(line) if re.search(pattern, line[slice(*span)])]
    return source.choice(spans) if spans else None


def digit_more(source, line):
    span = a_field(source, line, r"[0-9]")
    return span and replaced(line, (span[1], span[1]), str(source.randint(0, 9)))


def digit_less(source, line):
    places = [found.span() for found in re.finditer(r"[0-9]", line)]
    return replaced(line, source.choice(places), "") if places else None


def space_in_field(source, line):
    span = a_field(source, line, r"..")
    if span is None:
        return None
    at = source.randint(span[0] + 1, span[1] - 1)
    return replaced(line, (at, at), " ")


def space_lost(source, line):
    gaps = [found.span() for found in re.finditer(r"(?<=[^ \t])[ \t]+(?=[^ \t])", line)]
    return replaced(line, source.choice(gaps), "") if gaps else None


def mark_after_field(source, line):
    span = a_field(source, line)
    mark = source.choice((";", ",", ":", " ;", " ,", "'", " $", " *", " |", " and", " $ to check", " !"))
    return span and replaced(line, (span[1], span[1]), mark)


def comma_for_point(source, line):
    return line.replace(".", ",", 1) if "." in line else None


def misspelt(source, line):
    span = a_field(source, line, r"[A-Za-z]")
    if span is None:
        return None
    word, at = line[slice(*span)], source.randrange(span[1] - span[0])
    return replaced(
        line,
        span,
        source.choice(
            (
                word[:at] + word[at + 1 :],
                word[:at] + source.choice(LETTERS) + word[at + 1 :],
                word[:at] + word[at] + word[at:],
                word.swapcase(),
                word[:at] + word[at + 1 : at + 2] + word[at : at + 1] + word[at + 2 :],
            )
        ),
    )


def doubled(source, line):
    span = a_field(source, line)
    return span and replaced(line, (span[1], span[1]), "  " + line[slice(*span)])


def lost(source, line):
    span = a_field(source, line)
    return span and replaced(line, span, "")


def swapped(source, line):
    spans = fields_of(line)
    if len(spans) < 2:
        return None
    at = source.randrange(len(spans) - 1)
    first, second = spans[at], spans[at + 1]
    return (
        line[: first[0]] + line[slice(*second)] + line[first[1] : second[0]] + line[slice(*first)] + line[second[1] :]
    )


def other_letters(source, line):
    return line.swapcase() if source.random() < 0.5 else line.lower()


def not_indented(source, line):
    return line.lstrip() if line[:1] == " " else " " + line


ON_A_LINE = (
    digit_more,
    digit_less,
    space_in_field,
    space_lost,
    mark_after_field,
    comma_for_point,
    misspelt,
    doubled,
    lost,
    swapped,
    other_letters,
    not_indented,
)


def damaged(source, text):
    """The text with damage in one place, what it is, and the numbers of its lines, from 1."""
    lines = text.split("\n")
    at = source.randrange(max(1, len(lines) - 1))
    way = source.random()
    if way < 0.1 and at + 1 < len(lines):
        return (
            "\n".join([*lines[:at], lines[at] + source.choice(("", " ", "  ")) + lines[at + 1], *lines[at + 2 :]]),
            "joined",
            {at + 1},
        )
    if way < 0.15:
        return "\n".join([*lines[:at], lines[at], *lines[at:]]), "line again", {at + 1, at + 2}
    if way < 0.2:
        return "\n".join([*lines[:at], *lines[at + 1 :]]), "line lost", {at, at + 1}
    if way < 0.25 and len(fields_of(lines[at])) > 1:
        cut = source.choice(fields_of(lines[at])[1:])[0]
        return (
            "\n".join([*lines[:at], lines[at][:cut], "    " + lines[at][cut:], *lines[at + 1 :]]),
            "line cut",
            {at + 1, at + 2},
        )
    damage = source.choice(ON_A_LINE)
    line = damage(source, lines[at])
    if line is None or line == lines[at]:
        return None
    return "\n".join([*lines[:at], line, *lines[at + 1 :]]), damage.__name__, {at + 1}


# ---- what a text says


def tokens_of(text):
    """The fields of the data lines of a text, numbers by their values, and the names of its rows and columns."""
    found, names, section = Counter(), set(), ""
    for line in text.split("\n"):
        fields = line.replace("\r", "").replace("\t", " ").split()
        if not fields or line.startswith("*"):
            continue
        if not line.startswith((" ", "\t")) and fields[0].upper().rstrip(":") in SECTIONS:
            section = fields[0].upper().rstrip(":")
            fields = fields[1:] if section != "NAME" else []
            if section == "ENDATA":
                break
        if section == "ROWS":
            names.update(fields[1:2])
        elif section == "COLUMNS":
            names.update(fields[:1])
        found.update(as_value(field) for field in fields)
    return found, names


def as_value(field):
    """A number by its value, up to the sign, and other fields in upper case."""
    plain = re.sub(r"^([+-]?[0-9.]+)[dD]([+-]?[0-9]+)$", r"\1e\2", field)
    try:
        value = float(plain)
    except ValueError:
        return field.upper()
    return str(min(abs(value), 1e20))


def lost_data(before, after, names):
    """The words of a text that another has not, and that are data: those with a digit, names, sections and markers."""
    for name in sorted(names, key=len, reverse=True):
        before = re.sub(rf"(?<![^ \t\r\n]){re.escape(name)}(?![^ \t\r\n])", lambda _: names[name], before)
    (old, declared), (new, _) = tokens_of(before), tokens_of(after)
    declared = {name.upper() for name in declared}
    return [
        word
        for word in old - new
        if any(each.isdigit() for each in word) or word in declared or word in SECTIONS or "'" in word
    ]


def judged(text, good, dialect, lines, canonical):
    """The outcome of a damaged text, and what is wrong, or None. ``good`` is the model without the damage, as canonical
    text."""
    try:
        done = adapt_text(text.encode("latin-1"), "mps", dialect)
    except AdaptError as error:
        is_internal = "internal error" in error.reason
        return "left", str(error) if is_internal else None
    model = canonical(done.text)
    if model is None:
        return "rejected", "adapted to a text that the program rejects"
    if not done.changes:
        return "accepted", None
    if model == good:
        return "the same model", None
    names = {name.encode("utf-8", "surrogateescape").decode("latin-1"): written for name, written in done.names.items()}
    missing = lost_data(text, done.text.decode("latin-1"), names)
    if missing and not any(change.kind in SHOWN for change in done.changes):
        return "lost", f"{missing} lost without a line that shows it: {[str(each) for each in done.changes]}"
    is_shown = bool(lines & {change.line for change in done.changes})
    return ("shown" if is_shown else "said by the file"), None
