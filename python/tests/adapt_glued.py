#!/usr/bin/env python3
"""Check adapt on LP files whose tokens and rows are put side by side, and on LP files with damage that a person might
make.

Glued: random rows, of which many begin with a sign and some have sums on both sides, are written with and without
spaces between tokens, over line ends, and several on a line. What is adapted has to be the model that was written, as
the program says; or the file is left.

Damaged: a digit, a space or a semicolon is put into such a file, or into one that is neatly written; a letter is lost
or another one, or two lines are joined. Whatever is changed has to be shown: the tokens of the result are those of the
file, with each reported change made, and each reported change of a statement says the same before and after, by the
sums of this script.

Prints a line for each file that is wrong, and how many were left, accepted as they are, and changed.
"""

import argparse
import random
import re
import subprocess
import sys
import traceback
from collections import Counter
from dataclasses import dataclass
from fractions import Fraction
from pathlib import Path

from adapt_package import AdaptError, adapt_text
from repository import ROOT

PROGRAM = ROOT / "crates" / "mpslp" / "out" / "mpslp"
NAMES = ("x", "y", "z", "z1", "ab", "w.2", "E", "q_")
LEGAL_NAMES = tuple(name for name in NAMES if name != "E")
RELATIONS = {"<": ("<=", "<", "=<"), ">": (">=", ">", "=>"), "=": ("=",)}
FLIPPED = {"<": ">", ">": "<", "=": "="}
TOKEN = re.compile(
    r"\s+|\\[^\n]*|(?P<token>(?m:^)\d[^\s\\<>=:*+^\-]*(?=\s*:)|<=|=<|<|>=|=>|>|==|=|:|\+|-|\*"
    r"|(?:\d+\.?\d*|\.\d+)(?:[eE][+-]?\d+)?|[^\s\\<>=:*+^\-]+|.)"
)
STATEMENTS = {"constant-in-row", "terms-on-the-right", "number-first", "added-terms", "added-constants", "product"}
LONGEST_SHOWN = 120


# ---- random files


@dataclass
class Row:
    """A row: a label or none, terms and a constant on each side, and a relation."""

    label: str
    sides: tuple[list, list]
    relation: str

    def plain(self):
        """The row as the profile has it."""
        total, constant = {}, Fraction(0)
        sign_of_right, relation = -1, self.relation
        if not any(name for _, name in self.sides[0]):
            sign_of_right, relation = 1, FLIPPED[self.relation]
        for side, factor in zip(self.sides, (-sign_of_right, sign_of_right)):
            for number, name in side:
                if name:
                    total[name] = total.get(name, 0) + factor * number
                else:
                    constant -= factor * number
        terms = " ".join(
            f"{'-' if number < 0 else '+'} {decimal(abs(number))} {name}" for name, number in total.items()
        )
        return f"{self.label + ': ' if self.label else ''}{terms} {RELATIONS[relation][0]} {decimal(constant)}"


def decimal(number):
    """A decimal with at most 3 places."""
    text = f"{float(number):.3f}".rstrip("0").rstrip(".")
    assert Fraction(text) == number
    return text


class Drawn:
    """A random LP file of rows, with its tokens."""

    def __init__(self, source, is_neat):
        self.source = source
        self.is_neat = is_neat
        self.names = LEGAL_NAMES
        self.rows = [self.row(number) for number in range(source.randint(1, 5))]
        self.objective = self.side(3, 0.1)

    def draw(self, chance):
        return self.source.random() < chance

    def number(self):
        return Fraction(self.source.choice((1, 2, 3, 5, 12, 40, 100, 999))) / self.source.choice((1, 1, 1, 2, 10))

    def side(self, most, constants, is_distinct=False):
        """Numbers with names, or without."""
        names = list(self.names)
        self.source.shuffle(names)
        found = []
        for _ in range(self.source.randint(1, most)):
            name = (
                ""
                if self.draw(constants)
                else names.pop()
                if is_distinct or self.draw(0.8)
                else self.source.choice(self.names)
            )
            number = Fraction(1) if name and self.draw(0.4) else self.number()
            found.append((-number if self.draw(0.4) else number, name))
        return found

    def row(self, number):
        is_plain = self.draw(0.6)
        left = self.side(3, 0 if is_plain else 0.15, is_plain)
        right = (
            [(-self.number() if self.draw(0.3) else self.number(), "")]
            if is_plain or self.draw(0.5)
            else self.side(3, 0.4)
        )
        if not any(name for _, name in left + right):
            left.append((Fraction(1), "x"))
        if not is_plain and self.draw(0.15):
            left, right = right, left
        return Row(f"r{number}" if self.draw(0.4) else "", (left, right), self.source.choice("<>="))

    def plain(self):
        """The file as the profile has it."""
        terms, constant = {}, Fraction(0)
        for number, name in self.objective:
            if name:
                terms[name] = terms.get(name, 0) + number
            else:
                constant += number
        words = [f"{'-' if number < 0 else '+'} {decimal(abs(number))} {name}" for name, number in terms.items()]
        constant = [f"{'-' if constant < 0 else '+'} {decimal(abs(constant))}"] if constant else []
        lines = [
            "min",
            "c0: " + " ".join(words + constant),
            "st",
            *(row.plain() for row in self.rows),
            "bounds",
            "z1 <= 44",
            "end",
            "",
        ]
        return "\n".join(lines)

    # ---- tokens

    def expression(self, side, is_first_signed):
        tokens = []
        for at, (number, name) in enumerate(side):
            if number < 0 or at or is_first_signed:
                tokens.append("-" if number < 0 else "+")
            if not name or abs(number) != 1 or self.draw(0.2):
                tokens.append(decimal(abs(number)))
                if name and self.draw(0.05):
                    tokens.append("*")
            if name:
                tokens.append(name)
        return tokens

    def tokens(self, row):
        label = [row.label, ":"] if row.label else []
        left, right = row.sides
        is_number = len(left) == 1 and not left[0][1]
        left_tokens = self.expression(left, not is_number and self.draw(0.5))
        return [*label, *left_tokens, self.source.choice(RELATIONS[row.relation]), *self.expression(right, False)]

    def text(self):
        text = "min\nc0: " + self.joined(self.expression(self.objective, False)) + "\nst\n"
        before = None
        for row in self.rows:
            tokens = self.tokens(row)
            # A number, a relation, terms, and a second relation on the same line are one row.
            is_open = before is not None and not any(name for _, name in before.sides[0]) and not row.label
            text += "\n" if is_open else self.between(text, tokens[0])
            text += self.joined(tokens)
            before = row
        return text + "\nbounds\nz1 <= 44\nend\n"

    def between(self, text, token):
        """What comes between two rows."""
        if text.endswith("\n") or self.is_neat or self.draw(0.5):
            return "" if text.endswith("\n") else "\n"
        return "" if self.draw(0.5) and not joins(text, token) else " "

    def joined(self, tokens):
        """Tokens with or without spaces. No line ends in a sum on the right, or before a name: the number before would
        be a side."""
        text = ""
        relation = next((at for at, token in enumerate(tokens) if token[0] in "<>="), len(tokens))
        is_sum = len(tokens) - relation > 3
        for at, token in enumerate(tokens):
            if at and (self.is_neat or joins(text, token) or self.draw(0.3)):
                is_term = (tokens[at - 1][0].isdigit() and token in self.names) or (is_sum and at > relation)
                text += "" if token == ":" else "\n" if not self.is_neat and not is_term and self.draw(0.1) else " "
            text += token
        return text


def joins(text, token):
    """Whether a token would be read as part of what is before it, or could."""
    last = re.search(r"[A-Za-z0-9_.]*$", text)[0]
    if last:
        is_word = re.match(r"[A-Za-z0-9_.]", token) is not None
        is_number = re.fullmatch(r"\d+\.?\d*", last) is not None
        return is_word and not (is_number and token[0] not in "eE0123456789._")
    return text[-1:] + token[0] in ("<=", "=<", ">=", "=>", "==", "->")


def damaged(source, text):
    """A text with one or two of the errors that people make."""
    for _ in range(source.choice((1, 1, 1, 2))):
        at = source.randrange(8, len(text))
        kind = source.choice(
            ("digit", "space", "semicolon", "comma", "lost", "other", "join", "twice", "swap", "operator")
        )
        if kind in ("digit", "space", "semicolon", "comma", "operator"):
            put = {
                "digit": str(source.randint(0, 9)),
                "space": " ",
                "semicolon": ";",
                "comma": ",",
                "operator": source.choice("+-<>=:*."),
            }
            text = text[:at] + put[kind] + text[at:]
        elif kind == "lost":
            text = text[:at] + text[at + 1 :]
        elif kind == "other":
            letters = [place for place, letter in enumerate(text) if letter.isalpha()]
            at = source.choice(letters)
            text = text[:at] + source.choice("abxyzESt") + text[at + 1 :]
        elif kind == "join":
            lines = [place for place, letter in enumerate(text) if letter == "\n"]
            at = source.choice(lines)
            text = text[:at] + source.choice(("", " ")) + text[at + 1 :]
        else:
            text = (
                text[:at] + text[at : at + 1] * 2 + text[at + 1 :]
                if kind == "twice"
                else text[:at] + text[at : at + 2][::-1] + text[at + 2 :]
            )
    return text


# ---- what the changes show


def tokens_of(text):
    """The tokens of a text. A label may start with a digit, but what comes after a relation is a number."""
    tokens = []
    for found in TOKEN.finditer(text):
        token = found["token"]
        if token is None:
            continue
        label = re.fullmatch(r"(\d+\.?\d*)([^\d].*)", token) if re.match(r"\s*:", text[found.end() :]) else None
        is_number = bool(tokens) and (
            tokens[-1][0] in "<>=" or (tokens[-1] in "+-" and len(tokens) > 1 and tokens[-2][0] in "<>=")
        )
        tokens += label.groups() if label is not None and is_number else [token]
    return tokens


class NoSum(Exception):
    """Tokens that are no row and no sum."""


def sum_of(tokens):
    """Terms and a constant of a sum."""
    total, at = {}, 0
    while at < len(tokens):
        factor, start = Fraction(1), at
        while at < len(tokens) and tokens[at] in "+-":
            factor *= -1 if tokens[at] == "-" else 1
            at += 1
        if start and at == start:
            raise NoSum("no sign")
        words = []
        while at < len(tokens) and tokens[at] not in ("+", "-"):
            words += [tokens[at]] if tokens[at] != "*" else []
            at += 1
        numbers = [word for word in words if re.fullmatch(r"(?:\d+\.?\d*|\.\d+)(?:[eE][+-]?\d+)?", word)]
        names = [word for word in words if word not in numbers]
        if not words or len(numbers) > 1 or len(names) > 1:
            raise NoSum("no term")
        name = names[0] if names else ""
        total[name] = total.get(name, Fraction(0)) + factor * (Fraction(numbers[0]) if numbers else 1)
    return total


def meaning_of(text, names):
    """A statement in one normal form: its label, the senses, and the sums with the constants on the right."""
    words = tokens_of(text)
    is_label = [at + 1 < len(words) and words[at + 1] == ":" for at in range(len(words))]
    tokens = [names.get(word, word) if is_label[at] or not word[0].isdigit() else word for at, word in enumerate(words)]
    label = tokens[0] if ":" in tokens else None
    tokens = tokens[tokens.index(":") + 1 :] if label is not None else tokens
    places = [at for at, token in enumerate(tokens) if token[0] in "<>="]
    if not places:
        return label, sum_without_zeros(sum_of(tokens))
    sides = [sum_of(tokens[first:last]) for first, last in zip([0, *(at + 1 for at in places)], [*places, len(tokens)])]
    senses = ["<" if "<" in tokens[at] else ">" if ">" in tokens[at] else "=" for at in places]
    pairs = []
    for sense, left, right in zip(senses, sides, sides[1:]):
        if sense == ">":
            left, right = right, left
        difference = {name: left.get(name, 0) - right.get(name, 0) for name in {*left, *right}}
        forms = [sum_without_zeros(difference), sum_without_zeros({name: -value for name, value in difference.items()})]
        pairs.append(
            (sense == "=", sorted(map(sorted, map(dict.items, forms))) if sense == "=" else sorted(forms[0].items()))
        )
    return label, sorted(pairs, key=repr)


def sum_without_zeros(total):
    return {name: value for name, value in total.items() if value}


def not_shown(text, done):
    """What the changes of a result do not show, or None."""
    names = {given: written for given, written in done.names.items()}
    before, after = tokens_of(text), tokens_of(done.text.decode("latin-1"))
    statements = []
    for change in done.changes:
        if change.before.endswith("..") or change.after.endswith(".."):
            return None  # too long to be shown
        if change.kind in STATEMENTS and (change.before, change.after, change.line) not in statements:
            statements.append((change.before, change.after, change.line))
            if meaning_of(change.before, names) != meaning_of(change.after, {}):
                return f"a change that does not say the same: {change}"
    at = 0
    for old, new, _ in statements:
        old_tokens, new_tokens = tokens_of(old), tokens_of(new)
        place = next(
            (place for place in range(at, len(before)) if before[place : place + len(old_tokens)] == old_tokens), None
        )
        if place is None:
            return f"a change of what is not in the file: {old}"
        before[place : place + len(old_tokens)] = new_tokens
        at = place + len(new_tokens)
    for _ in range(sum(change.kind == "keyword" and change.before == ":" for change in done.changes)):
        del before[
            next(
                at
                for at, token in enumerate(before)
                if token == ":" and before[at - 1].lower() in ("st", "to", "bounds")
            )
        ]
    small = {
        change.before: change.after
        for change in done.changes
        if change.kind in ("name", "number", "infinity", "symbol", "keyword")
    }
    removed = Counter(change.kind for change in done.changes)
    if removed.keys() & {"bound-again", "section-again", "free-and-bound", "row-without-terms"}:
        return None
    following = [*before[1:], ""]
    wanted = [
        small.get(token, token) if token != ":" and (follower == ":" or not token[0].isdigit()) else token
        for token, follower in zip(before, following)
    ]
    return None if wanted == after else f"tokens that no change shows: {' '.join(wanted)} and {' '.join(after)}"


# ---- the trials


def canonical(program, text):
    done = subprocess.run([program, "canon", "lp", "mps", "-"], input=text, capture_output=True)
    return done.stdout if done.returncode == 0 else None


def glued(program, source):
    """The outcome of a glued file, what is wrong with it or None, and the text."""
    made = Drawn(source, False)
    text = made.text()
    try:
        done = adapt_text(text.encode(), "lp")
    except AdaptError as error:
        return "left", "an internal error" if "internal error" in error.reason else None, text
    if not done.changes:
        return "accepted", None, text
    if canonical(program, done.text) != canonical(program, made.plain().encode()):
        return "changed", f"another model: {done.text.decode()!r}", text
    return "changed", not_shown(text, done), text


def broken(program, source):
    made = Drawn(source, source.random() < 0.6)
    text = damaged(source, made.text())
    try:
        done = adapt_text(text.encode(), "lp")
    except AdaptError as error:
        return "left", "an internal error" if "internal error" in error.reason else None, text
    if not done.changes:
        return "accepted", None if done.text.decode() == text else "changed without a report", text
    return "changed", not_shown(text, done), text


def trial(program, number):
    source = random.Random(number)
    return glued(program, source) if number % 2 else broken(program, source)


def arguments():
    parser = argparse.ArgumentParser(description=__doc__, formatter_class=argparse.RawDescriptionHelpFormatter)
    parser.add_argument("--program", type=Path, default=PROGRAM, help="the path of mpslp")
    parser.add_argument("--files", type=int, default=2000, help="how many files (2000)")
    parser.add_argument("--first", type=int, default=0, help="the number of the first file (0)")
    return parser.parse_args()


def main():
    options = arguments()
    if not options.program.exists():
        print("skipped: the program is missing: make run builds it")
        return 0
    program, counts, wrong = options.program.resolve(), Counter(), 0
    for number in range(options.first, options.first + options.files):
        way = "glued" if number % 2 else "damaged"
        try:
            outcome, reported, text = trial(program, number)
        except Exception:
            outcome, reported, text = "failed", traceback.format_exc(), ""
        counts[f"{way} {outcome}"] += 1
        if reported is not None:
            wrong += 1
            print(f"file {number}, {way}: {reported}\n{text}")
    print(", ".join(f"{count} {what}" for what, count in sorted(counts.items())))
    print(f"{options.files} files, {wrong} differ")
    return 1 if wrong else 0


if __name__ == "__main__":
    sys.exit(main())
