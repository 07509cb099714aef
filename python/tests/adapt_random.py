#!/usr/bin/env python3
"""Check that adapt keeps the meaning of random models that are written in other dialects on purpose.

Each model of models.py is written in ways that the profile does not have, and which
say the same: terms on both sides, constants, brackets in names, fixed columns,
further sets, and so on. The file is adapted, and has to be the model, as the program
says of it and the canonical text that models.py writes; names are mapped. The file
itself has to be rejected, and adapting again has to change nothing.

MPS files with damage that a person might make (adapt_damage.py) have to be left, or to keep the model, or to be
reported by a line of changes for the damaged lines, without a number or a name that is lost.

The same models, as spellings.py spells them within the profile, and these texts
broken at random, have to stay as they are wherever the program accepts them.

Prints a line for each file that differs, and how often each kind of change was made.
"""

import argparse
import random
import re
import subprocess
import sys
import traceback
from collections import Counter
from dataclasses import replace
from pathlib import Path

import adapt_damage
from adapt_package import AdaptError, adapt_text
from repository import ROOT

from shared import models
from shared.models import ONE, ZERO, Model, Number, canonical_mps, is_zero, same
from shared.mutations import mutated
from shared.spellings import lp_text, mps_text

PROGRAM = ROOT / "crates" / "mpslp" / "out" / "mpslp"
SMALL = 10**6


# ---- LP


class LpText:
    """An LP text of a model, in which habits of other dialects are drawn."""

    def __init__(self, source, model):
        self.source = source
        self.model = model
        self.names = {name: name for name in model.columns}

    def draw(self, chance=0.3):
        return self.source.random() < chance

    def term(self, number, column, is_first=False):
        """A term, with the number before or after the name."""
        size = number.size().text()
        sign = "-" if number.mantissa < 0 else "" if is_first and self.draw(0.5) else "+"
        if self.draw(0.15):
            return f"{sign} {size} * {column}"
        if self.draw(0.1):
            return f"{sign} {column} * {size}"
        return f"{sign} {column}" if number == ONE and self.draw(0.5) else f"{sign} {size} {column}"

    def split(self, number):
        """A number as the sum of one or two."""
        if self.draw(0.25):
            part = Number.of(self.source.randint(1, 9), self.source.randint(-2, 1))
            rest = number.minus(part)
            if rest.is_decimal():
                return [part, rest]
        return [number]

    def terms(self, values):
        parts = [(column, part) for column, number in values for part in self.split(number)]
        self.source.shuffle(parts)
        return parts

    def row(self, name, row):
        values = [(column, each.values[name]) for column, each in self.model.columns.items() if name in each.values]
        label = f"{name}: "
        parts = self.terms(values)
        is_double = row.lower is not None and row.upper is not None and not same(row.lower, row.upper)
        if row.lower is None and row.upper is None:
            return f"{label}{self.expression(parts) or '0 ' + self.any_column()} >= -inf"
        if is_double:
            shift = self.shift(row.lower, row.upper)
            body = self.expression(parts) or f"0 {self.any_column()}"
            low, high = (self.shifted(limit, shift) for limit in (row.lower, row.upper))
            constant = "" if is_zero(shift) else f" {models.lp_signed(shift)}"
            return f"{label}{low.text()} <= {body}{constant} <= {high.text()}"
        sense, limit = (
            (">=", row.lower) if row.upper is None else ("<=", row.upper) if row.lower is None else ("=", row.upper)
        )
        if not parts:
            return f"{label}{sense} {limit.text()}"
        return label + self.relation(parts, sense, limit)

    def relation(self, parts, sense, limit):
        """Terms and constants on both sides."""
        flipped = {"<=": ">=", ">=": "<=", "=": "="}[sense]
        if self.draw(0.2):
            return f"{limit.text()} {flipped} {self.expression(parts)}"
        left, right = parts, []
        if self.draw(0.3) and len(parts) > 1:
            cut = self.source.randint(1, len(parts) - 1)
            left, right = parts[:cut], [(column, number.negated()) for column, number in parts[cut:]]
        shift = self.shift(limit)
        constant = "" if is_zero(shift) else f" {models.lp_signed(shift)}"
        side = self.shifted(limit, shift).text()
        if right:
            more = self.expression(right)
            side = f"{more} {models.lp_signed(self.shifted(limit, shift))}"
        return f"{self.expression(left)}{constant} {sense if self.draw(0.9) or sense != '=' else '=='} {side}"

    def shift(self, *limits):
        """A constant that is added on the left, and on the right."""
        if self.draw(0.3):
            part = Number.of(self.source.randint(-99, 99), self.source.randint(-2, 2))
            if all(
                self.shifted(limit, part).is_decimal() and not self.shifted(limit, part).is_large() for limit in limits
            ):
                return part
        return ZERO

    @staticmethod
    def shifted(limit, shift):
        return limit.minus(shift.negated())

    def expression(self, parts):
        return " ".join(self.term(number, column, at == 0) for at, (column, number) in enumerate(parts)).strip()

    def any_column(self):
        return next(iter(self.model.columns))

    def objective(self):
        values = [
            (name, each.values[self.model.objective])
            for name, each in self.model.columns.items()
            if self.model.objective in each.values
        ]
        rest = [f"+ 0 {name}" for name, each in self.model.columns.items() if not each.values]
        constants = (
            [models.lp_signed(part) for part in self.split(self.model.constant)]
            if not is_zero(self.model.constant)
            else []
        )
        body = [self.expression(self.terms(values)), *rest, *constants]
        return f" {self.model.objective}: {' '.join(filter(None, body))}"

    def bounds(self):
        lines = [line for name, column in self.model.columns.items() for line in self.bound(name, column)]
        self.source.shuffle(lines)
        return lines

    def bound(self, name, column):
        lower, upper = column.lower, column.upper
        if lower is None and upper is None:
            return [f"{name} free"]
        if lower is None and self.draw(0.5):
            return [f"{name} free\n {name} <= {upper.text()}"]
        if lower is None:
            return [f"-{self.source.choice(('inf', 'infty', 'infinity', '1e999', '1e30'))} <= {name} <= {upper.text()}"]
        if upper is None and self.draw(0.3):
            return [f"{lower.text()} <= {name} <= {self.source.choice(('infty', '1e400', '1' + '0' * 300 + '7'))}"]
        if same(lower, upper):
            return [f"{name} {'==' if self.draw() else '='} {upper.text()}"]
        if upper is None:
            return [] if is_zero(lower) else [f"{name} >= {lower.text()}"]
        return [f"{lower.text()} <= {name} <= {upper.text()}"]

    def text(self):
        bounds = self.bounds()
        cut = self.source.randint(0, len(bounds))
        lists = {
            word: [name for name, each in self.model.columns.items() if each.kind == kind]
            for word, kind in (("Generals", "integer"), ("Semi-Continuous", "semi"))
        }
        sections = [("Bounds", bounds[:cut]), *lists.items(), ("Bounds", bounds[cut:])]
        sense = "Maximi" if self.model.maximise else "Minimi"
        lines = [sense + self.source.choice(("se", "ze")), self.objective(), "Subject To"]
        lines += [f" {self.row(name, row)}" for name, row in self.model.rows.items()]
        for word, body in sections:
            if body:
                lines += [word, *(f" {each}" for each in body)]
        text = "\n".join([*lines, "End", ""])
        return self.source.choice((text, text, "\ufeff" + text)).encode()


def renamed(source, model, draw):
    """The model with other names: those of draw, each of which stays another one."""
    given = {}
    for name in [model.objective, *model.rows, *model.columns]:
        while name not in given:
            each = draw(source)
            if each not in given.values():
                given[name] = each
    return replace_names(model, given)


def lp_name(source):
    """A name of another dialect."""
    stem = "".join(source.choices("abcdfghxyz", k=source.randint(1, 4))) + str(source.randint(1, 99))
    return source.choice(
        (
            stem,
            stem,
            f"{stem}[{source.randint(1, 9)}]",
            f"{stem}[{source.randint(1, 9)},{stem}]",
            f"e{source.randint(1, 99)}q",
            f".{stem}",
            f"größe{stem}",
        )
    )


# ---- MPS


def mps_name(source):
    stem = "".join(source.choices("abcdfghxyz", k=source.randint(1, 4)))
    return source.choice((stem, f"{stem}{source.randint(1, 99)}", f"ß{stem}"))


def fixed_name(source):
    stem = "".join(source.choices("ABCXYZ", k=source.randint(2, 3)))
    return source.choice((stem, f"{stem} {source.randint(1, 99)}"))


def columns_of(fields):
    """A line in fixed columns, or None if a field does not fit."""
    line = ""
    for start, width, field in zip((1, 4, 14, 24, 39, 49), (2, 8, 8, 12, 8, 12), fields):
        if len(field) > width:
            return None
        line = line.ljust(start) + field
    return line.rstrip()


class MpsText:
    """An MPS text of a model, in which habits of other dialects are drawn; dialect is the program that has them, or
    None."""

    def __init__(self, source, model, dialect=None):
        self.source = source
        self.model = model
        self.dialect = dialect

    def draw(self, chance=0.3):
        return self.source.random() < chance

    def header(self, word):
        return word.lower() if self.draw(0.2) else word

    def data(self, *fields):
        return "    " + "  ".join(fields) + (f"  {self.remark(len(fields))}" if self.draw(0.2) else "")

    def remark(self, count):
        """Text after the last field, where two programs or the one that wrote it drop it; no name has letters of its
        words."""
        if count == 5:
            return self.source.choice(("$ to see", "(to see)", "lots of steel"))
        return "$ to see" if self.dialect == "glpsol" else ""

    def number(self, number, is_side=False):
        text = number.text()
        if "e" in text and self.draw(0.5):
            return text.replace("e", self.source.choice("dD"))
        return text

    def column(self, name):
        lines, values = [], self.model.columns[name].values
        for row in list(values) or [self.model.objective]:
            value = self.number(values[row]) if values else "0"
            is_first = not lines
            lines.append(self.data(name, row, value) if is_first or self.draw(0.5) else self.data(row, value))
        return lines

    def lines(self):
        model = self.model
        lines = [self.header("NAME")]
        if model.maximise:
            lines += self.source.choice((["OBJSENSE", "    maximise"], ["OBJSENSE", "MAX"], ["objsense", "    Max"]))
        lines += [self.header("ROWS"), f" {self.source.choice('Nn')}  {model.objective}"]
        for name, row in model.rows.items():
            letter = models.mps_row_letter(row)
            lines.append(f" {self.source.choice((letter, letter.lower()))}  {name}{'  $row' if self.draw(0.2) else ''}")
        lines.append(self.header("COLUMNS"))
        integers = [name for name, each in model.columns.items() if each.kind == "integer"]
        for name in model.columns:
            if name not in integers:
                lines += self.column(name)
        if integers:
            lines.append(self.source.choice(("    M  'marker'  'intorg'", "    'MARKER'  'INTORG'")))
            for name in integers:
                lines += self.column(name)
            lines.append("    'MARKER'  'INTEND'")
        return lines + self.limits() + [self.header("ENDATA"), ""]

    def limits(self):
        text = canonical_mps(self.model)
        sections = re.findall(r"^(RHS|RANGES|BOUNDS)\n((?: .*\n)+)", text, re.M)
        lines = []
        for name, body in sections:
            data = [self.limit(name, line.split()) for line in body.splitlines()]
            if name == "RANGES" and self.draw(0.5):
                data.append(f"    RNG  {self.model.objective}  5")
            lines += [self.header(name), *data]
        return lines

    def limit(self, name, fields):
        if name != "BOUNDS":
            number = fields[2]
            if self.dialect == "glpsol" and fields[1] == self.model.objective:
                number = number[1:] if number.startswith("-") else f"-{number}"
            return self.data(fields[0], fields[1], number.replace("e", "D"))
        if len(fields) == 4:
            return (
                f" {self.source.choice((fields[0], fields[0].lower()))}  BND  {fields[2]}  "
                f"{fields[3].replace('e', 'd')}"
            )
        if fields[0] == "PL" and self.draw(0.5):
            return f" UP  BND  {fields[2]}  {self.source.choice(('inf', 'Infinity', '1d400', '1' + '0' * 300 + '7'))}"
        return f" {fields[0]}  BND  {fields[2]}"

    def text(self):
        text = "\n".join(self.lines()).replace("ENDATA\n", "ENDATA\n")
        return self.source.choice((text, text, "\ufeff" + text)).encode()


def fixed_text(model):
    """The model in fixed columns, or None if it does not fit."""
    lines, section = [], ""
    names = sorted([model.objective, *model.rows, *model.columns], key=len, reverse=True)
    marks = {name: f"\x01{at}\x02" for at, name in enumerate(names)}
    placed = replace_names(model, marks)
    for line in canonical_mps(placed).splitlines():
        if not line.startswith(" "):
            section = line
            lines.append(line)
            continue
        fields = [
            names[int(each[1:-1])] if each.startswith("\x01") else each for each in line.split("  ") if each.strip()
        ]
        fields = [each.strip(" ") for each in fields]
        if section == "OBJSENSE":
            lines.append(line)
            continue
        if section not in ("ROWS", "BOUNDS"):
            fields.insert(0, "")
            if fields[2:3] == ["'MARKER'"]:
                fields = ["", "MARKER", "'MARKER'", "", fields[3]]
        made = columns_of(fields)
        if made is None:
            return None
        lines.append(made)
    return "\n".join([*lines, ""]).encode()


def replace_names(model, names):
    columns = {
        names[name]: replace(column, values={names[row]: value for row, value in column.values.items()})
        for name, column in model.columns.items()
    }
    return Model(
        model.maximise,
        names[model.objective],
        model.constant,
        {names[name]: row for name, row in model.rows.items()},
        columns,
    )


# ---- the comparison


def program_says(program, *arguments, text):
    return subprocess.run([program, *arguments], input=text, capture_output=True)


def differs(program, text, format, model, dialect=None):
    """What is wrong with the adapted text of a model, or None; and the kinds of its changes."""
    try:
        done = adapt_text(text, format, dialect)
    except AdaptError as error:
        return f"left: {error}", ()
    kinds = {change.kind for change in done.changes}
    names = {name: name for name in [model.objective, *model.rows, *model.columns]}
    wanted = canonical_mps(replace_names(model, {**names, **done.names})).encode()
    printed = program_says(program, "canon", format, "mps", "-", text=done.text)
    if printed.returncode:
        return f"rejected: {printed.stderr.decode().strip()}", kinds
    if printed.stdout != wanted:
        return "another model", kinds
    again = adapt_text(done.text, format, dialect)
    if again.changes or again.text != done.text:
        return f"adapted again: {again.changes[0]}", kinds
    was = program_says(program, "canon", format, "mps", "-", text=text)
    if done.changes and was.returncode == 0 and dialect is None:
        return "changed although the program accepts it", kinds
    return None, kinds


def drawn(number):
    """A text of another dialect, its format, the model, and the program whose habits it has; or None."""
    source = random.Random(number)
    model = models.drawn_model(source)
    way = source.choice(("lp", "lp", "mps", "fixed"))
    if way == "lp":
        model = renamed(source, model, lp_name)
        return LpText(source, model).text(), "lp", model
    if way == "mps":
        model = renamed(source, model, mps_name)
        dialect = source.choice((None, None, "glpsol", "qsopt"))
        return MpsText(source, model, dialect).text(), "mps", model, dialect
    model = renamed(source, model, fixed_name)
    text = fixed_text(model)
    return None if text is None else (text, "mps", model)


def kept(program, number):
    """What is wrong with texts of the profile, which stay as they are, and with such texts when they are broken."""
    source = random.Random(number)
    model = models.drawn_model(source)
    for format, spelled in (("mps", mps_text), ("lp", lp_text)):
        if format == "lp" and not all(map(models.is_lp_name, [model.objective, *model.rows, *model.columns])):
            continue
        text = spelled(source, model)
        text = text if isinstance(text, bytes) else text.encode("latin-1")
        for is_broken in (False, True):
            if is_broken:
                text = mutated(source, format, text)
            is_read = program_says(program, "canon", format, "mps", "-", text=text).returncode == 0
            try:
                done = adapt_text(text, format)
            except AdaptError as error:
                if is_read:
                    yield f"left, although the program accepts it: {error}", format, text
                continue
            if is_read and (done.changes or done.text != text):
                yield f"changed, although the program accepts it: {done.changes[:1]}", format, text


def with_damage(program, number):
    """The outcome of a damaged MPS text, and what is wrong with what adapt makes of it; or None."""
    source = random.Random(number)
    model = models.drawn_model(source)
    way = source.choice(("legal", "legal", "fixed", "dialect"))
    text, dialect = legal_mps(source, model), None
    if way == "fixed":
        model = renamed(source, model, fixed_name)
        text = fixed_text(model) or text
    elif way == "dialect":
        dialect = source.choice((None, "glpsol", "lp_solve", "coinutils", "qsopt"))
        model = renamed(source, model, mps_name)
        text = MpsText(source, model, dialect).text()

    def canonical(content):
        printed = program_says(program, "canon", "mps", "mps", "-", text=content)
        return printed.stdout if printed.returncode == 0 else None

    try:
        good = canonical(adapt_text(text, "mps", dialect).text)
    except AdaptError:
        return None
    made = adapt_damage.damaged(source, text.decode("latin-1"))
    if made is None:
        return None
    broken, damage, lines = made
    outcome, wrong = adapt_damage.judged(broken, good, dialect, lines, canonical)
    return outcome, damage, wrong, broken


def legal_mps(source, model):
    """A model as MPS that the program accepts, in fixed columns where it fits, as people and programs write it."""
    text = mps_text(source, model) if source.random() < 0.5 else fixed_text(model) or canonical_mps(model)
    return text if isinstance(text, bytes) else text.encode("latin-1")


def arguments():
    parser = argparse.ArgumentParser(description=__doc__, formatter_class=argparse.RawDescriptionHelpFormatter)
    parser.add_argument("--program", type=Path, default=PROGRAM, help="the path of mpslp")
    parser.add_argument("--models", type=int, default=1000, help="how many models (1000)")
    parser.add_argument("--first", type=int, default=0, help="the number of the first model (0)")
    parser.add_argument("--damaged", type=int, help="how many damaged MPS files (as many as models)")
    parser.add_argument("--keep", type=Path, help="a directory for the texts that differ")
    return parser.parse_args()


def try_damage(program, options, found):
    """How often each outcome of damaged files is; what is wrong is added to what is found."""
    outcomes = Counter()
    for number in range(
        options.first, options.first + (options.models if options.damaged is None else options.damaged)
    ):
        try:
            made = with_damage(program, number)
        except Exception:
            found.append(f"damage {number}: {traceback.format_exc()}")
            continue
        if made is None:
            continue
        outcome, damage, wrong, text = made
        outcomes[outcome] += 1
        if wrong:
            found.append(f"damage {number}, {damage}: {wrong}")
        if options.keep is not None and (wrong or outcome in ("shown", "said by the file")):
            options.keep.mkdir(exist_ok=True)
            (options.keep / f"damage-{number}-{damage}-{outcome.split()[0]}.mps").write_text(text, encoding="latin-1")
    return outcomes


def main():
    options = arguments()
    if not options.program.exists():
        print("skipped: the program is missing: make run builds it")
        return 0
    program = options.program.resolve()
    found, tried, kinds = [], 0, Counter()
    for number in range(options.first, options.first + options.models):
        wrong = []
        try:
            made = drawn(number)
            if made is not None:
                tried += 1
                reported, changed = differs(program, *made)
                kinds.update(changed)
                wrong += [(reported, made[1], made[0])] if reported else []
            wrong += kept(program, number)
        except Exception:
            wrong.append((traceback.format_exc(), "text", b""))
        for reported, format, text in wrong:
            found.append(f"model {number}, {format}: {reported}")
            if options.keep is not None:
                options.keep.mkdir(exist_ok=True)
                (options.keep / f"{number}.{format}").write_bytes(text)
    outcomes = try_damage(program, options, found)
    print(*found, sep="\n", end="\n" if found else "")
    print("changes: " + ", ".join(f"{kind} {count}" for kind, count in sorted(kinds.items())))
    print("damaged files: " + ", ".join(f"{outcome} {count}" for outcome, count in sorted(outcomes.items())))
    print(f"{tried} models, {sum(outcomes.values())} damaged files, {len(found)} differ")
    return 1 if found else 0


if __name__ == "__main__":
    sys.exit(main())
