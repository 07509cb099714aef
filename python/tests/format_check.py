#!/usr/bin/env python3
"""Check mpslp-tools fmt on model files: those of vectors/ and examples/, random models in many spellings, and files
that are given.

For each file that is accepted: the formatted text defines the same model, formatting it again changes nothing, and the
comments, the NAME line, what follows the end and the order of everything are those of the file. These are found here by
other patterns than those of the package.

With --wrong the formatter is made wrong one rule at a time, as format_wrong.tsv says: fmt -i has to end with the status
2 and to leave the file as it is.
"""

import argparse
import os
import random
import re
import shutil
import subprocess
import sys
import tempfile
from collections.abc import Iterator
from decimal import MAX_EMAX, MIN_EMIN, Context, Decimal
from pathlib import Path

import mpslp
from adapt_rules import rows
from repository import ROOT

from shared import models, spellings

WRONG = ROOT / "python" / "tests" / "format_wrong.tsv"
MESSAGES = {
    False: "internal error: the result is not the same model",
    True: "internal error: the result does not have the same comments",
}
"""What fmt prints of another model, and of other comments."""
FORMATS = {".mps": "mps", ".lp": "lp"}

EXACT = Context(prec=1000, Emax=MAX_EMAX, Emin=MIN_EMIN)
NUMBER = r"(?:\d+\.?\d*|\.\d+)(?:[eE][+-]?\d+)?"
BREAKS = (
    b"\n",
    b"\n\n",
    b"\n \r\n\n ",
    b" \\ trailing\n",
    b"\\\r\n",
    b"\n\\ own: 1 x >= 2\n",
    b"\n\n  \\ apart  \n\n",
    b" \\ a\n\\ b\n\n\\ c\n",
)
LP_PART = re.compile(
    rf"(?P<comment>\\[^\n]*)|(?P<number>{NUMBER})|(?P<word>[^\s\d<>=:+\\.-][^\s<>=:+\\-]*)|[<>=]+|[:+.-]", re.ASCII
)


def value(literal: str) -> str:
    """The value of a literal as a text, which is the same for equal values."""
    mantissa, _, exponent = literal.lower().partition("e")
    number = Decimal(mantissa)
    if not number:
        return "0"
    sign, digits, places = number.normalize(EXACT).as_tuple()
    return str((sign, digits, int(places) + int(exponent or 0)))


def lp_parts(text: str) -> tuple[list[str], list[str], str]:
    """The tokens of an LP text, with values for numbers; its comments; and what follows the line of the word end."""
    tokens: list[str] = []
    comments: list[str] = []
    for found in LP_PART.finditer(text):
        if found["comment"]:
            comments.append(found["comment"].rstrip("\r"))
            continue
        tokens.append(value(found["number"]) if found["number"] else found[0])
        if found[0].lower() == "end":
            line, _, following = text[found.end() :].partition("\n")
            comments.append(line.rstrip("\r").lstrip(" \t"))
            return with_case(tokens), comments, following
    raise ValueError("no end")


def with_case(tokens: list[str]) -> list[str]:
    """The tokens, with one letter case for reserved words, and for the words after subject and such."""
    is_reserved = [token.lower() in models.RESERVED for token in tokens]
    for place, token in enumerate(tokens):
        before = tokens[place - 1].lower() if place else ""
        if before in ("subject", "such") or (before == "-" and place > 1 and tokens[place - 2].lower() == "semi"):
            is_reserved[place] = True
    return [token.lower() if reserved else token for token, reserved in zip(tokens, is_reserved)]


def mps_parts(text: str) -> tuple[list[list[str]], list[str], str]:
    """The fields of the lines of an MPS text with values for numbers; its comments and its NAME line; and what follows
    ENDATA."""
    lines: list[list[str]] = []
    comments: list[str] = []
    rest = text
    while rest:
        line, _, rest = rest.partition("\n")
        fields = line.split()
        if line.startswith("*"):
            comments.append(line.rstrip("\r"))
        elif line.startswith("NAME"):
            comments.append(line.rstrip())
        elif fields:
            number = re.compile(rf"[+-]?{NUMBER}", re.ASCII)
            kept = [
                number.sub(lambda found: value(found[0].lstrip("+")), field) if number.fullmatch(field) else field
                for field in fields
            ]
            # A name may be a number; whether it is written as it was is known from the model, which is the same.
            lines.append([line[:1].strip(), *kept])
            if fields == ["ENDATA"] and line[0] == "E":
                return lines, comments, rest
    raise ValueError("no ENDATA")


def differences(content: bytes, format: str) -> Iterator[str]:
    """What is wrong with the formatted text of a file that is accepted."""
    try:
        text = mpslp.formatted(content, format).encode("utf-8", "surrogateescape")
        if mpslp.formatted(text, format).encode("utf-8", "surrogateescape") != text:
            yield "formatting it again changes it"
    except RuntimeError as error:
        yield str(error)
        return
    if not mpslp.same(content, text, format, format):
        yield "another model"
    parts = mps_parts if format == "mps" else lp_parts
    for name, before, after in zip(
        ("order", "comments", "end"), parts(content.decode("latin-1")), parts(text.decode("latin-1"))
    ):
        if before != after:
            yield f"another {name}: {after!r} instead of {before!r}"[:2000]


def is_accepted(content: bytes, format: str) -> bool:
    try:
        mpslp.is_canonical(content, format)
    except mpslp.ModelFileError:
        return False
    return True


def files(directories: list[Path]) -> Iterator[tuple[str, bytes, str]]:
    for directory in directories:
        for path in sorted(directory.rglob("*")):
            if path.suffix.lower() in FORMATS:
                yield str(path), path.read_bytes(), FORMATS[path.suffix.lower()]


def random_texts(count: int, seed: int) -> Iterator[tuple[str, bytes, str]]:
    source = random.Random(seed)
    for number in range(count):
        model = models.drawn_model(source)
        yield f"model {number} in MPS", spellings.mps_text(source, model), "mps"
        if all(map(models.is_lp_name, (model.objective, *model.rows, *model.columns))):
            text = spellings.lp_text(source, model)
            yield f"model {number} in LP", text, "lp"
            yield f"model {number} in LP with other lines", with_breaks(source, text), "lp"


def with_breaks(source: random.Random, text: bytes) -> bytes:
    """An LP text with line ends, empty lines and comments instead of some spaces. Some of these texts are rejected."""
    return b"\n".join(
        line
        if b"\\" in line
        else re.sub(rb" +", lambda found: source.choice(BREAKS) if source.random() < 0.3 else found[0], line)
        for line in text.split(b"\n")
    )


# ---- wrong versions of the formatter

SAMPLES = {
    "mps": b"NAME  P\n* rows\nROWS\n N  C\n L  R\n G  S\nCOLUMNS\n    x  C  1.5e3  R  -2\n    x  S  1\n"
    b"    y  C  -3e-7  R  4\nRHS\n    B  R  40  S  -1.5e2\n"
    b"RANGES\n    G  R  8\nBOUNDS\n LO  N  x  -3\n UP  N  x  5e2\n MI  N  y\n UP  N  y  7\nENDATA\n",
    "lp": b"\\ a plan\nmin \\ costs\n c: 3 x - 2 y + 5 z + 1.5e3\n"
    b"subject to first: x - y >= -2 second: 1e-3 x + z <= 4 -5 <= x + y + z <= 50\n"
    b"bounds -4 <= x <= 1e2 y <= 8 general z semi y end\n",
}
"""Texts in which each rule counts, and which are not formatted."""


def missed() -> Iterator[str]:
    """The wrong versions that the own check of fmt does not find."""
    package = Path(mpslp.__file__).parent
    for number, row in enumerate(rows(WRONG), 2):
        where = f"python/tests/{WRONG.name}:{number}"
        with tempfile.TemporaryDirectory() as name:
            copy = shutil.copytree(package, Path(name) / "mpslp", ignore=shutil.ignore_patterns("__pycache__"))
            module = copy / "_format" / row["module"]
            text = module.read_text(encoding="utf-8")
            if text.count(row["right"]) != 1:
                yield f"{where}: {row['right']!r} is not in {row['module']} once"
                continue
            module.write_text(text.replace(row["right"], row["wrong"]), encoding="utf-8")
            sample = Path(name) / f"sample.{row['format']}"
            content = SAMPLES[row["format"]]
            sample.write_bytes(content)
            done = subprocess.run(
                [sys.executable, "-B", "-m", "mpslp", "fmt", "-i", sample],
                env={**os.environ, "PYTHONPATH": name},
                capture_output=True,
                text=True,
                check=False,
            )
            if (done.returncode, done.stderr.strip()) != (2, f"{sample}: {MESSAGES['comment' in row['what']]}"):
                yield f"{where}: {row['what']}: fmt ends with {done.returncode}: {done.stderr.strip()[-300:]}"
            if sample.read_bytes() != content:
                yield f"{where}: {row['what']}: the file is changed"


def main() -> int:
    parser = argparse.ArgumentParser(description=__doc__.split("\n")[0])
    parser.add_argument("--models", type=int, default=300, help="how many random models")
    parser.add_argument("--seed", type=int, default=1)
    parser.add_argument("--wrong", action="store_true", help="also make the formatter wrong, one rule at a time")
    parser.add_argument("directories", nargs="*", type=Path, help="directories of more model files")
    options = parser.parse_args()
    checked, found = 0, []
    directories = [ROOT / "vectors", ROOT / "examples", *options.directories]
    for source in (files(directories), random_texts(options.models, options.seed)):
        for name, content, format in source:
            if is_accepted(content, format):
                checked += 1
                found += [f"{name}: {each}" for each in differences(content, format)]
    wrong = list(rows(WRONG)) if options.wrong else []
    if wrong:
        found += missed()
    print(*found, sep="\n", end="\n" if found else "")
    print(f"{checked} files, {len(wrong)} wrong versions, {len(found)} differ")
    return 1 if found else 0


if __name__ == "__main__":
    sys.exit(main())
