#!/usr/bin/env python3
"""Check what mpslp-tools prints about rejected files, by docs/messages.tsv.

A row of the table has a format, the text of a file, and a command; the first line of the message, the parts of lines
that have a caret, the cause and the fix; and a text that is mended as the message says, with its format. The text is in
UTF-8, with \\n, \\r, \\t, \\\\ and \\xNN for bytes. The file is m.mps or m.lp.

The command has to print the message and end with 2, `explain FILE` has to print the same, and the mended text has to be
accepted and to contain what the message says to write. Each rule of the messages has a cause in docs/errors.tsv, each
rule that a cause names exists, and the message about the example of a cause has that cause.

With --wrong each rule is left out in turn, and a row has to fail. With --write the columns for the message are filled
from what is printed; read the difference before you commit it.
"""

import argparse
import csv
import io
import os
import re
import sys
import tempfile
from collections.abc import Callable, Iterator
from pathlib import Path
from typing import NamedTuple
from unittest import mock

from mpslp import ModelFileError, canonical
from mpslp._errors._explanations import causes_with_rules, kinds
from mpslp._files._sources import read
from mpslp._main import main as run_command
from mpslp._messages import _text
from repository import ROOT

from shared.error_causes import causes, plain

TABLE = ROOT / "docs" / "messages.tsv"
REJECTED = 2
MODULES = _text.MODULES
COLUMNS = ("format", "text", "command", "message", "marked", "cause", "fix", "mended", "mended format")
BETWEEN = " | "
PLACEHOLDER = re.compile(r"\b(?:M|UPPER|NUMBER|ROW|TYPE|COLUMN|FILE)\b|^\.\.\.$")
"""What a message writes for a number or a name that the file does not have, for more lines, or in a command."""
CODE = re.compile(r" +\d+ \| (.*)")
CARETS = re.compile(r" +\| ([ ^]+)")


class Printed(NamedTuple):
    """The parts of what is printed about a file."""

    message: str
    marked: str
    cause: str
    fix: str


def rows() -> list[dict[str, str]]:
    with TABLE.open(newline="", encoding="utf-8") as table:
        return list(csv.DictReader(table, delimiter="\t", quoting=csv.QUOTE_NONE))


def unescaped(cell: str) -> bytes:
    """A cell as bytes."""
    bytes_of = {b"n": b"\n", b"r": b"\r", b"t": b"\t", b"\\": b"\\"}
    return re.sub(
        rb"\\(?:x([0-9a-f]{2})|(.))",
        lambda match: bytes.fromhex(match[1].decode()) if match[1] else bytes_of[match[2]],
        cell.encode(),
    )


def parts_of(text: str) -> Printed:
    """The parts of a message; the marked parts are those above carets."""
    lines = text.rstrip("\n").split("\n")
    marked = []
    for line, carets in zip(lines, lines[1:]):
        if (code := CODE.fullmatch(line)) and (below := CARETS.fullmatch(carets)):
            marked += [code[1][match.start() : match.end()] or "(end)" for match in re.finditer(r"\^+", below[1])]
    said = {
        name: line.partition(": ")[2] for line in lines for name in ("cause", "fix") if line.startswith(f"  {name}: ")
    }
    return Printed(lines[0], BETWEEN.join(marked), said.get("cause", ""), said.get("fix", ""))


def printed(words: list[str]) -> tuple[int, str, str]:
    """The exit status of a command, and what it prints on its two streams."""
    streams = [
        io.TextIOWrapper(io.BytesIO(), "utf-8", "surrogateescape", newline="", write_through=True) for _ in range(2)
    ]
    with mock.patch.multiple(sys, stdout=streams[0], stderr=streams[1]):
        status = int(run_command(words, "mpslp-tools"))
    output, error = (stream.buffer.getvalue().decode("utf-8", "surrogateescape") for stream in streams)
    return status, output, error


def message_of(row: dict[str, str]) -> tuple[int, str]:
    """The exit status, and the message about the file of a row. The file is in the working directory."""
    name = f"m.{row['format']}"
    Path(name).write_bytes(unescaped(row["text"]))
    status, _, error = printed([*row["command"].split(), name])
    return status, error


def differences(row: dict[str, str]) -> Iterator[str]:
    """What is wrong with the message about the file of a row."""
    status, text = message_of(row)
    if status != REJECTED:
        yield f"the exit status is {status}"
    found = parts_of(text)
    for name, wanted in found._asdict().items():
        if row[name] != wanted:
            yield f"{name} is {wanted!r}, not {row[name]!r}"


def mending(row: dict[str, str]) -> Iterator[str]:
    """What is wrong with the text that is mended."""
    name, text = f"m.{row['format']}", unescaped(row["mended"])
    try:
        canonical(text, row["mended format"], "lp" if "-t lp" in row["command"] else None)
    except ModelFileError as error:
        yield f"the mended text is rejected: {error}"
    made = made_for(name, row)
    for mend in filter(None, (made.mend, *made.written.split("\n"))) if made is not None else ():
        if mend.strip().encode() not in text and not PLACEHOLDER.search(mend):
            yield f"{mend!r}, which the message says to write, is not in the mended text"
    if "-t lp" not in row["command"] and parts_of(printed(["explain", name])[1]) != parts_of(message_of(row)[1]):
        yield "explain prints another message"


def made_for(name: str, row: dict[str, str]) -> _text.Message | None:
    """The message about the file of a row."""
    try:
        canonical(name, to_format="lp" if "-t lp" in row["command"] else None)
    except ModelFileError as error:
        return _text.message(name, error, read(name, None))
    return None


def tables() -> Iterator[str]:
    """What is wrong with the rules that causes name."""
    named = {rule for kind in kinds() for rule, _ in causes_with_rules(kind) if rule}
    known = {_text.name_of(rule) for module in MODULES for rule in module.RULES}
    yield from (f"docs/errors.tsv: the rule {rule} is in no module" for rule in sorted(named - known))
    yield from (f"no cause of docs/errors.tsv has the rule {rule}" for rule in sorted(known - named))


def examples() -> Iterator[str]:
    """What is wrong with the causes of the messages about the examples of docs/errors.tsv."""
    for cause in causes():
        if cause.place:
            form, text = cause.file(cause.before)
            try:
                canonical(text.encode(), form, "lp" if cause.kind == "NotLp" else None)
            except ModelFileError as error:
                found = _text.message("m", error, read(text.encode(), form)).cause
                wanted = _text.without_note(plain(cause.cause))
                if found != wanted and not found.startswith(f"{wanted}; "):
                    yield f"docs/errors.tsv: {cause.kind}: the cause of {cause.before!r} is {found!r}, not {wanted!r}"


def missed(all_rows: list[dict[str, str]]) -> Iterator[str]:
    """The rules without which no row fails."""
    for module in MODULES:
        for rule in module.RULES:
            left = tuple(each for each in module.RULES if each is not rule)
            with mock.patch.object(module, "RULES", left):
                if not any(is_wrong(row) for row in all_rows):
                    yield f"no row fails without the rule {_text.name_of(rule)} of {module.__name__}"


def is_wrong(row: dict[str, str]) -> bool:
    try:
        return any(differences(row))
    except Exception:  # a rule that is wrong may fail in any way
        return True


def write(all_rows: list[dict[str, str]]) -> None:
    with TABLE.open("w", encoding="utf-8") as table:
        table.write("\t".join(COLUMNS) + "\n")
        for row in all_rows:
            row |= parts_of(message_of(row)[1])._asdict()
            table.write("\t".join(row[name] for name in COLUMNS) + "\n")


def in_directory(work: Callable[[], int]) -> int:
    """Runs a function in a directory of its own."""
    before = os.getcwd()
    with tempfile.TemporaryDirectory() as directory:
        os.chdir(directory)
        try:
            return work()
        finally:
            os.chdir(before)


def main() -> int:
    parser = argparse.ArgumentParser(description=__doc__, formatter_class=argparse.RawDescriptionHelpFormatter)
    parser.add_argument("--wrong", action="store_true", help="leave out each rule in turn")
    parser.add_argument("--write", action="store_true", help="fill the columns for the message")
    options = parser.parse_args()
    all_rows = rows()

    def check() -> int:
        if options.write:
            write(all_rows)
            return 0
        found = [
            f"docs/messages.tsv:{number}: {each}"
            for number, row in enumerate(all_rows, 2)
            for each in (*differences(row), *mending(row))
        ]
        found += [*tables(), *examples(), *(missed(all_rows) if options.wrong else ())]
        print(*found, sep="\n", end="\n" if found else "")
        rules = sum(len(module.RULES) for module in MODULES)
        print(
            f"{len(all_rows)} messages, {rules} rules{', each left out once' if options.wrong else ''}: "
            f"{len(found)} wrong"
        )
        return 1 if found else 0

    return in_directory(check)


if __name__ == "__main__":
    sys.exit(main())
