#!/usr/bin/env python3
"""Check merges of models on random triples: independent changes of two sides, and changes that do not go together.

Of independent changes there has to be no conflict, and the merged model has to be the base with all of them. Of others
each conflict has to be reported, and nothing else. `mpslp-tools merge` writes a part of them: as canonical texts of one
format or of two, and as texts with comments; the text has to define the merged model, or, with the markers resolved to
a side, the model that has the values of that side.

With --wrong the rules are made wrong one by one, as merge_wrong.tsv says: fewer triples have to find each.
"""

import argparse
import io
import os
import random
import re
import shutil
import subprocess
import sys
import tempfile
from collections.abc import Iterator
from concurrent.futures import ThreadPoolExecutor
from pathlib import Path
from typing import NamedTuple
from unittest import mock

import mpslp
from adapt_rules import rows
from merge_edits import Clash, Edit, Edits, clashes
from mpslp._main import main as run_command
from repository import ROOT

WRONG = ROOT / "python" / "tests" / "merge_wrong.tsv"
MERGED, CONFLICTS = 0, 1
TRIPLES_FOR_WRONG = 120
PROCESSES = 4
WRITTEN = 8
"""One triple of so many is written by the command."""
MARKED = re.compile(rb"^<<<<<<< ours\n(.*?)^=======\n(.*?)^>>>>>>> theirs\n", re.M | re.S)


MPS = (
    b"* a plan\nROWS\n N  cost\n L  a\n G  b\nCOLUMNS\n    x  cost  3\n    x  a  1\n    x  b  1\n"
    b"    y  cost  2\n    y  b  -1\n"
    b"    z  cost  1\nRHS\n    RHS  b  2\n    RHS  a  4\nBOUNDS\n UP  BND  y  7\n UP  BND  x  9\nENDATA\n"
)
PLAN = b"\\ a plan\nmin cost: 3 x + 2 y\nst\n a: x + y <= 40\n b: x - y >= 2\n c: x + 3 y >= 2\n d: x + 4 y >= 2\nend\n"


class Texts(NamedTuple):
    """Texts that are not canonical, and what is written of them."""

    base: bytes
    ours: bytes
    theirs: bytes
    status: int
    content: bytes


TEXTS = (
    # Changes of different lines: the text of git, with the comment.
    Texts(
        PLAN,
        PLAN.replace(b"40", b"42"),
        PLAN.replace(b"4 y", b"5 y"),
        MERGED,
        PLAN.replace(b"40", b"42").replace(b"4 y", b"5 y"),
    ),
    # Changes of lines beside each other: the models merge, the texts do not.
    Texts(
        PLAN,
        PLAN.replace(b"40", b"42"),
        PLAN.replace(b"- y", b"- 9 y"),
        CONFLICTS,
        PLAN.replace(
            b" a: x + y <= 40\n b: x - y >= 2\n",
            b"<<<<<<< ours\n a: x + y <= 42\n b: x - y >= 2\n=======\n a: x + y <= 40\n b: x - 9 y >= 2\n"
            b">>>>>>> theirs\n",
        ),
    ),
    # Both add one row, at different places: git merges the texts to one that has it twice.
    Texts(
        PLAN,
        PLAN.replace(b" a:", b" new: x >= 1\n a:"),
        PLAN.replace(b"end", b" new: x >= 1\nend"),
        CONFLICTS,
        PLAN.replace(b" a:", b"<<<<<<< ours\n new: x >= 1\n=======\n>>>>>>> theirs\n a:").replace(
            b"end", b"<<<<<<< ours\n=======\n new: x >= 1\n>>>>>>> theirs\nend"
        ),
    ),
    # A row that one side removes, and a bound and a column that do not concern it: what is marked has a name of the
    # conflict.
    Texts(
        MPS,
        MPS.replace(b" L  a\n", b"").replace(b"    RHS  a  4\n", b"").replace(b"    x  a  1\n", b""),
        MPS.replace(b"RHS\n", b"    z  a  7\nRHS\n").replace(b" UP  BND  x  9\n", b" UP  BND  x  8\n"),
        CONFLICTS,
        MPS.replace(b" L  a\n", b"<<<<<<< ours\n=======\n L  a\n>>>>>>> theirs\n")
        .replace(b"    RHS  a  4\n", b"<<<<<<< ours\n=======\n    RHS  a  4\n>>>>>>> theirs\n")
        .replace(b"    x  a  1\n", b"<<<<<<< ours\n=======\n    x  a  1\n>>>>>>> theirs\n")
        .replace(b"RHS\n    RHS  b", b"<<<<<<< ours\n=======\n    z  a  7\n>>>>>>> theirs\nRHS\n    RHS  b")
        .replace(b" UP  BND  x  9\n", b" UP  BND  x  8\n"),
    ),
)


def of_texts(directory: Path) -> Iterator[str]:
    """What is wrong with the texts that are written of others."""
    for number, texts in enumerate(TEXTS):
        form = "mps" if texts.base.startswith(b"*") else "lp"
        paths = [directory / f"{name}{number}.{form}" for name in ("base", "ours", "theirs", "merged")]
        for path, content in zip(paths, texts):
            if isinstance(content, bytes):
                path.write_bytes(content)
        status, said = merge_files(paths[3], paths[:3])
        content = paths[3].read_bytes() if paths[3].exists() else b""
        if (status, content) != (texts.status, texts.content):
            yield f"triple of texts {number}: {status}, {said}, {content!r}, not {texts.content!r}"


def merge_files(target: Path, paths: list[Path]) -> tuple[int, list[str]]:
    """The exit status of the command, and the lines that it prints."""
    with mock.patch.multiple(
        sys, stdout=io.StringIO(), stderr=io.TextIOWrapper(io.BytesIO(), "utf-8", write_through=True)
    ):
        status = run_command(["merge", "-o", str(target), *map(str, paths)], "mpslp-tools")
        return int(status), sys.stderr.buffer.getvalue().decode().splitlines()  # type: ignore[attr-defined]


class Triple:
    """Three models, and what the merge has to be."""

    def __init__(self, source: random.Random, has_clashes: bool) -> None:
        edits = Edits(source, source.randint(2, 12), source.randint(4, 12))
        self.clashes: tuple[Clash, ...] = tuple(clashes(edits, source, source.randint(1, 3))) if has_clashes else ()
        free = edits.independent(source.randint(0 if has_clashes else 1, 10), self.clashes)
        sides = [source.choice(("ours", "theirs", "ours", "theirs", "both")) for _ in free]
        mine = [each for each, side in zip(free, sides) if side != "theirs"]
        others = [each for each, side in zip(free, sides) if side != "ours"]
        base = edits.base
        self.base = base.made()
        self.ours = base.edited(*mine, *(each.ours for each in self.clashes)).made()
        self.theirs = base.edited(*others, *(each.theirs for each in self.clashes)).made()
        self.as_ours = self._resolved(edits, free, [each.as_ours for each in self.clashes])
        self.as_theirs = self._resolved(edits, free, [each.as_theirs for each in self.clashes])
        self.lines = sorted(line for each in self.clashes for line in each.lines)

    @staticmethod
    def _resolved(edits: Edits, free: list[Edit], resolved: list[tuple[Edit, ...]]) -> mpslp.Model:
        return edits.base.edited(*free, *(edit for each in resolved for edit in each)).made()


def differences(triple: Triple) -> Iterator[str]:
    """What is wrong with the merge of a triple."""
    merged = mpslp.merge(triple.base, triple.ours, triple.theirs)
    found = sorted(map(str, merged.conflicts))
    if found != triple.lines:
        yield f"conflicts {found}, not {triple.lines}"
    elif triple.lines and merged.model is not None:
        yield "a model in spite of conflicts"
    elif not triple.lines and merged.model != triple.as_ours:
        yield "another model"


def written(triple: Triple, source: random.Random, directory: Path) -> Iterator[str]:
    """What is wrong with the text that the command writes."""
    format = source.choice(("mps", "lp"))
    formats = [format] * 3 if source.random() < 0.7 else [source.choice(("mps", "lp")) for _ in range(3)]
    has_comments = len({*formats}) == 1 and source.random() < 0.5
    paths = [directory / f"{name}.{each}" for name, each in zip(("base", "ours", "theirs"), formats)]
    for path, model, each in zip(paths, (triple.base, triple.ours, triple.theirs), formats):
        text = mpslp.dumps(model, "mps" if each == "mps" else "lp")
        path.write_bytes((b"* a plan\n" if each == "mps" else b"\\ a plan\n") + text if has_comments else text)
    target = directory / f"merged.{formats[1]}"
    target.unlink(missing_ok=True)
    status, said = merge_files(target, paths)
    content = target.read_bytes() if target.exists() else b""
    is_left = has_comments and not triple.lines and status == CONFLICTS  # the models merge, and the texts do not
    if status != (CONFLICTS if triple.lines else MERGED) and not is_left:
        yield f"the exit status is {status}: {said}"
    elif sorted(line for line in said if line.startswith("conflict: ")) != triple.lines:
        yield f"it prints {said}"
    elif status == CONFLICTS and not MARKED.search(content):
        yield "no markers"
    elif status == CONFLICTS and has_comments:
        if b"a plan\n" not in content:
            yield "the comment is lost"
    else:
        for side, model in ((rb"\1", triple.as_ours), (rb"\2", triple.as_theirs)):
            if mpslp.load(MARKED.sub(side, content), formats[1]) != model:
                yield f"another model in the text, with {side!r} of the conflicts"
            elif has_comments != (b"a plan\n" in content):
                yield "the comment is lost, or made"
            elif not has_comments and not triple.lines and not mpslp.is_canonical(content, formats[1]):
                yield "the text is not canonical"


def checked(count: int, seed: int, written_of: int) -> Iterator[str]:
    """What is wrong with so many triples of both kinds."""
    with tempfile.TemporaryDirectory() as directory:
        yield from of_texts(Path(directory))
        for number in range(count):
            for has_clashes in (False, True):
                source = random.Random(f"{seed} {number} {has_clashes}")
                triple = Triple(source, has_clashes)
                try:
                    found = [
                        *differences(triple),
                        *(written(triple, source, Path(directory)) if number % written_of == 0 else ()),
                    ]
                except Exception as error:  # a rule that is wrong may fail in any way
                    found = [f"{type(error).__name__}: {error}"]
                yield from (
                    f"triple {seed} {number}{' with conflicts' if has_clashes else ''}: {each}" for each in found
                )


def is_missed(number: int, row: dict[str, str]) -> str | None:
    """What is said of a wrong rule that no triple finds."""
    where = f"python/tests/{WRONG.name}:{number}"
    with tempfile.TemporaryDirectory() as name:
        copy = shutil.copytree(
            Path(mpslp.__file__).parent, Path(name) / "mpslp", ignore=shutil.ignore_patterns("__pycache__")
        )
        module = copy / "_merge" / row["module"]
        text = module.read_text(encoding="utf-8")
        if text.count(row["right"]) != 1:
            return f"{where}: {row['right']!r} is not in {row['module']} once"
        module.write_text(text.replace(row["right"], row["wrong"]), encoding="utf-8")
        words = [sys.executable, "-B", __file__, "--models", str(TRIPLES_FOR_WRONG), "--written", "3", "--one"]
        path = os.pathsep.join([name, *filter(None, [os.environ.get("PYTHONPATH")])])
        done = subprocess.run(
            words, env={**os.environ, "PYTHONPATH": path}, capture_output=True, text=True, check=False
        )
        return (
            None
            if done.returncode == 1 and done.stdout.startswith("triple")
            else f"{where}: {row['what']}: not found {done.stderr[-300:]}"
        )


def main() -> int:
    parser = argparse.ArgumentParser(description=__doc__.split("\n")[0])
    parser.add_argument("--models", type=int, default=300, help="how many triples of each kind")
    parser.add_argument("--seed", type=int, default=1)
    parser.add_argument("--written", type=int, default=WRITTEN, metavar="N", help="the command writes one of so many")
    parser.add_argument("--one", action="store_true", help="stop at the first difference")
    parser.add_argument("--wrong", action="store_true", help="also make the rules wrong, one by one")
    options = parser.parse_args()
    found = []
    for each in checked(options.models, options.seed, options.written):
        found.append(each)
        if options.one:
            break
    wrong = list(rows(WRONG)) if options.wrong else []
    with ThreadPoolExecutor(PROCESSES) as executor:
        found += filter(None, executor.map(is_missed, range(2, len(wrong) + 2), wrong))
    print(*found, sep="\n", end="\n" if found else "")
    print(f"{2 * options.models} triples, {len(wrong)} wrong versions, {len(found)} differ")
    return 1 if found else 0


if __name__ == "__main__":
    sys.exit(main())
