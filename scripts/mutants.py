#!/usr/bin/env python3
"""Tests that the prover rejects the mutants: scripts/mutants.py [CRATE ..]

A mutant is a wrong version of a crate, written as an edit of its sources, in must-fail/ of the crate or in
tests/wrong-bodies/. `rt must-fail` checks a whole crate once for each mutant. Here a check asks only for the functions
that are to be rejected. The others have `loop {}` as their body, which calls nothing, and a hole as its proof: a
function is proved from the contracts of the functions that it calls, whatever their bodies and proofs. So one check
also tests many mutants that change nothing but the bodies of different functions. Such a mutant counts as rejected only
if the prover rejects the function that it changes for itself, and not only because it calls a function that is not
proved, and if it rejects no function for itself that no mutant changes. Mutants that remain are checked together again,
without those that were rejected, and at last one at a time.

A function that is rejected only because its proof names a goal or a value which the edit took away is rejected whatever
the contract says, also where a goal stays open, since a goal that is new with the edit has no proof. Such an edit does
not count: it is a BAD EDIT, as is one that the prover cannot read or compile. Change a value in it, and keep the names.
Of what a check of a whole crate rejects only the function that was edited counts, and functions that name it in their
contracts, or, after an edit of a definition, functions that name that definition or one that is made of it.

Other mutants, of definitions, invariants and constants, are checked one at a time. The line `function:` of such an edit
names a function that the prover then rejects. Without that line, or if the function is not rejected, the whole crate is
checked. At last each check that rejected a mutant is made again without mutants, and may reject none of the functions
that it was asked for.

An edit may change a definition of a crate below, as `file: ../CRATE/specs/..`, if no other crate is between the two.
That crate is built with it before this one is checked: the laws of canonical texts are in another crate than the texts.

The libraries below the crates have to be proved and built, as `make` leaves them. One line is printed for each crate.
"""

import argparse
import os
import re
import shutil
import subprocess
import sys
import tempfile
import time
from collections.abc import Callable, Iterable
from concurrent.futures import ThreadPoolExecutor, as_completed
from contextlib import AbstractContextManager, nullcontext
from dataclasses import dataclass, field
from pathlib import Path

from crates import LIBRARIES, PARTS, Crate, below, crates_of_repository, seconds_of_crates, words_of
from kit import ROOT, kit_folder, require_kit
from prove import LOGS

# An `impl`: its parameters, its trait if it has one, and its type.
IMPL = re.compile(r"impl\b(<.*?>)? (?:(.*) for )?(.*?)(?: where\b.*)?(?: \{)?$")
TRAIT = re.compile(r"(?:pub(?:\([^)]*\))? )?trait (\w+)")
TYPE = re.compile(r"(?:pub(?:\([^)]*\))? )?(?:struct|enum) (\w+)", re.M)
FUNCTION = re.compile(r"( *)(?:pub(?:\([^)]*\))? )?((?:const |unsafe )*)fn (\w+)")
NOT_PROVED = re.compile(r"fn (\S+): (?:not proved|no proof)(?:[:;] (.*))?$")
# Why a function is not proved if nothing is wrong with it: it needs a function, or the proof of one, that is not right.
OF_ITS_CALLS = re.compile(r"it (?:calls|passes the block) `.*, which (?:is|are) not proved")
OF_PROOFS = re.compile(r"it stands on (`.*`), which antt refuses")
PROOF = re.compile(r"`Rattle\.\w+\.proofs\.(\S+)\.(?:Answers|Invariants|Proof)\.\S+`")
# The module of a refused proof that a function cites.
CITED = re.compile(r"`Rattle\.\w+\.proofs\.(\S+)\.[^.`]+`")
# What the prover says of a text that it cannot read. A mutant is a statement that reads well and is false.
UNREADABLE = re.compile(r"is not in scope|has no field|is no name|operand is missing|expected the end|cannot continue")

# What it says of a proof that names what an edit took away, and of a text that does not compile.
GONE = re.compile(r"has no field|is not in scope|has no `|was not admitted")
NOT_COMPILED = re.compile(r"\berror\[[\w-]+\]")
OF_A_PROOF = re.compile(r"(?:\./)?proofs/(\S+)\.antt:\d+:\d+: error: (.*)")
# The names of the files that have a function's own proof.
OWN_FILES = ("Answers", "Invariants", "Proof")
# Where in the code the prover has not found a proof that it looks for itself.
OPEN_GOAL = re.compile(r"note: (?:\./)?(src/\S+?):(\d+):\d+: it is not proved that ")
# A word of code or of a definition; the beginning of a definition, or of an item of code.
WORD = re.compile(r"[^\W\d][\w\-]*")
ITEM = re.compile(
    r"(?:(?:abbrev|unfoldable|opaque|data|record|pub(?:\([^)]*\))?|ghost|const|static|struct|enum|trait|type|fn|impl)"
    r" +)*"
    r"(?!use\b|mod\b)([^\W\d][\w\-]*)"
)
# A file of a crate below, from the directory of the crate.
FILE_BELOW = re.compile(r"\.\./(\w+)/(.+)")
# A function whose proof is right, with or without holes in the proofs of the functions that it calls.
RIGHT = re.compile(r"fn (\S+): (?:no holes|proved|depends on a hole in )")
# What it says if it was asked for a function that is not there, or for one of several.
UNNAMED = re.compile(r"rattle: error: (.* has no function .*|several functions are named .*)")


def is_named(name: str, ending: str) -> bool:
    """Whether the end of a function's name, as a check is asked for it, is that of this name."""
    return f"::{name}".endswith(f"::{ending}")


def modules_of(file: str) -> list[str]:
    """The modules of a file, from the root of its crate."""
    return [it for it in Path(file).with_suffix("").parts[1:] if it not in ("lib", "main", "mod")]


@dataclass(frozen=True)
class Body:
    """The body of a function, as the lines of a file that it takes up."""

    file: str
    function: str
    # The line in which the function begins, and those of its body.
    header: int
    first: int
    last: int
    # The type whose method it is, and the trait, if it is one of a trait, as the prover writes them.
    owner: str | None = None
    is_of_trait: bool = False
    # Whether something else than a call needs it: a constant, or the types that take a method from their trait.
    is_needed: bool = False

    @property
    def modules(self) -> list[str]:
        return modules_of(self.file)

    @property
    def name(self) -> str:
        """The function's name for a check that asks for it: MODULE::FUNCTION or TYPE::FUNCTION."""
        return "::".join([*([self.owner] if self.owner else self.modules), self.function])

    def path(self, types: dict[str, list[str]]) -> list[str]:
        """Where the prover has the function: a method of a type is in the module of that type, one of a trait in that
        of its file. The modules of the types of the crate are given."""
        modules = types.get(self.owner or "", self.modules) if not self.is_of_trait else self.modules
        return [*modules, *([self.owner] if self.owner else []), self.function]

    def has(self, line: int) -> bool:
        return self.first <= line <= self.last

    def begins_with(self, line: int, old: str, new: str) -> bool:
        """Whether an edit of this line only adds text at the beginning of the body, or a body of its own right after
        the contract."""
        added = new.removeprefix(old) if new.startswith(old) else ""
        is_at_opening = line == self.first - 1 and old.endswith("{") and added != ""
        return is_at_opening or line == self.first - 2 and added.lstrip().startswith("{")

    def is_of(self, name: str) -> bool:
        """Whether the prover's name is that of the function, CRATE::MODULE::FUNCTION or CRATE::MODULE::TYPE::FUNCTION,
        or of a closure in it, CRATE::MODULE::fn::FUNCTION::... The module of a method is that of its file or that of
        its type.
        """
        parts = name.split("::")[1:]
        inner = parts[len(self.modules) :]
        is_here = parts[: len(self.modules)] == self.modules
        return is_named(name, self.name) or is_here and inner[:1] == ["fn"] and self.function in inner[1:3]


def written(type_or_trait: str, parameters: set[str]) -> str:
    """How the prover writes a type or trait in the name of a function: `RefSliceU8` for `&[u8]`, `QueryName` for
    `Query<Name>`. Parameters of the `impl` are left out."""
    text = re.sub(r"'\w+|\bmut\b|\w+::", "", type_or_trait)
    words = [
        {"&": "Ref", "[": "Slice"}.get(it, it[0].upper() + it[1:])
        for it in re.findall(r"&|\[|\w+", text)
        if it not in parameters
    ]
    return "".join(words)


def owner_of(block: re.Match[str]) -> str:
    """The type of an `impl`, and its trait, as the prover writes them."""
    parameters = set(re.findall(r"[<,] *(\w+)", block[1] or ""))
    return (written(block[3], parameters) or "Any") + written(block[2] or "", parameters)


def opening_of(lines: list[str], header: int, indent: str) -> int | None:
    """The line that opens the body of the function with this header, or None if the body is empty."""
    opening = re.compile(indent + r"(?! ).*\{(\}?)$")
    found = next((it for it in range(header, len(lines)) if opening.match(lines[it])), None)
    return None if found is None or lines[found].endswith("}") else found


def bodies_of(file: str, text: str) -> list[Body]:
    """The bodies of the functions in a file that has the layout of `rt fmt`."""
    lines, found, block, trait = text.split("\n"), [], None, None
    for number, line in enumerate(lines):
        if named := TRAIT.match(line):
            block, trait = None, named[1]
        block = IMPL.match(line) or block
        header = FUNCTION.match(line)
        opening = opening_of(lines, number, header[1]) if header else None
        if header and opening is not None:
            indent, of = header[1], block if header[1] else None
            last = next((it for it in range(opening, len(lines)) if lines[it] == f"{indent}}}"), opening)
            is_needed = "const" in header[2] or (of is None and indent != "")
            # A method that types take from their trait is named after the trait.
            owner, is_of_trait = owner_of(of) if of else trait if indent else None, of is not None and of[2] is not None
            found.append(Body(file, header[3], number, opening + 1, last, owner, is_of_trait, is_needed))
    return found


@dataclass
class Mutant:
    """An edit: in each of these files, texts and what they are replaced by."""

    crate: Crate
    path: Path
    changes: list[tuple[str, str, str]] = field(default_factory=list)
    # The function that the prover rejects with it, as the edit names it.
    function: str | None = None
    problem: str | None = None

    @property
    def name(self) -> str:
        return f"{self.crate.name}/{self.path.stem}"

    @property
    def crates_below(self) -> list[str]:
        """The crates below of which it changes a file."""
        return list({found[1]: None for file, _, _ in self.changes if (found := FILE_BELOW.fullmatch(file))})

    def apply(self, texts: dict[str, str]) -> None:
        """Applies the edit to the texts of files, and notes a problem if it cannot be applied."""
        for file, old, new in self.changes:
            if file not in texts:
                path = self.crate.folder / file
                texts[file] = path.read_text() if path.is_file() else ""
            if texts[file].count(old) != 1:
                self.problem = f"its text is in {file} {texts[file].count(old)} times, and not once"
                return
            texts[file] = texts[file].replace(old, new)

    def changed_names(self) -> set[str]:
        """The names of what an edit of definitions, types or constants changes: those that the lines of its texts have,
        and that of the definition or the item of code which they are in."""
        names: set[str] = set()
        for file, old, new in self.changes:
            text = (self.crate.folder / file).read_text()
            before = text[: text.find(old)].split("\n")
            heads = (it for line in reversed(before) if (it := ITEM.match(line)))
            names |= {it[1] for it in [next(heads, None)] if it} | (set(WORD.findall(old)) ^ set(WORD.findall(new)))
        return names

    def body(self) -> Body | None:
        """The body of the function that the mutant changes, if it changes nothing else."""
        found = set()
        for file, old, new in self.changes:
            text = (self.crate.folder / file).read_text()
            line = text[: text.find(old)].count("\n")
            around = [it for it in bodies_of(file, text) if it.has(line) or it.begins_with(line, old, new)]
            found.add(max(around, key=lambda it: it.first) if around and file.startswith("src/") else None)
        return found.pop() if len(found) == 1 else None


def definitions_of(text: str) -> list[tuple[str, set[str]]]:
    """The definitions and lemmas of a file: the name of each, and the words that it is made of."""
    parts = re.split(r"(?m)^(?=\S)", text)
    return [(it[1], set(WORD.findall(part))) for part in parts if (it := ITEM.match(part))]


def edits_of(crate: Crate) -> list[Path]:
    folders = (crate.folder / "must-fail", ROOT / "tests" / "wrong-bodies" / crate.name)
    return [path for folder in folders for path in sorted(folder.glob("*.edit"))]


def is_of_parts(file: str) -> bool:
    """Whether a file that an edit names is one of the sources of its crate, or of a crate below."""
    found = FILE_BELOW.fullmatch(file)
    return (found[2] if found else file).startswith(tuple(f"{part}/" for part in PARTS))


def read_mutant(crate: Crate, path: Path) -> Mutant:
    """Reads an edit: lines `file: PATH`, `old: TEXT` and `new: TEXT`, and `function: NAME` where another function than
    that of the text is rejected."""
    mutant, file, old = Mutant(crate, path), "", ""
    for line in path.read_text().split("\n"):
        if line.startswith("file: "):
            file = line.removeprefix("file: ").strip()
        elif line.startswith("function: "):
            mutant.function = line.removeprefix("function: ").strip()
        elif line.startswith("old: "):
            old = line.removeprefix("old: ")
        elif line.startswith("new:"):
            mutant.changes.append((file, old, line.removeprefix("new:").removeprefix(" ")))
    if not mutant.changes or not all(is_of_parts(file) and old for file, old, _ in mutant.changes):
        mutant.problem = "it has no file, old and new text"
    else:
        mutant.apply({})
    return mutant


def batch_of(mutants: list[tuple[Mutant, Body]]) -> list[tuple[Mutant, Body]]:
    """As many of the mutants as change different functions."""
    return list({body.name: (mutant, body) for mutant, body in reversed(mutants)}.values())


def unreadable(lines: list[str]) -> str | None:
    """The line, if any, in which the prover says that it cannot read or compile a text of the code or of its
    definitions."""
    for line in lines:
        place = re.match(r"(?:\./)?((?:src|specs)/\S+?):\d+:\d+: error: (?:(`[^`]*`): )?(.*)", line)
        if place and (not place[2] or UNREADABLE.search(re.sub(r"`[^`]*`", "", place[3]))) or NOT_COMPILED.search(line):
            return line
    return None


def errors_of_proof(name: str, lines: list[str]) -> list[str]:
    """What the prover says of the proof of the function of this name, and of the lemmas that it cites and that are
    refused."""
    path = "/".join(name.split("::")[1:])
    files = {f"{path}/{each}" for each in OWN_FILES}
    for found in (it for line in lines if (it := NOT_PROVED.match(line)) and it[1] == name):
        files |= {it.replace(".", "/") for it in CITED.findall(found[2] or "")}
    return [it[2] for line in lines if (it := OF_A_PROOF.match(line)) and it[1] in files]


def names_what_is_gone(name: str, lines: list[str]) -> bool:
    """Whether a function is rejected only because its proof names a goal or a value that is gone. Goals may stay open
    then: they have other names, so that nothing in the proof is for them."""
    errors = errors_of_proof(name, lines)
    return bool(errors) and all(map(GONE.search, errors))


def is_of_others(name: str, reason: str) -> bool:
    """Whether a function is not proved only because of functions that it calls, or because its proof cites proofs of
    others."""

    def cites_others(part: str) -> bool:
        cited = re.findall(r"`[^`]+`", it[1]) if (it := OF_PROOFS.fullmatch(part)) else []
        folders = [it[1] if (it := PROOF.fullmatch(proof)) else None for proof in cited]
        return bool(folders) and all(folder and folder != ".".join(name.split("::")[1:]) for folder in folders)

    return all(OF_ITS_CALLS.fullmatch(part) or cites_others(part) for part in reason.split("; "))


def open_bodies(lines: list[str], bodies: list[Body]) -> list[Body]:
    """The bodies in which a goal stays open."""
    goals = [(it[1], int(it[2]) - 1) for line in lines if (it := OPEN_GOAL.match(line))]
    return [it for it in bodies if any(it.file == file and it.header <= line <= it.last for file, line in goals)]


def rejected_for_themselves(lines: list[str], bodies: list[Body]) -> list[str]:
    """The functions that the prover rejects for themselves. One with an open goal of its own is rejected for that,
    although the prover says only that it calls a function with a hole in its proof."""
    found = [it for line in lines if (it := NOT_PROVED.match(line))]
    is_open = open_bodies(lines, bodies)
    return [it[1] for it in found if not is_of_others(it[1], it[2] or "") or any(body.is_of(it[1]) for body in is_open)]


@dataclass(frozen=True)
class Check:
    """What a check printed, and its status."""

    status: int
    lines: list[str]
    # Those of the crate.
    bodies: list[Body]

    @property
    def has_ended(self) -> bool:
        """Whether it came to the end that a check of some functions has, or one of a crate that is not proved."""
        return self.lines[-1].startswith(("only=", "logic=not-proved"))

    @property
    def unreadable(self) -> str | None:
        return unreadable(self.lines)

    @property
    def unnamed(self) -> str | None:
        """What it says if it was asked for a function that is not there."""
        return next((it[1] for line in self.lines if (it := UNNAMED.match(line))), None)

    @property
    def rejected(self) -> list[str]:
        """The functions that it rejects for themselves."""
        return [it for it in self.rejected_or_misnamed if not names_what_is_gone(it, self.lines)]

    @property
    def rejected_or_misnamed(self) -> list[str]:
        """The functions that it rejects for themselves, or whose proofs name what is gone."""
        return rejected_for_themselves(self.lines, self.bodies) if self.has_ended else []

    def accepts(self, functions: list[str]) -> bool:
        """Whether it rejects no function, and has found the proofs of these ones right."""
        right = [it[1] for line in self.lines if (it := RIGHT.match(line))]
        is_right = all(any(is_named(name, it) for name in right) for it in functions)
        return self.has_ended and is_right and not any(map(NOT_PROVED.match, self.lines))


# What a check waits for, and holds while it runs.
Turn = Callable[[], AbstractContextManager[None]]

# Where a function has its proof, and a proof of a function that another check proves.
PROOF_FILES = ("Invariants.antt", "Answers.antt", "Proof.antt")
HOLE = """use Rattle.{module}.Statement.{{statement}}

pub {name}_spec : {{M : Type 1}} → statement M
{name}_spec = ?
"""


def put_hole(crate: Crate, room: Path, path: list[str]) -> None:
    """Puts a hole in the place of the proof of this function in this copy of the crate."""
    folder = room.joinpath("proofs", *path)
    folder.mkdir(parents=True, exist_ok=True)
    for name in PROOF_FILES:
        (folder / name).unlink(missing_ok=True)
    (folder / "Proof.antt").write_text(HOLE.format(module=".".join([crate.name, "proofs", *path]), name=path[-1]))


def leave_out(crate: Crate, room: Path, functions: list[str]) -> None:
    """Leaves out the bodies and proofs of all functions but these in this copy of the crate. Functions that call one
    another stay, with all functions beside them, and so do bodies that something else than a call needs."""
    proofs = room / "proofs"
    for folder in {file.parent for file in proofs.rglob("*.antt") if file.name in PROOF_FILES}:
        path = list(folder.relative_to(proofs).parts)
        if not ("fn" in path or path[-1].startswith("+") or any(is_named("::".join(path), it) for it in functions)):
            put_hole(crate, room, path)
    cycles = {it.parent.relative_to(proofs).parts for it in proofs.rglob("+*")}
    texts = {str(file.relative_to(room)): file.read_text() for file in sorted((room / "src").rglob("*.rt"))}
    types = {it: modules_of(file) for file, text in texts.items() for it in TYPE.findall(text)}
    for file, text in texts.items():
        lines, end = text.split("\n"), 0
        for body in bodies_of(file, text):
            path = body.path(types)
            stays = (
                body.is_needed or tuple(path[:-1]) in cycles or any(is_named("::".join(path), it) for it in functions)
            )
            if stays or body.header < end:
                continue
            end = body.last
            lines[body.first : end] = ["loop {}", *[""] * (end - body.first - 1)]
            put_hole(crate, room, path)
            for closures in (["fn", body.function], ["fn", body.owner or "", body.function]):
                shutil.rmtree(proofs.joinpath(*body.modules, *closures), ignore_errors=True)
        (room / file).write_text("\n".join(lines))


class Prover:
    """Checks edited copies of a crate, each over what the checks before it proved."""

    def __init__(self, crate: Crate, crates: dict[str, Crate], libraries: Path, kept: Path, log: Path, turn: Turn):
        self.crate, self.log, self.turn, self.checks = crate, log, turn, 0
        self.crates, self.libraries, self.kept = crates, libraries, kept
        self.bodies = [
            it
            for file in crate.files()
            for it in bodies_of(str(file.relative_to(crate.folder)), file.read_text())
            if file.suffix == ".rt"
        ]
        # The functions that each check which rejected a mutant was asked for, and whether one was asked for the whole
        # crate.
        self.asked: set[tuple[str, ...]] = set()
        self.has_asked_for_all = False

    def check(self, mutants: list[Mutant], functions: list[str], what: str) -> Check:
        """Checks these functions of the crate with these edits, or the whole crate if no function is given."""
        texts: dict[str, str] = {}
        for mutant in mutants:
            mutant.apply(texts)
        names = list(dict.fromkeys(it for mutant in mutants for it in mutant.crates_below))
        self.checks += 1
        with tempfile.TemporaryDirectory(prefix="mutant-") as folder:
            rooms = Path(folder)
            others = {name: rooms / "libraries" / name for name in names}
            for crate in (*(self.crates[it] for it in names), self.crate):
                for part in PARTS:
                    if (crate.folder / part).is_dir():
                        shutil.copytree(crate.folder / part, rooms / crate.name / part)
            for file, text in texts.items():
                (rooms / self.crate.name / file).write_text(text)
            with self.turn():
                begun = time.monotonic()
                built = [self.built(name, rooms / name, others[name]) for name in names]
                ran = next((it for it in built if it.returncode), None)
                ran = ran or self.checked(functions, rooms / self.crate.name, others)
        with self.log.open("a") as log:
            log.write(f"== {what}, {time.monotonic() - begun:.0f} s, status {ran.returncode}\n{ran.stdout}")
        return Check(ran.returncode, ran.stdout.rstrip("\n").split("\n"), self.bodies)

    def checked(self, functions: list[str], room: Path, others: dict[str, Path]) -> subprocess.CompletedProcess[str]:
        """The check of these functions of the crate in this copy of it, over other libraries of these crates."""
        words = ["check", *words_of(self.crate, self.crates, self.libraries, others), "--incremental", str(self.kept)]
        if functions:
            leave_out(self.crate, room, functions)
            words += ["--allow-holes", *(word for it in functions for word in ("--only", it))]
        return self.run(words, room)

    def built(self, name: str, room: Path, library: Path) -> subprocess.CompletedProcess[str]:
        """The build of the library of a crate below, from this copy of it."""
        library.mkdir(parents=True)
        words = ["build", *words_of(self.crates[name], self.crates, self.libraries), "--statements"]
        return self.run([*words, "-o", str(library / f"{name}.rlib")], room)

    @staticmethod
    def run(words: list[str], room: Path) -> subprocess.CompletedProcess[str]:
        # Checks of mutants give way to proofs and scripts, which the gate runs beside them.
        return subprocess.run(
            ["nice", "-n", "10", f"{kit_folder()}/bin/rattle", *words, "--jobs", "1"],
            cwd=room,
            stdin=subprocess.DEVNULL,
            stdout=subprocess.PIPE,
            stderr=subprocess.STDOUT,
            text=True,
            errors="replace",
            check=False,
        )

    def rejects(self, mutant: Mutant, body: Body | None) -> str | None:
        """None if the prover rejects the mutant, or else why that is not known."""
        function = mutant.function or (body and body.name)
        if function:
            check = self.check([mutant], [function], f"{mutant.name}: {function}")
            if check.unnamed:
                return check.unnamed
            if line := check.unreadable:
                return f"BAD EDIT: the prover cannot read it: {line[:160]}"
            if any(is_named(it, function) for it in check.rejected):
                self.asked.add((function,))
                return None
            if any(is_named(it, function) for it in check.rejected_or_misnamed):
                return f"BAD EDIT: the proof of {function} names what it took away: change a value and keep the names"
        self.has_asked_for_all = True
        check = self.check([mutant], [], mutant.name)
        if line := check.unreadable:
            return f"BAD EDIT: the prover cannot read it: {line[:160]}"
        if check.status != 1 or not check.has_ended:
            is_proved = check.status == 0
            return "NOT REJECTED: the crate is proved with it" if is_proved else f"no verdict: {check.lines[-1][:160]}"
        if not check.rejected:
            return "BAD EDIT: proofs name what it took away: change a value and keep the names"
        if not any(self.is_about(name, mutant, body) for name in check.rejected):
            return f"BAD EDIT: {check.rejected[0]} is rejected, which does not name what it changes"
        return None

    def is_about(self, name: str, mutant: Mutant, body: Body | None) -> bool:
        """Whether the function of this name is the one that a mutant changes, or names what it changes: in its contract
        if that is the body of a function, or else anywhere, also in its proof and by definitions that are made of
        it."""
        if body:
            is_named_in = re.compile(rf"\b{body.function}\b")
            return body.is_of(name) or any(
                is_named_in.search(self.contract(it)) for it in self.bodies if it.is_of(name)
            )
        crates = [self.crate, *(self.crates[it] for it in mutant.crates_below)]
        words = self.made_of(mutant.changed_names(), crates)
        proofs = self.crate.folder.joinpath("proofs", *name.split("::")[1:])
        texts = [file.read_text() for file in proofs.glob("*.antt")] + [
            self.whole(it) for it in self.bodies if it.is_of(name)
        ]
        return any(words & set(WORD.findall(text)) for text in texts)

    def contract(self, body: Body) -> str:
        """The header and the clauses of a function."""
        return "\n".join((self.crate.folder / body.file).read_text().split("\n")[body.header : body.first])

    def whole(self, body: Body) -> str:
        """The text of a function."""
        return "\n".join((self.crate.folder / body.file).read_text().split("\n")[body.header : body.last])

    @staticmethod
    def made_of(names: set[str], crates: list[Crate]) -> set[str]:
        """These names, and those of the definitions and lemmas that name them, of those that name these, and so on."""
        found, files = set(names), [it for crate in crates for it in crate.files() if it.suffix == ".antt"]
        definitions = [it for file in files for it in definitions_of(file.read_text())]
        while more := {name for name, words in definitions if name not in found and words & found}:
            found |= more
        return found

    def rejected_of(self, batch: list[tuple[Mutant, Body]]) -> list[tuple[Mutant, Body]]:
        """Those mutants of a batch of which one check shows that they are rejected."""
        functions = [body.name for _, body in batch]
        check = self.check([mutant for mutant, _ in batch], functions, f"{len(batch)} mutants of {self.crate.name}")
        names = check.rejected_or_misnamed
        if (
            not check.has_ended
            or check.unreadable
            or not all(any(body.is_of(name) for _, body in batch) for name in names)
        ):
            return []
        self.asked.add(tuple(functions))
        return [(mutant, body) for mutant, body in batch if any(map(body.is_of, check.rejected))]

    def test(self, mutants: list[Mutant]) -> list[str]:
        """Tests the mutants, and returns what is wrong with them."""
        bodies = [(mutant, None if mutant.function else mutant.body()) for mutant in mutants]
        left = [(mutant, body) for mutant, body in bodies if body]
        while len(batch := batch_of(left)) > 1 and (rejected := self.rejected_of(batch)):
            left = [it for it in left if it not in rejected]
        single = [it for it in bodies if not it[1]] + left
        return [f"{mutant.name}: {why}" for mutant, body in single if (why := self.rejects(mutant, body))]

    def is_sound(self) -> bool:
        """Whether each check that rejected a mutant accepts its functions without mutants, over what the checks of the
        mutants left, and that of the whole crate if there was one."""
        unchanged = f"{self.crate.name} unchanged"
        is_right = all(self.check([], [*asked], unchanged).accepts([*asked]) for asked in sorted(self.asked))
        return is_right and (not self.has_asked_for_all or self.check([], [], unchanged).status == 0)


@dataclass
class Outcome:
    crate: Crate
    mutants: int
    checks: int
    seconds: float
    problems: list[str]

    @property
    def rejected(self) -> int:
        return self.mutants - len(self.problems)

    @property
    def line(self) -> str:
        return (
            f"{self.crate.name}: {self.rejected} of {self.mutants} mutants rejected, {self.checks} checks in "
            f"{self.seconds:.0f} s"
        )


def note_crates_below(mutant: Mutant, crates: dict[str, Crate]) -> None:
    """Notes a problem if a crate of which an edit changes a file is not right below: it would not be built with it."""
    for name in mutant.crates_below:
        between = [it.name for it in below(crates, *mutant.crate.uses) if name in it.uses]
        if name not in mutant.crate.uses or between:
            mutant.problem = f"{name} is not right below {mutant.crate.name}" + "".join(f": {it}" for it in between)


def problems_of(mutants: Iterable[Mutant]) -> list[str]:
    """What is wrong with those that cannot be applied."""
    return [f"{it.name}: {it.problem}" for it in mutants if it.problem]


def unusable_edits(crates: dict[str, Crate]) -> list[str]:
    """What is wrong with the edits of all crates that cannot be applied."""
    return problems_of(it for crate in crates.values() for it in mutants_of(crate, crates))


def mutants_of(crate: Crate, crates: dict[str, Crate]) -> list[Mutant]:
    mutants = [read_mutant(crate, path) for path in edits_of(crate)]
    for mutant in mutants:
        note_crates_below(mutant, crates)
    return mutants


def test_crate(crate: Crate, crates: dict[str, Crate], libraries: Path, turn: Turn = nullcontext) -> Outcome:
    """Tests all mutants of a crate, over the proved libraries in this directory. Each check waits for its turn."""
    begun = time.monotonic()
    mutants = mutants_of(crate, crates)
    problems = problems_of(mutants)
    log = LOGS / f"mutants-{crate.name}.log"
    log.unlink(missing_ok=True)
    with tempfile.TemporaryDirectory(prefix="mutants-") as kept:
        prover = Prover(crate, crates, libraries, Path(kept), log, turn)
        problems += prover.test([it for it in mutants if not it.problem])
        if not prover.is_sound():
            problems = [f"{it.name}: the crate itself is not proved over what its mutants left" for it in mutants]
    return Outcome(crate, len(mutants), prover.checks, time.monotonic() - begun, problems)


def crates_with_mutants(crates: dict[str, Crate]) -> list[Crate]:
    """The crates that have mutants, first those whose mutants take longest."""
    known = seconds_of_crates("mutant-seconds.tsv")
    return sorted((it for it in crates.values() if edits_of(it)), key=lambda it: -known.get(it.name, 0.0))


def main() -> int:
    parser = argparse.ArgumentParser(description=__doc__.split("\n")[0])
    parser.add_argument("crates", nargs="*", metavar="CRATE", help="the crates whose mutants are tested (all)")
    parser.add_argument("--libraries", type=Path, default=LIBRARIES, help="where the proved libraries are")
    parser.add_argument(
        "--jobs", type=int, default=len(os.sched_getaffinity(0)), help="how many crates are tested side by side"
    )
    arguments = parser.parse_args()
    require_kit()
    crates = crates_of_repository()
    chosen = [it for it in crates_with_mutants(crates) if not arguments.crates or it.name in arguments.crates]
    LOGS.mkdir(parents=True, exist_ok=True)
    libraries, outcomes = arguments.libraries.resolve(), []
    with ThreadPoolExecutor(max(1, arguments.jobs)) as pool:
        tested = [pool.submit(test_crate, crate, crates, libraries) for crate in chosen]
        for ended in as_completed(tested):
            outcome = ended.result()
            outcomes.append(outcome)
            print("\n    ".join([outcome.line, *outcome.problems]), flush=True)
    failed = sum(len(it.problems) for it in outcomes)
    print(f"{sum(it.rejected for it in outcomes)} mutants rejected, {failed} not")
    return 1 if failed else 0


if __name__ == "__main__":
    sys.exit(main())
