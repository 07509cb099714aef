#!/usr/bin/env python3
"""Find names in documents and comments that the repository no longer has.

What is written between backquotes and looks like a name (with an underscore or a capital
inside a word), or is hyphenated and by itself, must occur in the code, the definitions or
the proofs, outside their comments. A path must lead to a file, from the top, the page, a
crate, or the `specs/` of a crate. Checked are the documents and the comments of the code.
names_allowed.tsv lists names of other programs and of the prover, with the reason.

Some tables of the documents for contributors are read further:

    | .. | definition |          each definition is in the file of specs/ that is named
    | term | in the code | in `specs/` |     so, and each name of the code in src/;
                                           each term and each name is in one row
    | limit | in the code | in `specs/` | ..    so, and each name and number of the limit in the files
                                           that are named
    | function | file | ..       the file has the function
    | crate | ..                 the crates are those of crates.txt, in any order

In WRONG-BODIES each mutant of a list or a table is one of the crate of the heading, of the crate in
parentheses after it, or, where the heading is no crate, of those that are named before it;
and each mutant is there.

The documents for contributors have at most MOST_WORDS words together. Prints FILE:LINE
and what is missing. Exits with 1 if anything is.
"""

import argparse
import csv
import re
import subprocess
import sys
from collections.abc import Iterable, Iterator
from fnmatch import fnmatch
from functools import cache
from pathlib import Path
from typing import NamedTuple

ROOT = Path(__file__).resolve().parents[2]
ALLOWED = ROOT / "tests" / "documents" / "names_allowed.tsv"

FOR_CONTRIBUTORS = ("CONTRIBUTING.md", "docs/ARCHITECTURE.md", "docs/DECISIONS.md", "docs/PROOF-NOTES.md")
MOST_WORDS = 15_000
# The page that lists the mutants, and where they are.
OF_MUTANTS = "docs/WRONG-BODIES.md"
COUNTED = (*FOR_CONTRIBUTORS, OF_MUTANTS)
EDIT = re.compile(r"(?:crates/(\w+)/must-fail|tests/wrong-bodies/(\w+))/(\w+)\.edit")

# Files whose names count, outside their comments.
CODE = (".rt", ".antt", ".edit", ".py", ".pyi", ".c", ".h", ".cpp", ".sh", ".mk", ".tsv", ".toml", ".bash", ".fish")
# How a comment of a language looks; in Python also the text of a docstring.
COMMENTS = {
    ".rt": r"//[^\n]*",
    ".antt": r"--[^\n]*",
    ".py": r'"""[\s\S]*?"""|(?:^|(?<=\s))#[^\n]*',
    ".sh": r"(?:^|(?<=\s))#[^\n]*",
    ".mk": r"(?:^|(?<=\s))#[^\n]*",
    ".c": r"/\*[\s\S]*?\*/|//[^\n]*",
}
COMMENTS |= {".pyi": COMMENTS[".py"], ".h": COMMENTS[".c"], ".cpp": COMMENTS[".c"]}

NAME = re.compile(r"[A-Za-z_][A-Za-z0-9_]*(?:[-'][A-Za-z0-9_]+)*")
ENDING = r"\.(?:rt|antt|py|sh|tsv|md|mk|h|c|cpp|edit)"
PATH = re.compile(
    rf"(?:[\w.-]+/)*[\w.-]+{ENDING}|(?:[\w.-]+/)+"
    r"|(?:crates|src|specs|proofs|must-fail|tests|scripts|docs|python)/[\w./-]+"
)
# Where a path may begin, besides the top and the directory of the page.
STARTS = (
    "crates",
    "crates/*",
    "crates/*/src",
    "crates/*/src/*",
    "crates/*/specs",
    "crates/*/proofs",
    "include",
    "tests",
    "tests/*",
    "scripts",
    "bench",
    "docs",
    "python",
    "python/tests",
    "python/src/mpslp",
    "python/src/mpslp/*",
    "vectors",
)
# Words in place of which readers write a name.
PLACEHOLDER = re.compile(r"\b(?:FILE|NAME|CRATE)\b")
# What a build makes.
BUILT = ("build/", "out/", "bench/data/", "crates/mpslp/out/", "crates/try_library/out/")
MADE = {".git", "build", "out", "__pycache__"}


class Missing(NamedTuple):
    path: str
    line: int
    name: str
    what: str

    def __str__(self) -> str:
        return f"{self.path}:{self.line}: {self.what}: {self.name}"


class Permission(NamedTuple):
    """A name that is not of this repository, and the files that may have it."""

    name: str
    files: str
    reason: str

    def covers(self, missing: Missing) -> bool:
        return self.name == missing.name and any(fnmatch(missing.path, each) for each in self.files.split())


def permissions() -> list[Permission]:
    with ALLOWED.open(newline="") as file:
        return [
            Permission(*row) for row in csv.reader(file, delimiter="\t", quoting=csv.QUOTE_NONE) if row[0] != "name"
        ]


@cache
def files() -> tuple[str, ...]:
    """The files of the repository: those that git knows, or would."""
    listed = subprocess.run(
        ("git", "ls-files", "--cached", "--others", "--exclude-standard"), cwd=ROOT, capture_output=True, text=True
    )
    if listed.returncode == 0:
        names = listed.stdout.splitlines()
    else:
        names = [str(it.relative_to(ROOT)) for it in ROOT.rglob("*") if not MADE & set(it.relative_to(ROOT).parts)]
    return tuple(name for name in names if (ROOT / name).is_file())


@cache
def text_of(name: str) -> str:
    return (ROOT / name).read_text(errors="replace")


def emptied(match: re.Match[str]) -> str:
    """What a match leaves: its line ends."""
    return "\n" * match[0].count("\n")


@cache
def code_of(name: str) -> str:
    """A file without its comments, line by line as before."""
    return re.sub(COMMENTS.get(Path(name).suffix, r"(?!)"), emptied, text_of(name), flags=re.M)


def comments_of(name: str) -> str:
    """The comments of a file, line by line as before."""
    text, at = text_of(name), 0
    kept: list[str] = []
    for match in re.finditer(COMMENTS[Path(name).suffix], text, flags=re.M):
        kept += [re.sub(r"[^\n]", "", text[at : match.start()]), match[0]]
        at = match.end()
    return "".join(kept)


def prose_of(name: str) -> str:
    """A page without its fenced blocks and comments, line by line as before."""
    text = re.sub(r"^( *)```.*?^\1```$", emptied, text_of(name), flags=re.S | re.M)
    return re.sub(r"<!--.*?-->", emptied, text, flags=re.S)


@cache
def names_of_code() -> frozenset[str]:
    """The names in all files of code, with the parts of hyphenated ones, and the names of files."""
    found: set[str] = set()
    for name in files():
        found.update(part for each in Path(name).parts for part in (each, each.partition(".")[0]))
        if name == str(ALLOWED.relative_to(ROOT)):
            continue
        if name.endswith(CODE) or name.startswith("completions/") or "." not in Path(name).name:
            for each in NAME.findall(code_of(name)):
                found.update((each, *re.split(r"[-']", each)))
    return frozenset(found)


def looks_like_a_name(name: str, span: str) -> bool:
    return "_" in name.strip("_") or bool(re.search(r"[a-z][A-Z]", name)) or ("-" in name and name == span)


@cache
def starts() -> tuple[Path, ...]:
    return (ROOT, *(folder for start in STARTS for folder in ROOT.glob(start) if folder.is_dir()))


def leads_to_a_file(path: str, page: str) -> bool:
    if path.startswith(BUILT) or PLACEHOLDER.search(path):
        return True
    return any(
        (start / path).exists() or (start / f"{path}.antt").exists() for start in ((ROOT / page).parent, *starts())
    )


def missing_in_span(span: str, page: str) -> Iterator[tuple[str, str]]:
    """What is missing of a text between backquotes, each with what it was read as."""
    if PATH.fullmatch(span) and ".." not in span:
        if not leads_to_a_file(span, page):
            yield span, "no such file"
        return
    for name in NAME.findall(re.sub(r"\S*/\S*", "", span)):
        if looks_like_a_name(name, span) and name not in names_of_code():
            yield name, "no such name"


def missing_names(page: str, text: str) -> Iterator[Missing]:
    for number, line in enumerate(text.split("\n"), 1):
        for span in re.findall(r"`([^`]+)`", line):
            for name, what in missing_in_span(span, page):
                yield Missing(page, number, name, what)
        for name, path in re.findall(r"`(\w+)` of `([\w./]+)`", line):
            if path in files() and not has_word(path, name):
                yield Missing(page, number, name, f"no such name in {path}")


# The short names of crates in the tables, each with the crates whose specs/ it means.
SHORT = {
    "types": ("mpslp_types",),
    "decimal": ("mpslp_decimal",),
    "model_core": ("mpslp_model_core",),
    "builder": ("mpslp_builder",),
    "builder_parts": ("mpslp_builder_parts",),
    "lines": ("mpslp_lines",),
    "mps": ("mpslp_mps_fields", "mpslp_mps"),
    "lp": ("mpslp_lp_tokens", "mpslp_lp_grammar", "mpslp_lp"),
    "mps_text": ("mpslp_mps_text",),
    "lp_text": ("mpslp_lp_text",),
    "lp_sentences": ("mpslp_lp_sentences",),
    "conversions": ("mpslp_conversions",),
    "command": ("mpslp_command",),
    "convert": ("mpslp_convert",),
}


def has_word(name: str, word: str) -> bool:
    """Whether a file has a word outside its comments and imports."""
    code = re.sub(r"^(?:ghost )?(?:pub )?use [^\n]*", "", code_of(name), flags=re.M)
    return bool(re.search(rf"(?<![\w-]){re.escape(word)}(?![\w-])", code))


def files_of(crates: Iterable[str], part: str) -> list[str]:
    return [name for name in files() if any(name.startswith(f"crates/{crate}/{part}") for crate in crates)]


def is_defined(crates: Iterable[str], module: str, word: str) -> bool:
    """Whether a module of specs/, or src/laws.rt, of one of the crates has a definition."""
    if module == "laws":
        return any(
            has_word(f"crates/{crate}/src/laws.rt", word)
            for crate in crates
            if f"crates/{crate}/src/laws.rt" in files()
        )
    paths = [f"crates/{crate}/specs/{module}.antt" for crate in crates]
    return any(path in files() and (word == module or has_word(path, word)) for path in paths)


def missing_definitions(cell: str) -> Iterator[str]:
    """The definitions of a cell that are nowhere. A name without a module is in that of the name before it."""
    crates: tuple[str, ...] = ()
    module = ""
    for word, span in re.findall(r"\b([a-z_]+)\b(?=[^`]*(?:`[^`]*`[^`]*)*$)|`([^`]+)`", cell):
        if word:
            crates = SHORT.get(word, (word,) if (ROOT / "crates" / word).exists() else () if word == "std" else crates)
            continue
        found = re.fullmatch(r"(?:(\w+)(?:\.|::))?([\w-]+)", span)
        if not crates or not found:
            continue
        module = found[1] or module
        if not found[1] and is_defined(crates, found[2], found[2]):
            module = found[2]
        elif not is_defined(crates, module, found[2]):
            yield f"{module}.{found[2]} in {' or '.join(crates)}"


def missing_in_code(cell: str) -> Iterator[str]:
    """The types and functions of a cell that the crate which is named after them does not declare in its src/."""
    parts = re.split(r"\((mpslp_\w+)\)", cell)
    for text, crate in zip(parts[::2], parts[1::2]):
        code = "\n".join(code_of(name) for name in files_of([crate], "src/"))
        for span in re.findall(r"`([^`]+)`", text):
            for word in span.split("::"):
                if not re.search(rf"\b(?:struct|enum|trait|type|fn) {word}\b", code):
                    yield f"{span} in src/ of {crate}"


def words_of_term(cells: list[str]) -> Iterator[str]:
    """The terms of a row of the glossary, without what explains them, and its names, each with its crate or module."""
    yield from (part.split(":")[0].strip() for part in re.split(r"[;,]", cells[0]))
    parts = re.split(r"\((mpslp_\w+)\)", cells[1])
    for text, crate in zip(parts[::2], parts[1::2]):
        yield from (f"{span} of {crate}" for span in re.findall(r"`([^`]+)`", text))
    yield from re.findall(r"`([^`]+\.[^`]+)`", cells[2])


def missing_constants(cell: str) -> Iterator[str]:
    """The names of a cell that are in none of the files after them."""
    for part in cell.split(";"):
        spans = re.findall(r"`([^`]+)`", part)
        paths = [span for span in spans if span in files()]
        for span in spans:
            if paths and re.fullmatch(r"[A-Z_]+", span) and not any(has_word(path, span) for path in paths):
                yield f"{span} in {' or '.join(paths)}"


def missing_numbers(limit: str, cell: str) -> Iterator[str]:
    """The numbers of a limit that no file of its cell has; of a power of ten the exponent."""
    paths = [span for span in re.findall(r"`([^`]+)`", cell) if span in files()]
    code = " ".join(code_of(path).replace("_", "") for path in paths)
    for number in re.findall(r"\d[\d,]*", re.sub(r"\b10\^", "", limit)):
        if paths and not re.search(rf"(?<!\d){number.replace(',', '')}(?!\d)", code):
            yield f"{number} in {' or '.join(paths)}"


def missing_elsewhere(limit: str, cell: str) -> Iterator[str]:
    """The files of the last cell of a limit that have none of its numbers."""
    numbers = [number.replace(",", "") for number in re.findall(r"\d[\d,]*", limit)]
    for path in (span for span in re.findall(r"`([^`]+)`", cell) if span in files()):
        text = re.sub(r"(?<=\d)[_,](?=\d)", "", text_of(path))
        if numbers and not any(re.search(rf"(?<!\d){number}(?!\d)", text) for number in numbers):
            yield f"{' or '.join(numbers)} in {path}"


def tables(text: str) -> Iterator[tuple[list[str], int, list[str]]]:
    """Each row of each table, with the cells of its head and its line."""
    head: list[str] = []
    for number, line in enumerate(text.split("\n"), 1):
        if not line.startswith("|"):
            head = []
            continue
        cells = [cell.strip() for cell in re.split(r"(?<!\\)\|", line)[1:-1]]
        if not head:
            head = cells
        elif not set(line) <= set("|- "):
            yield head, number, cells


def missing_in_tables(page: str, text: str) -> Iterator[Missing]:
    crates = {name.split("/")[1] for name in files() if name.startswith("crates/")}
    seen: set[str] = set()
    explained: set[str] = set()
    for head, number, cells in tables(text):
        if head[-1] == "definition":
            yield from (Missing(page, number, name, "no such definition") for name in missing_definitions(cells[-1]))
        elif head == ["term", "in the code", "in `specs/`"]:
            yield from (Missing(page, number, name, "no such name of the code") for name in missing_in_code(cells[1]))
            yield from (Missing(page, number, name, "no such definition") for name in missing_definitions(cells[2]))
            words = list(words_of_term(cells))
            yield from (
                Missing(page, number, word, "two rows of the glossary have it") for word in words if word in explained
            )
            explained.update(words)
        elif head[:3] == ["limit", "in the code", "in `specs/`"]:
            yield from (Missing(page, number, name, "no such name of the code") for name in missing_constants(cells[1]))
            yield from (Missing(page, number, name, "no such number") for name in missing_numbers(cells[0], cells[1]))
            yield from (
                Missing(page, number, name, "no such number") for name in missing_elsewhere(cells[0], cells[-1])
            )
            yield from (Missing(page, number, name, "no such definition") for name in missing_definitions(cells[2]))
        elif head[:2] == ["function", "file"]:
            path = re.findall(r"`([^`]+)`", cells[1])
            for span in re.findall(r"`([^`]+)`", cells[0]):
                function = span.split("::")[-1]
                if not path or path[0] not in files() or not re.search(rf"\bfn {function}\b", code_of(path[0])):
                    yield Missing(page, number, span, f"no such function in {cells[1]}")
        elif head[0] == "crate" and head[-1].startswith("what"):
            seen.update(re.findall(r"`(\w+)`", cells[0]))
    if seen and seen != crates:
        yield Missing(page, 1, ", ".join(sorted(seen ^ crates)), "not both in the table and in crates/")


def crates_of_mutants(names: Iterable[str]) -> dict[str, set[str]]:
    """The crates that have a mutant of each name, among the files with these names."""
    crates: dict[str, set[str]] = {}
    for match in filter(None, map(EDIT.fullmatch, names)):
        crates.setdefault(match[3], set()).add(match[1] or match[2])
    return crates


def cited_mutants(text: str, known: Iterable[str]) -> Iterator[tuple[int, str, str]]:
    """Each mutant that a list or a table of the page cites, with its line and its crate."""
    of_heading, names = None, set(known)
    for number, line in enumerate(text.split("\n"), 1):
        if line.startswith("## "):
            of_heading = line[3:] if re.fullmatch(r"## \w+", line) else None
        elif line.startswith(("|", "- ")):
            cell = re.split(r"(?<!\\)\|", line)[-2] if line.startswith("|") else line.partition(": ")[2]
            yield from ((number, name, crate) for name, crate in cited_in_cell(cell, of_heading) if name in names)


def cited_in_cell(cell: str, of_heading: str | None) -> Iterator[tuple[str, str]]:
    """Each text between backquotes of a cell, with its crate."""
    if of_heading:
        yield from ((name, crate or of_heading) for name, crate in re.findall(r"`([^`]+)`(?: \((\w+)\))?", cell))
        return
    crates: list[str] = []
    for before, name in re.findall(r"([^`]*)`([^`]+)`", cell):
        # Several mutants of a crate follow its name, and one of several crates all of their names.
        crates = re.findall(r"\bmpslp_\w+|\btry_library\b", before) or crates
        yield from ((name, crate) for crate in crates)


def missing_mutants(text: str, known: dict[str, set[str]]) -> Iterator[Missing]:
    """The mutants that the page cites of a crate which does not have them, and those that it does not cite."""
    cited: set[tuple[str, str]] = set()
    for number, name, crate in cited_mutants(text, known):
        cited.add((name, crate))
        if crate not in known[name]:
            yield Missing(OF_MUTANTS, number, f"{name} of {crate}", "no such mutant")
    left = {(name, crate) for name, crates in known.items() for crate in crates} - cited
    for name, crate in sorted(left):
        yield Missing(OF_MUTANTS, 1, f"{name} of {crate}", "mutant that the page does not have")


def pages() -> list[str]:
    return [name for name in files() if name.endswith(".md")]


def commented() -> list[str]:
    return [name for name in files() if Path(name).suffix in COMMENTS]


def all_missing() -> Iterator[Missing]:
    for page in pages():
        yield from missing_names(page, prose_of(page))
        if page in FOR_CONTRIBUTORS:
            yield from missing_in_tables(page, prose_of(page))
    yield from missing_mutants(prose_of(OF_MUTANTS), crates_of_mutants(files()))
    for name in commented():
        yield from missing_names(name, comments_of(name))


def check() -> list[str]:
    """What is missing and not allowed, the entries that allow nothing, and too many words."""
    allowed, lines = permissions(), []
    used: set[Permission] = set()
    for missing in all_missing():
        covering = [permission for permission in allowed if permission.covers(missing)]
        used.update(covering)
        if not covering:
            lines.append(str(missing))
    lines += [f"names_allowed.tsv: nothing needs {it.name} in {it.files}" for it in allowed if it not in used]
    words = sum(len(text_of(page).split()) for page in COUNTED)
    if words > MOST_WORDS:
        lines.append(f"{', '.join(COUNTED)}: {words} words, at most {MOST_WORDS} are wanted")
    return lines


def main() -> int:
    argparse.ArgumentParser(description=__doc__, formatter_class=argparse.RawDescriptionHelpFormatter).parse_args()
    found = check()
    print("\n".join([*found, f"{len(found)} found"]))
    return 1 if found else 0


if __name__ == "__main__":
    sys.exit(main())
