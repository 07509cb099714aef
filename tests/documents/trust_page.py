#!/usr/bin/env python3
"""What the headline theorem says, file by file, for docs/TRUST.md and docs/TRUST-DEFINITIONS.md.

It begins at the definition of the theorem and at the definitions that the formats give to
it, and follows the imports of `specs/`. A line of a file counts if it is neither a comment
nor empty; it is used if it belongs to a definition that the theorem reaches by name. Where
a name has two meanings, as a variable and as a definition, it counts as the definition.

    trust_page.py            prints the tables of the pages
    trust_page.py --check    compares them with the pages
    trust_page.py --write    writes them into the pages; the last cells of the rows are kept
    trust_page.py --unused   lists what these files have that the theorem does not reach
    trust_page.py --shared   lists what acceptance and the first error of a format share

A table of a page follows the comment <!-- trust: PART -->, a sentence with numbers the
comment <!-- trust: total -->.
"""

import argparse
import re
import sys
from collections.abc import Iterable, Iterator
from dataclasses import dataclass, field
from functools import cache
from pathlib import Path
from typing import NamedTuple

ROOT = Path(__file__).resolve().parents[2]
PAGES = (ROOT / "docs" / "TRUST.md", ROOT / "docs" / "TRUST-DEFINITIONS.md")
CRATES = ROOT / "crates"
FORMATS = CRATES / "mpslp_write" / "src" / "formats.rt"
THEOREM = "Headline"
# What a format gives to the theorem, and what it gives to the errors of files.
GIVEN, ERRORS = ("declares", "text", "unfit"), ("first_fault",)
# The definition of MPS text as a whole, which the theorem does not need.
WHOLE_TEXT = "is_text_in_words"
HEAD = ("| file | lines | used | what it defines | where it is said |", "|---|---|---|---|---|")
MISSING = "?"

IMPORT = re.compile(r"^\s*(?:ghost )?(?:pub )?use Rattle\.(\w+)\.specs\.([\w.]+?)(?:\.\{([^}]*)\}| as (\w+))?;?$", re.M)
MARKS = r"(?:(?:abbrev|unfoldable|pub|record|data) )+"
# A definition begins with its marks. The fields of a record are marked too, and are indented.
SIGNATURE = re.compile(rf"(?:{MARKS}| {{2}}(?=abbrev|unfoldable){MARKS})([^\s:({{]+)")
IS_DATA = re.compile(r"(?:pub )?data ")
CONSTRUCTOR = re.compile(r"  (\S+) :")
WORD = re.compile(r"(\w+)\.([^\s(){},;.\[\]]+)|\[\]|[^\s(){},;.\[\]]+")
BLOCK = re.compile(r"^<!-- trust: (.+) -->\n((?:[^\n]+\n)*)", re.M)


class Name(NamedTuple):
    """A definition of a file of specs/; or, without a file, a name of std or a type that the code declares."""

    file: Path | None
    module: str
    name: str


@dataclass
class File:
    """A file of definitions."""

    path: Path
    summary: str
    lines: int
    # the lines of each definition, and the definition that each constructor belongs to
    definitions: dict[str, list[str]] = field(default_factory=dict)
    constructors: dict[str, str] = field(default_factory=dict)
    # what imported names and prefixes mean
    names: dict[str, Name] = field(default_factory=dict)
    prefixes: dict[str, Name] = field(default_factory=dict)
    imports: list[Path] = field(default_factory=list)

    @property
    def title(self) -> str:
        crate, _, module = self.path.relative_to(CRATES).with_suffix("").parts
        return f"{crate} {module}"


def file_of(crate: str, module: str) -> Path | None:
    """The file of a module or of a module within it, if it is one of specs/."""
    path = CRATES / crate / "specs" / f"{module.split('.')[0]}.antt"
    return path if path.exists() else None


def imported(text: str) -> Iterator[tuple[str, str, Name]]:
    """The names and the prefixes that a text imports, as `name` and `prefix`, with what they mean."""
    for crate, module, names, prefix in IMPORT.findall(text):
        path, origin = file_of(crate, module), f"{crate}.{module}"
        if prefix:
            yield "prefix", prefix, Name(path, origin, "")
        for each in filter(None, map(str.strip, names.split(","))):
            name, _, own = each.partition(" as ")
            # a name may have a path before it: `Limit.TheVariants.Finite`
            *inner, name = name.split(".")
            yield "name", own or name, Name(path, ".".join((origin, *inner)), name)


def counted(text: str) -> list[str]:
    return [line for line in text.splitlines() if line.strip() and not line.lstrip().startswith("--")]


@cache
def read(path: Path) -> File:
    text = path.read_text()
    lines = counted(text)
    file = File(path, text.splitlines()[0].removeprefix("-- "), len(lines))
    for sort, own, meant in imported(text):
        (file.prefixes if sort == "prefix" else file.names)[own] = meant
        if meant.file and meant.file not in file.imports:
            file.imports.append(meant.file)
    current, is_data = "", False
    for line in lines:
        if IMPORT.match(line):
            continue
        if begun := SIGNATURE.match(line):
            current, is_data = begun[1], bool(IS_DATA.match(line))
        elif is_data and (made := CONSTRUCTOR.match(line)):
            file.constructors[made[1]] = current
        file.definitions.setdefault(current, []).append(line)
    return file


# ---- what is reached


def meant_by(file: File, name: str) -> Name | None:
    """What a word means in a file; nothing if it is a variable or belongs to the language."""
    if name in file.definitions or name in file.constructors:
        return Name(file.path, "", file.constructors.get(name, name))
    if name in file.names:
        return origin_of(file.names[name])
    infix = next((each for each in (*file.definitions, *file.names) if "◌" in each and name in each.split("◌")), None)
    return meant_by(file, infix) if infix else None


def origin_of(name: Name) -> Name:
    """The definition that an imported name leads to, through files that pass it on."""
    if not name.file:
        return name
    found = meant_by(read(name.file), name.name)
    if not found:
        raise SystemExit(f"{name.module} has no {name.name}")
    return found


def words(lines: Iterable[str]) -> Iterator[tuple[str, str]]:
    """The words of lines, each with its prefix or an empty one."""
    for line in lines:
        for found in WORD.finditer(re.sub(r'"(?:\\.|[^"\\])*"', " ", line)):
            yield found[1] or "", found[2] or found[0]


def named_in(file: File, name: str) -> Iterator[Name]:
    for prefix, word in words(file.definitions[name]):
        if prefix in file.prefixes:
            yield origin_of(file.prefixes[prefix]._replace(name=word))
        elif found := meant_by(file, prefix or word):
            yield found


def reached(roots: Iterable[Name]) -> set[Name]:
    """The definitions that these lead to, themselves among them."""
    seen: set[Name] = set()
    left = list(roots)
    while left:
        name = left.pop()
        if name not in seen:
            seen.add(name)
            if name.file:
                left += named_in(read(name.file), name.name)
    return seen


def in_reading_order(roots: Iterable[Path]) -> list[Path]:
    """The files and all that they import, each after what it imports."""
    order: dict[Path, None] = {}

    def visit(path: Path) -> None:
        if path not in order:
            for each in read(path).imports:
                visit(each)
            order[path] = None

    for root in roots:
        visit(root)
    return list(order)


# ---- the theorem, and what the formats give to it


def defined_as(name: str) -> Name:
    """The only definition of this name in specs/."""
    found = [path for path in sorted(CRATES.glob("*/specs/*.antt")) if name in read(path).definitions]
    if len(found) != 1:
        raise SystemExit(f"{name} is defined {len(found)} times")
    return Name(found[0], "", name)


def given_by_formats(members: tuple[str, ...]) -> dict[str, list[Name]]:
    """For each format the definitions that it gives as these members."""
    text = FORMATS.read_text()
    names = {own: meant for sort, own, meant in imported(text) if sort == "name"}
    given = {}
    for form, body in re.findall(r"^impl Format for (\w+) \{\n(.*?)^\}", text, flags=re.M | re.S):
        terms = [term for member in members for term in re.findall(rf"ghost {member} = \{{ (.*?) \}};", body)]
        given[form] = [origin_of(names[term]) for term in terms if term in names and names[term].file]
    return given


@dataclass
class Part:
    """A table of the page."""

    title: str
    files: list[Path]


@dataclass
class Reached:
    """The files and the definitions that the theorem reaches, and those that the errors of files add."""

    parts: list[Part]
    used: set[Name]
    more: Part
    used_by_more: set[Name]

    @property
    def files(self) -> list[Path]:
        return [path for part in self.parts for path in part.files]


def reached_by_theorem() -> Reached:
    theorem, given = defined_as(THEOREM), given_by_formats(GIVEN)
    texts = {form: in_reading_order(name.file for name in names[:1]) for form, names in given.items()}
    printed = {form: in_reading_order(name.file for name in names[1:]) for form, names in given.items()}
    titles: dict[Path, str] = {}
    for kind, lists in (("text", texts), ("canonical text", printed)):
        for form, order in lists.items():
            is_shared = set(order).intersection(*lists.values())
            for path in order:
                titles.setdefault(path, f"{kind}, both formats" if path in is_shared else f"{kind}, {form.upper()}")
    for path in in_reading_order([theorem.file]):
        titles.setdefault(path, "theorem")
    order = in_reading_order([*(name.file for names in given.values() for name in names), theorem.file])
    parts = [
        Part(title, [path for path in order if titles[path] == title]) for title in part_titles(titles.values(), given)
    ]
    used = reached([theorem, *(name for names in given.values() for name in names)])
    errors = [name for names in given_by_formats(ERRORS).values() for name in names]
    more = [path for path in in_reading_order(name.file for name in errors) if path not in titles]
    return Reached(parts, used, Part("first errors", more), reached(errors) | used)


def part_titles(titles: Iterable[str], forms: Iterable[str]) -> list[str]:
    """The titles of the parts, what both formats have in common before each of them."""
    ends = ("both formats", *(form.upper() for form in forms))
    return [
        title
        for title in (*(f"{kind}, {end}" for kind in ("text", "canonical text") for end in ends), "theorem")
        if title in set(titles)
    ]


# ---- the page


def used_lines(path: Path, used: set[Name]) -> int:
    """The lines of the definitions that are reached, and of what comes before the first definition of the file."""
    file = read(path)
    names = {name for name in file.definitions if Name(path, "", name) in used}
    return sum(len(file.definitions[name]) for name in names | ({""} & set(file.definitions)))


def row(path: Path, used: set[Name], section: str) -> str:
    file = read(path)
    crate, module = file.title.split()
    cells = (
        f"[`{crate}` `{module}`](../{path.relative_to(ROOT)})",
        file.lines,
        used_lines(path, used),
        file.summary,
        section,
    )
    return "| " + " | ".join(map(str, cells)) + " |"


def table(part: Part, used: set[Name], sections: dict[str, str]) -> str:
    rows = [row(path, used, sections.get(str(path.relative_to(ROOT)), MISSING)) for path in part.files]
    return "".join(f"{line}\n" for line in (*HEAD, *rows))


def thousands(number: int) -> str:
    return f"{number:,}"


def total(found: Reached) -> str:
    files, more = found.files, found.more.files
    lines = sum(read(path).lines for path in files)
    used = sum(used_lines(path, found.used) for path in files)
    added = sum(used_lines(path, found.used_by_more) for path in (*files, *more)) - used
    return (
        f"The theorem reaches {len(files)} files with {thousands(lines)} lines, imports included. "
        f"{thousands(used)} of these lines are"
        f" definitions that it uses. The first errors add {len(more)} files and {thousands(added)} lines.\n"
    )


def shared(found: set[Name], other: set[Name]) -> dict[Path, list[str]]:
    """The definitions that both reach, by file."""
    both = {name for name in found & other if name.file}
    order = in_reading_order(sorted({name.file for name in both}))
    return {
        path: [name for name in read(path).definitions if Name(path, "", name) in both]
        for path in order
        if any(name.file == path for name in both)
    }


def whole_and_errors() -> dict[Path, list[str]]:
    """What MPS text as a whole shares with the first error of MPS text."""
    return shared(reached([defined_as(WHOLE_TEXT)]), reached(given_by_formats(ERRORS)["Mps"]))


def shared_sentence() -> str:
    parts = [f"`{read(path).title.split()[1]}` {len(names)}" for path, names in whole_and_errors().items()]
    count = sum(len(names) for names in whole_and_errors().values())
    return f"Both use {count} definitions; by file: {', '.join(parts)}.\n"


def declared_types(used: set[Name]) -> dict[str, list[str]]:
    """The types and the constants of the code that the definitions name, by source file."""
    found: dict[str, set[str]] = {}
    for name in used:
        crate, _, module = name.module.partition(".")
        if name.file or not module.startswith("declared.") or crate == "std":
            continue
        source, own = module.removeprefix("declared.").split(".")[:2]
        path = next(each for each in (f"{source}.rt", f"{source}/mod.rt") if (CRATES / crate / "src" / each).exists())
        found.setdefault(f"{crate}/src/{path}", set()).add(name.name if own == "TheConstants" else own)
    return {path: sorted(names) for path, names in sorted(found.items())}


def types_table(used: set[Name]) -> str:
    rows = [
        f"| [`{path}`](../crates/{path}) | {', '.join(f'`{name}`' for name in names)} |"
        for path, names in declared_types(used).items()
    ]
    return "".join(f"{line}\n" for line in ("| file | types and constants |", "|---|---|", *rows))


def words_of_std(used: set[Name]) -> str:
    found: dict[str, set[str]] = {}
    for name in used:
        crate, _, module = name.module.partition(".")
        if not name.file and crate == "std":
            found.setdefault(module.removeprefix("declared."), set()).add(name.name)
    count = sum(map(len, found.values()))
    modules = ", ".join(
        f"`{module}` {len(names)}" for module, names in sorted(found.items(), key=lambda each: (-len(each[1]), each[0]))
    )
    return f"They use {count} words of the standard library; by module: {modules}.\n"


def blocks(sections: dict[str, str]) -> dict[str, str]:
    """What the page has to have after each comment."""
    found = reached_by_theorem()
    tables = {part.title: table(part, found.used, sections) for part in found.parts}
    tables[found.more.title] = table(found.more, found.used_by_more, sections)
    return {
        "total": total(found),
        **tables,
        "shared": shared_sentence(),
        "types": types_table(found.used_by_more),
        "words": words_of_std(found.used_by_more),
    }


def sections_of(text: str) -> dict[str, str]:
    """The last cell of each row of the pages, by the path of its file."""
    return dict(re.findall(r"^\| \[[^\]]*\]\(\.\./([^)]*\.antt)\) .*\| ([^|]*) \|$", text, flags=re.M))


def text_of_pages() -> str:
    return "".join(page.read_text() for page in PAGES if page.exists())


def check() -> list[str]:
    """What differs between the pages and the definitions."""
    text = text_of_pages()
    wanted, found, reported = blocks(sections_of(text)), dict(BLOCK.findall(text)), []
    reported += [f"docs/TRUST*.md have no comment <!-- trust: {title} -->" for title in wanted.keys() - found.keys()]
    reported += [f"docs/TRUST*.md: no part is called {title}" for title in found.keys() - wanted.keys()]
    for title in wanted.keys() & found.keys():
        have, want = found[title].splitlines(), wanted[title].splitlines()
        reported += [f"docs/TRUST*.md, {title}: not so: {line}" for line in have if line not in want]
        reported += [f"docs/TRUST*.md, {title}: wanted: {line}" for line in want if line not in have]
        if sorted(have) == sorted(want) and have != want:
            reported.append(f"docs/TRUST*.md, {title}: the order is that of the imports")
        reported += [
            f"docs/TRUST*.md, {title}: which section of FORMATS is this? {line}"
            for line in have
            if line.endswith(f"| {MISSING} |")
        ]
    return [f"{line} (python3 tests/documents/trust_page.py --write)" for line in reported]


def write() -> None:
    wanted = blocks(sections_of(text_of_pages()))
    for page in PAGES:
        made = BLOCK.sub(lambda found: f"<!-- trust: {found[1]} -->\n{wanted.get(found[1], '')}", page.read_text())
        page.write_text(made)


def unused() -> Iterator[str]:
    found = reached_by_theorem()
    for path in found.files:
        file = read(path)
        names = [name for name in file.definitions if name and Name(path, "", name) not in found.used]
        if names:
            lines = sum(len(file.definitions[name]) for name in names)
            needless = [
                read(other).title
                for other in file.imports
                if not any(
                    name.file == other
                    for own in file.definitions
                    if Name(path, "", own) in found.used
                    for name in named_in(file, own)
                )
            ]
            tail = f"; imports only for these: {', '.join(needless)}" if needless else ""
            yield f"{file.title}: {lines} lines: {' '.join(names)}{tail}"


def listed_shared() -> Iterator[str]:
    yield "MPS text as a whole, and the first error of MPS text:"
    yield from (f"  {read(path).title}: {' '.join(names)}" for path, names in whole_and_errors().items())
    given, errors = given_by_formats(GIVEN), given_by_formats(ERRORS)
    for form, names in given.items():
        yield f"what {form} text declares, and the first error of {form} text:"
        yield from (
            f"  {read(path).title}: {' '.join(own)}"
            for path, own in shared(reached(names[:1]), reached(errors[form])).items()
        )


def main() -> int:
    parser = argparse.ArgumentParser(description=__doc__, formatter_class=argparse.RawDescriptionHelpFormatter)
    choice = parser.add_mutually_exclusive_group()
    for name in ("check", "write", "unused", "shared"):
        choice.add_argument(f"--{name}", action="store_true")
    options = parser.parse_args()
    if options.write:
        write()
    if options.write or options.check:
        reported = check()
        print("\n".join([*reported, f"{len(reported)} differ"]))
        return 1 if reported else 0
    if options.unused or options.shared:
        print("\n".join(unused() if options.unused else listed_shared()))
        return 0
    for title, text in blocks(sections_of(text_of_pages())).items():
        print(f"<!-- trust: {title} -->\n{text}")
    return 0


if __name__ == "__main__":
    sys.exit(main())
