#!/usr/bin/env python3
"""Compare the table of calls in docs/RUST.md with the public crates, in both directions.

    surface_check.py           reports each difference; exits with 1 if there is one
    surface_check.py --write   puts into the blocks of extensions what is public and in no other block

docs/RUST.md has for each public crate a block of the calls that stay, and one of its extensions. Each line of a block
is a function, a type or a trait as the code declares it, without contract and documentation. What a crate has under
`laws` is in no block: docs/PROMISES.md names these theorems.
"""

import re
import sys
from collections.abc import Iterator
from dataclasses import dataclass, field
from pathlib import Path

ROOT = Path(__file__).resolve().parents[2]
CRATES = ROOT / "crates"
TABLE = ROOT / "docs" / "RUST.md"

PUBLIC = ("mpslp_decimal", "mpslp_model", "mpslp_mps", "mpslp_lp", "mpslp_write", "mpslp_convert", "mpslp_vectors")
# An enum with more variants is listed without them: docs/ERRORS.md has those of `FaultKind`.
MOST_VARIANTS = 16

USE = re.compile(r"^pub use ([\w:]+?)(?:::\{([^}]*)\}|::(\w+))?;", re.M | re.S)
ITEM = re.compile(r"^(?:#\[[^\n]*\]\n)*pub (?:const )?(fn|struct|enum|trait|type|const) (\w+)", re.M)
METHOD = re.compile(r"^    (pub )?(?:const )?fn (\w+)", re.M)
IMPL = re.compile(r"^impl(?:<[^{\n]*?>)? (\w+)(?:<[^{\n]*>)? \{$", re.M)
# Where a signature ends: at its contract or at its body.
END = re.compile(r"\n\s*(?:ensures|requires|where)\b|\s*\{|;|\n\s*ghost\b")
BLOCK = re.compile(r"<!-- calls: (\w+)( extensions)? -->\n\n```rust\n(.*?)```\n", re.S)


@dataclass
class Surface:
    """The lines of a crate's blocks."""

    calls: list[str] = field(default_factory=list)
    extensions: list[str] = field(default_factory=list)


def spaced(text: str) -> str:
    """A declaration on one line."""
    text = re.sub(r"\s+", " ", re.sub(r"\s*//[^\n]*", "", text)).strip()
    text = re.sub(
        r",? (?=[)}])|,(?=[)}])", lambda found: " " if "}" in text[found.end() : found.end() + 1] else "", text
    )
    return re.sub(r"([(\[]) ", r"\1", text)


def sources(crate: str) -> Iterator[str]:
    for source in sorted((CRATES / crate / "src").rglob("*.rt")):
        yield source.read_text()


def exports(crate: str) -> Iterator[tuple[str, str]]:
    """The public names of a crate, each with the crate that it comes from: this one, or one below."""
    root = (CRATES / crate / "src" / "lib.rt").read_text()
    for path, several, single in USE.findall(root):
        names = [name.strip() for name in several.split(",") if name.strip()] if several else [single or path]
        first = path.split("::")[0]
        for name in names:
            yield (first if (CRATES / first).is_dir() else crate), name


def definition(crate: str, name: str) -> tuple[str, str, str]:
    """The crate, the text of the file and the sort of the item that a crate exports under a name."""
    for text in sources(crate):
        for found in ITEM.finditer(text):
            if found[2] == name:
                return crate, text[found.start() :], found[1]
    for below, exported in exports(crate):
        if exported == name and below != crate:
            return definition(below, name)
    raise SystemExit(f"{crate}: no definition of {name}")


def signature(text: str, name: str) -> str:
    """`name(parameters) -> result` of the function at the start of a text."""
    declared = text[text.index("fn ") + 3 :]
    # A parameter has no brace and no semicolon but in an array.
    depth, at = 0, 0
    for at, character in enumerate(declared):
        depth += {"(": 1, "[": 1, ")": -1, "]": -1}.get(character, 0)
        if depth == 0 and character == ")":
            break
    rest = END.search(declared, at)
    return name + spaced(declared[len(re.match(r"\w+", declared)[0]) : rest.start() if rest else len(declared)])


def body(text: str) -> str:
    """What is between the braces of the item at the start of a text."""
    start = text.index("{")
    depth = 0
    for at in range(start, len(text)):
        depth += {"{": 1, "}": -1}.get(text[at], 0)
        if depth == 0:
            return text[start + 1 : at]
    return text[start + 1 :]


def uncommented(text: str) -> str:
    return re.sub(r"^\s*(?:///.*|//.*|#\[.*\])\n", "", text, flags=re.M)


def variants(text: str) -> str:
    inside = uncommented(body(text))
    if len(re.findall(r"^    \w", inside, re.M)) > MOST_VARIANTS:
        return "{ .. }"
    return "{ " + spaced(inside).removesuffix(",") + " }"


def fields(text: str) -> str:
    """The public fields of a struct, if all of its fields are public."""
    head = text[: re.search(r"[{;]", text).start() + 1]
    if head.endswith(";"):
        return ""
    inside = uncommented(body(text))
    lines = re.findall(r"^    (pub )?(\w+): ", inside, re.M)
    if not lines or not all(is_public for is_public, _ in lines):
        return ""
    return " { " + spaced(inside.replace("pub ", "")).removesuffix(",") + " }"


def methods(crate: str, name: str) -> Iterator[str]:
    """The public methods of a type."""
    for text in sources(crate):
        for found in IMPL.finditer(text):
            if found[1] == name:
                inside = body(text[found.start() :])
                for method in METHOD.finditer(inside):
                    if method[1]:
                        yield signature(inside[method.start() :], f"{name}::{method[2]}")


def lines_of(crate: str, name: str) -> Iterator[str]:
    home, text, sort = definition(crate, name)
    if sort == "fn":
        yield signature(text, name)
    elif sort == "enum":
        yield f"enum {name} {variants(text)}"
        yield from methods(home, name)
    elif sort == "struct":
        yield f"struct {name}{fields(text)}"
        yield from methods(home, name)
    elif sort == "trait":
        yield f"trait {name}"
        inside = body(text)
        for method in METHOD.finditer(inside):
            yield signature(inside[method.start() :], f"{name}::{method[2]}")
    else:
        yield f"{sort} {name}"


def code_of(crate: str) -> list[str]:
    found = []
    for home, name in exports(crate):
        found += lines_of(home, name)
    return found


def table() -> dict[str, Surface]:
    found: dict[str, Surface] = {}
    for crate, is_extension, lines in BLOCK.findall(TABLE.read_text()):
        surface = found.setdefault(crate, Surface())
        (surface.extensions if is_extension else surface.calls).extend(lines.splitlines())
    return found


def differences() -> list[str]:
    listed = table()
    found = [f"{crate}: docs/RUST.md has no block of it" for crate in PUBLIC if crate not in listed]
    for crate, surface in listed.items():
        code, lines = code_of(crate), surface.calls + surface.extensions
        found += [f"{crate}: in docs/RUST.md and not in the code: {line}" for line in lines if line not in code]
        found += [f"{crate}: public and not in docs/RUST.md: {line}" for line in code if line not in lines]
        found += [f"{crate}: twice in docs/RUST.md: {line}" for line in set(lines) if lines.count(line) > 1]
    return found


def write() -> None:
    listed = table()

    def block(found: re.Match[str]) -> str:
        crate, is_extension, lines = found[1], found[2], found[3]
        if is_extension:
            calls = set(listed[crate].calls)
            lines = "".join(f"{line}\n" for line in code_of(crate) if line not in calls)
        return f"<!-- calls: {crate}{is_extension or ''} -->\n\n```rust\n{lines}```\n"

    TABLE.write_text(BLOCK.sub(block, TABLE.read_text()))


def main() -> int:
    if sys.argv[1:] == ["--write"]:
        write()
    elif sys.argv[1:] == ["--print"]:
        for crate in PUBLIC:
            print(f"# {crate}", *code_of(crate), sep="\n")
        return 0
    found = differences()
    print(*found, f"{len(found)} differences", sep="\n")
    return 1 if found else 0


if __name__ == "__main__":
    sys.exit(main())
