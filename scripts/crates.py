"""The crates of the repository: what each uses, and whether it is proved in its current state."""

import hashlib
from dataclasses import dataclass
from pathlib import Path

from kit import ROOT, kit_folder, kit_sum

# What a proof reads of a crate.
PARTS = ("src", "specs", "proofs")
# The proved libraries of `make`, each in a directory of its own.
LIBRARIES = ROOT / "build" / "proofs"
# For each proved crate the checksum of everything that its proof read.
MARKS = ROOT / "build" / "proved"


@dataclass(frozen=True)
class Crate:
    """A line of crates.txt: a crate, and the libraries that it uses, those of the kit among them."""

    name: str
    line: str
    libraries: tuple[str, ...]
    # Those of the libraries that are crates of the repository.
    uses: tuple[str, ...]
    # The repository, or a copy of what is proved of it.
    root: Path = ROOT

    @property
    def folder(self) -> Path:
        return self.root / "crates" / self.name

    @property
    def is_program(self) -> bool:
        return (self.folder / "src" / "main.rt").exists()

    @property
    def is_static(self) -> bool:
        return "staticlib" in self.line.partition(":")[0].split()

    @property
    def is_library(self) -> bool:
        return not self.is_program and not self.is_static

    def files(self) -> list[Path]:
        return sorted(file for part in PARTS for file in (self.folder / part).rglob("*") if file.is_file())

    def sum(self) -> str:
        """A checksum of the crate's own sources."""
        sum = hashlib.sha256(self.line.encode())
        for file in self.files():
            sum.update(f"{file.relative_to(self.folder)} {file.stat().st_size}\n".encode())
            sum.update(file.read_bytes())
        return sum.hexdigest()


def crates_of_repository(root: Path = ROOT) -> dict[str, Crate]:
    """The crates of the crates.txt of the repository, or of a copy, by name."""
    lines = {}
    for line in (root / "crates.txt").read_text().splitlines():
        name, colon, uses = line.partition("#")[0].partition(":")
        if colon:
            lines[name.split()[0]] = (line, tuple(uses.split()))
    return {
        name: Crate(name, line, uses, tuple(use for use in uses if use in lines), root)
        for name, (line, uses) in lines.items()
    }


def seconds_of_crates(table: str) -> dict[str, float]:
    """The seconds that a table of scripts/ has for each crate."""
    rows = [line.split("\t") for line in (ROOT / "scripts" / table).read_text().splitlines()[1:]]
    return {name: float(seconds) for name, seconds in rows}


def below(crates: dict[str, Crate], *tops: str) -> list[Crate]:
    """These crates and all crates below them, lowest first."""
    order: dict[str, Crate] = {}

    def visit(name: str) -> None:
        if name not in order:
            for use in crates[name].uses:
                visit(use)
            order[name] = crates[name]

    for top in tops:
        visit(top)
    return list(order.values())


def sums_of(crates: list[Crate]) -> dict[str, str]:
    """For each crate a checksum of everything that its proof reads: its sources, those below it, and the kit."""
    sums: dict[str, str] = {}
    for crate in crates:
        parts = [kit_sum() or "", crate.sum(), *(sums[use] for use in crate.uses)]
        sums[crate.name] = hashlib.sha256(" ".join(parts).encode()).hexdigest()
    return sums


def library_folder(libraries: Path, name: str) -> Path:
    """The directory of a crate's proved library: that of `make`, or the one in which `rt ci` puts it."""
    of_kit = libraries / name / "out" / "rlib"
    return of_kit if of_kit.exists() else libraries / name


def built(crate: Crate) -> Path:
    """What is built of a crate: a program, a static library, or a library for other crates."""
    if crate.is_library:
        return LIBRARIES / crate.name / f"{crate.name}.rlib"
    return crate.folder / "out" / (crate.name if crate.is_program else f"lib{crate.name}.a")


def mark(crate: Crate, sum: str) -> None:
    """Records that the crate is proved in its current state."""
    MARKS.mkdir(parents=True, exist_ok=True)
    (MARKS / crate.name).write_text(sum)


def unmark(crate: Crate) -> None:
    (MARKS / crate.name).unlink(missing_ok=True)


def is_current(crate: Crate, sum: str) -> bool:
    """Whether what is built of the crate was proved from sources with this checksum."""
    file = MARKS / crate.name
    return built(crate).exists() and file.exists() and file.read_text() == sum


def is_proved_and_built(crates: list[Crate]) -> bool:
    """Whether the last of the crates is built from the current sources of all of them."""
    top = crates[-1]
    return built(top).exists() and is_current(top, sums_of(crates)[top.name])


def words_of(
    crate: Crate, crates: dict[str, Crate], libraries: Path, others: dict[str, Path] | None = None
) -> list[str]:
    """The words that name a crate to the kit's `rattle`, in the directory of the crate: its libraries, and the kit's
    logic. Crates in `others` have their libraries in those directories.

    A static library is read as a library here: so less is read, and the functions and their proofs are the same. Who
    builds it adds `--crate-type staticlib`."""
    kit, folders = kit_folder(), {it.name: library_folder(libraries, it.name) for it in below(crates, *crate.uses)}
    folders |= others or {}
    words = ["--crate-name", crate.name, "src/main.rt" if crate.is_program else "src/lib.rt"]
    for name in ("std", *crate.libraries):
        words += ["--extern", f"{name}={folders.get(name, kit / 'rlibs') / name}.rlib"]
    for folder in (kit / "rlibs", *folders.values()):
        words += ["-L", f"dependency={folder}"]
    words += ["--antt-project", f"{kit}/rattle/logic/antt-project.json", "--logic-built", f"{kit}/logic_built"]
    return [*words, "--links", f"{crate.name}="]
