#!/usr/bin/env python3
"""Check that each call of mpslp.h hands each of its arguments to the proved call: tests/c/arguments.py [--wrong]

lib/seeded.c has one function for each call of the header that returns a mpslp_status. It takes random bits from the
system and passes them, with its own arguments, to a function of crates/mpslp_c. Checked is

- that the header, lib/seeded.c and the crate have the same calls, with the same parameters in the same order: the types
  of C are compared as text, and those of the crate by TYPES;
- that each argument arrives: lib/seeded.c is linked with functions that record what they get. Each argument of each
  call, each half of the random bits and the result are changed one at a time, and everything else has to stay;
- that the fixed seed of the crates is passed if the system has no random bits, whatever it has written before it
  failed.

With --wrong, mistakes are made one at a time in copies of lib/seeded.c and of the crate: each two arguments of a call,
or parameters of its definition, are swapped, an argument is passed twice, or the seed is another one. Each has to be
found. Needs a C compiler.
"""

import argparse
import os
import re
import subprocess
import sys
import tempfile
from collections.abc import Iterator
from concurrent.futures import ThreadPoolExecutor
from dataclasses import dataclass, replace
from itertools import combinations
from pathlib import Path

ROOT = Path(__file__).resolve().parents[2]
HEADER = ROOT / "include" / "mpslp.h"
SOURCE = ROOT / "lib" / "seeded.c"
CRATE = ROOT / "crates" / "mpslp_c" / "src"
SEED = ROOT / "crates" / "mpslp_types" / "src" / "names" / "hashing.rt"

# The parameters that a proved call has before those of its call of the header.
SEED_PARAMETERS = (("uint64_t", "state"), ("uint64_t", "factor"))
# How the crate writes the type of a parameter of C. It takes bytes and their number as one slice.
TYPES = {
    "uint64_t": "u64",
    "mpslp_format": "u32",
    "const mpslp_model *": "&MpslpModel",
    "mpslp_model *": "&mut MpslpModel",
    "mpslp_text *": "&mut MpslpText",
    "mpslp_fault *": "&mut MpslpFault",
}
BYTES, LENGTH, SLICE = "const uint8_t *", "size_t", "&[u8]"
# The crate gets the allocator of the library, which has no bytes.
ALLOCATOR = ("Global", "alloc")

Parameter = tuple[str, str]


def without_comments(text: str) -> str:
    return re.sub(r"/\*.*?\*/|//[^\n]*", "", text, flags=re.S)


def parameters_of_c(text: str) -> tuple[Parameter, ...]:
    """The type and the name of each parameter in a list of C."""
    parts = [re.fullmatch(r"(.*?)\s*(\w+)", part.strip(), re.S) for part in text.split(",")]
    return tuple((" ".join(part[1].split()), part[2]) for part in parts if part)


def calls_of_c(text: str, result: str, prefix: str, ending: str) -> dict[str, tuple[Parameter, ...]]:
    """The functions with this result whose names have this prefix, each with its parameters, by the rest of its
    name."""
    found = re.finditer(rf"{result} {prefix}_(\w+)\(([^)]*)\){ending}", without_comments(text))
    return {it[1]: parameters_of_c(it[2]) for it in found}


def calls_of_crate(texts: list[str]) -> dict[str, tuple[Parameter, ...]]:
    """The functions that the crate exports, without their allocator."""
    calls = {}
    for text in texts:
        for it in re.finditer(r'extern "C" fn seeded_(\w+)\(([^)]*)\) -> u32', without_comments(text)):
            parts = [part.strip().partition(": ") for part in it[2].split(",") if part.strip()]
            calls[it[1]] = tuple((kind, name) for name, _, kind in parts if (kind, name) != ALLOCATOR)
    return calls


def in_crate(parameters: tuple[Parameter, ...]) -> tuple[Parameter, ...]:
    """The parameters of C as the crate has them: bytes with the length after them, `len` or the name with `_len`, are
    a slice."""
    left, found = list(parameters), list[Parameter]()
    while left:
        kind, name = left.pop(0)
        if kind == BYTES and left and left[0] in ((LENGTH, "len"), (LENGTH, f"{name}_len")):
            left.pop(0)
            found.append((SLICE, name))
        else:
            found.append((TYPES.get(kind, f"no type for {kind}"), name))
    return tuple(found)


def fixed_seed() -> tuple[int, ...]:
    """The two halves of FIXED_SEED of the crates."""
    pattern = r"const FIXED_SEED: HashSeed = HashSeed \{\s*state: (0x\w+),\s*factor: (0x\w+),"
    found = re.search(pattern, SEED.read_text())
    if not found:
        raise SystemExit(f"{SEED}: no FIXED_SEED")
    return tuple(int(half.replace("_", ""), 16) for half in found.groups())


def differences(header: str, source: str, crate: list[str]) -> Iterator[str]:
    """In what the three texts have other calls or parameters."""
    wanted = calls_of_c(header, "MPSLP_MUST_USE mpslp_status", "mpslp", ";")
    if not wanted:
        yield "the header has no call"
    seeded = {name: (*SEED_PARAMETERS, *it) for name, it in wanted.items()}
    for what, found, own in (
        ("lib/seeded.c defines", calls_of_c(source, "mpslp_status", "mpslp", r" \{"), wanted),
        ("lib/seeded.c declares", calls_of_c(source, "mpslp_status", "seeded", ";"), seeded),
        ("the crate has", calls_of_crate(crate), {name: in_crate(it) for name, it in seeded.items()}),
    ):
        for name in {**own, **found}:
            if found.get(name) != own.get(name):
                yield f"{what} {name}({found.get(name)}), and not {name}({own.get(name)})"


PROGRAM = """#include <mpslp.h>

int getentropy(void *bytes, size_t len);

/* What the proved calls got, how often, and what they return. */
static uint64_t got[16];
static int times_called, times_asked;
static mpslp_status returned;
/* What the system has for random bits, and whether it fails. */
static uint64_t bits[2];
static bool fails;

int getentropy(void *bytes, size_t len) {
    times_asked++;
    if (len != sizeof bits) return 1;
    memcpy(bytes, bits, fails ? len / 2 : len);
    if (fails) errno = ENOSYS;
    return fails ? -1 : 0;
}

%(recorders)s
typedef struct {
    const char *name;
    size_t count;
    mpslp_status (*call)(const uint64_t *arguments);
} call;

static const call calls[] = {
%(table)s
};

static const uint64_t FIXED[2] = {%(fixed)s};
static int errors = 0;

static void check(bool is_so, const call *it, const char *what, size_t changed) {
    if (is_so) return;
    printf("mpslp_%%s: %%s, where %%lu was changed\\n", it->name, what, (unsigned long)changed);
    errors = 1;
}

/* Makes the call with one of its arguments changed, or a half of the random bits. The last ones change nothing. */
static void try_call(const call *it, size_t changed) {
    const size_t of_bits = changed - it->count;
    uint64_t arguments[16];
    size_t i;
    for (i = 0; i < 2; i++)
        bits[i] = 0xA5A5000000000000u + 256 * i + (changed >= it->count && of_bits == i ? 7 : 0);
    for (i = 0; i < it->count; i++) arguments[i] = 0x1000 + 64 * i + (i == changed ? 8 : 0);
    memset(got, 0, sizeof got);
    times_called = times_asked = 0;
    returned = (mpslp_status)(changed %% 7);
    check(it->call(arguments) == returned, it, "another result", changed);
    check(times_called == 1 && times_asked == 1, it, "the proved call, or the system, is not called once", changed);
    for (i = 0; i < 2; i++) check(got[i] == (fails ? FIXED : bits)[i], it, "another seed", changed);
    for (i = 0; i < it->count; i++)
        check(got[2 + i] == arguments[i], it, "an argument does not arrive at its place", changed);
}

int main(void) {
    for (size_t n = 0; n < sizeof calls / sizeof *calls; n++)
        for (int system = 0; system < 2; system++) {
            fails = system != 0;
            for (size_t changed = 0; changed <= calls[n].count + 2; changed++) try_call(&calls[n], changed);
        }
    return errors;
}
"""


def program_of(calls: dict[str, tuple[Parameter, ...]]) -> str:
    """The program that makes each call, over functions that record what they get."""
    recorders, table = [], []
    for name, own in calls.items():
        parameters = (*SEED_PARAMETERS, *own)
        kept = (f"got[{at}] = (uint64_t){by_address(kind)}{it};" for at, (kind, it) in enumerate(parameters))
        passed = (f"({kind}){by_address(kind)}a[{at}]" for at, (kind, _) in enumerate(own))
        head = f"mpslp_status seeded_{name}({', '.join(f'{kind} {it}' for kind, it in parameters)})"
        recorders.append(f"{head};\n{head} {{\n    {' '.join(kept)}\n    times_called++;\n    return returned;\n}}")
        call = f"mpslp_{name}({', '.join(passed)})"
        recorders.append(f"static mpslp_status call_{name}(const uint64_t *a) {{ return {call}; }}\n")
        table.append(f'    {{"{name}", {len(own)}, call_{name}}},')
    fixed = ", ".join(f"0x{half:X}u" for half in fixed_seed())
    return PROGRAM % {"recorders": "\n".join(recorders), "table": "\n".join(table), "fixed": fixed}


def by_address(kind: str) -> str:
    """The cast between a number and a pointer of this type, or nothing."""
    return "(uintptr_t)" if kind.endswith("*") else ""


@dataclass(frozen=True)
class Texts:
    """What is between a caller and a proof: the header, lib/seeded.c, and the files of the crate."""

    header: str
    source: str
    crate: tuple[str, ...]

    def wrong(self) -> str:
        """What is wrong, or nothing."""
        return "\n".join(differences(self.header, self.source, list(self.crate))) or self.wrong_when_run()

    def wrong_when_run(self) -> str:
        """What the compiler says of lib/seeded.c, or the program that records the arguments."""
        with tempfile.TemporaryDirectory() as name:
            folder = Path(name)
            (folder / "seeded.c").write_text(self.source)
            calls = calls_of_c(self.header, "MPSLP_MUST_USE mpslp_status", "mpslp", ";")
            (folder / "arguments.c").write_text(program_of(calls))
            words = [os.environ.get("CC", "cc"), "-std=c99", "-Wall", "-Wextra", "-Werror", f"-I{HEADER.parent}"]
            words += ["-o", str(folder / "arguments"), str(folder / "arguments.c"), str(folder / "seeded.c")]
            made = subprocess.run(words, capture_output=True, text=True, check=False)
            if made.returncode:
                return made.stderr
            run = subprocess.run([folder / "arguments"], capture_output=True, text=True, check=False)
            return run.stdout or (f"status {run.returncode}" if run.returncode else "")


def swapped(text: str, start: int, end: int, one: int, other: int) -> str:
    """A text in which two items of the list between these places have changed places."""
    items = [it.strip() for it in text[start:end].split(",")]
    items[one], items[other] = items[other], items[one]
    return text[:start] + ", ".join(items) + text[end:]


def mistakes(right: Texts) -> Iterator[tuple[str, Texts]]:
    """Each mistake, and the texts with it."""
    for call in re.finditer(r"return (seeded_\w+)\(([^)]*)\);", right.source):
        items = call[2].split(", ")
        for one, other in combinations(range(len(items)), 2):
            source = swapped(right.source, *call.span(2), one, other)
            yield f"{call[1]}: {items[one]} and {items[other]} are swapped", replace(right, source=source)
        for at, item in enumerate(items):
            passed = ", ".join([*items[:at], items[at - 1], *items[at + 1 :]])
            source = right.source[: call.start(2)] + passed + right.source[call.end(2) :]
            yield f"{call[1]}: {items[at - 1]} is passed for {item}", replace(right, source=source)
    for definition in re.finditer(r"mpslp_status (mpslp_\w+)\(([^)]*)\) \{", right.source):
        for one, other in combinations(range(definition[2].count(",") + 1), 2):
            source = swapped(right.source, *definition.span(2), one, other)
            what = f"{definition[1]}: parameters {one} and {other} of its definition are swapped"
            yield what, replace(right, source=source)
    for old, new in (
        ("!= 0) {", "== 0) {"),
        ("bits[1] = FIXED_SEED[1]", "bits[1] = FIXED_SEED[0]"),
        ("bits[0] = FIXED_SEED[0];", ""),
        ("0x9E3779B97F4A7C15u", "0x9E3779B97F4A7C14u"),
        ("(seed){bits[0], bits[1]}", "(seed){bits[1], bits[0]}"),
    ):
        if right.source.count(old) != 1:
            raise SystemExit(f"lib/seeded.c does not have once: {old}")
        yield f"{old} is {new or 'left out'}", replace(right, source=right.source.replace(old, new))
    for at, text in enumerate(right.crate):
        for call in re.finditer(r'extern "C" fn (seeded_\w+)\(([^)]*),\s*\)', text):
            for one, other in combinations(range(1, call[2].count(",") + 1), 2):
                crate = (*right.crate[:at], swapped(text, *call.span(2), one, other), *right.crate[at + 1 :])
                yield f"{call[1]}: parameters {one} and {other} of the crate are swapped", replace(right, crate=crate)


def main() -> int:
    parser = argparse.ArgumentParser(description=__doc__, formatter_class=argparse.RawDescriptionHelpFormatter)
    parser.add_argument("--wrong", action="store_true", help="make mistakes too, and report one that is not found")
    options = parser.parse_args()
    crate = tuple(file.read_text() for file in sorted(CRATE.glob("*.rt")))
    right = Texts(HEADER.read_text(), SOURCE.read_text(), crate)
    if wrong := right.wrong():
        print(wrong)
        return 1
    made = [*mistakes(right)] if options.wrong else []
    with ThreadPoolExecutor(len(os.sched_getaffinity(0))) as pool:
        found = pool.map(Texts.wrong, (texts for _, texts in made))
        missed = [what for (what, _), wrong in zip(made, found) if not wrong]
    calls = calls_of_c(right.header, "MPSLP_MUST_USE mpslp_status", "mpslp", ";")
    print(*(f"not found: {it}" for it in missed), sep="\n", end="\n" if missed else "")
    number = sum(map(len, calls.values()))
    print(f"{len(calls)} calls hand on each of {number} arguments; {len(made)} mistakes, {len(missed)} not found")
    return 1 if missed else 0


if __name__ == "__main__":
    sys.exit(main())
