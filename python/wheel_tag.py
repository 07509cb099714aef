#!/usr/bin/env python3
"""The platform of the wheel, and whether a wheel keeps what it says: python/wheel_tag.py --platform | --name | WHEEL

A wheel with the tag manylinux_2_34_x86_64 can be installed by pip, also from an index, on every Linux on x86-64 with
glibc 2.34 or later. Its shared objects may then need no newer symbol of glibc, and no other library than those of
glibc. With a WHEEL, objdump lists what they need; exits with 1 if that is more than the tag says.
"""

import argparse
import re
import subprocess
import sys
import tempfile
import zipfile
from collections.abc import Iterator
from pathlib import Path

ROOT = Path(__file__).resolve().parent.parent
# The tag, and in it the oldest glibc on which the program, the library and the wheel run.
PLATFORM = "manylinux_2_34_x86_64"
GLIBC = tuple(int(part) for part in PLATFORM.split("_")[1:3])
ALLOWED = {"libc.so.6", "libm.so.6", "ld-linux-x86-64.so.2"}

NEEDED = re.compile(r"^ +NEEDED +(\S+)$", re.M)
VERSION = re.compile(r"^ +0x[0-9a-f]+ 0x[0-9a-f]+ \d+ (\S+)$", re.M)


def name() -> str:
    """The name of the wheel of this checkout."""
    return f"mpslp-{(ROOT / 'VERSION').read_text().strip()}-cp310-abi3-{PLATFORM}.whl"


def is_older(version: str, glibc: tuple[int, ...]) -> bool:
    """Whether a version of a symbol is of a glibc that is at most this one."""
    found = re.fullmatch(r"GLIBC_([0-9.]+)", version)
    return found is not None and tuple(map(int, found[1].split("."))) <= (*glibc, 99)


def excesses(headers: str, glibc: tuple[int, ...] = GLIBC) -> Iterator[str]:
    """What a shared object needs beyond what the tag says, by what objdump prints of its headers."""
    yield from (f"the library {it}" for it in NEEDED.findall(headers) if it not in ALLOWED)
    references = headers.partition("Version References:")[2]
    yield from (f"the version {it}" for it in VERSION.findall(references) if not is_older(it, glibc))


def headers_of(file: Path) -> str:
    return subprocess.run(["objdump", "-p", file], capture_output=True, text=True, check=True).stdout


def excesses_of_wheel(wheel: Path) -> list[str]:
    with tempfile.TemporaryDirectory() as folder, zipfile.ZipFile(wheel) as packed:
        objects = [Path(packed.extract(it, folder)) for it in packed.namelist() if re.search(r"\.so(?:\.\d+)*$", it)]
        if not objects:
            return [f"{wheel.name} has no shared object"]
        return [f"{file.name} needs {it}" for file in objects for it in excesses(headers_of(file))]


def main() -> int:
    parser = argparse.ArgumentParser(description=__doc__, formatter_class=argparse.RawDescriptionHelpFormatter)
    chosen = parser.add_mutually_exclusive_group(required=True)
    chosen.add_argument("--platform", action="store_true", help="print the platform of the tag")
    chosen.add_argument("--name", action="store_true", help="print the name of the wheel")
    chosen.add_argument("wheel", nargs="?", type=Path, metavar="WHEEL", help="a wheel to check")
    options = parser.parse_args()
    if options.wheel is None:
        print(PLATFORM if options.platform else name())
        return 0
    found = excesses_of_wheel(options.wheel)
    print(*found, sep="\n", end="\n" if found else "", file=sys.stderr)
    return 1 if found else 0


if __name__ == "__main__":
    sys.exit(main())
