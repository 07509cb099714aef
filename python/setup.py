"""Builds the extension module, and reads the version from VERSION of the repository; all else is in pyproject.toml.

MPSLP_INCLUDE is the directory of mpslp.h and MPSLP_LIBRARY is libmpslp.a, if these are not those of the repository.
MPSLP_PLATFORM is the platform that the wheel is for, if it is not this machine: build.sh gives it, and checks what the
wheel needs.
"""

import os
import sys
from pathlib import Path

from setuptools import Extension, setup
from setuptools.command.build_py import build_py

HERE = Path(__file__).resolve().parent
ROOT = HERE.parent
EXTENSION = HERE / "extension"
INCLUDE = Path(os.environ.get("MPSLP_INCLUDE", ROOT / "include"))
LIBRARY = Path(os.environ.get("MPSLP_LIBRARY", ROOT / "build" / "libmpslp.a"))

TABLES = tuple(ROOT / "docs" / f"{name}.tsv" for name in ("errors", "warnings", "portable", "adapt"))

VERSION = (ROOT / "VERSION").read_text().strip()

PLATFORM = os.environ.get("MPSLP_PLATFORM")

for part in (INCLUDE / "mpslp.h", LIBRARY):
    if not part.is_file():
        sys.exit(f"{part} is missing: make lib builds the library")


class BuildModules(build_py):
    """Adds the tables of errors, warnings, remarks and changes, which are documents."""

    def run(self) -> None:
        super().run()
        for table in TABLES:
            self.copy_file(str(table), str(Path(self.build_lib) / "mpslp" / table.name), preserve_mode=False)


setup(
    version=VERSION,
    cmdclass={"build_py": BuildModules},
    ext_modules=[
        Extension(
            "mpslp._mpslp",
            sorted(str(each.relative_to(HERE)) for each in EXTENSION.glob("*.c")),
            include_dirs=[str(INCLUDE)],
            extra_objects=[str(LIBRARY)],
            depends=[str(EXTENSION / "extension.h"), str(INCLUDE / "mpslp.h"), str(LIBRARY)],
            # The stable interface of CPython: one wheel serves 3.10 and all later ones.
            define_macros=[("Py_LIMITED_API", "0x030A0000"), ("PACKAGE_VERSION", f'"{VERSION}"')],
            py_limited_api=True,
            extra_compile_args=["-std=c11", "-Wall", "-Wextra", "-fvisibility=hidden"],
            # Other copies of the library in one process do not meet.
            extra_link_args=["-Wl,--exclude-libs,ALL"],
        )
    ],
    options={"bdist_wheel": {"py_limited_api": "cp310"} | ({"plat_name": PLATFORM} if PLATFORM else {})},
)
