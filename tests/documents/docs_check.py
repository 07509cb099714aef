#!/usr/bin/env python3
"""Check the documents and the examples against the built program.

README.md, CONTRIBUTING.md, the READMEs of examples/ and vectors/, and docs/*.md are tested as
shared/pages.py says; docs_tables.py has the forms of their tables, and knows some by their heads. Each pair of
examples must have the same canonical text, which is the stated one if there is one,
and canonical texts must be fixed points. docs/TRUST.md must list what trust_page.py
derives from the imports of specs/. docs/PROMISES.md must agree with the contracts of a
builder (promises_check.py), and docs/RUST.md must list every call of the public crates
(surface_check.py). prose_lint.py must find nothing in the documents, the C header
and the comments of the code. Names in documents and comments must exist (names_check.py),
and the checklists of CONTRIBUTING.md must be complete (places.py).

It needs git, make and gzip. Each difference is reported on one line; then they are
counted. Exits with 1 if there is one.
"""

import argparse
import sys
import tempfile
from pathlib import Path

import docs_tables
import names_check
import places
import promises_check
import prose_lint
import surface_check
import trust_page

sys.path.insert(0, str(Path(__file__).resolve().parents[1]))

from shared.pages import Document, Scratch

ROOT = Path(__file__).resolve().parents[2]
PROGRAM = ROOT / "crates" / "mpslp" / "out" / "mpslp"
DOCUMENTS = ("README.md", "CONTRIBUTING.md", "examples/README.md", "vectors/README.md", "docs/*.md")


class Page(Document):
    """A page with tables whose rows are checked."""

    FORMS, HEADS = docs_tables.FORMS, docs_tables.HEADS


def check_examples(scratch, wrong):
    """Each pair has one canonical text, which is the stated one. Returns the number of comparisons."""
    folder = ROOT / "examples"
    files = sorted(path for path in folder.iterdir() if path.suffix in (".mps", ".lp"))
    stems = sorted({path.stem for path in files if not path.stem.endswith(".canonical")})
    tried = 0
    for to in ("mps", "lp"):
        for stem in stems:
            stated = folder / f"{stem}.canonical.{to}"
            sources = [folder / f"{stem}{part}.{form}" for part in ("", ".canonical") for form in ("mps", "lp")]
            texts = {
                path.name: scratch.mpslp(f"canon {path.suffix[1:]} {to}", path.read_bytes())
                for path in sources
                if path.exists()
            }
            first = next(iter(texts))
            expected = (0, stated.read_text()) if stated.exists() else texts[first]
            tried += len(texts)
            for name, answer in texts.items():
                if answer != expected:
                    against = stated.name if stated.exists() else f"that of {first}"
                    wrong.append(f"examples/{name}: its canonical {to.upper()} text is not {against}")
            if scratch.mpslp(f"canon {to} {to}", expected[1].encode()) != expected:
                wrong.append(f"examples/{stem}: its canonical {to.upper()} text is no fixed point")
    return tried


def arguments():
    parser = argparse.ArgumentParser(description=__doc__, formatter_class=argparse.RawDescriptionHelpFormatter)
    parser.add_argument("--program", type=Path, default=PROGRAM, help="the path of mpslp")
    return parser.parse_args()


def main():
    program = arguments().program.resolve()
    if not program.exists():
        print(f"{program} is not there: make run builds it", file=sys.stderr)
        return 1
    tried, wrong = 0, []
    for path in sorted(path for pattern in DOCUMENTS for path in ROOT.glob(pattern)):
        with tempfile.TemporaryDirectory() as folder:
            document = Page(path, Scratch(folder, program))
            document.check()
            tried += document.tried
            wrong += document.wrong
    with tempfile.TemporaryDirectory() as folder:
        tried += check_examples(Scratch(folder, program), wrong)
    wrong += trust_page.check() + list(promises_check.differences(promises_check.ROOT)) + prose_lint.check(code=True)
    wrong += names_check.check() + places.check() + surface_check.differences()
    for line in wrong:
        print(line)
    print(f"{tried} tried, {len(wrong)} differ")
    return 1 if wrong else 0


if __name__ == "__main__":
    sys.exit(main())
