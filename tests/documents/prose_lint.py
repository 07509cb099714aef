#!/usr/bin/env python3
"""Find words in the documents for which a plainer one is agreed.

Checked are the documents, the manual page, the texts of help and the completions,
and the comments of the C header. With --code also the `///` and `//!` comments and
the first lines of files. What is between backquotes, in fenced blocks and in HTML
comments is not looked at. prose_allowed.tsv lists the places where a word is right.

Prints FILE:LINE, the word, what to write instead, and the sentence. Exits with 1 if
a word is found, or if an entry of prose_allowed.tsv is not needed.
"""

import argparse
import csv
import re
import sys
from collections.abc import Iterator
from fnmatch import fnmatch
from pathlib import Path
from typing import NamedTuple

ROOT = Path(__file__).resolve().parents[2]
ALLOWED = ROOT / "tests" / "documents" / "prose_allowed.tsv"
DOCUMENTS = (
    "README.md",
    "CONTRIBUTING.md",
    "CHANGELOG.md",
    "docs/*.md",
    "docs/*/*.md",
    "docs/*.1",
    "docs/errors.tsv",
    "examples/README.md",
    "vectors/README.md",
    "python/README.md",
    "release/*.md",
    "completions/*",
)
CODE = (
    "crates/*/src/**/*.rt",
    "crates/*/specs/**/*.antt",
    "crates/*/proofs/**/*.antt",
    "tests/**/*.py",
    "tests/**/*.sh",
    "python/tests/*.py",
    "bench/*.py",
    "bench/*.sh",
    "scripts/*.py",
    "release/*.sh",
    "lib/*.sh",
    "python/src/**/*.py",
)
HELP = "crates/mpslp_command/src/usage.rt"
HEADER = "include/mpslp.h"

PAGES = (".md",)

RULES = (
    (r"told|tells?", "reports, says, prints"),
    (r"stands?|stood", "is, appears, comes"),
    (r"behind", "after"),
    (r"alone", "only"),
    (r"right sides?", "right-hand side"),
    (r"double-sided", "ranged"),
    (r"blanks?", "space; empty"),
    (r"pass(?:es|ed)? over", "ignore, skip"),
    (r"without a word", "silently"),
    (r"in place of", "instead of"),
    (r"want of memory", "out of memory"),
    (r"memory (?:is|was|were) refused|refused memory", "allocation fails"),
    (r"premises?", "assumption"),
    (r"promis(?:es?|ed)", "guarantee"),
    (r"tries|tried", "runs, tests, checks"),
    (r"the front of", "a prefix of"),
    (r"owes?", "must; obligation"),
    (r"exactly if", "if and only if"),
    (r"as it is|as they are", "unchanged, directly"),
    (r"wrong bod(?:y|ies)", "mutant"),
    (r"judge[sd]?", "check"),
    (r"perhaps", "optional"),
    (r"do(?:es)? not hold", "fails"),
    (r"has gone", "broken pipe"),
    (r"hand(?:s|ed)? (?:in|out|on|over)", "pass, return"),
    (r"folders?", "directory"),
    (r"refuse[sd]?|refusals?", "reject, error"),
    (r"faults?", "error"),
    (r"answer(?:s|ed)?", "return, result"),
    (r"views?", "accessor"),
)
# Phrases that read as translated. They are looked for in Markdown only: manual pages and
# completions are made of the help of the commands, and comments of code have a rhythm of their own.
PHRASES = (
    (r"(?:reads?|means?|meant|does) otherwise", "differently"),
    (r"(?:an)?other (?!more |rather )\w+ than", "a different ... from"),
    (r"in what (?:\w+ )?(?:models|files|texts) differ", "how"),
    (r"says? in what", "says how"),
    (r"also (?:if|when|where|without)", "even if"),
    (r"(?:is|are) no (?:name|index|part|row|column|file|text|model|line|place) of", "is not a ... of"),
    (r"shares? of all", "density, percentage"),
    (r"between \d+ and -\d+", "the smaller number first"),
    (r"(?:files?|models?|edits?|programs?) of yours", "your"),
    (r"of strangers", "untrusted"),
    (r"to be (?:maximi|minimi)[sz]ed", "maximisation, minimisation"),
)
ALL = RULES + PHRASES


def finder(rules):
    return re.compile(r"(?<![\w-])(?:" + "|".join(f"({pattern})" for pattern, _ in rules) + r")(?![\w-])", re.I)


WORD, WORD_OR_PHRASE = finder(RULES), finder(ALL)


class Finding(NamedTuple):
    path: str
    line: int
    word: str
    instead: str
    sentence: str

    def __str__(self):
        return f"{self.path}:{self.line}: {self.word} ({self.instead}): {self.sentence}"


class Permission(NamedTuple):
    """A word that is right in the files of a pattern, in sentences that contain a text."""

    word: str
    files: str
    text: str
    reason: str

    def covers(self, finding):
        return (
            finding.word.lower() in self.word.split("|")
            and any(fnmatch(finding.path, each) for each in self.files.split())
            and self.text in finding.sentence
        )


def permissions():
    with ALLOWED.open(newline="") as file:
        return [
            Permission(*row) for row in csv.reader(file, delimiter="\t", quoting=csv.QUOTE_NONE) if row[0] != "word"
        ]


def emptied(match):
    """What a match leaves: its line ends."""
    return "\n" * match[0].count("\n")


def prose(path, text):
    """The text of a file with all that is not prose taken out, line by line as before."""
    if path.endswith(".md"):
        text = re.sub(r"^( *)```.*?^\1```$", emptied, text, flags=re.S | re.M)
        text = re.sub(r"<!--.*?-->", emptied, text, flags=re.S)
        text = re.sub(r"\]\([^)]*\)", "]", text)
    elif path == HEADER:
        text = re.sub(r"/\*.*?\*/|[^\n]", lambda match: match[0] if match[0].startswith("/*") else "", text, flags=re.S)
    elif path == HELP:
        text = "\n".join(
            line if '"' in line or not line.startswith((" ", "/", "}")) or "\\" in line else ""
            for line in text.split("\n")
        )
        text = re.sub(r"^(?:fn|use|const) .*$", "", text, flags=re.M)
    elif path.endswith(".rt"):
        text = "\n".join(line if re.match(r" *//[/!]", line) else "" for line in text.split("\n"))
    elif not path.endswith((".1", ".tsv")) and not path.startswith("completions/"):
        first = [line for line in text.split("\n")[:2] if not line.startswith("#!")]
        text = first[0] if first and first[0].startswith(("--", "#", '"""')) else ""
    return re.sub(r"`[^`\n]*`", "`", text)


def sentences(text) -> Iterator[tuple[int, str]]:
    for number, line in enumerate(text.split("\n"), 1):
        for part in re.split(r"(?<=[.;:]) |\|", line):
            yield number, part.strip()


def findings(patterns) -> Iterator[Finding]:
    for path in sorted(
        {path for pattern in patterns for path in ROOT.glob(pattern) if "out" not in path.parts and path.is_file()}
    ):
        name = str(path.relative_to(ROOT))
        rules = WORD_OR_PHRASE if path.suffix in PAGES else WORD
        for line, sentence in sentences(prose(name, path.read_text())):
            for match in rules.finditer(sentence):
                if not match[0].isupper():
                    yield Finding(name, line, match[0], ALL[match.lastindex - 1][1], sentence)


def check(code=False) -> list[str]:
    """The findings that no entry allows, and the entries that allow none."""
    allowed, used, lines = permissions(), set(), []
    for finding in findings((*DOCUMENTS, HEADER, HELP, *CODE) if code else DOCUMENTS):
        covering = [permission for permission in allowed if permission.covers(finding)]
        used.update(covering)
        if not covering:
            lines.append(str(finding))
    places = (*DOCUMENTS, HEADER, HELP, *CODE) if code else DOCUMENTS
    present = {str(path.relative_to(ROOT)) for pattern in places for path in ROOT.glob(pattern)}
    for permission in allowed:
        if permission not in used and any(fnmatch(name, each) for name in present for each in permission.files.split()):
            lines.append(f"prose_allowed.tsv: nothing needs {permission.word} in {permission.files}: {permission.text}")
    return lines


def main():
    parser = argparse.ArgumentParser(description=__doc__, formatter_class=argparse.RawDescriptionHelpFormatter)
    parser.add_argument("--code", action="store_true", help="also comments of code, the header and the texts of help")
    found = check(parser.parse_args().code)
    print("\n".join([*found, f"{len(found)} found"]))
    return 1 if found else 0


if __name__ == "__main__":
    sys.exit(main())
