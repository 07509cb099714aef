#!/usr/bin/env python3
"""Check that each link in the documents of a directory leads to a file or a directory: links.py DIRECTORY

Prints the links that lead nowhere, and counts all. Exits with 1 if there is one that does.
"""

import re
import sys
from pathlib import Path

LINK = re.compile(r"\]\(([^)#\s]+)(?:#[^)]*)?\)")
FENCED = re.compile(r"^( *)```.*?^\1```$", re.S | re.M)


def links(page: Path) -> list[str]:
    """The targets within the documents, without those in code."""
    text = re.sub(r"`[^`\n]*`", "`", FENCED.sub("", page.read_text(encoding="utf-8")))
    return [target for target in LINK.findall(text) if not re.match(r"[a-z]+:", target)]


def main() -> int:
    pages = sorted(Path(sys.argv[1]).rglob("*.md"))
    found = [(page, target) for page in pages for target in links(page)]
    dead = [(page, target) for page, target in found if not (page.parent / target).exists()]
    for page, target in dead:
        print(f"{page}: {target} is not there")
    print(f"{len(found)} links, {len(dead)} dead")
    return 1 if dead or not found else 0


if __name__ == "__main__":
    sys.exit(main())
