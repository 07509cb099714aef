"""Colours, on terminals only. NO_COLOR turns them off, as https://no-color.org describes."""

from __future__ import annotations

import os
import re
from collections.abc import Callable
from enum import Enum
from typing import Any


class _Style(Enum):
    BOLD = "1"
    RED = "31"
    GREEN = "32"
    YELLOW = "33"
    CYAN = "36"


_REJECTION = re.compile(r"(?P<where>[^\n]+?(?::\d+)?): (?P<kind>[A-Z][A-Za-z]+)(?=: |$)", re.M)
_WARNING = re.compile(r"^warning:", re.M)
_PATCH_STYLES = (
    (b"+++ ", _Style.BOLD),
    (b"--- ", _Style.BOLD),
    (b"@@ ", _Style.CYAN),
    (b"+", _Style.GREEN),
    (b"-", _Style.RED),
)


def is_coloured(stream: Any) -> bool:
    """Whether what is written to a stream is coloured."""
    if stream is None or os.environ.get("NO_COLOR") or os.environ.get("TERM") == "dumb":
        return False
    return bool(stream.isatty())


def message(lines: str) -> str:
    """What is said of a file on standard error."""
    marked = _WARNING.sub(lambda found: _in(_Style.YELLOW, found[0]), lines)
    return _REJECTION.sub(lambda found: f"{_in(_Style.BOLD, found['where'])}: {_in(_Style.RED, found['kind'])}", marked)


def difference(line: str) -> str:
    """A line of a difference of models."""
    style = {"-": _Style.RED, "+": _Style.GREEN}.get(line[:1])
    return line if style is None else _in(style, line)


def patch(content: bytes) -> bytes:
    """A unified diff."""
    return b"".join(_patch_line(line) for line in content.splitlines(keepends=True))


def _patch_line(line: bytes) -> bytes:
    style = next((style for prefix, style in _PATCH_STYLES if line.startswith(prefix)), None)
    if style is None:
        return line
    text = line.rstrip(b"\r\n")
    return _marked(style).encode() + text + _PLAIN.encode() + line[len(text) :]


_PLAIN = "\x1b[0m"


def _marked(style: _Style) -> str:
    return f"\x1b[{style.value}m"


def _in(style: _Style, text: str) -> str:
    return f"{_marked(style)}{text}{_PLAIN}"


Colouring = Callable[[str], str]
"""How lines are coloured."""
