"""Lines over the limit of mpslp."""

from __future__ import annotations

from mpslp._adapt._changes import AdaptError, Log
from mpslp._text._lines import LONGEST_LINE

_PART_OF_LINE = 1_000_000


def with_short_lines(text: str, comment: str, log: Log) -> str:
    """Lines over the limit are broken, within comments too; in MPS spaces at their ends go.

    A line end is no part of its line.
    """
    if len(text) <= LONGEST_LINE:
        return text
    lines = text.split("\n")
    if all(len(line) <= LONGEST_LINE or _length(line) <= LONGEST_LINE for line in lines):
        return text
    for at, line in enumerate(lines):
        if _length(line) > LONGEST_LINE:
            log.add(at + 1, "long-line", f"{_length(line)} bytes", "")
            lines[at] = _broken(line.removesuffix("\r"), comment, at + 1)
    return "\n".join(lines)


def _length(line: str) -> int:
    """The bytes of a line that ends with LF or CRLF."""
    return len(line.removesuffix("\r"))


def _broken(line: str, comment: str, number: int) -> str:
    code, mark, remark = ("", comment, line[1:]) if comment == "*" and line.startswith("*") else (line, "", "")
    if comment == "\\":
        code, mark, remark = line.partition(comment)
    pieces = _pieces(code) if comment == "\\" else [code.rstrip(" \t\r")]
    if any(len(piece) > LONGEST_LINE for piece in pieces):
        raise AdaptError(number, "a line over the limit that has no space to break it")
    comments = [mark + remark[at : at + _PART_OF_LINE] for at in range(0, len(remark), _PART_OF_LINE)]
    return "\n".join([piece for piece in [*pieces, *comments] if piece])


def _pieces(code: str) -> list[str]:
    """A line of LP in pieces that each end before a space, and are as long as they may be; one without spaces may be
    longer.
    """
    pieces, start = [], 0
    while len(code) - start > _PART_OF_LINE:
        end = code.rfind(" ", start + 1, start + _PART_OF_LINE + 1)
        if end < 0:
            end = code.find(" ", start + _PART_OF_LINE)
        if end < 0:
            break
        pieces.append(code[start:end].strip(" "))
        start = end
    return [*pieces, code[start:].strip(" ")]
