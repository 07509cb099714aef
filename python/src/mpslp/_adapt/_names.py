"""Names that are legal for mpslp, for names that are not."""

from __future__ import annotations

import unicodedata
from collections.abc import Callable

from mpslp._text._names import MOST_BYTES

_FIRST_STRAY = 0xDC00


def _is_stray(letter: str) -> bool:
    """Whether a letter is a byte that is not UTF-8."""
    return _FIRST_STRAY < ord(letter) < _FIRST_STRAY + 256


_OTHER_LOOKS = frozenset("<wide> <narrow> <font> <super> <sub> <circle> <square> <fraction>".split())
"""What Unicode says of a letter that is another form of a letter or digit of ASCII, such as a fullwidth one."""


def reason_against(name: str) -> str | None:
    """Why a name is left: a sign of Unicode that is no letter, as a minus, an operator, a currency
    or a digit; or None.
    """
    if name.isascii():
        return None
    for at, letter in enumerate(name.encode("latin-1").decode("utf-8", "surrogateescape")):
        if _is_stray(letter):
            letter = bytes([ord(letter) - _FIRST_STRAY]).decode("cp1252", "replace")  # as Windows has it
            if not letter.isalpha() or _has_other_look(letter):
                return (
                    f"a byte that is not UTF-8, on Windows U+{ord(letter):04X}, cannot be in a name: write the sign of"
                    " ASCII that is meant"
                )
        elif not letter.isascii() and not _is_letter(letter, at == 0):
            return (
                f"U+{ord(letter):04X} cannot be in a name: write the sign, the digit or the space of ASCII that is"
                " meant"
            )
    return None


def _is_letter(letter: str, is_first: bool) -> bool:
    """Whether a sign is a letter, or an accent on the letter before it."""
    category = unicodedata.category(letter)
    return (category.startswith("L") or (category in ("Mn", "Mc") and not is_first)) and not _has_other_look(letter)


def _has_other_look(letter: str) -> bool:
    return unicodedata.decomposition(letter).partition(" ")[0] in _OTHER_LOOKS


def looks_of(name: str) -> str:
    """A name, in latin-1, with the letters of ASCII that its Greek and Cyrillic letters look like."""
    return (
        name.encode("latin-1")
        .decode("utf-8", "surrogateescape")
        .translate(_LOOK_ALIKES)
        .encode("utf-8", "surrogateescape")
        .decode("latin-1")
    )


_LOOK_ALIKES = str.maketrans(
    # Cyrillic, small and capital; Greek, capital and small; and one more of Cyrillic
    "\u0430\u0435\u043e\u0440\u0441\u0443\u0445\u0456\u0458\u0455"
    "\u0410\u0412\u0415\u041a\u041c\u041d\u041e\u0420\u0421\u0422\u0423\u0425"
    "\u0391\u0392\u0395\u0396\u0397\u0399\u039a\u039c\u039d\u039f\u03a1\u03a4\u03a5\u03a7\u03bf\u03bd\u051a",
    "aeopcyxijs" "ABEKMHOPCTYX" "ABEZHIKMNOPTYXovQ",
)


class Names:
    """The names that are written instead of names given.

    Each is another than all names of the file, and stays the same.
    """

    def __init__(self, is_legal: Callable[[str], bool], used: Callable[[], set[str]]) -> None:
        self.written: dict[str, str] = {}
        self._legal: set[str] = set()
        self._is_legal = is_legal
        self._find_used = used
        self._used: set[str] | None = None
        self._numbers: dict[str, int] = {}
        """The last number after each name that is written for several."""

    def of(self, given: str) -> str:
        """The name to write: the given one, if it is legal."""
        if given in self._legal:
            return given
        if given in self.written:
            return self.written[given]
        if self._is_legal(given):
            self._legal.add(given)
            return given
        if self._used is None:
            self._used = self._find_used()
        name = _proposed(given)
        if not self._is_legal(name):
            name = f"_{name}"
        plain = name[: MOST_BYTES - 8]
        while not self._is_legal(name) or name in self._used:
            self._numbers[plain] = self._numbers.get(plain, 1) + 1
            name = f"{plain}_{self._numbers[plain]}"
        self._used.add(name)
        self.written[given] = name
        return name


def _proposed(given: str) -> str:
    """The name with each letter of another alphabet and each byte that is not legal replaced."""
    text = given.encode("latin-1").decode("utf-8", "surrogateescape")[:_MOST_REPLACED]
    plain = unicodedata.normalize("NFKD", text.replace("ß", "ss"))
    kept = (each for each in plain.translate(_REPLACED) if not unicodedata.combining(each))
    return "".join(each if "!" <= each <= "~" else f"u{ord(each):04x}" for each in kept)


_MOST_REPLACED = 4 * MOST_BYTES
"""What comes after these letters is cut off: Unicode puts very many accents in order slowly."""

_REPLACED = {ord("["): "(", ord("]"): ")", **{ord(each): "_" for each in " \t:*^<>=+-\\"}}


def are_near(first: str, second: str) -> bool:
    """Whether two names are the same but for one letter or sign more, less or changed; names that differ in digits are
    not.
    """
    return without_digits(first) != without_digits(second) and not parts_of(first).isdisjoint(parts_of(second))


def parts_of(name: str) -> set[str]:
    """A name without its digits, and this without each of its letters: names that differ in one letter have one in
    common.
    """
    letters = without_digits(name)
    if not 1 < len(letters) <= _MOST_COMPARED_LETTERS:
        return {letters}
    return {letters, *(letters[:at] + letters[at + 1 :] for at in range(len(letters)))}


def without_digits(name: str) -> str:
    return name.translate(_NO_DIGITS)


_NO_DIGITS = dict.fromkeys(map(ord, "0123456789"))
_MOST_COMPARED_LETTERS = 64
