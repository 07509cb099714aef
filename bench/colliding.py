"""Names that have one and the same hash if the seed of the hash is known.

A name of 48 bytes is hashed 16 bytes at a time, each time by a multiplication whose halves are joined by exclusive or.
The first 16 bytes are chosen so that the state after them consists of eight printable bytes. The next eight bytes are
that state, so that a factor of the second multiplication is 0, and so is the state after it, whatever the eight bytes
from the 25th on are: they number the names.
"""

import itertools
import random
from collections.abc import Iterator

NAME_BYTES = 48
_WORD = 8
_BITS = 64
_MASK = (1 << _BITS) - 1
# The seed of the library where the system has no random bytes. It is that of the kit's `FoldHasher`.
FIXED_STATE, FIXED_FACTOR = 0x243F_6A88_85A3_08D3, 0x9E37_79B9_7F4A_7C15
_LETTERS = b"ABCDEFGHIJKLMNOPQRSTUVWXYZabcdefghijklmnopqrstuvwxyz"
_NAME_BYTES_OF_LP = frozenset(_LETTERS + b"0123456789!\"#$%&()/,.;?@_'`{}|~")


def _word(text: bytes) -> int:
    return int.from_bytes(text, "little")


def _mixed(state: int, block: bytes) -> int:
    """The state after 16 bytes."""
    product = (_word(block[:_WORD]) ^ state) * (_word(block[_WORD:]) ^ FIXED_FACTOR)
    return (product & _MASK) ^ (product >> _BITS)


def _front(source: random.Random) -> bytes:
    """The first 24 bytes: a block, and the state after it."""
    while True:
        block = bytes(source.choices(_LETTERS, k=2 * _WORD))
        state = _mixed((FIXED_STATE + NAME_BYTES) & _MASK, block).to_bytes(_WORD, "little")
        if _NAME_BYTES_OF_LP.issuperset(state):
            return block + state


def _numbered(front: bytes, source: random.Random, count: int) -> Iterator[str]:
    """So many names with this front, which differ in the next eight bytes."""
    before, after = front.decode("ascii"), bytes(source.choices(_LETTERS, k=2 * _WORD)).decode("ascii")
    numbers = itertools.product("abcdefghijklmnop", repeat=_WORD)
    return (before + "".join(number) + after for number in itertools.islice(numbers, count))


def colliding(count: int, seed: int = 1) -> Iterator[str]:
    """So many names with one hash, which are legal in both formats."""
    source = random.Random(seed)
    return _numbered(_front(source), source, count)


def alike(count: int, seed: int = 1) -> Iterator[str]:
    """As many names of the same bytes, in another order: they differ in the same places, but do not collide."""
    source = random.Random(seed)
    front = _front(source)
    return _numbered(front[: 2 * _WORD] + front[: 2 * _WORD - 1 : -1], source, count)
