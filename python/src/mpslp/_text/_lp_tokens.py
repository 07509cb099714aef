"""The tokens of LP text that is accepted."""

import re

SYMBOLS = r"!\"#$%&(),/;?@_'`{}|~"
WORD = rf"(?P<word>[A-Za-z{SYMBOLS}][A-Za-z0-9.{SYMBOLS}]*)"
OTHERS = (
    r"\\.*|(?P<number>(?:\d+(?:\.\d*)?|\.\d+)(?:[eE][+-]?\d+)?)|(?P<relation>[<>]=?|=[<>]?)|(?P<sign>[+-])|(?P<colon>:)"
)
TOKEN = re.compile(f"{WORD}|{OTHERS}", re.ASCII)
"""A token in the group of its sort, or a comment in none."""
