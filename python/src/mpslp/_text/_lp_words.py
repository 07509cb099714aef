"""The reserved words of LP, in lower case."""

from __future__ import annotations

SENSES = {
    **dict.fromkeys(("min", "minimize", "minimum"), "min"),
    **dict.fromkeys(("max", "maximize", "maximum"), "max"),
}
"""The words that a file starts with."""

ROWS, BOUNDS, GENERALS, BINARIES, SEMIS, END = "rows", "bounds", "generals", "binaries", "semis", "end"
"""The names of the sections here, whatever words open them."""

SPELLINGS = {
    ROWS: ("subject", "such", "st", "s.t.", "st."),
    BOUNDS: ("bound", "bounds"),
    GENERALS: ("general", "generals", "gen", "integer", "integers", "int"),
    BINARIES: ("binary", "binaries", "bin"),
    SEMIS: ("semi", "semis"),
    END: ("end",),
}
"""The words that open each section; some are the first of two."""

SECTIONS = {word: section for section, words in SPELLINGS.items() for word in words}
"""The sections by these words."""

OBJECTIVE = "objective"
OPENINGS = {**dict.fromkeys(SENSES, OBJECTIVE), **SECTIONS}
"""The sections and the objective by the words that open them."""

LISTS = (GENERALS, BINARIES, SEMIS)
"""The sections that list names."""

ROWS_IN_TWO_WORDS = {"subject": "to", "such": "that"}
FURTHER_TOKENS: dict[str, tuple[str, ...]] = {
    **{first: (second,) for first, second in ROWS_IN_TWO_WORDS.items()},
    "semi": ("-", "continuous"),
}
"""What may come after the first words of keywords and belongs to these; the words are names elsewhere."""

INFINITIES = ("inf", "infinity")
FREE = "free"
VALUES = frozenset((*INFINITIES, FREE))
"""The reserved words that open nothing."""
RESERVED = frozenset((*SENSES, *SECTIONS, *INFINITIES, FREE, "sos", "sos1", "sos2"))
"""All words that are no names."""
