"""The words of LP that other programs write: those of mpslp in another form, and those that mpslp does not have."""

from __future__ import annotations

from mpslp._text import _lp_words

OTHER_SENSES = {"minimise": "Minimize", "maximise": "Maximize", "minimization": "Minimize", "maximization": "Maximize"}
SECTIONS = {word: section for word, section in _lp_words.SECTIONS.items() if word not in _lp_words.ROWS_IN_TWO_WORDS}
"""The sections by the words that open one each by themselves, or with a minus."""
ORDERED_SETS = "special ordered sets: write them as rows with binary columns"
NOT_SUPPORTED = {
    **dict.fromkeys(("sos", "sos1", "sos2"), ORDERED_SETS),
    "general constraints": "general constraints: write them as rows with binary columns",
    "gencons": "general constraints: write them as rows with binary columns",
    "lazy constraints": "lazy constraints: move them under Subject To, or remove the section",
    "user cuts": "user cuts: move them under Subject To, or remove the section",
    "pwlobj": "a piecewise linear objective: write it with a column and a row for each piece",
    "multi-objectives": "several objectives: mpslp has one",
}
SECTIONS_OF_OTHERS = {
    **dict.fromkeys(("s.i.", "sin"), "semi-integer columns"),
    **dict.fromkeys(("s.c.", "sec"), "semi-continuous columns"),
    **dict.fromkeys(("p.i.", "pin"), "partial integer columns"),
}
"""Words that open a section for Xpress or lp_solve, on a line of their own: for mpslp they are names."""

OTHER_TOKENS = {"->": "an indicator constraint: write it with a large coefficient", "::": ORDERED_SETS}
OTHER_INFINITIES = ("infty", "infin")
