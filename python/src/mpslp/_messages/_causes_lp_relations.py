"""Rules for LP: relations that are missing, twice, or written in another way; labels; signs; and
words that are none.
"""

from __future__ import annotations

import re
from collections.abc import Sequence

from mpslp._messages._case import Case, Found
from mpslp._messages._causes_both import Rule
from mpslp._messages._lp_edits import instead_of
from mpslp._messages._lp_suspects import (
    is_column,
    is_glued,
    is_word,
    joined,
    lp_section,
    mark_of_text,
    on_lines,
    section_of,
    shown,
    text_of,
    without_label,
)
from mpslp._messages._lp_sums import terms_of
from mpslp._messages._lp_trials import Trial
from mpslp._messages._tokens import Token
from mpslp._text._lp_words import FREE, INFINITIES, ROWS, SECTIONS, SENSES

_MANY = 4
"""So many relations side by side are no relation."""
_WORDS = {
    "<=": (
        "le",
        "leq",
        "lte",
        "lt",
        "less than or equal to",
        "less than",
        "at most",
        "no more than",
        "not more than",
        "less or equal",
        "less or equal to",
        "smaller than",
        "not greater than",
        "no greater than",
        "up to",
        "max",
        "kleiner gleich",
        "kleiner als",
        "=l=",
        ".le.",
        ".lt.",
        "&lt;=",
        "&lt;",
        "&le;",
    ),
    ">=": (
        "ge",
        "geq",
        "gte",
        "gt",
        "greater than or equal to",
        "greater than",
        "more than",
        "at least",
        "no less than",
        "not less than",
        "greater or equal",
        "greater or equal to",
        "larger than",
        "not fewer than",
        "no fewer than",
        "min",
        "groesser gleich",
        "groesser als",
        "=g=",
        ".ge.",
        ".gt.",
        "&gt;=",
        "&gt;",
        "&ge;",
    ),
    "=": ("eq", "equal to", "equals", "is", "=e=", ".eq."),
}
_RELATION_OF = {word: relation for relation, words in _WORDS.items() for word in words}
_ENGLISH = ("is", "equals", "equal to", "max", "min", "up to")
"""Words that are a relation only before a number."""
_BY_LENGTH = sorted(_RELATION_OF, key=len, reverse=True)
_IN_WORDS = re.compile(
    rf"(?<=[\s\w)\]])(?<![.=\w])(?:is\s+)?({'|'.join(re.escape(word) for word in _BY_LENGTH)})(?![\w.;])", re.IGNORECASE
)
_GLUED = re.compile(
    rf"(?<=[\w)\]])({'|'.join(re.escape(word) for word in _BY_LENGTH if not word[0].isalpha())})(?![;])", re.IGNORECASE
)
_ENTITY = re.compile(r"&(?:lt|gt|le|ge);", re.IGNORECASE)
_LATEX = re.compile(r"\\(leqslant|geqslant|leq|geq|le|ge|lt|gt|cdot|times)(?![A-Za-z])\s*")
_OF_LATEX = {
    "leqslant": "<=",
    "leq": "<=",
    "le": "<=",
    "lt": "<=",
    "geqslant": ">=",
    "geq": ">=",
    "ge": ">=",
    "gt": ">=",
    "cdot": "",
    "times": "",
}
_IMPLICATION = re.compile(
    r"[A-Za-z_][\w.]*\s*=\s*[01]\s*(?P<arrow>==?>|implies\b)\s*[-+A-Za-z\d]"
    r"|\bif\b.*\b(?P<then>then)\b|\b(?P<word>implies)\b"
    r"|[\d.]\s*(?P<other><==?|<-)\s*[A-Za-z_][\w.]*\s*=\s*[01]\s*$"
)
_CONJUNCTIONS = ("and", "or", "for", "forall", "where", "if", "when", "&", "&&", ",", ";")
_KEYWORDS_OF_LABELS = (FREE, *(word for word, section in SECTIONS.items() if section != ROWS))


# ---- relations


@on_lines
def two_relations(case: Case, line: Sequence[Token]) -> Found | None:
    """Relations side by side, which are the two marks of one with a space between them, or which do not fit."""
    at = next(
        (at for at, (first, second) in enumerate(zip(line, line[1:])) if first.is_relation and second.is_relation), None
    )
    if at is None:
        return None
    end = at + 1
    while end < len(line) and line[end].is_relation:
        end += 1
    found = line[at:end]
    text = "".join(each.text for each in found)
    if len(text) > _MANY or (is_glued(*found[:2]) and text in ("==", "===", "<>")):
        return None
    return shown(case, found, mend=_meant_relation(text))


def _meant_relation(marks: str) -> str:
    """The relation that is meant by the marks of two; empty for ``<=>`` or ``=<=``, which may be one or the other."""
    if ("<" in marks and ">" in marks) or (marks[0] == "=" and len(marks) > len("=<") and marks.strip("=")):
        return ""
    return ">=" if ">" in marks else "<=" if "<" in marks else "="


@on_lines
def relation_in_words(case: Case, line: Sequence[Token]) -> Found | None:
    """A word, or a mark of another language, between a column and a number."""
    text = text_of(case, line)
    for match in (*_IN_WORDS.finditer(text), *_GLUED.finditer(text)):
        before, after = text[: match.start()].rpartition(":")[2], text[match.end() :]
        is_side = re.match(r"\s*[-+]?\s*[\d.]" if match[1].lower() in _ENGLISH else r"\s*[-+]?\s*[\w.]", after)
        if not re.search(r"[A-Za-z_]", before) or is_side is None or _ENTITY.match(match[1]):
            continue
        mend = " ".join((before.strip(), _RELATION_OF[match[1].lower()], after.strip()))
        return Found(mend=mend, marks=(mark_of_text(case, line, *match.span(1)),), moves=True)
    return None


@on_lines
def implication(case: Case, line: Sequence[Token]) -> Found | None:
    """A column that is 0 or 1, an arrow, and a row; or the other way round."""
    match = _IMPLICATION.search(text_of(case, line))
    return (
        None
        if match is None
        else Found(marks=(mark_of_text(case, line, *match.span(match.lastgroup or "arrow")),), moves=True)
    )


@on_lines
def html_entity(case: Case, line: Sequence[Token]) -> Found | None:
    match = _ENTITY.search(text_of(case, line))
    if match is None:
        return None
    text = text_of(case, line)
    mend = without_entities(text.partition(":")[2] or text).strip()
    return Found(mend=mend, marks=(mark_of_text(case, line, *match.span()),), moves=True)


def without_entities(text: str) -> str:
    for entity, mark in (
        ("&lt;=", "<="),
        ("&gt;=", ">="),
        ("&lt;", "<"),
        ("&gt;", ">"),
        ("&le;", "<="),
        ("&ge;", ">="),
    ):
        text = re.sub(re.escape(entity), mark, text, flags=re.IGNORECASE)
    return text


@on_lines
def latex(case: Case, line: Sequence[Token]) -> Found | None:
    r"""A word of TeX, whose \ starts a comment here."""
    text = text_of(case, line)
    match = _LATEX.search(text)
    if match is None:
        return None
    mend = " ".join(_LATEX.sub(lambda each: f"{_OF_LATEX[each[1]]} ", text.partition(":")[2] or text).split())
    return Found(mend=mend, marks=(mark_of_text(case, line, *match.span()),), moves=True)


@on_lines
def assignment(case: Case, line: Sequence[Token]) -> Found | None:
    for at, (colon, equals) in enumerate(zip(line, line[1:])):
        if colon.text == ":" and equals.text == "=" and is_glued(colon, equals):
            is_label = at == 1 and (not section_of(case, line) or any(each.is_relation for each in line[at + 2 :]))
            return shown(
                case, (colon, equals), "here it ends a label" if is_label else "", ":" if is_label else "="
            )._replace(means_other=True)
    return None


@on_lines
def no_relation(case: Case, line: Sequence[Token]) -> Found | None:
    """A row or a bound that ends with a column and a number, and has no relation."""
    tokens = without_label(line)
    if (
        len(tokens) < 2
        or not is_word(tokens[-2])
        or not tokens[-1].is_number
        or any(each.is_relation or each.is_section or each.text == ":" for each in tokens)
    ):
        return None
    if section_of(case, line) not in ("rows", "bounds") or terms_of(tokens[:-1]) is None:
        return None
    before = joined(tokens[:-1])
    return shown(
        case,
        tokens[-2:],
        f"{before} <= {tokens[-1].text}, {before} >= {tokens[-1].text} or {before} = {tokens[-1].text}",
    )


@on_lines
def row_of_numbers(case: Case, line: Sequence[Token]) -> Found | None:
    tokens = without_label(line)
    relations = [each for each in tokens if each.is_relation]
    is_row = len(relations) == 1 and tokens[0] is not relations[0] and tokens[-1].is_number
    if (
        not is_row
        or section_of(case, line) != "rows"
        or not all(each.is_number or each.is_sign or each.is_relation for each in tokens)
    ):
        return None
    return shown(case, tokens)


@on_lines
def and_in_row(case: Case, line: Sequence[Token]) -> Found | None:
    """After a number on the right, a word or a comma, and more in the line."""
    for relation, number, word in zip(line, line[1:], line[2:]):
        has_more = word is not line[-1]
        if (
            relation.is_relation
            and number.is_number
            and word.word in _CONJUNCTIONS
            and has_more
            and not is_column(case, word.text)
        ):
            return shown(case, (word,))._replace(means_other=True)
    return None


# ---- labels


def label_without_row(case: Case) -> Found | None:
    """A colon after a name that comes after a colon."""
    token, before, colon, label = case.token, case.before(), case.before(2), case.before(3)
    if token is None or before is None or colon is None or label is None or token.text != ":" or colon.text != ":":
        return None
    return (
        shown(case, (label, colon), f"{label.text} has none")
        if before.is_name and label.is_name and lp_section(case) == "rows"
        else None
    )


# ---- signs and words


def trailing_sign(case: Case) -> Found | None:
    """After a sign a relation, a section, or the label of the next row comes; or it is the last one of a bound."""
    token, before, second = case.token, case.before(), case.before(2)
    if token is None or before is None:
        return None
    if token.text == ":" and second is not None and second.is_sign and second.line < before.line and before.is_name:
        return shown(case, (second,))
    if token.is_section and second is not None and second.text == "subject":
        return None
    is_end = (
        token.is_relation
        or (token.is_section and before.line < token.line)
        or (before.line < token.line and lp_section(case) == "bounds")
    )
    return shown(case, (before,)) if before.is_sign and is_end else None


def keyword_as_name(case: Case) -> Found | None:
    """A reserved word where a column or a label comes: beside a sign, a number, a relation or a colon of its line."""
    for at in (case.token_at, case.token_at - 1, case.token_at - 2):
        if 0 <= at < len(case.tokens) and _is_keyword_as_name(case, at):
            token = case.tokens[at]
            name = f"_{token.text}"
            passes = Trial(case).passes(instead_of(case, (token,), name))
            return shown(case, (token,), f"{token.text} is one", name if passes else "")
    return None


def _is_keyword_as_name(case: Case, at: int) -> bool:
    token = case.tokens[at]
    of_line = [each for each in case.tokens if each.line == token.line]
    before, after = (
        of_line[place] if 0 <= place < len(of_line) else None
        for place in (of_line.index(token) - 1, of_line.index(token) + 1)
    )
    if not token.is_section and token.word not in SENSES and token.word != "free":
        return False
    if after is None and len(of_line) > 2 and of_line[-2].is_number and of_line[-3].is_relation:
        return False
    if after is not None and after.text == ":":
        is_row = any(each.is_relation for each in of_line)
        is_label = token.word in _KEYWORDS_OF_LABELS or (token.word in SENSES and case.kind == "SectionRepeated")
        return before is None and is_label and after is not of_line[-1] and is_row
    is_after_term = before is not None and (before.is_sign or before.is_number or before.text == ":")
    is_before_relation = after is not None and after.is_relation and token.word not in INFINITIES
    return (
        is_after_term
        or is_before_relation
        or (before is None and after is not None and after.is_sign and token.is_section)
    )


RULES: tuple[Rule, ...] = (
    latex,
    html_entity,
    implication,
    relation_in_words,
    two_relations,
    assignment,
    row_of_numbers,
    no_relation,
    and_in_row,
    label_without_row,
    trailing_sign,
    keyword_as_name,
)
