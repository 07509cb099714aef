"""Rules for LP: labels with other marks, a relation in the objective, names that are split, lines that are continued.

Each says what it has found only if the text that it says to write gets past the error.
"""

from __future__ import annotations

import re
from collections.abc import Sequence

from mpslp._messages._case import Case, Found
from mpslp._messages._causes_both import Rule
from mpslp._messages._lp_edits import instead_of, is_used, line_without, mark_of, near
from mpslp._messages._lp_suspects import is_glued, is_word, joined, lp_section, shown, suspects
from mpslp._messages._lp_trials import Edit, Trial
from mpslp._messages._tokens import Token
from mpslp._text._lp_words import RESERVED, SENSES

_MOST_LOOKED_AT = 2**20
_ROWS = re.compile(rb"(?im)^[ \t]*(?:subject[ \t]+to|such[ \t]+that|st|s\.t\.|st\.)[ \t\r:]*$")
_NUMBER_MARK = re.compile(r"\d+[).]+")
_LIST_MARKS = ("-", "*", "+", "#", "o", "~", ".", ">", "|", "=")
_LABEL_MARK = re.compile(r"[^\w\s\[\]\\]+")
_NO_LETTER = re.compile(r"\W+")
_CONTINUED = re.compile(r"&|_|\.{1,3}|[\\+,-]")


def other_colon(case: Case) -> Found | None:
    """Marks other than a colon after the first word of a row; with a colon the text gets further."""
    line = [each for each in case.tokens if each.line == case.line.number]
    line = line[1:] if line and line[0].word in SENSES else line
    end = 1
    while end < len(line) and _LABEL_MARK.fullmatch(line[end].text):
        end += 1
    marks = line[1:end]
    text = "".join(each.text for each in marks)
    if (
        not marks
        or set(text) & set("$%#")
        or text in (":", ":=", "=", "<", ">", "<=", ">=")
        or all(each.is_sign for each in marks)
    ):
        return None
    if not is_word(line[0]) or is_used(case, line[0].text) or not Trial(case).passes(instead_of(case, marks, ":")):
        return None
    return shown(case, marks, mend=f"{line[0].text}:")._replace(means_other=True)


def label_of_words(case: Case) -> Found | None:
    """Several words or marks before the colon at the start of a row; with one word the text gets further."""
    line = [each for each in case.tokens if each.line == case.line.number]
    colon = next((at for at, each in enumerate(line) if each.text == ":"), 0)
    label = line[:colon]
    if len(label) < 2 or any(each.is_relation or each.text in "[]" for each in label) or not label[0].is_name:
        return None
    if (len(label) == 2 and (label[1].is_name or label[1].is_number)) or all(
        is_glued(*pair) for pair in zip(label, label[1:])
    ):
        return None
    text = "_".join(word for each in label if (word := _NO_LETTER.sub("", each.text)))
    if not text[:1].isalpha() or lp_section(case) == "list" or not Trial(case).passes(instead_of(case, label, text)):
        return None
    return shown(case, label, mend=f"{text}:")._replace(means_other=True)


def label_in_brackets(case: Case) -> Found | None:
    """Words in brackets, or in parentheses that are nowhere else, at the start of a line: they are read as a label."""
    line = [each for each in case.tokens if each.line == case.line.number]
    close = next((at for at, each in enumerate(line) if each.text == "]" or each.text.endswith(")")), 0)
    if not line or (line[0].text != "[" and (line[0].text[0] != "(" or ":" in (each.text for each in line))):
        return None
    words = [text for each in line[: close + 1] if (text := each.text.strip("[]()"))]
    if (
        not close
        or not words
        or not words[0][0].isalpha()
        or not all(each.replace("_", "").isalnum() for each in words)
    ):
        return None
    if line[0].text != "[" and any(is_used(case, each) for each in words):
        return None
    end = close + 1 if close + 1 < len(line) and line[close + 1].text == ":" else close
    label = "_".join(words)
    if not Trial(case).passes(instead_of(case, line[: end + 1], f"{label}:")):
        return None
    return shown(case, line[: end + 1], mend=f"{label}:")


def relation_in_objective(case: Case) -> Found | None:
    """A relation before the rows, which have their keyword."""
    token = case.token
    before = case.before()
    if token is None or not token.is_relation or lp_section(case) or not has_rows(case):
        return None
    if before is not None and before.text == ":":
        return None
    line = [each for each in case.tokens if each.line == token.line]
    at = line.index(token)
    first = line[1:] if line[0].word in SENSES else line
    if (
        at == len(line) - len(first) + 1
        and first[0].is_name
        and any(is_word(each) for each in line[at + 1 :])
        and line[at - 1].text != ":"
    ):
        if Trial(case).passes(instead_of(case, (token,), ":")):
            return shown(case, (first[0], token), mend=f"{first[0].text}:")
    if first[0] is token and Trial(case).passes(instead_of(case, (token,))):
        return shown(case, (token,), mend=line_without(case, (token,)))
    end = next((place for place in range(at, len(line)) if line[place].is_section), len(line))
    rest = line[at:end]
    if not Trial(case).passes(instead_of(case, rest)):
        return shown(case, (token,))
    return shown(case, rest, f"without {joined(rest)} it is an objective")


def has_rows(case: Case) -> bool:
    """Whether a keyword that opens the rows comes after the line."""
    return _ROWS.search(case.content, case.line.start, case.line.start + _MOST_LOOKED_AT) is not None


def split_name(case: Case) -> Found | None:
    """Two parts that are a name of the text, a number or a keyword if they are joined."""
    tokens = near(case)
    trial = Trial(case)
    for first, point, second in zip(tokens, tokens[1:], tokens[2:]):
        if first.is_number and point.text == "." and second.is_number and first.line == second.line:
            text = f"{first.text}.{second.text}"
            if trial.passes(instead_of(case, (first, point, second), text)):
                return shown(case, (first, point, second), f"{text} is with spaces", text)._replace(means_other=True)
    for first, second in zip(tokens, tokens[1:]):
        text = first.text + second.text
        if is_glued(first, second) or not _is_split(case, first, second, text):
            continue
        if trial.passes(instead_of(case, (first, second), text)):
            marks = tuple(mark_of(case, each) for each in (first, second))
            where = f"in line {first.line} and in line {second.line}" if first.line < second.line else "with a space"
            return Found(f"{text} is {where}", text, marks=marks, moves=True, means_other=True)
    return None


def _is_split(case: Case, first: Token, second: Token, text: str) -> bool:
    if first.is_number and second.is_number:
        is_split = first.line < second.line and first.text.isdigit() and second.text.isdigit()
        return is_split and sum(each.line == second.line for each in case.tokens) == 1
    if not first.is_name or not (second.is_name or second.is_number):
        return False
    if text.lower() in RESERVED and not (first.is_section or second.is_section):
        return True
    return is_used(case, text, 0) and not (is_used(case, first.text) and is_used(case, second.text))


def line_continuation(case: Case) -> Found | None:
    """Marks at the end of a line, without which the text gets further, and after which the statement goes on."""
    trial = Trial(case)
    for line in suspects(case):
        start = len(line)
        while (
            start
            and _CONTINUED.fullmatch(line[start - 1].text)
            and not (start < len(line) and not is_glued(*line[start - 1 : start + 1]))
        ):
            start -= 1
        marks = line[start:]
        if not 0 < start < len(line) or all(each.is_sign for each in marks) or _ends_row(line[start - 1], marks):
            continue
        if trial.passes(instead_of(case, marks)):
            return shown(case, marks)._replace(means_other=True)
    return None


def _ends_row(before: Token, marks: Sequence[Token]) -> bool:
    """Whether a comma or a period comes after a number, as after a row."""
    return before.is_number and len(marks) == 1 and marks[0].text in (",", ".")


def mark_before_row(case: Case) -> Found | None:
    """A mark of a list, or a number with one, at the start of a row; without it the text gets further."""
    line = [each for each in case.tokens if each.line == case.line.number]
    text = "".join(each.text for each in line[:2])
    is_number = len(line) > 2 and line[0].text.isdigit() and line[1].is_name and line[2].text == ":"
    is_mark = is_number or (bool(line) and line[0].text in _LIST_MARKS)
    is_bracket = [each.text for each in line[:3:2]] == ["[", "]"] and line[1].is_number
    count = 3 if is_bracket else 2 if _NUMBER_MARK.fullmatch(text) else 1 if is_mark else 0
    if (
        not 0 < count < len(line)
        or (is_number and is_glued(*line[:2]))
        or (count == 1 and text[0] != "=" and ":" not in (each.text for each in line[:4]))
    ):
        return None
    if not Trial(case).passes(instead_of(case, line[:count])):
        return None
    return shown(case, line[:count], mend=line_without(case, line[:count]))._replace(means_other=True)


def numbered_label(case: Case) -> Found | None:
    """A number and a colon at the start of a row."""
    line = [each for each in case.tokens if each.line == case.line.number]
    if len(line) < 3 or not line[0].text.isdigit() or line[1].text != ":" or lp_section(case) not in ("", "rows"):
        return None
    label = f"c{line[0].text}"
    if not Trial(case).passes(instead_of(case, line[:2], f"{label}: ")):
        return None
    return shown(case, line[:2], mend=f"{label}:")._replace(means_other=True)


def sign_at_line_end(case: Case) -> Found | None:
    """A row with a label goes on in a line without one, and there is no sign between the two."""
    token, before = case.token, case.before()
    if token is None or before is None or before.line == token.line or not is_word(before):
        return None
    line = [each for each in case.tokens if each.line == before.line]
    is_term = token.is_number or (is_word(token) and is_used(case, token.text))
    if lp_section(case) not in ("", "rows") or not is_term:
        return None
    if len(line) < 3 or line[1].text != ":" or any(each.is_relation for each in line):
        return None
    place = case.line.start + token.start
    if case.after is None or case.after.text == ":" or not Trial(case).passes(Edit(place, place, b"+ ")):
        return None
    return Found(mend=f"{before.text} + {token.text}", marks=(mark_of(case, before),), means_other=True)


RULES: tuple[Rule, ...] = (
    other_colon,
    label_in_brackets,
    relation_in_objective,
    line_continuation,
    split_name,
    mark_before_row,
    numbered_label,
    sign_at_line_end,
    label_of_words,
)
