"""Rules for LP: each recognises a cause of docs/errors.tsv, which has its name, in a line that is rejected.

Line breaks have no meaning in LP, so that an error may be reported in a line after the mistake. The rules look back
from the token with the error, and show the line of the mistake, too.
"""

from __future__ import annotations

import re
from collections import Counter
from collections.abc import Sequence
from fractions import Fraction

from mpslp._messages._case import FOUND, Case, Found
from mpslp._messages._causes_both import Rule, comma_in, is_nan
from mpslp._messages._causes_lp_marks import has_rows
from mpslp._messages._causes_lp_text import text_after_statement
from mpslp._messages._causes_lp_words import lone_mark
from mpslp._messages._lp_edits import instead_of, is_used, span
from mpslp._messages._lp_rows import first_duplicate
from mpslp._messages._lp_sums import decimal_text, quotient_text, solved_row, sum_text, value_of
from mpslp._messages._lp_suspects import is_word, lp_section, mark_of_text, on_lines, section_of, shown, text_of
from mpslp._messages._lp_trials import Edit, Trial
from mpslp._messages._tokens import Token, tokens_of
from mpslp._text._lines import line_at
from mpslp._text._lp_words import INFINITIES, ROWS, ROWS_IN_TWO_WORDS, SENSES, SPELLINGS

_MOST_BACK = 6
"""A comma, a semicolon or a comment that starts in another way is looked for among so many tokens before the error."""
_AFTER_KEYWORD = ("variables", "variable", "columns")
_FLIPPED = {"<": ">", ">": "<", "<=": ">=", "=<": ">=", ">=": "<=", "=>": "<=", "=": "="}
_PLUS_OR_MINUS = re.compile(r"[<>=]\s*(\+\s*/\s*-\s*[\d.]+)\s*$")
_TWO_LIMITS = re.compile(r"([^<>=]+) ([<>=]+) ((?:[-+] )?[\d.eE+-]+) ([<>=]+) ((?:[-+] )?[\d.eE+-]+)")
_MARK = re.compile(r"[%$#&!?]+")
_DIVISOR = re.compile(r"/(\d+(?:\.\d*)?)", re.ASCII)
_BRACKETS = re.compile(r"([A-Za-z_][\w.]*)\s*((?:\[[^\[\]^*]*\])+)", re.ASCII)
_MOST_AFTER = 10_000
_MOST_BEFORE = 2**18


# ---- keywords


def colon_after_keyword(case: Case) -> Found | None:
    before, second, token = case.before(), case.before(2), case.token
    if before is None or token is None or token.text != ":":
        return None
    if second is not None and second.is_section and before.word in _AFTER_KEYWORD:
        return Found(mend=second.text)
    pair = f"{second.word} {before.word}" if second is not None else ""
    if before.word not in SENSES and not before.is_section and pair not in ("subject to", "such that"):
        return None
    return Found(
        mend=f"{second.text} {before.text}"
        if second is not None and pair in ("subject to", "such that")
        else before.text
    )


def _starts_line(case: Case, at: int) -> bool:
    return at == 0 or case.tokens[at - 1].line < case.tokens[at].line


def no_subject_to(case: Case) -> Found | None:
    """A relation, or the label of a row, in the objective."""
    token = case.token
    if token is None or lp_section(case) or not case.token_at or has_rows(case):
        return None
    if token.is_relation or (token.text == ":" and case.token_at > 2):
        return FOUND
    return FOUND if token.is_name and not token.is_section and _starts_row(case) else None


# ---- characters of other languages


def other_relation(case: Case) -> Found | None:
    before, token, after = case.before(), case.token, case.after
    if token is None:
        return None
    if token.text == "=" and before is not None and before.text == "=":
        return FOUND
    is_unequal = token.text in ("!", "~", "/") and after is not None and after.text == "="
    return FOUND if is_unequal or (token.text == ">" and before is not None and before.text == "<") else None


def decimal_comma(case: Case) -> Found | None:
    """A number, and beside it a comma and digits, which are a name."""
    near = _back_from(case)
    for second, first in zip(near, near[1:]):
        if first.is_number and second.text[0] == "," and first.end == second.start and first.line == second.line:
            found = comma_in(first.text + second.text)
            if found is not None:
                return found._replace(marks=(case.mark_of_tokens([first, second]),), moves=True)
    return None


def fraction(case: Case) -> Found | None:
    """A number, and beside it a slash and a number, which are a name; or the three with spaces between them."""
    near = _back_from(case)
    for second, first in zip(near, near[1:]):
        divisor = _DIVISOR.fullmatch(second.text)
        if divisor is not None and first.is_number and (first.line, first.end) == (second.line, second.start):
            return _divided_numbers(case, [first, second], divisor[1])
    for second, slash, first in zip(near, near[1:], near[2:]):
        if first.is_number and slash.text == "/" and second.is_number and first.line == second.line:
            return _divided_numbers(case, [first, second], second.text)
    return None


def _divided_numbers(case: Case, tokens: Sequence[Token], divisor: str) -> Found | None:
    """What is said of a fraction, with its value if that is a decimal."""
    if value_of(divisor) == 0:
        return None
    return Found(mend=quotient_text(tokens[0].text, divisor), marks=(case.mark_of_tokens(tokens),), moves=True)


def free_among_rows(case: Case) -> Found | None:
    """A name and the word free at the start of a line among the rows."""
    before, token = case.before(), case.token
    if before is None or token is None or token.word != "free" or not before.is_name or before.line != token.line:
        return None
    is_bound = lp_section(case) == "rows" and _starts_line(case, case.token_at - 1)
    return Found(marks=(case.mark_of_tokens([before, token]),), moves=True) if is_bound else None


def nan_on_the_right(case: Case) -> Found | None:
    """After a relation, what a program writes that has no number."""
    return (
        Found(means_other=True)
        if case.token is not None and is_nan(case.token.text) and _follows_relation(case)
        else None
    )


def lone_word_on_the_right(case: Case) -> Found | None:
    """After a relation a word that is a column nowhere else, and nothing more in the line."""
    token = case.token
    if token is None or not token.is_name or token.is_section or not _follows_relation(case):
        return None
    rest = [each for each in case.tokens[case.token_at :] if each.line == token.line]
    if not all(is_word(each) and _has_lone_name(case, [each]) for each in rest):
        return None
    return shown(case, rest)._replace(means_other=True)


def _has_lone_name(case: Case, tokens: Sequence[Token]) -> bool:
    """Whether one of the tokens is a name that is nowhere else in the text."""
    counts = Counter(each.text for each in case.tokens)
    return any(each.is_name and counts[each.text] == 1 for each in tokens)


def mark_after_number(case: Case) -> Found | None:
    """After a number on the right, and beside it, a mark such as %, and nothing more in the line."""
    found = _right_of_relation(case)
    if found is None:
        return None
    first, rest = found
    is_mark = len(rest) == 1 and _MARK.fullmatch(rest[0].text) is not None and rest[0].start <= first[-1].end + 1
    if not is_mark or _has_more(case, rest[0]):
        return None
    mend = quotient_text(first[-1].text, "100") if rest[0].text == "%" else first[-1].text
    return Found(mend=mend, marks=(case.mark_of_tokens([*first, *rest]),), moves=True, means_other=True)


def _has_more(case: Case, token: Token) -> bool:
    """Whether anything comes after a token in its line."""
    return any(each.line == token.line and each.start > token.start for each in case.tokens)


def row_without_terms(case: Case) -> Found | None:
    """A relation right after a label, or after the keyword that opens the rows."""
    before, token = case.before(), case.token
    is_row = (
        before is not None
        and token is not None
        and token.is_relation
        and before.text == ":"
        and lp_section(case) == "rows"
    )
    return Found(means_other=True) if is_row else None


def second_limit(case: Case) -> Found | None:
    """A relation right after a label that a row before has: the language of lp_solve gives a row a second limit so."""
    label = case.before(2)
    if row_without_terms(case) is None or label is None:
        return None
    pattern = rb"(?m)^[ \t]*(?:-[^\n]*>=?[ \t]*)?(" + re.escape(label.text.encode("latin-1")) + rb")[ \t]*:"
    first = case.first_match(pattern, max(0, case.line.start - _MOST_BEFORE))
    if first is None:
        return None
    mark = case.mark_of_tokens([label])
    return Found(
        f"the row is in line {first.number}",
        _with_both_limits(case, first.number),
        marks=(first, mark),
        means_other=True,
    )


def _with_both_limits(case: Case, number: int) -> str:
    """The row of one line with its limit and that of the line with the error; empty if it is not accepted."""
    first = line_at(case.content, number)
    row, limit = (" ".join(each.text for each in tokens_of(text)) for text in (first.content, case.line.content))
    text = _ordered_row(f"{row} {limit.partition(': ')[2]}")
    label = row.partition(" :")[0]
    mend = f"{label}: {text}"
    without = Edit(case.line.start, case.line.start + len(case.line.content), b"")
    written = Edit(first.start, first.start + len(first.content), mend.encode("latin-1"))
    return mend if text and Trial(case).passes(written, without) else ""


def no_label(case: Case) -> Found | None:
    """A colon at the start of a line, without a name before it."""
    is_first = case.token is not None and case.token.text == ":" and _starts_line(case, case.token_at)
    return FOUND if is_first and lp_section(case) in ("", "rows") else None


def punctuation_after_row(case: Case) -> Found | None:
    near = _back_from(case)
    for token, before in zip(near, near[1:]):
        if token.text in (";", ",") and (before.is_number or before.word in INFINITIES):
            return Found(marks=(case.mark_of_tokens([token]),), moves=True)
    return None


def _back_from(case: Case) -> list[Token]:
    """The token with the error, and those before it, the last first."""
    return case.tokens[max(0, case.token_at - _MOST_BACK) : case.token_at + 1][::-1]


# ---- rows


@on_lines
def plus_or_minus(case: Case, line: Sequence[Token]) -> Found | None:
    """``+/-`` or ``+-`` and a number after a relation."""
    text = text_of(case, line)
    match = _PLUS_OR_MINUS.search(text)
    if match is None:
        return None
    return Found(marks=(mark_of_text(case, line, *match.span(1)),), moves=True, means_other=True)


def sum_on_the_right(case: Case) -> Found | None:
    """After a relation numbers with signs: their sum is meant."""
    found = _right_of_relation(case)
    if found is None:
        return None
    first, rest = found
    if len(rest) % 2 or not all(each.is_sign for each in rest[::2]) or not all(each.is_number for each in rest[1::2]):
        return None
    values = [_signed(first), *(_signed(pair) for pair in zip(rest[::2], rest[1::2]))]
    return Found(mend=sum_text(values) or "", marks=(case.mark_of_tokens([*first, *rest]),))


def missing_number(case: Case) -> Found | None:
    """After a relation a section or the next row comes."""
    token = case.token
    if token is None or not (_follows_relation(case) or _is_number_of_next(case)):
        return None
    if not (token.is_section or _starts_row(case) or _is_number_of_next(case)):
        return None
    relations = [each for each in case.tokens[: case.token_at] if each.is_relation]
    mark = case.mark_of_tokens(relations[-1:])
    return Found(marks=(mark._replace(start=mark.end + 1, end=mark.end + 2),))


def _is_number_of_next(case: Case) -> bool:
    """Whether the error is a relation after a number at the start of its line, and a relation ends the line before."""
    token, number, relation = case.token, case.before(), case.before(2)
    if token is None or number is None or relation is None or not (token.is_relation and number.is_number):
        return False
    return relation.is_relation and relation.line < number.line == token.line


def _starts_row(case: Case) -> bool:
    """Whether the token with the error is the first one of its line, and a label or followed by a relation."""
    token, after = case.token, case.after
    if token is None or not _starts_line(case, case.token_at):
        return False
    has_relation = any(each.is_relation and each.line == token.line for each in case.tokens[case.token_at :])
    return has_relation or (after is not None and after.text == ":")


def second_relation(case: Case) -> Found | None:
    """A relation after a relation and a number."""
    before, token = case.before(), case.token
    if before is None or token is None or not token.is_relation:
        return None
    if not before.is_number and before.word not in INFINITIES:
        return None
    first = next((each for each in reversed(case.tokens[: case.token_at - 1]) if not each.is_sign), None)
    return Found(mend=_ordered(case)) if first is not None and first.is_relation else None


def _ordered(case: Case) -> str:
    """The line ``x >= 1 <= 4`` as ``1 <= x <= 4``; empty if it is not of this form."""
    return _ordered_row(" ".join(each.text for each in case.tokens if each.line == case.line.number))


def _ordered_row(text: str) -> str:
    match = _TWO_LIMITS.fullmatch(text.rpartition(": ")[2])
    if match is None or "=" in (match[2], match[4]) or match[2][0] == match[4][0]:
        return ""
    lower, upper = (match[3], match[5]) if match[2][0] == ">" else (match[5], match[3])
    return f"{lower.replace(' ', '')} <= {match[1]} <= {upper.replace(' ', '')}"


def terms_on_the_right(case: Case) -> Found | None:
    before, token = case.before(), case.token
    if before is not None and token is not None and token.is_name and not token.is_section and _follows_relation(case):
        return Found(mend=solved(case, token.line))
    found = _right_of_relation(case)
    if found is None or lp_section(case) == "bounds":
        return None
    first, rest = found
    is_coefficient = rest[0].is_name
    mark = case.mark_of_tokens([first[-1], *rest] if is_coefficient else rest)
    return Found(mend=solved(case, mark.number), marks=(mark,), means_other=_has_lone_name(case, rest))


def _follows_relation(case: Case) -> bool:
    """Whether there is nothing but signs between a relation and the token with the error."""
    before = next((each for each in reversed(case.tokens[: case.token_at]) if not each.is_sign), None)
    return before is not None and before.is_relation


def _right_of_relation(case: Case) -> tuple[list[Token], list[Token]] | None:
    """The number after the last relation before the error, with its sign; and what comes after it in its line, up to
    the error.
    """
    tokens = case.tokens[: case.token_at + 1]
    at = _last_relation(tokens)
    if at is None:
        return None
    end = at + 1
    while end < len(tokens) and tokens[end].is_sign:
        end += 1
    if end >= len(tokens) or not tokens[end].is_number:
        return None
    first, rest = tokens[at + 1 : end + 1], []
    for each, after in zip(tokens[end + 1 :], [*tokens[end + 2 :], None]):
        if (
            each.line != tokens[end].line
            or each.is_section
            or (after is not None and after.text == ":")
            or each.text == ":"
        ):
            break
        rest.append(each)
    return (first, rest) if rest and (rest[0].is_sign or rest[0].is_name) else None


def _last_relation(tokens: Sequence[Token]) -> int | None:
    return next((at for at in reversed(range(len(tokens))) if tokens[at].is_relation), None)


def number_on_the_left(case: Case) -> Found | None:
    """The last relation has a number on its left that starts the row, and terms on its right."""
    tokens, token = _complete_lines(case), case.token
    at = _last_relation(tokens)
    if at is None or at == 0 or not tokens[at - 1].is_number:
        return None
    if token is not None and not token.is_section and not _starts_line(case, len(tokens)):
        return None
    first = at - 2 if at >= 2 and tokens[at - 2].is_sign else at - 1
    starts_row = first == 0 or tokens[first - 1].text == ":" or tokens[first - 1].line < tokens[first].line
    terms = tokens[at + 1 :]
    if not starts_row or not any(each.is_name for each in terms) or any(each.text == ":" for each in terms):
        return None
    number = "".join(each.text for each in tokens[first:at])
    mend = f"{' '.join(each.text for each in terms)} {_FLIPPED[tokens[at].text]} {number}"
    return Found(mend=mend, marks=(case.mark_of_tokens(tokens[first : at + 1]),))


def row_without_relation(case: Case) -> Found | None:
    """Between a label, or the keyword that opens the rows, and the error there are terms and no relation."""
    token = case.token
    starts_row = token is not None and (token.text == ":" or token.is_section or _starts_row(case))
    tokens = _complete_lines(case)
    terms: list[Token] = []
    for at in reversed(range(len(tokens))):
        each = tokens[at]
        if each.is_relation or (each.text == ":" and at > 1 and tokens[at - 2].word in SENSES) or each.word in SENSES:
            return None
        if each.text == ":" or each.word in (*SPELLINGS[ROWS], *ROWS_IN_TWO_WORDS.values()):
            break
        if each.is_section:
            return None
        terms.append(each)
    if not starts_row or not any(each.is_name for each in terms):
        return None
    last = terms[0]
    mark = case.mark_of_tokens([last])
    return Found(marks=(mark._replace(start=mark.end + 1, end=mark.end + 2),))


def _complete_lines(case: Case) -> list[Token]:
    """The tokens before the error, without the label of the row that it is reported in."""
    token, end = case.token, case.token_at
    if token is not None and token.text == ":":
        end -= 1
    return case.tokens[:end]


def no_sign(case: Case) -> Found | None:
    """Two names, or a name and a number, without a sign between them."""
    before, token = case.before(), case.token
    if (
        before is None
        or token is None
        or not before.is_name
        or before.is_section
        or before.word in (*SENSES, *ROWS_IN_TWO_WORDS.values())
    ):
        return None
    if not (token.is_name or token.is_number) or token.is_section or lp_section(case) not in ("", "rows"):
        return None
    if _is_stray(case, before) or _is_stray(case, token):
        return None
    place = span(case, token, token)[0]
    if not Trial(case).passes(Edit(place, place, b"+ ")):
        return None
    return Found(mend=f"{before.text} + {token.text}")


def _is_stray(case: Case, token: Token) -> bool:
    """Whether a token is a word that is nowhere else, and without which the text gets further."""
    is_new = token.text.isalpha() and len(token.text) > 2 and not is_used(case, token.text)
    return is_new and Trial(case).passes(instead_of(case, (token,)))


def space_in_label(case: Case) -> Found | None:
    """Two words at the start of a line, and a colon."""
    for at in (case.token_at - 1, case.token_at):
        words = case.tokens[at : at + 2] if at >= 0 else []
        if len(words) == 2 and _is_label_of_two(case, at, words):
            mend = f"{words[0].text}_{words[1].text}"
            return Found(mend=_label_of_first(case, words) or mend, marks=(case.mark_of_tokens(words),), moves=True)
    return None


def _label_of_first(case: Case, words: Sequence[Token]) -> str:
    """The first word as a label, if the second one is a column that the colon should come before."""
    if not is_word(words[1]) or not is_used(case, words[1].text) or is_used(case, words[0].text):
        return ""
    colon = case.tokens[case.tokens.index(words[1]) + 1]
    edit = instead_of(case, (words[1], colon), f": {words[1].text}")
    return f"{words[0].text}: {words[1].text}" if Trial(case).passes(edit) else ""


def _is_label_of_two(case: Case, at: int, words: Sequence[Token]) -> bool:
    """Whether two words start a line, and a colon comes after them.

    Only for a section that is there twice the first one is a keyword.
    """
    first, second = words
    colon = case.tokens[at + 2] if at + 2 < len(case.tokens) else None
    if (
        colon is None
        or colon.text != ":"
        or second.line != first.line
        or colon.line != first.line
        or not _starts_line(case, at)
    ):
        return False
    is_keyword = first.is_section or first.word in SENSES
    return first.is_name and (second.is_name or second.is_number) and (not is_keyword or case.kind == "SectionRepeated")


def digit_first(case: Case) -> Found | None:
    """A number at the start of a line, a word without a space, and a colon."""
    for at in (case.token_at - 2, case.token_at - 1):
        words = case.tokens[at : at + 3] if at >= 0 else []
        if (
            len(words) == 3
            and words[2].text == ":"
            and words[0].is_number
            and words[1].is_name
            and _starts_line(case, at)
        ):
            is_label = (words[0].line, words[0].end) == (words[1].line, words[1].start)
            return Found(marks=(case.mark_of_tokens(words[:2]),), moves=True) if is_label else None
    return None


def row_in_bounds(case: Case) -> Found | None:
    """A column on each side of a relation, or a sign after a column."""
    before, token = case.before(), case.token
    if before is None or token is None or lp_section(case) != "bounds" or token.is_section:
        return None
    if token.is_name and before.is_relation:
        return FOUND if before.line == token.line else None
    return FOUND if token.is_sign and before.is_name and not before.is_section else None


@on_lines
def bound_without_relation(case: Case, line: Sequence[Token]) -> Found | None:
    """A column or a number that is all of a line."""
    if section_of(case, line) != "bounds" or any(each.is_section for each in line):
        return None
    is_name = len(line) == 1 and is_word(line[0])
    is_number = all(each.is_number or each.is_sign or is_word(each) for each in line) and not is_word(line[-1])
    is_pair = len(line) > 1 and line[-2].is_number and is_word(line[-1]) and not any(each.is_relation for each in line)
    return shown(case, line) if is_name or is_number or is_pair else None


def coefficient_in_bounds(case: Case) -> Found | None:
    before, token = case.before(), case.token
    if (
        before is None
        or token is None
        or lp_section(case) != "bounds"
        or not token.is_name
        or not (before.is_number or before.is_sign)
        or not any(each.is_relation for each in case.tokens if each.line == token.line)
    ):
        return None
    return Found(mend=_divided(case) or "")


def _divided(case: Case) -> str | None:
    """The bound without its coefficient, if it has one column and one number, and the quotient is a decimal."""
    of_line = [each for each in case.tokens if each.line == case.line.number]
    text = " ".join(each.text for each in of_line)
    match = re.fullmatch(r"(?:([+-]) )?(\S+ )?(\S+) (<=|>=|=|<|>|=<|=>) (?:([+-]) )?(\S+)", text)
    if match is None:
        return None
    coefficient = value_of(f"{match[1] or ''}{(match[2] or '1').strip()}")
    side = value_of(f"{match[5] or ''}{match[6]}")
    if not coefficient or side is None:
        return None
    number = decimal_text(side / coefficient)
    return None if number is None else f"{match[3]} {_FLIPPED[match[4]] if coefficient < 0 else match[4]} {number}"


# ---- names


def brackets_in_name(case: Case) -> Found | None:
    """A name, and beside it brackets without a power or a product."""
    line = case.line.content.decode("latin-1")
    token = case.token
    for match in _BRACKETS.finditer(line):
        if token is None or match.start() <= token.start < match.end():
            mend = match[1] + re.sub(r"\s+", "", match[2]).replace("][", ",").replace("[", "(").replace("]", ")")
            mark = case.mark_of_tokens([Token("", *match.span(), case.line.number)])
            return Found(f"{match[0]} is read as a quadratic term", mend, marks=(mark,), moves=True)
    return None


def product(case: Case) -> Found | None:
    before, token, after = case.before(), case.token, case.after
    if before is None or token is None or after is None or token.text != "*":
        return None
    if before.is_number and after.is_name:
        return Found(mend=f"{before.text} {after.text}")
    return Found(mend=f"{after.text} {before.text}") if before.is_name and after.is_number else None


def automatic_name(case: Case) -> Found | None:
    """One of the two rows has no label: its name is that of its position."""
    found = first_duplicate(case.content, case.line.start + len(case.line.content))
    if found is None:
        return None
    first, second = found
    if first.has_label and second.has_label:
        return None
    mark = case.mark_at(first.start, first.end)
    unlabelled = case.mark_at(second.start, second.end).number if first.has_label else mark.number
    row = first if not first.has_label else second
    detail = f"the row in line {unlabelled} has no label, and is row {row.position}: its name is {second.name}"
    return Found(detail, words=second.name, marks=(mark, case.mark_at(second.start, second.end)), moves=True)


# ---- rows that are solved for their terms


def solved(case: Case, line: int) -> str:
    """The row that a line has, with its terms on the left; empty if the line has not one whole row of a simple form."""
    tokens = [each for each in tokens_of(case.content, 1, *_span(case, line))]
    if len(tokens) > 1 and tokens[1].text == ":":
        tokens = tokens[2:]
    elif not _ends_row([each for each in case.tokens if each.line < line]):
        return ""
    end = _span(case, line)[1]
    after = tokens_of(case.content[end : end + _MOST_AFTER])
    is_whole = not after or after[0].is_section or (len(after) > 1 and after[1].text == ":")
    return (solved_row(tokens) or "") if is_whole else ""


def _span(case: Case, line: int) -> tuple[int, int]:
    found = line_at(case.content, line)
    return found.start, found.start + len(found.content)


def _ends_row(tokens: Sequence[Token]) -> bool:
    """Whether a row may start after these tokens: after a keyword, or after a number on the right."""
    if not tokens or tokens[-1].is_section or tokens[-1].word in ("to", "that"):
        return True
    before = next((each for each in reversed(tokens[:-1]) if not each.is_sign), None)
    return tokens[-1].is_number and before is not None and before.is_relation


def constant_in_row(case: Case) -> Found:
    """What is said of a constant: the row without it."""
    return Found(mend=solved(case, case.line.number))


# ---- numbers


def _signed(tokens: Sequence[Token]) -> Fraction | None:
    """The number of the last token, with the signs before it; None for one beyond the limits."""
    value = value_of(tokens[-1].text)
    return -value if value is not None and sum(each.text == "-" for each in tokens[:-1]) % 2 else value


RULES: tuple[Rule, ...] = (
    no_label,
    colon_after_keyword,
    other_relation,
    decimal_comma,
    fraction,
    punctuation_after_row,
    lone_mark,
    text_after_statement,
    second_limit,
    row_without_terms,
    no_subject_to,
    digit_first,
    space_in_label,
    row_in_bounds,
    plus_or_minus,
    sum_on_the_right,
    missing_number,
    second_relation,
    nan_on_the_right,
    mark_after_number,
    lone_word_on_the_right,
    terms_on_the_right,
    number_on_the_left,
    free_among_rows,
    row_without_relation,
    bound_without_relation,
    coefficient_in_bounds,
    no_sign,
    brackets_in_name,
    product,
    automatic_name,
)
