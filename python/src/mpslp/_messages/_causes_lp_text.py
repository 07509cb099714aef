"""Rules for LP: text that is not a comment, parentheses, names with a space or with a digit first, glued words,
placeholders.

Where a rule says what to write, the text with it gets past the error.
"""

from __future__ import annotations

import re
from collections.abc import Iterator, Sequence
from fractions import Fraction

from mpslp._messages._case import Case, Found
from mpslp._messages._causes_both import Rule
from mpslp._messages._causes_lp_parts import other_comment
from mpslp._messages._causes_lp_relations import relation_in_words
from mpslp._messages._causes_lp_words import TYPES_OF_MPS
from mpslp._messages._lp_edits import instead_of, is_term, is_used, line_without, near, span
from mpslp._messages._lp_suspects import is_column, is_glued, is_word, mark_of_text, on_lines, shown, suspects, text_of
from mpslp._messages._lp_sums import Term, decimal_text, terms_of, value_of
from mpslp._messages._lp_trials import Trial
from mpslp._messages._tokens import Token, tokens_of
from mpslp._text._lp_words import FREE, SECTIONS, SENSES

_MOST_WORDS = 18
_SENSES_AS_WORDS = ("minimum", "maximum", "min", "max")
_MOST_LOOKED_AT = 2**18
_FEWEST_MARKS = 3
_BEFORE_TEXT = (FREE, *SENSES, "to", "that")
_WORD = re.compile(r"[A-Za-z]{2}")
_WORDS = re.compile(r"[\"'(\[{]*[A-Za-z][A-Za-z'-]+[\"')\]}.,:;!?]*")
_MARKS = re.compile(r"[^\w\s]+")
_DATE = re.compile(r"(?<=[<>=])\s*(?:\d{1,2}:\d\d(?::\d\d)?|\d{4}-\d\d-\d\d|\d{1,2}([./])\d{1,2}\1\d{2,4})(?![\w.])")
_PLACEHOLDER = re.compile(
    r"[<>=]\s*[-+]?\s*(<[\w .-]+>|\{\{?[\w .:-]*\}?\}|%[\d.]*[dfgsx]\b|%\w+%|"
    r"\$\{?[A-Za-z_]\w*\}?|#[A-Z]\w*[!?/]*\w*|\?+|\.\.\.+|"
    r"_+|[xX]{2,}|\[[a-z ]+\]|\*+)(?!\w)\s*$"
)


# ---- text


def free_text(case: Case) -> Found | None:
    """A line, or the end of one, that is no part of the model: words that are side by side, or that follow a mark, and
    lines of marks. Without it the text gets further.
    """
    if relation_in_words(case) is not None or other_comment(case) is not None:
        return None
    trial = Trial(case)
    for line in suspects(case):
        for at in range(max(0, len(line) - _MOST_WORDS), len(line)):
            rest = line[at:]
            if _ends_statement(line[:at]) and _is_free(case, rest, not at) and trial.passes(instead_of(case, rest)):
                text = case.content[slice(*span(case, rest[0], rest[-1]))].decode("latin-1")
                return shown(case, rest, mend=f"\\ {text}")._replace(means_other=True)
    return None


def _ends_statement(line: Sequence[Token]) -> bool:
    """Whether a statement may end after the tokens of a line."""
    last = line[-1] if line else None
    return last is None or last.is_number or last.is_section or last.word in _BEFORE_TEXT


def _is_free(case: Case, tokens: Sequence[Token], is_line: bool) -> bool:
    if is_line and any(each.word in TYPES_OF_MPS for each in tokens[:1]):
        return False
    lead = _lead(tokens)
    if len(lead) == len(tokens):
        return is_line and len("".join(each.text for each in tokens)) >= _FEWEST_MARKS
    rest = tokens[len(lead) :]
    words = [each for each in rest if is_word(each) and _WORDS.fullmatch(each.text)]
    new = [each for each in words if not is_column(case, each.text) or not is_term(case, each.text)]
    if not new or any(each.is_section for each in rest[:1]):
        return False
    has_mark = len("".join(each.text for each in lead)) > 1 or (bool(lead) and not lead[0].is_sign)
    if lead and lead[0].text == ";" and any(each.is_relation for each in rest):  # another row comes after it
        return False
    if has_mark:
        return not any(each.is_relation for each in rest[:-1]) or lead[0].text[0] in "#!%/;<"
    if any(each.is_relation or (each.is_sign and not _is_hyphen(rest, at)) for at, each in enumerate(rest)):
        return False
    has_pair = any(first.is_name and second.is_name for first, second in zip(rest, rest[1:]))
    is_known = any(is_word(each) and is_term(case, each.text) for each in rest) and len(new) == 1
    return has_pair and not (is_line and is_known)


def _is_hyphen(tokens: Sequence[Token], at: int) -> bool:
    """Whether a sign is beside both of its words."""
    return 0 < at < len(tokens) - 1 and is_glued(*tokens[at - 1 : at + 1]) and is_glued(*tokens[at : at + 2])


def _lead(tokens: Sequence[Token]) -> Sequence[Token]:
    """The marks at the start of tokens."""
    count = next((at for at, each in enumerate(tokens) if _MARKS.fullmatch(each.text) is None), len(tokens))
    return tokens[:count]


def text_after_statement(case: Case) -> Found | None:
    """Words at the end of a line without which the text gets further, and which are no columns."""
    trial = Trial(case)
    for line in suspects(case):
        for at in range(max(1, len(line) - _MOST_WORDS), len(line)):
            rest = line[at:]
            if _ends_statement(line[:at]) and _are_new(case, rest) and trial.passes(instead_of(case, rest)):
                text = case.content[slice(*span(case, rest[0], rest[-1]))].decode("latin-1")
                return shown(case, rest, mend=f"\\ {text}")._replace(means_other=True)
    return None


def _are_new(case: Case, tokens: Sequence[Token]) -> bool:
    """Whether tokens have words that are nowhere else, and no relation."""
    words = [each for each in tokens if _WORD.search(each.text)]
    has_mark = any(each.is_relation or each.text == ":" or each.is_section for each in tokens)
    if not words or has_mark or any(is_used(case, each.text) for each in words):
        return False
    return all(is_word(each) or each.word in _SENSES_AS_WORDS for each in words)


# ---- placeholders


@on_lines
def placeholder(case: Case, line: Sequence[Token]) -> Found | None:
    """After a relation, what a template has in the place of a number."""
    match = _PLACEHOLDER.search(text_of(case, line))
    if match is None or is_used(case, match[1]):
        return None
    mark = mark_of_text(case, line, *match.span(1))
    return Found(f"{match[1]} is one", marks=(mark,), moves=True, means_other=True)


@on_lines
def date_or_time(case: Case, line: Sequence[Token]) -> Found | None:
    """Two or three numbers with colons, dashes or slashes between them, as a date or a time has."""
    match = _DATE.search(text_of(case, line))
    return (
        None
        if match is None
        else Found(f"{match[0].strip()} is one", marks=(mark_of_text(case, line, *match.span()),), moves=True)
    )


# ---- parentheses and brackets


@on_lines
def parentheses_in_sum(case: Case, line: Sequence[Token]) -> Found | None:
    """A token with a parenthesis that another one closes."""
    first = next((at for at, each in enumerate(line) if each.text.count("(") > each.text.count(")")), None)
    if first is None or line[first].line != case.line.number:
        return None
    depth, last = 0, first
    for last in range(first, len(line)):
        depth += line[last].text.count("(") - line[last].text.count(")")
        if depth <= 0:
            break
    if depth > 0 or last == first:
        return None
    before = line[first].text.partition("(")[0]
    names = [each.text.strip("()") for each in line[first : last + 1] if each.text.strip("()")[:1].isalpha()]
    if (before and before.lower() not in SENSES) or not all(is_used(case, name) for name in names if name):
        return None
    return shown(case, line[first : last + 1], mend=_multiplied(case, line, first, last))._replace(means_other=True)


def _multiplied(case: Case, line: Sequence[Token], first: int, last: int) -> str:
    """The line without its parentheses, whose terms are multiplied by the number before them; empty if it has another
    form, or is not accepted.
    """
    content = text_of(case, line)[line[first].start : line[last].end]
    terms = terms_of(tokens_of(re.sub(r"[()]", " ", content).encode("latin-1")))
    if terms is None or any(not term.name for term in terms) or content.count("(") > 1:
        return ""
    number = value_of(line[first - 1].text) if first and line[first - 1].is_number else None
    start = first if number is None else first - 1
    sign = line[start - 1] if start and line[start - 1].is_sign else None
    factor = (Fraction(1) if number is None else number) * (-1 if sign is not None and sign.text == "-" else 1)
    texts = [_term_times(term, factor) for term in terms]
    start = start if sign is None else start - 1
    multiplied = " ".join(texts) if sign is not None else " ".join(texts).removeprefix("+ ")
    if not all(texts) or not Trial(case).passes(instead_of(case, line[start : last + 1], multiplied)):
        return ""
    return line_without(case, line[start : last + 1], multiplied)


def _term_times(term: Term, factor: Fraction) -> str:
    """A term with its sign, times a number; empty if it is beyond the limits."""
    text = None if term.value is None else decimal_text(term.value * factor)
    return "" if text is None else f"{'-' if text.startswith('-') else '+'} {text.lstrip('-')} {term.name}"


@on_lines
def brackets_in_sum(case: Case, line: Sequence[Token]) -> Found | None:
    """Square brackets around terms, without which the text gets further."""
    opening = [each for each in line if each.text == "["]
    closing = [each for each in line if each.text == "]"]
    if len(opening) != 1 or len(closing) != 1 or _is_beside_name(line, opening[0]):
        return None
    if not Trial(case).passes(instead_of(case, opening), instead_of(case, closing)):
        return None
    return shown(case, [*opening, *closing][:1])


def _is_beside_name(line: Sequence[Token], bracket: Token) -> bool:
    return any(each.is_name and is_glued(each, bracket) for each in line)


# ---- names


def space_in_name(case: Case) -> Found | None:
    """Two words that are side by side wherever the second one is, more than once."""
    tokens = near(case)
    for first, second in zip(tokens, tokens[1:]):
        if first.line != second.line or not is_word(first) or not (is_word(second) or second.text.isdigit()):
            continue
        if _are_together(case, first.text, second.text):
            return shown(case, (first, second), mend=f"{first.text}_{second.text}")._replace(means_other=True)
    return None


def _are_together(case: Case, first: str, second: str) -> bool:
    start = max(0, case.line.start - _MOST_LOOKED_AT // 2)
    content = case.content[start : start + _MOST_LOOKED_AT]
    pair = re.compile(rb"(?<![\w.])%b[ \t]+%b(?![\w.])" % (re.escape(first.encode()), re.escape(second.encode())))
    count = len(pair.findall(content))
    word = re.compile(rb"(?<![\w.])%b(?![\w.])" % re.escape((second if second.isalpha() else first).encode()))
    return count > 1 and count == len(word.findall(content))


@on_lines
def digit_first_name(case: Case, line: Sequence[Token]) -> Found | None:
    """A number, and after a space a number with letters beside it."""
    for before, number, name in zip(line, line[1:], line[2:]):
        if before.is_number and number.text.isdigit() and is_glued(number, name) and name.is_name:
            text = number.text + name.text
            if before.end < number.start and Trial(case).passes(instead_of(case, (number, name), f"_{text}")):
                return shown(case, (number, name), mend=f"_{text}")._replace(means_other=True)
    return None


def glued_words(case: Case) -> Found | None:
    """A word that is two, of which one is a keyword; with a space or a line end between them the text gets further."""
    trial = Trial(case)
    for token in reversed(near(case)):
        for first, second in _parts(case, token.text) if token.is_name and not is_used(case, token.text) else ():
            for between in (" ", "\n"):
                if trial.passes(instead_of(case, (token,), first + between + second)):
                    what = f"{first} {second}" if between == " " else f"{first}, and {second} in a line of its own"
                    return shown(case, (token,), mend=what)._replace(means_other=True)
    return None


def _parts(case: Case, text: str) -> Iterator[tuple[str, str]]:
    keywords = (*SENSES, *SECTIONS, FREE)
    for at in range(1, len(text)):
        first, second = text[:at], text[at:]
        is_first = first.lower() in keywords and (second.lower() in keywords or is_used(case, second, 0))
        if is_first or (second.lower() in keywords and is_used(case, first, 0)):
            yield first, second


RULES: tuple[Rule, ...] = (
    placeholder,
    date_or_time,
    free_text,
    parentheses_in_sum,
    brackets_in_sum,
    space_in_name,
    digit_first_name,
    glued_words,
)
