"""Rules for LP that are asked last: something near the error is left over, and the text without it gets further."""

from __future__ import annotations

from collections.abc import Iterator, Sequence

from mpslp._messages._case import Case, Found
from mpslp._messages._causes_both import Rule
from mpslp._messages._lp_edits import instead_of, is_used, line_without, near
from mpslp._messages._lp_suspects import is_word, on_lines, section_of, shown
from mpslp._messages._lp_trials import Trial
from mpslp._messages._tokens import Token


def repeated(case: Case) -> Found | None:
    """The same twice in a row, of which one is enough."""
    tokens, trial = near(case), Trial(case)
    for first, second in zip(tokens, tokens[1:]):
        if first.text != second.text or first.is_number or not trial.passes(instead_of(case, (second,))):
            continue
        return shown(case, (second,), mend=first.text)._replace(means_other=True)
    return None


def word_left_over(case: Case) -> Found | None:
    """A word near the error that is nowhere else, and without which the text gets further."""
    trial = Trial(case)
    for words in _new_words(case):
        if trial.passes(instead_of(case, words)):
            return shown(case, words, mend=line_without(case, words))._replace(means_other=True)
    return None


def _new_words(case: Case) -> Iterator[Sequence[Token]]:
    """Words near the error that are nowhere else, each with those before it that are, too."""
    tokens = near(case)
    for end in range(len(tokens), 0, -1):
        for start in range(end - 1, -1, -1):
            if (
                not is_word(tokens[start])
                or tokens[start].line != tokens[end - 1].line
                or is_used(case, tokens[start].text)
            ):
                break
            yield tokens[start:end]


@on_lines
def word_in_bounds(case: Case, line: Sequence[Token]) -> Found | None:
    """A column and a word that is none, and no more."""
    if len(line) != 2 or section_of(case, line) != "bounds" or not is_word(line[0]) or not is_word(line[1]):
        return None
    is_default = line[1].word.startswith(("nonneg", "non-neg", "positive", "pos"))
    detail = "without a bound a column is not negative" if is_default else ""
    return shown(case, line[1:], detail)._replace(means_other=True)


RULES: tuple[Rule, ...] = (word_in_bounds, repeated, word_left_over)
