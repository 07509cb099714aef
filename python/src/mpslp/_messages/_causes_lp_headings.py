"""Rules for LP: lines that are meant to open a section, or to end the file, and do not: they are misspelt, have more
words, or are of another reader.

The error is often some lines after such a line, where its words no longer fit. What the line means is looked up in a
table, or by its spelling, and the proved reader reads the text with it.
"""

from __future__ import annotations

import re
from collections.abc import Iterator, Sequence
from difflib import SequenceMatcher

from mpslp._messages._case import FOUND, Case, Found
from mpslp._messages._causes_both import Rule
from mpslp._messages._causes_lp_marks import has_rows
from mpslp._messages._causes_lp_parts import general_constraints, multi_objective, piecewise_linear, scenarios
from mpslp._messages._excerpt import Mark
from mpslp._messages._lp_edits import instead_of, line_without
from mpslp._messages._lp_suspects import is_word, lp_section, mark_of_text, shown
from mpslp._messages._lp_trials import Edit, Trial, is_accepted, lines_read
from mpslp._messages._nearest import nearest
from mpslp._messages._tokens import Token
from mpslp._text._lines import line_at, line_with
from mpslp._text._lp_words import FURTHER_TOKENS, LISTS, ROWS_IN_TWO_WORDS, SECTIONS, SENSES

_MOST_BACK = 12
"""So many lines before the error may be the heading that it comes from."""
_MOST_WORDS = 4
_NEAR = 0.75
"""How near a misspelt keyword is, on the scale of difflib."""
_MOST_LOOKED_AT = 2**18
_MOST_READ = 2**22
_KEYWORDS = {
    "minimize": "minimise minimization minimisation minimizing minimising minimum minimization: minim "
    "mini minimizar min.",
    "maximize": "maximise maximization maximisation maximizing maximising maximum maxim maxi maximizar max.",
    "subject to": "constraints constraint subjectto subj subject subj.to subj_to subject_to subject-to such-that s.t "
    "s.t.c where with under restrictions restriction conditions condition equations rows "
    "relations requirements suchthat",
    "such that": "",
    "bounds": "limits limit boundaries boundary bnds bnd domains domain box",
    "generals": "integral integrals gens discrete discretes whole generalintegers",
    "integers": "ints intvars integervariables entiers",
    "binaries": "boolean booleans bool bools logical logicals bins binvars 0-1 zero-one zeroone 01 binaryvariables",
    "semi-continuous": "semicont semicontinuous semicontinous semi-cont semi-cont. semi_continuous sc sec",
    "end": "finish fin eof exit quit endfile endmodel ende endlp endata done stop",
}
"""The keywords, and the words that other readers and people write for each."""
_PHRASES = {
    "subject to": "subject to the following|subject to constraints|subject to the constraints|the constraints|"
    "linear constraints|model constraints|such as|so that|subj to|subj. to|s. t.|s t",
    "bounds": "variable bounds|bounds on variables|variable limits|upper bounds|lower bounds|column bounds|"
    "bounds for variables|simple bounds|limits on variables|variable domains|bound section|bounds section",
    "generals": "general integers|general integer|general variables|general vars|generals integers",
    "integers": "integer variables|integer vars|integers variables|int vars|int variables|integer "
    "columns|whole numbers",
    "binaries": "binary variables|binary vars|binaries variables|boolean variables|bin vars|0 1 variables|zero one|"
    "binary integers|binary columns|bin variables",
    "semi-continuous": "semi continuous|semi continuous variables|semi-continuous variables|semi cont|"
    "semicontinuous variables",
    "end": "end file|end of file|end model|end of model|end of the model|the end|end lp|end of lp|end problem",
}
_MEANT = {
    **{word: keyword for keyword, words in _KEYWORDS.items() for word in (keyword, *words.split())},
    **{phrase: keyword for keyword, phrases in _PHRASES.items() for phrase in phrases.split("|")},
}
_LAZY = frozenset(
    "lazy|lazy constraints|lazy constraint|lazy rows|lazy cons|lazyconstraints|lazyconstraint|lazyrows|lazycons|"
    "delayed rows|delayed constraints|delayedrows|delayed cuts|model cuts|modelcuts|user "
    "cuts|user cut|usercuts|usercut|"
    "cuts|cut constraints|lazy cuts|soft constraints".split("|")
)
_START = "values to start from are for a solver, and no part of a model"
_PRIORITY = "priorities are for a solver, and no part of a model"
_NONE = {
    **dict.fromkeys("ranges|range|row ranges".split("|"), "a row with two limits is 1 <= x + y <= 4"),
    **dict.fromkeys(
        "mipstart|mip start|mipstarts|mip starts|mst|start|starts|warmstart|warm start|hints|hint|var hints|"
        "initial|initial values|initial solution|initial point|start values|starting values|start solution|solution|"
        "basis|start basis".split("|"),
        _START,
    ),
    **dict.fromkeys(
        "priorities|priority|branching priorities|branch priorities|branching|order|branch order|branching order|"
        "branching priority".split("|"),
        _PRIORITY,
    ),
    **dict.fromkeys("partial|partial integers|partial integer|pi".split("|"), "partial integers are not supported"),
    **dict.fromkeys(
        "semi-integer|semi-integers|semiint|semiinteger|semi integer|semi-int|sin".split("|"),
        "semi-integer columns are not supported: write a binary column for each, as for a semi-continuous one",
    ),
    **dict.fromkeys(
        "options|parameters|settings|params".split("|"), "options are for a solver, and no part of a model"
    ),
}
"""Sections of other readers that say nothing that this format has, and why."""
_SENSE = re.compile(rb"(?im)^[ \t]*(?:min|max)(?:imi[sz]e|imum)?\b[ \t]*(?![ \t\w.]*=)(?!\w)")
_ANY_SENSE = re.compile(rb"(?im)^[^\\\n]*?(?<![\w./])(?:min|max)(?:imi[sz]e|imum)?(?![\w./])")
_MOST_SKIPPED = 600
_MOST_READ_AGAIN = 2**20
_OF_ADAPT = ("minimize", "maximize")
"""Keywords whose other spellings adapt does not take for columns."""
_NO_SENSE = (
    "optimize",
    "optimise",
    "opt",
    "min/max",
    "max/min",
    "minmax",
    "objective",
    "goal",
    "optimization",
    "target",
)
"""Words for an objective without a sense."""
_PLAIN_END = re.compile(rb"(?im)^[ \t]*end[ \t]*(?:\\[^\n]*)?\r?$")
_NEXT_KEYWORD = re.compile(
    rb"(?im)^[ \t]*(?:subject[ \t]+to|such[ \t]+that|st|s\.t\.|bounds?|generals?|gen|"
    rb"integers?|int|binar(?:y|ies)|bin|semis?|semi-continuous|sos[12]?|end)"
    rb"[ \t:]*\r?$"
)
_NEAR_END = frozenset(
    "finished edn ned endd eend ennd enf emd wnd rnd enc en nd e.n.d. ende enddata "
    "endmodel endfile endlp end-file eof fin finish "
    "exit quit endata stop done end_file endprob ends ended".split()
)


class _Heading:
    """A line that may be meant as a heading: its words as they are compared, and its place."""

    def __init__(self, case: Case, line: Sequence[Token]) -> None:
        found = line_at(case.content, line[0].line)
        self.tokens = line
        self.start, self.end = found.start + line[0].start, found.start + line[-1].end
        self.text = case.content[self.start : self.end].decode("latin-1")
        self.words = " ".join(self.text.lower().split()).strip(" :;.,=*-_#")

    @property
    def meant(self) -> str | None:
        """The keyword that its words mean, or the nearest one."""
        if self.words in _MEANT:
            return _MEANT[self.words]
        near = nearest(self.words, _KEYWORDS) or nearest(self.words, _MEANT)
        is_near = near is not None and SequenceMatcher(None, near, self.words).ratio() >= _NEAR
        return _MEANT[near] if near is not None and is_near else None


def _headings(case: Case) -> Iterator[_Heading]:
    """The lines that may be headings, from that of the error back to the one that opens its section."""
    end = next((at for at, each in enumerate(case.tokens) if each.line > case.line.number), len(case.tokens))
    for _ in range(_MOST_BACK):
        if not end:
            return
        start = end - 1
        while start and case.tokens[start - 1].line == case.tokens[end - 1].line:
            start -= 1
        line = case.tokens[start:end]
        is_keyword = line[0].is_section or line[0].word in SENSES
        if _is_like_heading(line):
            yield _Heading(case, line)
        if not start and len(line) > 1 and line[0].is_name:
            yield _Heading(case, line[:1])
        if is_keyword:
            return
        end = start


def _is_like_heading(line: Sequence[Token]) -> bool:
    """Whether a line has words only, perhaps with dashes between them and a mark at its end, and is no keyword."""
    words = line[:-1] if line[-1].text in (":", "=") or line[-1].text.strip(":;.,=-*") == "" else line
    if not 0 < len(words) <= 2 * _MOST_WORDS or not (words[0].is_name or len(words) > 1):
        return False
    is_keyword = words[0].is_section or words[0].word in SENSES
    if is_keyword and (len(words) == 1 or _is_whole_keyword(words)):
        return False
    return all(each.is_name or each.text in "-01" for each in words)


def _is_whole_keyword(words: Sequence[Token]) -> bool:
    return tuple(each.word for each in words[1:]) == FURTHER_TOKENS.get(words[0].word)


def _is_used(case: Case, heading: _Heading) -> bool:
    """Whether a word of the line is also on another line."""
    return any(_is_elsewhere(case, heading, each) for each in heading.tokens if is_word(each))


def _is_elsewhere(case: Case, heading: _Heading, token: Token) -> bool:
    name = re.compile(rb"(?<![\w.(])" + re.escape(token.text.encode("latin-1")) + rb"(?![\w.)])")
    start = max(0, heading.start - _MOST_LOOKED_AT // 2)
    parts = (case.content[start : heading.start], case.content[heading.end : start + _MOST_LOOKED_AT])
    return any(name.search(part) for part in parts)


# ---- rules


def lazy_constraints(case: Case) -> Found | None:
    """A section of rows that a solver may look at later."""
    for heading in _headings(case):
        if heading.words in _LAZY and not _is_used(case, heading):
            return shown(case, heading.tokens)._replace(means_other=True)
    return None


def other_section(case: Case) -> Found | None:
    """A section with what is no part of a model."""
    for heading in _headings(case):
        if heading.words in _NONE and lp_section(case) and not _is_used(case, heading):
            return shown(case, heading.tokens, _NONE[heading.words])._replace(means_other=True)
    return None


def other_keyword(case: Case) -> Found | None:
    """A line with which the text gets further if it is a keyword instead; or one half of a keyword."""
    half = _half_of_keyword(case)
    if half is not None:
        return half
    trial = Trial(case)
    for heading in _headings(case):
        meant = heading.meant
        if heading.words not in _MEANT and not lp_section(case) and case.token_at and not has_rows(case):
            meant = "subject to"
        if (
            meant is None
            or heading.words in (*_NO_SENSE, *_NONE, *_LAZY)
            or _is_used(case, heading)
            or meant == heading.text.lower()
        ):
            continue
        if trial.passes(Edit(heading.start, heading.end, meant.encode())):
            return shown(case, heading.tokens, mend=meant)._replace(means_other=meant not in _OF_ADAPT)
    return None


def _half_of_keyword(case: Case) -> Found | None:
    before, token = case.before(), case.token
    if before is None or token is None or before.word not in ROWS_IN_TWO_WORDS:
        return None
    if token.word == ROWS_IN_TWO_WORDS[before.word]:
        return None
    mend = f"{before.text} {ROWS_IN_TWO_WORDS[before.word]}"
    is_misspelt = before.line == token.line and is_word(token)
    return shown(case, (before, token) if is_misspelt else (before,), mend=mend)


def unknown_section(case: Case) -> Found | None:
    """A line that starts with a capital letter, or further left than the next one; without it and the lines up to the
    next keyword, the text gets further.
    """
    if any(rule(case) is not None for rule in (multi_objective, general_constraints, piecewise_linear, scenarios)):
        return None
    trial = Trial(case)
    for heading in _headings(case):
        if not _is_set_off(case, heading) or _is_used(case, heading):
            continue
        edits = {
            each: Edit(heading.start, heading.end, each.encode()) for each in _KEYWORDS if each not in _NO_SECTIONS
        }
        fitting = [keyword for keyword, edit in edits.items() if trial.passes(edit)]
        if len(fitting) == 1:
            return shown(case, heading.tokens, f"with {fitting[0]} instead of {heading.text} its lines are accepted")
        after = _NEXT_KEYWORD.search(case.content, heading.end)
        if after is not None and trial.passes(Edit(heading.start, after.start(), b"")):
            return shown(case, heading.tokens)._replace(means_other=True)
    return None


_NO_SECTIONS = ("minimize", "maximize", "such that", "integers", "end")


def _is_set_off(case: Case, heading: _Heading) -> bool:
    """Whether a line starts with a capital letter, and further left than the next line."""
    first = heading.tokens[0]
    after = next((each for each in case.tokens if each.line > first.line), None)
    if after is None and first.line == case.line.number:
        after = case.after
    return first.text[0].isupper() and after is not None and first.start < after.start


def list_statements(case: Case) -> Found | None:
    """A word that opens a list, and columns with ``;`` after them in its line, as lp_solve has it."""
    token = case.token
    line = [each for each in case.tokens if token is not None and each.line == token.line]
    if token is None or len(line) < 2 or line[0] is not token or not line[-1].text.endswith(";"):
        return None
    if SECTIONS.get(token.word) not in LISTS or lp_section(case) != "list":
        return None
    return shown(case, line)._replace(means_other=True)


# ---- the start


def text_before_model(case: Case) -> Found | None:
    """Lines before the first one with a sense; without them more of the text can be read."""
    start = next(
        (each.start() for each in _SENSE.finditer(case.content[:_MOST_READ_AGAIN]) if each.start() > case.line.start),
        None,
    )
    if start is None or len(case.content) > _MOST_READ_AGAIN or case.content[: case.line.start].strip(b" \t\r\n"):
        if start is None or not _are_comments(case.content[: case.line.start]):
            return None
    count = case.content.count(b"\n", 0, start)
    is_one = not case.content[case.line.start + len(case.line.content) : start].strip()
    if (
        count > _MOST_SKIPPED
        or lines_read(case, case.content[start:]) < 2
        or (is_one and (case.kind == "BadToken" or case.line.content.lstrip()[:1] in b"*/"))
    ):
        return None
    sense = case.mark_at(start, start + len(case.content[start:].split(maxsplit=1)[0]))
    first = case.line.number
    which = f"line {first}" if first == count else f"lines {first} to {count}"
    said = f"the model starts in line {sense.number}, with {sense.content.decode('latin-1').strip()[:40]}"
    return Found(said, which, marks=(sense,), means_other=True)


def text_before_sense(case: Case) -> Found | None:
    """Words before the sense, in the first line of the model."""
    line = [each for each in case.tokens if each.line == case.line.number]
    at = next((at for at, each in enumerate(line) if each.word in SENSES), 0)
    if case.token_at or not at or not Trial(case).passes(instead_of(case, line[:at])):
        return None
    return shown(case, line[:at], mend=line_without(case, line[:at]))._replace(means_other=True)


def _are_comments(text: bytes) -> bool:
    return all(line.strip()[:1] in (b"", b"\\") for line in text.splitlines())


def no_sense(case: Case) -> Found | None:
    """No word for the sense is anywhere before the rows; with one after the first lines the text gets further."""
    if case.token_at or not case.tokens or not _are_comments(case.content[: case.line.start]):
        return None
    if _ANY_SENSE.search(case.content, 0, min(len(case.content), _MOST_READ_AGAIN)):
        return None
    line = case.line
    if len(case.content) > _MOST_READ_AGAIN:
        return FOUND
    for lines in range(3):
        sense = b"Minimize\n"
        text = case.content[: case.line.start] + sense + case.content[line.start :]
        if lines_read(case, text) > line.number + 1 or is_accepted(case, text):
            return _sense_before(case, line.number, lines)
        after = case.content.find(b"\n", line.start)
        if after < 0:
            return FOUND
        line = type(line)(line.number + 1, after + 1, case.content[after + 1 :].split(b"\n", 1)[0])
    return FOUND


def _sense_before(case: Case, number: int, lines: int) -> Found:
    """What is said of a text whose sense is missing before a line, after lines that are a title."""
    if not lines:
        return Found(means_other=True)
    title = " ".join(case.line.content.decode("latin-1").split())
    return Found(
        f"{title} is no part of the model: start it with \\",
        f"Minimize or Maximize in a line before line {number}",
        marks=(case.mark_of_span(case.tokens[0].start, len(case.line.content.rstrip())),),
        moves=True,
        means_other=True,
    )


# ---- the end


def misspelt_end(case: Case) -> Found | None:
    """The last line of a text without an end is a word like it, or ends with a mark or more words."""
    if len(case.content) > _MOST_READ:
        return None
    text = case.content.rstrip()
    first = text.rfind(b"\n") + 1
    start = max(first, *(text.rfind(space, first) + 1 for space in (b" ", b"\t")))
    if text[first:start].strip() and re.match(rb"(?i)[ \t]*(?:end\b|e[ \t]+n[ \t]+d$)", text[first:]):
        start = first
    last = text[start:].decode("latin-1").strip()
    is_end = re.match(r"(?i)end\b", last) is not None or last.lower().strip(" .;:,!*-\"'`)") in _NEAR_END
    is_end = is_end or last.lower().split() == ["e", "n", "d"]
    if not is_end or _PLAIN_END.search(text) or not is_accepted(case, text[:start] + b"end\n"):
        return None
    number = case.content.count(b"\n", 0, first) + 1
    return Found(
        f"the last line is {last}", "End", marks=(Mark(number, text[first:], start - first, len(text) - first),)
    )


def text_after_model(case: Case) -> Found | None:
    """After an empty line at the end of a text without an end, words that are nowhere else."""
    if len(case.content) > _MOST_READ_AGAIN:
        return None
    text = case.content.rstrip()
    start = text.rfind(b"\n\n") + 2
    words = text[start:].split()
    if start < 2 or len(words) < 2 or any(word in text[:start].split() or not word[:1].isalpha() for word in words):
        return None
    if not is_accepted(case, text[:start] + b"end\n"):
        return None
    line = line_with(text, start)
    return Found(
        f"it starts in line {line.number}", "End", marks=(Mark(line.number, line.content, 0, len(line.content)),)
    )


def text_after_end(case: Case) -> Found | None:
    """The word end, and more in its line."""
    at = next((at for at in (case.token_at - 1, case.token_at) if _is_end(case, at)), None)
    if at is None:
        return None
    line = [each for each in case.tokens if each.line == case.tokens[at].line]
    if line[0] is not case.tokens[at] or len(line) < 2 or line[1].text == ":":
        return None
    return Found(
        mend="End", marks=(mark_of_text(case, line, line[1].start, line[-1].end),), moves=True, means_other=True
    )


def _is_end(case: Case, at: int) -> bool:
    return 0 <= at < len(case.tokens) and case.tokens[at].word == "end"


RULES: tuple[Rule, ...] = (
    list_statements,
    lazy_constraints,
    other_section,
    text_after_end,
    misspelt_end,
    text_after_model,
    other_keyword,
    text_before_model,
    text_before_sense,
    no_sense,
    unknown_section,
)
