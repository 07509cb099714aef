"""LP files: from a file as it comes to one in mpslp's LP format.

The reader takes a larger language than mpslp's LP format. Each statement that mpslp reads stays as it is written;
others are written again. A rule replaces tokens by tokens, and the printer makes text of them.
"""

from __future__ import annotations

import re
from itertools import pairwise

from mpslp._adapt._changes import AdaptError, Log
from mpslp._adapt._long_lines import with_short_lines
from mpslp._adapt._lp_bounds import BoundRules
from mpslp._adapt._lp_context import Context, without_comments
from mpslp._adapt._lp_doubts import doubts
from mpslp._adapt._lp_parts import Section
from mpslp._adapt._lp_plain import PlainStatements
from mpslp._adapt._lp_print import Cell, Script, printed
from mpslp._adapt._lp_reader import Reader
from mpslp._adapt._lp_rules import ObjectiveRules, RowRules
from mpslp._adapt._lp_sections import OTHER_SENSES
from mpslp._adapt._lp_tokens import PLAIN_BOUND, PLAIN_NAMES, PLAIN_OBJECTIVE, PLAIN_ROW, Tokens
from mpslp._text._lp_words import SENSES

_OBJECTIVE_OF_LP_SOLVE = re.compile(r"^[^\S\n]*(?:max|min)(?:imi[sz]e)?\s*:", re.IGNORECASE | re.MULTILINE)
_LANGUAGE_OF_LP_SOLVE = (
    "the LP language of lp_solve: convert it with lp_solve -S1 -parse_only -wfmps model.mps model.lp"
)

_WITH_PLAIN_STATEMENTS = (None, "coinutils", "glpsol", "lp_solve")
"""The dialects whose words are those of all others."""


def adapt_lp(text: str, dialect: str | None, log: Log) -> tuple[str, dict[str, str]]:
    """The text that mpslp reads, and the names written instead of names given."""
    is_commented = re.match(r"\s*(?:/\*|//)", text) is not None
    if is_commented and _OBJECTIVE_OF_LP_SOLVE.search(text):
        raise AdaptError(1, _LANGUAGE_OF_LP_SOLVE)
    if dialect in _WITH_PLAIN_STATEMENTS:
        trial = Log(log.kinds_not_wanted)
        try:
            found = _adapted(text, dialect, trial, PlainStatements(text, dialect))
        except AdaptError:
            pass  # token by token, all is known of the place
        else:
            log.take(trial)
            return found
    return _adapted(text, dialect, log, None)


def _adapted(text: str, dialect: str | None, log: Log, plain: PlainStatements | None) -> tuple[str, dict[str, str]]:
    adapter = _Adapter(text, dialect, log, plain)
    written = adapter.written()
    if log.changes or (dialect is not None and adapter.has_text_after_end):
        adapter.require_clear()
    if log.changes:
        adapter.bounds.note_lone_columns()
        adapter.rows.note_units()
        adapter.rows.note_rows_like_bounds()
        adapter.bounds.note_gaps()
    return written, adapter.context.names.written


class _Adapter:
    """The rules in the order of the file."""

    def __init__(self, text: str, dialect: str | None, log: Log, plain: PlainStatements | None) -> None:
        self.text = text
        self.log = log
        self.reader = Reader(Tokens(text, dialect, plain), dialect, log)
        self.context = Context(self.reader, log)
        self.rows = RowRules(self.context)
        self.bounds = BoundRules(self.context)

    def read(self) -> None:
        reader = self.reader
        is_max = self.sense()
        objective = ObjectiveRules(self.context, is_max)
        if (statement := reader.plain(PLAIN_OBJECTIVE)) is not None:
            objective.settle_plain(statement)
        else:
            objective.settle(reader.objective())
        while reader.token.kind != "end":
            found = reader.section_at(reader.at)
            if found is None:
                raise reader.error("a section is expected here")
            section = Section(found[0], reader.token, reader.ahead(found[1] - 1), found[1])
            reader.sections.append(section)
            reader.at += found[1]
            if section.name == "end":
                break
            if reader.token.kind == "colon":  # some write it after the keyword
                self.context.edit(reader.token, "keyword")
                reader.at += 1
            self.statements(section.name)
        self.bounds.settle_bounds()
        self.rows.settle_empty_rows()
        self.rows.settle_lone_names()
        self.settle_exponents()
        self.settle_names_of_pulp()
        self.bounds.note_new_columns()

    def sense(self) -> bool:
        """Whether the objective is maximised."""
        reader = self.reader
        if reader.token.text.lower() == "problem":
            self.problem_of_qsopt()
        token = reader.token
        word = token.text.lower()
        if word in OTHER_SENSES:
            self.context.edit(token, "keyword", Cell("", OTHER_SENSES[word]))
        elif word not in SENSES:
            raise reader.error("an LP file starts with the objective: write Minimize or Maximize first")
        reader.at += 1
        if reader.token.kind == "colon" and ";" not in self.text:  # its statements end with one
            raise AdaptError(reader.token.line, f"a colon after {token.text}: remove it")
        if reader.token.kind == "colon":
            raise reader.error(_LANGUAGE_OF_LP_SOLVE)
        return word.startswith("max")

    def problem_of_qsopt(self) -> None:
        """QSopt_ex starts with a line that says Problem, and a line with the name, which become comments."""
        reader = self.reader
        first = reader.token
        if reader.dialect != "qsopt":
            raise reader.error(
                "an LP file starts with the objective, and one of QSopt_ex with a line Problem: --from qsopt "
                "takes it as the name"
            )
        reader.at += 1
        line = reader.token.line
        if line != first.line + 1 or reader.token.kind == "end":
            raise reader.error("after the line Problem comes a line with the name", first)
        while reader.token.line == line and reader.token.kind != "end":
            reader.at += 1
        name = self.context.source(self.reader.tokens.after(first), reader.last).strip(" \t\r\n")
        cells = [Cell("", f"\\ {first.text}"), Cell("\n", f"\\ {name}")]
        self.context.log.add(first.line, "problem-name", f"{first.text} {name}", f"\\ {first.text} {name}")
        self.context.script.replace(first.start, reader.last.end, cells)

    def statements(self, section: str) -> None:
        reader = self.reader
        if section == "rows":
            while True:
                if (statement := reader.plain(PLAIN_ROW)) is not None:
                    self.rows.settle_plain(statement)
                elif reader.has_row():
                    self.rows.settle(reader.row())
                else:
                    break
            self.rows.end_section()
        elif section == "bounds":
            self.bounds.last_bound = reader.last
            while reader.has_bound():
                if (statement := reader.plain(PLAIN_BOUND)) is not None:
                    self.bounds.settle_plain(statement)
                else:
                    self.bounds.settle(reader.bound())
        else:
            while self.bounds.has_listed():
                if (statement := reader.plain(PLAIN_NAMES)) is not None:
                    self.bounds.take_plain(statement, section)
                else:
                    self.bounds.take_listed(reader.listed_name(section), section)

    def settle_exponents(self) -> None:
        """A name such as E11, after a number, is not also an exponent."""
        for exponent in self.reader.exponents:
            if exponent.name in self.context.names.written:
                raise self.reader.error(
                    f"{exponent.name} is a name in another place, and may be one here", exponent.token
                )

    def settle_names_of_pulp(self) -> None:
        """A name of PuLP such as x+y or x<=4 is not a sum or a row from which spaces are missing."""
        if self.reader.dialect != "pulp":
            return
        for colon, after in pairwise(self.reader.tokens.all):
            if colon.kind == "colon" and colon.end == after.start and after.text:
                raise AdaptError(
                    colon.line,
                    f":{after.text} is a label without a space after it, or a name: write a space after the "
                    "colon, or rename it",
                )
        for name in self.context.names.written:
            if name[0] in "+-<>=":
                raise AdaptError(
                    self.line_of(name),
                    f"{name} is a name for PuLP, which writes no such names: correct it, or write a space "
                    "after the sign",
                )
            parts = Tokens(name, None).all[:-1]
            words = [part.text for part in parts if part.kind == "word"]
            is_sum = any(part.kind in ("sign", "relation") for part in parts)
            if is_sum and words and all(word in self.context.columns for word in words):
                raise AdaptError(
                    self.line_of(name),
                    f"{name} is a name for PuLP, and may be {' '.join(part.text for part in parts)}: write "
                    "spaces, or rename it",
                )

    def line_of(self, word: str) -> int:
        return next(token.line for token in self.reader.tokens.all if token.text == word)

    @property
    def has_text_after_end(self) -> bool:
        """Whether more than comments comes after the end, which mpslp ignores: a column of the name end may be taken
        for the end.
        """
        sections = self.reader.sections
        if not sections or sections[-1].name != "end":
            return False
        return bool(without_comments(self.text[sections[-1].last.end :]).strip(" \t\r\n\x1a"))

    def require_clear(self) -> None:
        """In a file that is changed, nothing may be meant in another way than it is read."""
        unclear = [*self.reader.unclear, *doubts(self.context)]
        if unclear:
            raise min(unclear, key=lambda error: error.line or 0)
        if self.has_text_after_end:
            end = self.reader.sections[-1].last
            raise AdaptError(
                end.line, "text after the end, or a column of this name: remove the text, or rename the column"
            )

    # ---- what is written

    def written(self) -> str:
        """The text with all changes, and each section once."""
        self.read()
        sections = self.reader.sections
        is_again = len({section.name for section in sections}) < len(sections)
        if not self.context.script.is_changed and not is_again:
            return self.short(self.text)
        if not is_again:
            return self.short(printed(cell for _, cell in self.context.script.cells(joins_tokens=True)))
        return self.short(printed(cell for part in self.parts() for cell in part))

    def parts(self) -> list[list[Cell]]:
        """The cells of what is before the sections, and of each section, with those of one name in its first place."""
        sections = self.reader.sections
        parts = parted(self.context.script, [section.first.start for section in sections])
        seen: dict[str, int] = {}
        for number, section in enumerate(sections, 1):
            if seen.setdefault(section.name, number) == number or section.name == "end":
                continue
            header = self.text[section.first.start : section.last.end]
            self.log.add(section.first.line, "section-again", header, f"in the first {header}")
            header_cells, cells = parts[number][: section.words], parts[number][section.words :]
            parts[seen[section.name]] += on_new_line(cells, comments_of(header_cells))
            parts[number] = []
        return parts

    def short(self, text: str) -> str:
        """Lines within the limit, up to the line of the end, after which all is ignored."""
        if not self.reader.sections or self.reader.sections[-1].name != "end":
            return with_short_lines(text, "\\", self.log)
        rest = len(self.text) - self.reader.sections[-1].last.end
        line_end = text.find("\n", len(text) - rest)
        cut = len(text) if line_end < 0 else line_end
        return with_short_lines(text[:cut], "\\", self.log) + text[cut:]


def parted(script: Script, starts: list[int]) -> list[list[Cell]]:
    """The cells of a script, in a part for what is before the first place, and one for each place."""
    parts: list[list[Cell]] = [[] for _ in range(len(starts) + 1)]
    at = 0
    for place, cell in script.cells(joins_tokens=False):
        while at < len(starts) and starts[at] <= place:
            at += 1
        parts[at].append(cell)
    return parts


def comments_of(cells: list[Cell]) -> str:
    """The comments before cells."""
    return "".join("\n" + line.strip(" \t\r") for cell in cells for line in cell.space.split("\n") if "\\" in line)


def on_new_line(cells: list[Cell], before: str) -> list[Cell]:
    if not cells:
        return []
    space = before + cells[0].space
    return [Cell(space if "\n" in cells[0].space else f"{before}\n{cells[0].space}", cells[0].text), *cells[1:]]
