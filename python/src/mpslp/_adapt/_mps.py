"""MPS files: from a file as it comes to a file that mpslp reads.

The headers are read here, and the sections are put in order; _mps_data reads the lines between them, _mps_rules has
what is changed in a line, and _mps_meant what a dialect means beside the text.
"""

from __future__ import annotations

import re
from collections.abc import Sequence

from mpslp._adapt import _mps_fixed as fixed
from mpslp._adapt._accepted import left_for
from mpslp._adapt._changes import AdaptError, Log
from mpslp._adapt._long_lines import with_short_lines
from mpslp._adapt._mps_data import SPECIAL_SETS, DataLines
from mpslp._adapt._mps_dialects import MpsDialect, mps_dialect
from mpslp._adapt._mps_lines import Line, Section, Sections, joined, lines_of
from mpslp._adapt._mps_meant import Meant
from mpslp._adapt._mps_reasons import nearest
from mpslp._adapt._mps_state import Row, State
from mpslp._adapt._mps_trailing import Place, reason_to_keep
from mpslp._errors._faults import ModelFileError
from mpslp._text._mps_words import HEADERS, SENSES

_LONE_RETURN = re.compile(r"\r(?!\n)")
_SENSES = {
    "MAX": "MAX",
    "MAXIMIZE": "MAX",
    "MAXIMISE": "MAX",
    "MAXIMUM": "MAX",
    "MIN": "MIN",
    "MINIMIZE": "MIN",
    "MINIMISE": "MIN",
    "MINIMUM": "MIN",
}
_NEEDS: dict[str, tuple[str, ...]] = {"COLUMNS": ("ROWS",)}
_NEEDS.update(dict.fromkeys(("RHS", "RANGES", "BOUNDS", "ENDATA"), ("ROWS", "COLUMNS")))
_ONE_WORD = ("OBJSENSE", "OBJNAME")
_MAY_COME_AGAIN = ("RHS", "RANGES", "BOUNDS")
_NOT_SUPPORTED = {
    **dict.fromkeys(
        ("QSECTION", "QMATRIX", "QUADOBJ", "QCMATRIX", "CSECTION"),
        "a quadratic model: mpslp has linear ones; remove the section, or linearise the terms",
    ),
    **dict.fromkeys(("SOS", "SOS1", "SOS2"), SPECIAL_SETS),
    "INDICATORS": "indicator rows: write each as a row with a large coefficient",
    "GENCONS": "general constraints: write them as rows with binary columns",
    "PWLOBJ": "a piecewise linear objective: write it with a column and a row for each piece",
    **dict.fromkeys(("LAZYCONS", "USERCUTS"), "rows of their own kind: move them to ROWS, or remove the section"),
}


def adapt_mps(text: str, dialect: str | None, log: Log) -> tuple[str, dict[str, str]]:
    """The text that mpslp reads, and the names written instead of names given."""
    habits, before, reported = mps_dialect(dialect), list(log.changes), list(log.reported)
    require_line_ends(text)
    reader = Reader(lines_of(text), habits, log)
    try:
        return reader.read(), reader.state.names.written
    except AdaptError as error:
        # A line that is wrong in free layout may be right in fixed columns, if every line is.
        again = Log(log.kinds_not_wanted)
        lines = fixed.lines_of_fields(lines_of(text), again)
        if lines is None:
            raise
        reader = Reader(lines, habits, again)
        try:
            adapted = reader.read()
        except AdaptError:
            raise error from None
        log.changes[:], log.reported[:] = before + again.changes, reported + again.reported
        log.notes[:], log.source_lines = again.notes, again.source_lines
        return adapted, {**fixed.names_of(again), **reader.state.names.written}


def require_line_ends(text: str) -> None:
    """A carriage return before the end of the model ends its line together with a line feed: it is
    no part of a field.
    """
    if _LONE_RETURN.search(text) is None:
        return
    for line in lines_of(text):
        if "\r" in line.source and not line.is_comment():
            raise AdaptError(
                line.number, "a carriage return without a line feed after it: write each line end as LF, or as CRLF"
            )
        if is_end(line):
            return


def is_end(line: Line) -> bool:
    """Whether a line is the header ENDATA, after which nothing is read."""
    return not (line.is_data() or line.is_empty()) and keyword_of(line) == "ENDATA"


def keyword_of(header: Line) -> str:
    """The keyword of a header; some programs write a colon after it."""
    return header.fields()[0].rstrip(":").upper()


class Reader:
    """Reads the lines of a file, and puts them into the sections to write."""

    def __init__(self, lines: list[Line], dialect: MpsDialect, log: Log) -> None:
        self.lines = lines
        self.log = log
        self.state = State(lines, dialect, log)
        self.data = DataLines(self.state)
        self.sections = Sections(self.state.section)
        self.wants_word = ""

    # ---- lines and sections

    def read(self) -> str:
        for at, line in enumerate(self.lines):
            if line.is_comment() or line.is_empty():
                self.state.section.lines.append(line)
            elif line.is_data():
                self.data_line(line)
            elif self.header(line) == "ENDATA":
                self.sections.append(Section("", self.lines[at + 1 :]))
                break
        if self.wants_word:
            raise AdaptError(
                self.lines[-1].number, f"{self.wants_word} without its word: write the word on the next line"
            )
        self.check_objective()
        Meant(self.state, self.sections).add()
        return self.written()

    def check_objective(self) -> None:
        name, section = self.state.objective_named, self.sections.found("OBJNAME")
        if name is not None and section is not None and name not in self.state.rows:
            raise AdaptError(
                section.lines[0].number, f"OBJNAME names {name}, which is not a row{nearest(name, self.state.rows)}"
            )

    def written(self) -> str:
        """The text of all sections; what is after the end stays as it is."""
        sections = self.sections.all
        end = next((at for at, section in enumerate(sections) if section.name == "ENDATA"), len(sections))
        before, after = (
            [line for section in part for line in section.lines] for part in (sections[:end], sections[end:])
        )
        self.log.source_lines = [line.number for line in (*before, *after)]
        if after:
            before.append(Line(0, "", ""))  # so that the last line gets an end
        return with_short_lines(joined(before), "*", self.log) + joined(after)

    def data_line(self, line: Line) -> None:
        if self.wants_word:
            self.word_line(line)
        else:
            self.data.read(line)
        self.state.section.lines.append(line)

    def header(self, line: Line) -> str:
        """The keyword of a header, which opens its section; or nothing for a data line that is not indented."""
        fields = line.fields()
        keyword = keyword_of(line)
        if self.is_not_indented(keyword, fields):
            before = line.text
            line.indent()
            self.log.add(line.number, "indent", before, line.text)
            self.data_line(line)
            return ""
        if keyword in _NOT_SUPPORTED:
            raise AdaptError(line.number, _NOT_SUPPORTED[keyword])
        if keyword not in HEADERS:
            raise AdaptError(line.number, f"{fields[0]} is not a section of MPS{nearest(keyword, HEADERS)}")
        if self.wants_word:
            raise AdaptError(line.number, f"{self.wants_word} without its word: write the word on the next line")
        self.data.rewrite(line, "letter-case", [keyword, *fields[1:]])
        self.words_of_header(line, keyword)
        self.open(line, keyword)
        return keyword

    def is_not_indented(self, keyword: str, fields: Sequence[str]) -> bool:
        """Whether a line that starts in the first column is a data line."""
        if self.wants_word:
            return keyword in _SENSES if self.wants_word == "OBJSENSE" else keyword not in HEADERS
        section = self.state.section.name
        if keyword in HEADERS or keyword in _NOT_SUPPORTED:
            return keyword == section and keyword in _MAY_COME_AGAIN and len(fields) > 2
        return section in ("ROWS", "COLUMNS", *_MAY_COME_AGAIN) and len(fields) > 1

    # ---- words of headers

    def words_of_header(self, line: Line, keyword: str) -> None:
        """What comes after a keyword."""
        fields = line.fields()
        if keyword == "NAME":
            self.name_line(line)
        elif keyword in _ONE_WORD:
            self.word_in_header(line, keyword, fields)
        elif len(fields) > 1:
            if fields[1][0] not in "$*":
                raise AdaptError(
                    line.number,
                    (
                        f"{fields[1]} after {keyword}: a header has one word; put data lines after it, each with a"
                        " space first"
                    ),
                )
            reason = reason_to_keep(self.state, line, 1, Place.HEADER)
            if reason is not None:
                raise AdaptError(line.number, reason)
            self.data.rewrite(line, "trailing-text", [keyword])

    def name_line(self, line: Line) -> None:
        if not all("\t" == each or " " <= each <= "~" for each in line.source):
            self.data.rewrite(line, "name", [self.state.names.of(each) for each in line.fields()])

    def word_in_header(self, line: Line, keyword: str, fields: Sequence[str]) -> None:
        self.wants_word = ""
        if len(fields) == 1:
            self.wants_word = keyword
        elif keyword == "OBJSENSE":
            self.data.rewrite(line, "objsense", [keyword, self.sense(line, fields[1]), *fields[2:]])
        else:
            self.name_objective(fields[1])

    def word_line(self, line: Line) -> None:
        """The data line with the word of OBJSENSE or OBJNAME."""
        fields = line.fields()
        if self.wants_word == "OBJSENSE":
            self.data.rewrite(line, "objsense", [self.sense(line, fields[0]), *fields[1:]])
        else:
            self.name_objective(fields[0])
        self.wants_word = ""

    def name_objective(self, name: str) -> None:
        """The objective is the row that OBJNAME names, also if that comes after COLUMNS."""
        self.state.objective_named = name
        if self.state.objective is not None:
            self.state.objective = name

    def sense(self, line: Line, word: str) -> str:
        if word.upper() not in _SENSES:
            raise AdaptError(line.number, f"{word} is not a sense: write MAX or MIN")
        self.state.sense = _SENSES[word.upper()]
        return word if word in SENSES else self.state.sense

    # ---- sections

    def open(self, line: Line, keyword: str) -> None:
        """Opens a section: a part of RHS, RANGES or BOUNDS that came before goes on there, and the sense goes before
        ROWS.
        """
        before = self.sections.found(keyword)
        missing = next((each for each in _NEEDS.get(keyword, ()) if self.sections.found(each) is None), None)
        if missing is not None:
            raise AdaptError(line.number, f"{keyword} before {missing}: move it after that section")
        if before is not None and keyword not in _MAY_COME_AGAIN:  # its rows and columns may be named before it
            raise left_for(ModelFileError("SectionRepeated", line.number), line.number)
        if before is not None:
            self.log.add(line.number, "section-again", line.text, f"in the first {keyword}")
            self.state.section = before
            return
        section = Section(keyword, [line])
        rows = self.sections.found("ROWS")
        if keyword in _ONE_WORD and rows is not None:
            self.log.add(line.number, "section-order", line.text, "before ROWS")
            self.sections.insert_before(rows, section)
        else:
            self.sections.append(section)
        self.state.section = section
        if keyword == "COLUMNS":
            self.choose_objective()

    def choose_objective(self) -> None:
        """The N row that OBJNAME names, or the first; without one there is an objective named obj."""
        state = self.state
        state.objective = state.objective_named or next(
            (name for name, row in state.rows.items() if row.kind == "N"), None
        )
        if state.objective is None and "obj" not in state.rows:
            state.objective = "obj"
            state.rows["obj"] = Row("N", 0)
