"""Pages of reports as tests read them: a model that has all that a page shows, and a reader of HTML."""

import tempfile
from html.parser import HTMLParser
from pathlib import Path

from mpslp._report import page
from repository import EXAMPLES, VECTORS, model_files
from test_load import entries

VOID = {"meta", "br", "col"}

SAMPLE = """\
*SENSE:Maximize
NAME  WEEK-PLAN
ROWS
 N  COST
 N  CO2
 L  HOURS
 G  <script>alert(1)</script>
 E  EVEN
 E  LOW
 L  SAME
 G  BIG&BOLD
 L  EMPTY
COLUMNS
    FIRST  COST  3.25  HOURS  1
    FIRST  BIG&BOLD  1e7  EVEN  1
    M  'MARKER'  'INTORG'
    LINE"1"  COST  -2  HOURS  0.000001
    LINE"1"  LOW  -1
    LINE'2'  COST  12  HOURS  4
    LINE'2'  SAME  1  LOW  0
    THREE  COST  1  <script>alert(1)</script>  3
    M  'MARKER'  'INTEND'
    <b>FOUR</b>  HOURS  2.5  EVEN  -1
    FIVE  SAME  1
    SIX  COST  0
    SEVEN  COST  5
    EIGHT  HOURS  1
RHS
    RHS  COST  -125  HOURS  40
    RHS  BIG&BOLD  5e11  LOW  6
    RHS  CO2  5  SAME  1e30
    RHS  EVEN  3
RANGES
    RNG  HOURS  30  EVEN  4
    RNG  LOW  -2  <script>alert(1)</script>  5
BOUNDS
 UP BND  FIRST  8
 LO BND  LINE'2'  2
 FR BND  FIVE
 UP BND  <b>FOUR</b>  -1
 MI BND  <b>FOUR</b>
 UP BND  THREE  1e30
 UP BND  EIGHT  0
ENDATA
that was all
"""


class Reader(HTMLParser):
    """Reads a page: its tables by their captions, its elements, and whether each is closed."""

    def __init__(self, text):
        super().__init__()
        self.open, self.elements, self.wrong = [], [], []
        self.tables, self.text = {}, {}
        self._row = self._caption = None
        self.feed(text)
        self.close()
        if self.open:
            self.wrong.append(f"open at the end: {self.open}")

    def handle_starttag(self, tag, attributes):
        self.elements.append((tag, dict(attributes), list(self.open)))
        if tag not in VOID:
            self.open.append(tag)
        if tag == "caption":
            self._caption = ""
        elif tag == "tr":
            self._row = []
        elif tag in ("th", "td"):
            self._row.append("")

    def handle_endtag(self, tag):
        if not self.open or self.open.pop() != tag:
            self.wrong.append(f"</{tag}> closes another element")
        if tag == "caption":
            self.tables[self._caption] = []
        elif tag == "tr":
            self.tables[list(self.tables)[-1]].append(self._row)
            self._row = None

    def handle_data(self, data):
        if self.open:
            self.text[self.open[-1]] = self.text.get(self.open[-1], "") + data + "\n"
        if "caption" in self.open:
            self._caption += data
        elif self._row:
            self._row[-1] += data

    def found(self, tag):
        return [attributes for each, attributes, _ in self.elements if each == tag]

    def table(self, caption):
        """The lines of a table without its head, by their first cells."""
        return {line[0]: line[1:] for line in self.tables[caption][1:]}


def read_page(*sources, **options):
    """The page about files, or about texts of MPS, which go to files first."""
    with tempfile.TemporaryDirectory() as directory:
        paths = []
        for number, source in enumerate(sources):
            if isinstance(source, str):
                path = Path(directory, f"{'ab'[number]}.mps")
                path.write_text(source)
                source = path
            paths.append(source)
        return Reader(page(paths, **options))


def models():
    """All files of examples/ and vectors/ that define models."""
    return model_files(EXAMPLES) + [VECTORS / entry.input for entry in entries() if entry.answer == "model"]


def number(text):
    return int(text.replace(",", "") or "0")
