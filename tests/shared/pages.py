"""A page of the documents whose commands, files, tables and links are tested in a scratch directory with the
repository's examples.

A comment before a fenced block or a table, which a reader of the page does not see, says how:

    <!-- file: NAME -->        the block is the file NAME
    <!-- prints: COMMAND -->   the block is what the command prints
    <!-- runs -->              the block is run by sh -e and ends with status 0
    <!-- table: FORM -->       each row is checked in the way of this form, which the page's class knows
    <!-- check: COMMAND -->    without a block: the command ends with status 0
    <!-- needs: PROGRAM -->    if it is missing, the part from here to the next paragraph
                               in bold or heading is skipped, and reported as skipped.
                               There may be several, and several words are a command
                               that ends with status 0 if what is needed is there

A block in the language console needs no comment: a line that begins with "$ "
is a command, and the lines up to the next one are what it prints.

Links within the repository must lead to a file, and to a heading of it.
"""

import os
import re
import shutil
import subprocess
from pathlib import Path

ROOT = Path(__file__).resolve().parents[2]
MARK = re.compile(r"<!-- (file|prints|table|check|needs): (.+) -->$|<!-- (runs) -->$")
PARAGRAPH = re.compile(r"#+ |\*\*")
FENCE = re.compile(r"( *)```(.*)$")
LINK = re.compile(r"\[[^\]\[]*\]\(([^)#\s]*)(?:#([^)\s]*))?\)")
SECONDS = 300


class Wrong(Exception):
    """What differs, in words."""


class Scratch:
    """A directory with the examples and the header, in which commands find mpslp and git."""

    def __init__(self, folder, program):
        self.folder = Path(folder)
        (self.folder / "bin").mkdir()
        (self.folder / "work").mkdir()
        (self.folder / "bin" / "mpslp").symlink_to(program)
        self.work = self.folder / "work"
        for name in ("examples", "include"):
            shutil.copytree(ROOT / name, self.work / name)
        names = {
            "GIT_AUTHOR_NAME": "a",
            "GIT_AUTHOR_EMAIL": "a@b",
            "GIT_COMMITTER_NAME": "a",
            "GIT_COMMITTER_EMAIL": "a@b",
        }
        path = f"{self.folder / 'bin'}{os.pathsep}{os.environ['PATH']}"
        self.environment = {
            **os.environ,
            **names,
            "PATH": path,
            "HOME": str(self.folder),
            "GIT_CONFIG_NOSYSTEM": "1",
            "GIT_PAGER": "cat",
            "LC_ALL": "C",
        }

    def run(self, command):
        """The exit status, and what was printed on both streams."""
        try:
            done = subprocess.run(
                ["sh", "-e", "-c", command],
                cwd=self.work,
                env=self.environment,
                timeout=SECONDS,
                stdout=subprocess.PIPE,
                stderr=subprocess.STDOUT,
            )
        except subprocess.TimeoutExpired:
            raise Wrong(f"`{command}` ran over {SECONDS} seconds") from None
        return done.returncode, done.stdout

    def mpslp(self, words, text=b""):
        """Status and text of the program on a file that is its standard input."""
        done = subprocess.run(
            [self.folder / "bin" / "mpslp", *words.split(), "-"],
            timeout=SECONDS,
            input=text,
            stdout=subprocess.PIPE,
            stderr=subprocess.STDOUT,
        )
        return done.returncode, done.stdout.decode("latin-1")

    def wants(self, command, expected):
        printed = self.run(command)[1]
        if printed != expected:
            raise Wrong(f"`{command}` prints {first_difference(printed, expected)}")

    def succeeds(self, command):
        status, printed = self.run(command)
        if status != 0:
            raise Wrong(
                f"`{command.splitlines()[0]}` ends with status {status}: {printed.decode('latin-1').strip()[-200:]}"
            )


def first_difference(printed, expected):
    """The first line in which the output differs from the document."""
    have, want = (text.decode("latin-1").split("\n") for text in (printed, expected))
    for number in range(max(len(have), len(want))):
        lines = [repr(text[number]) if number < len(text) else "no more" for text in (have, want)]
        if lines[0] != lines[1]:
            return f"{lines[0]} as line {number + 1}, the document has {lines[1]}"
    return "the same"


class Document:
    """One page, and which parts of it were checked."""

    # The forms of tables by name, and those of tables that are known by their head, without a comment.
    FORMS: dict = {}
    HEADS: dict = {}

    def __init__(self, path, scratch):
        self.path = path
        self.name = str(path.relative_to(ROOT))
        self.scratch = scratch
        scratch.page = path.read_text()
        self.lines = scratch.page.split("\n")
        self.tried = 0
        self.wrong = []
        self.passes_over = False

    def attempt(self, number, action, *arguments):
        if self.passes_over:
            return
        self.tried += 1
        try:
            action(*arguments)
        except Wrong as wrong:
            self.wrong.append(f"{self.name}:{number}: {wrong}")

    def check(self):
        marks, at = [], 0
        while at < len(self.lines):
            line, number = self.lines[at], at + 1
            mark, fence = MARK.match(line.strip()), FENCE.match(line)
            if PARAGRAPH.match(line):
                self.passes_over = False
            if fence:
                block, at = self.block(at, len(fence[1]))
                self.check_block(number, marks, fence[2].strip(), block)
                marks = []
            elif mark and mark[1] == "needs":
                self.need(number, mark[2])
            elif mark and mark[1] == "check":
                self.attempt(number, self.scratch.succeeds, mark[2])
            elif mark:
                marks.append((mark[1] or mark[3], mark[2]))
            elif line.startswith("|") and (marks or line in self.HEADS):
                rows, at = self.table(at)
                self.check_table(number, marks or [("table", self.HEADS[line])], rows)
                marks = []
            elif line.strip() and marks:
                self.wrong.append(f"{self.name}:{number}: no block and no table after the comment")
                marks = []
            elif not fence:
                self.check_links(number, line)
            at += 1

    def need(self, number, what):
        is_there = self.scratch.run(what)[0] == 0 if " " in what else shutil.which(what)
        if not is_there:
            self.passes_over = True
            print(f"skipped: {self.name}:{number}: {what} is missing")

    def block(self, at, indent):
        """The lines of a fenced block, and the line that ends it."""
        end = at + 1
        while not self.lines[end].strip() == "```":
            end += 1
        return [line[indent:] for line in self.lines[at + 1 : end]], end

    def table(self, at):
        """The rows of the table with their line numbers, without its head, and its last line."""
        end = at
        while end + 1 < len(self.lines) and self.lines[end + 1].startswith("|"):
            end += 1
        rows = range(at + 2, end + 1)
        return [
            (row + 1, [cell.strip() for cell in re.split(r"(?<!\\)\|", self.lines[row])[1:-1]]) for row in rows
        ], end

    def check_block(self, number, marks, language, block):
        text = "".join(line + "\n" for line in block)
        for kind, value in marks:
            if kind == "file":
                (self.scratch.work / value).write_text(text)
            elif kind == "prints":
                self.attempt(number, self.scratch.wants, value, text.encode())
            elif kind == "runs":
                self.attempt(number, self.scratch.succeeds, text)
            else:
                self.wrong.append(f"{self.name}:{number}: a block where a table is wanted")
        if language == "console":
            for part in re.split(r"^\$ ", text, flags=re.M)[1:]:
                command, _, expected = part.partition("\n")
                self.attempt(number, self.scratch.wants, command, expected.encode())

    def check_table(self, number, marks, rows):
        for kind, form in marks:
            if kind != "table" or form.split()[0] not in self.FORMS:
                self.wrong.append(f"{self.name}:{number}: no such form of table: {form}")
                continue
            words = form.split()
            check = self.FORMS[words[0]](self.scratch, *words[1:])
            for line, cells in rows:
                for answer in answers_of(check, cells):
                    self.tried += 1
                    if answer:
                        self.wrong.append(f"{self.name}:{line}: {answer}")
            self.wrong += [f"{self.name}:{number}: {answer}" for answer in check.at_end()]

    def check_links(self, number, line):
        for target, heading in LINK.findall(re.sub(r"`[^`]*`", "", line)):
            if re.match(r"[a-z]+:", target):
                continue
            path = (self.path.parent / target).resolve() if target else self.path
            self.attempt(number, leads_somewhere, path, heading, target)


def answers_of(check, cells):
    """The results of a form for a row; a row that it cannot read is a difference, too."""
    try:
        return list(check(cells) or ())
    except (LookupError, ValueError, AttributeError, RuntimeError) as error:
        return [f"a row that cannot be read: {error}"]


def leads_somewhere(path, heading, target):
    if not path.exists():
        raise Wrong(f"{target} is not there")
    if heading and heading not in headings(path):
        raise Wrong(f"no heading #{heading} in {path.relative_to(ROOT)}")


def headings(path):
    """The anchors of a page outside fenced blocks: those of its headings, and those that keep links to an earlier
    heading valid."""
    outside = re.sub(r"^( *)```.*?^\1```$", "", path.read_text(), flags=re.S | re.M)
    titles = re.findall(r"^#+ (.*)$", outside, flags=re.M)
    earlier = re.findall(r'^<a id="([^"]*)"></a>$', outside, flags=re.M)
    return {re.sub(r"[^\w\- ]", "", title.lower()).replace(" ", "-") for title in titles} | set(earlier)
