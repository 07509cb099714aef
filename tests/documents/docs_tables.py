"""The tables of the documents whose rows are checked, each form in its own way.

A form gets the scratch directory. Called with the cells of a row, it yields for each
check the difference, or None. at_end returns what is missing in the whole table.
"""

import re
import sys
from fractions import Fraction
from pathlib import Path

import errors

sys.path.insert(0, str(Path(__file__).resolve().parents[1]))

from shared.error_causes import causes
from shared.fault_examples import EXAMPLES


def spans(cell):
    return re.findall(r"`([^`]*)`", cell)


def difference_of(what, answer, expected):
    return None if answer == expected else f"{what}: {answer.strip()!r}, the document has {expected.strip()!r}"


class Form:
    def __init__(self, scratch, *words):
        self.scratch = scratch
        self.words = words

    def at_end(self):
        return ()

    def answer(self, words, text):
        """What the program prints for a text, or the line of its error."""
        return self.scratch.mpslp(words, text.encode())[1]

    def coefficient(self, literal):
        """The number text of a literal as a coefficient in MPS, or the error."""
        answer = self.answer("canon mps mps", f"ROWS\n N  C\nCOLUMNS\n    X  C  {literal}\nENDATA\n")
        found = re.search(r"^    X  C  (.*)$", answer, flags=re.M)
        return found[1] if found else answer.strip()


class Literals(Form):
    """Literals, and their values or the kind of their error."""

    def __call__(self, cells):
        literals, values = spans(cells[0]), cells[1].split(", ")
        kinds = spans(cells[1])
        for number, literal in enumerate(literals):
            answer = self.coefficient(literal)
            if kinds:
                yield difference_of(literal, answer, f"line 4: {kinds[0]}")
                continue
            try:
                wrong = Fraction(answer) != Fraction(
                    literal if "accepted" in cells[1] else values[number % len(values)]
                )
            except ValueError:
                wrong = True
            yield f"{literal}: {answer}, the document has {cells[1]}" if wrong else None


class NumberText(Form):
    """Values, and the text that is printed for them."""

    def __call__(self, cells):
        for value, text in zip(cells[0].split(", "), spans(cells[1])):
            factor, _, power = value.rpartition("10^")
            literal = f"{factor.removesuffix(' * ') or 1}e{power}" if "10^" in value else value
            yield difference_of(value, self.coefficient(literal), text)


class Bounds(Form):
    """Lines of BOUNDS of a column X, and its bounds or the kind of the error."""

    def __call__(self, cells):
        lines = spans(cells[0])
        choices = [lines]
        if re.search(r"` or `", cells[0]):
            choices = [lines[:-2] + [line] for line in lines[-2:]]
        for lines in choices:
            yield self.tried(lines, "marked" in cells[0], cells[1])

    def tried(self, lines, marked, expected):
        column = ["    X  C  1"]
        if marked:
            column = ["    M  'MARKER'  'INTORG'", *column, "    M  'MARKER'  'INTEND'"]
        above = ["ROWS", " N  C", "COLUMNS", *column, "BOUNDS", *lines]
        answer = self.answer("show mps", "\n".join([*above, "ENDATA", ""])).strip()
        kinds = spans(expected)
        if kinds:
            fits = (f"file: {kinds[0]} X", f"line {len(above)}: {kinds[0]}")
            return None if answer in fits else f"{lines}: {answer}, the document has {expected}"
        bounds = re.search(r"(minus infinity|\S+) to (plus infinity|[-\d]+)", expected)
        lower, upper = (
            side.replace("minus infinity", "-inf").replace("plus infinity", "inf") for side in bounds.groups()
        )
        kind = "semi" if "semi" in expected else "integer" if "integer" in expected or marked else "continuous"
        line = f"column 0 X {kind} {lower} {upper} objective 1"
        return None if answer.split("\n")[-1] == line else f"{lines}: {answer.split(chr(10))[-1]}, wanted is {line}"


class RowTypes(Form):
    """Types of MPS rows and their ranges, and the limits of a row with right-hand side 4."""

    SIDE = 4
    RANGES = {"none": (None,), "none, or 0": (None, 0), "any": (0, 3, -3), "above 0": (3,), "below 0": (-3,)}

    def limit(self, cell, size):
        infinite = {"minus infinity": "-inf", "plus infinity": "inf"}
        sign = -1 if " - " in cell else 1 if " + " in cell else 0
        return infinite.get(cell, str(self.SIDE + sign * size))

    def __call__(self, cells):
        for distance in self.RANGES[cells[1]]:
            section = "" if distance is None else f"RANGES\n    K  {distance}\n"
            answer = self.answer(
                "show mps",
                f"ROWS\n N  C\n {cells[0]}  K\nCOLUMNS\n    X  C  1\n" f"RHS\n    K  {self.SIDE}\n{section}ENDATA\n",
            )
            limits = " ".join(self.limit(cell, abs(distance or 0)) for cell in cells[2:])
            yield None if re.search(
                rf"^row 0 K . {limits} ", answer, flags=re.M
            ) else f"{distance}: {answer!r}, wanted is {limits}"


class LpForms(Form):
    """Forms of a row or a bound in LP, and what they declare, with v = 3, l = 1 and u = 7."""

    SPELLINGS = {"<": ("<", "<=", "=<"), ">": (">", ">=", "=>"), "v": ("3",), "l": ("1",), "u": ("7",)}
    WORDS = (
        ("lower limit l, upper limit u", "1 7"),
        ("lower bound l, upper bound u", "1 7"),
        ("upper limit v", "-inf 3"),
        ("lower limit v", "3 inf"),
        ("both limits v", "3 3"),
        ("upper bound v", "0 3"),
        ("lower bound v", "3 inf"),
        ("both bounds v", "3 3"),
        ("lower bound minus infinity, upper bound plus infinity", "-inf inf"),
    )

    def spelled(self, word, number):
        spellings = self.SPELLINGS.get(word, (word,))
        return spellings[number % len(spellings)]

    def __call__(self, cells):
        expected = next(sides for words, sides in self.WORDS if cells[1].startswith(words))
        for form in spans(cells[0]):
            form = form.replace("terms", "x + y")
            place = "min x\nst\n{}\nend\n" if "y" in form else "min x\nbounds\n{}\nend\n"
            line = "^row 0 c1 . {} " if "y" in form else "^column 0 x continuous {} "
            for number in range(3):
                text = " ".join(self.spelled(word, number) for word in form.split())
                answer = self.answer("show lp", place.format(text))
                yield None if re.search(
                    line.format(expected), answer, flags=re.M
                ) else f"{text}: {answer!r}, wanted is {expected}"


class Changes(Form):
    """Changes of the lines of an MPS file, and the resulting errors."""

    def __init__(self, scratch, name):
        super().__init__(scratch)
        self.lines = (scratch.work / name).read_text().split("\n")[:-1]

    def changed(self, change):
        """The texts of a change."""
        after = re.fullmatch(r"a line `([^`]*)` after line (\d+)", change)
        change, _, more = change.partition(", and a line ")
        missing = re.fullmatch(r"line (\d+) is missing", change)
        one = re.fullmatch(r"line (\d+) is `[^`]*`(, `[^`]*`)*", change)
        several = re.fullmatch(r"lines? (\d+)(?: and (\d+))? (?:is|are) `([^`]*)` and `([^`]*)`", change)
        if after:
            yield self.lines[: int(after[2])] + [after[1]] + self.lines[int(after[2]) :]
        elif missing:
            yield self.lines[: int(missing[1]) - 1] + self.lines[int(missing[1]) :]
        elif several:
            first = int(several[1])
            yield self.lines[: first - 1] + [several[3], several[4]] + self.lines[int(several[2] or first) :]
        elif one:
            at = int(one[1])
            for line in spans(change):
                yield self.lines[: at - 1] + [line] + (spans(more)[:1] if more else []) + self.lines[at:]
        else:
            raise ValueError(f"a change that cannot be read: {change}")

    def __call__(self, cells):
        answers = spans(cells[1])
        if len(answers) > 1:
            place = answers[0].split(": ")[0]
            answers = [answers[0]] + [f"{place}: {kind}" for kind in answers[1:]]
        for number, lines in enumerate(self.changed(cells[0])):
            expected = answers[min(number, len(answers) - 1)]
            yield difference_of(cells[0], self.answer("canon mps mps", "\n".join(lines) + "\n").strip(), expected)


class LpCases(Form):
    """Texts within an LP file, and the kinds and places of their errors."""

    def whole(self, cell, text):
        """The texts before and after the text."""
        if text.startswith("min"):
            return "", "" if "no more" in cell else "\nend\n"
        if cell.startswith("in bounds"):
            return "min x\nst\nx >= 1\nbounds\n", "\nend\n"
        if "first token" in cell:
            return "", "\n"
        if "on one line" in cell:
            return "min x\nst\nx >= 1\n", "\n"
        return "min x\nst\n", "\nend\n"

    def __call__(self, cells):
        text = (spans(cells[0]) or ["x"])[0]
        kind, *places = spans(cells[1])
        before, following = self.whole(cells[0], text)
        answer = self.answer("canon lp lp", before + text + following).strip()
        above = before.count("\n")
        lines = (above + 1, above + 2) if "then `end`" in cells[0] else (above + 1,)
        fits = ["file: MissingEnd"] if kind == "MissingEnd" else [f"line {line}: {kind}" for line in lines]
        yield None if answer in fits else f"{text}: {answer}, the document has {cells[1]}"
        if not places or "at " not in cells[1]:
            return
        tokens = text.split() + (["end"] if "end" in following else [])
        at = tokens.index(places[0])
        if "the second" in cells[1]:
            at = tokens.index(places[0], at + 1)
        split = self.answer("canon lp lp", before + "\n".join(tokens[: len(text.split())]) + following).strip()
        yield difference_of(f"{text}, a token on each line", split, f"line {above + at + 1}: {kind}")


class Tokens(Form):
    """Texts of LP, and their tokens: the text has the same result as its tokens with spaces between them."""

    PLACES = (
        "min {}\nend\n",
        "min x\nst\n{}\nend\n",
        "min x\nst\n{} <= 7\nend\n",
        "min x\nst\nx >= 1\nbounds\n{}\nend\n",
    )

    def __call__(self, cells):
        text = spans(cells[0])[0]
        tokens = [token for token in spans(cells[1]) if not token.startswith("Name")]
        if "".join(tokens) != text.replace(" ", ""):
            yield f"{text}: the tokens {tokens} are not its bytes"
        for place in self.PLACES:
            answers = [self.answer("canon lp lp", place.format(form)) for form in (text, " ".join(tokens))]
            yield difference_of(f"{text} in {place!r}", *answers)


class Reserved(Form):
    """Reserved words of LP, each checked in three spellings of upper and lower case."""

    MEANINGS = (
        ("minimise", "{} x\nend\n", "Minimize"),
        ("maximise", "{} x\nend\n", "Maximize"),
        ("opens the row", "min x\n{}\nx >= 3\nend\n", ">= 3"),
        ("opens Bounds", "min x\n{}\nx <= 3\nend\n", "<= 3"),
        ("opens Generals", "min x\n{}\nx\nend\n", "Generals\n x"),
        ("opens Binaries", "min x\n{}\nx\nend\n", " 0 <= x <= 1\nGenerals\n x"),
        ("opens the semi", "min x\nbounds\nx <= 3\n{}\nx\nend\n", "Semi-Continuous\n x"),
        ("ends", "min x\n{}", "End"),
        ("infinity", "min x\nbounds\nx >= -{}\nend\n", "x free"),
        ("both bounds", "min x\nbounds\nx {}\nend\n", "x free"),
        ("rejected", "min {}\nend\n", ": Sos"),
    )

    def __call__(self, cells):
        words = cells[0]
        for first, others in (
            ("`subject` followed by `to`", "`subject to`"),
            ("`such` followed by `that`", "`such that`"),
            ("`semi` followed by `-` and `continuous`", "`semi-continuous`, `semi - continuous`"),
        ):
            words = words.replace(first, others)
        frame = next((frame for frame in self.MEANINGS if cells[1].startswith(frame[0])), None)
        if not frame:
            yield f"no such meaning: {cells[1]}"
            return
        for word in spans(words):
            for form in (word, word.upper(), word.title()):
                answer = self.answer("canon lp lp", frame[1].format(form))
                yield None if frame[2] in answer else f"{form}: {answer!r}, wanted is {frame[2]!r}"


class Keywords(Form):
    """MPS headers, and the kind with which they are rejected."""

    def __call__(self, cells):
        for word in spans(cells[0]) or ["WORD", "rows"]:
            answer = self.answer("canon mps mps", f"NAME\n{word}\nENDATA\n").strip()
            yield difference_of(word, answer, f"line 2: {spans(cells[1])[0]}")


class Files(Form):
    """The files of examples/, with the sizes that some rows state."""

    def __init__(self, scratch):
        super().__init__(scratch)
        self.left = {path.name for path in (scratch.work / "examples").iterdir() if path.suffix != ".md"}

    def __call__(self, cells):
        name = spans(cells[0])[0]
        path = self.scratch.work / "examples" / name
        if not path.exists():
            yield f"{name} is not there"
            return
        self.left.discard(name)
        size = re.search(r"(\d+) bytes", cells[1])
        yield difference_of(name, str(path.stat().st_size), size[1]) if size else None

    def at_end(self):
        return [f"{name} is not in the table" for name in sorted(self.left)]


class Statuses(Form):
    """Exit statuses, with runs that end so; tests/program/refused.py tests the one for out of memory."""

    RUNS = {
        "0": (("canon mps mps examples/small.mps", None), ("same mps examples/small.mps lp examples/small.lp", "same")),
        "1": (("same mps examples/small.mps lp examples/semi.lp", "not the same"),),
        "2": (
            ("canon mps mps short", "file: MissingEnd"),
            ("same mps short mps short", "first: file: MissingEnd"),
            ("same mps examples/small.mps mps short", "second: file: MissingEnd"),
            ("canon mps lp unfit", "row 0: NotLp"),
        ),
        "3": (
            ("", None),
            ("canon mps", None),
            ("convert a b", None),
            ("same mps - mps -", "both inputs are -"),
            ("show free -", "unknown format: free"),
            ("canon mps mps -a.mps", None),
            ("canon mps mps \"$(printf '\\377.mps')\"", "error: an argument is not valid UTF-8"),
        ),
        "4": (
            ("canon mps mps nowhere", "read failed"),
            ("canon mps mps examples", "read failed"),
            ("canon mps mps nowhere 2>&-", None),
            ("canon mps mps examples/small.mps > /dev/full", "write failed"),
            ("canon mps mps examples/small.mps >&-", "write failed"),
        ),
        "5": (),
    }
    # What the man page says of paths and streams, each a script that ends with status 0.
    SCRIPTS = (
        "(sleep 0.2; status=0; mpslp show mps examples/small.mps 2> errors || status=$?; echo $status > ended) | true; "
        "sleep 0.6; grep -qx 4 ended; grep -qx 'write failed' errors",
        "cp examples/small.mps -- -a.mps; mpslp canon -- mps mps -a.mps | cmp - examples/small.canonical.mps; "
        "mpslp canon mps mps ./-a.mps | cmp - examples/small.canonical.mps",
        "name=$(printf '\\377.mps'); cp examples/small.mps \"$name\"; "
        'mpslp canon mps mps - < "$name" | cmp - examples/small.canonical.mps',
        "dd if=examples/small.lp bs=1 2> /dev/null | mpslp canon lp mps - | cmp - examples/small.canonical.mps",
    )
    FILES = {"short": "ROWS\n", "unfit": "ROWS\n N  C\n L  R[1]\nCOLUMNS\n    X  C  1  R[1]  1\nENDATA\n"}

    def __call__(self, cells):
        for name, text in self.FILES.items():
            (self.scratch.work / name).write_text(text)
        for words, line in self.RUNS[cells[0]]:
            status, printed = self.scratch.run(f"exec mpslp {words}")
            printed = printed.decode("latin-1")
            yield difference_of(f"mpslp {words}", str(status), cells[0])
            fits = printed.strip() == line or line is None
            yield None if fits else f"mpslp {words}: {printed.strip()!r}, expected {line!r}"
            stated = [span for span in spans(cells[2]) if line and span.split(" ")[0] == line.split(" ")[0]]
            yield None if cells[0] < "2" or stated or not line or ": file" in line else f"{line!r} is not in the table"

    def at_end(self):
        return [
            f"{script}: status {status}, {printed!r}"
            for script in self.SCRIPTS
            for status, printed in [self.scratch.run(script)]
            if status
        ]


class Sections(Form):
    """Headers and examples of their data lines, which together are a file."""

    def __init__(self, scratch, name):
        super().__init__(scratch)
        self.path = scratch.work / name
        self.lines = []

    def __call__(self, cells):
        self.lines += [line for line in spans(cells[0])[:1] if line not in self.lines] + spans(cells[3])
        self.path.write_text("\n".join(self.lines) + "\n")
        return ()


def in_bytes(file, encoding):
    """The format of a file, and its text in this encoding."""
    form, text = file
    return form, text.encode(encoding)


class Errors(Form):
    """The table of docs/errors.tsv: every kind that has a rank, NotLp and TooLong, in alphabetical order.

    The example of a cause is rejected with its kind before the fix, and accepted after it;
    so are the examples of tests/shared/fault_examples.py. For NotLp the text is converted to LP.
    """

    RANK = re.compile(r"^\| \d+ \| `(\w+)` \| (?:both|neither|MPS|LP) \|", flags=re.M)

    def __init__(self, scratch):
        super().__init__(scratch)
        self.kinds = []
        self.ranked = self.RANK.findall(errors.ORDER.read_text())
        self.causes = list(causes())
        self.rows = errors.table().splitlines()

    def __call__(self, cells):
        at = len(self.kinds)
        cause = self.causes[at]
        self.kinds.append(cause.kind)
        yield None if self.rows[at] == "".join(f"| {cell} " if cell else "| " for cell in cells).rstrip() + " |" else (
            f"{cause.kind}: not the row of errors.tsv; run `python3 tests/documents/errors.py --write`"
        )
        if cause.place:
            yield self.rejected(cause.kind, *in_bytes(cause.file(cause.before), "utf-8"))
            yield self.accepted(cause.kind, *in_bytes(cause.file(cause.after), "utf-8"))

    def rejected(self, kind, form, text):
        status, answer = self.converted(form, text, kind)
        fits = status == 2 and answer.strip().split(": ")[1].split(" ")[0] == kind
        return None if fits else f"{kind}: {text[-200:]!r} gives {answer.strip()[:200]!r}"

    def accepted(self, kind, form, text):
        status, answer = self.converted(form, text, kind)
        return None if status == 0 else f"{kind}, corrected: {text[-200:]!r} gives {answer.strip()!r}"

    def converted(self, form, text, kind):
        return self.scratch.mpslp(f"canon {form} {'lp' if kind == 'NotLp' else form}", text)

    def at_end(self):
        found = [
            f"{kind} is in only one of the tables" for kind in {*self.ranked, "NotLp", "TooLong"} ^ set(self.kinds)
        ]
        found += [f"{kind} has no example in fault_examples.py" for kind in sorted(set(self.kinds) - set(EXAMPLES))]
        if self.kinds != sorted(self.kinds) or len(self.kinds) != len(self.causes):
            found.append("the kinds are not those of errors.tsv, in alphabetical order")
        if errors.manual() not in errors.MANUAL.read_text():
            found.append(
                "DIAGNOSTICS of docs/mpslp.1 is not made of errors.tsv; run `python3 tests/documents/errors.py --write`"
            )
        for kind, (broken, mended) in EXAMPLES.items():
            found += [self.rejected(kind, *in_bytes(file, "latin-1")) for file in broken]
            found += [self.accepted(kind, *in_bytes(file, "latin-1")) for file in mended]
        return filter(None, found)


FORMS = {
    "literals": Literals,
    "number-text": NumberText,
    "bounds": Bounds,
    "row-types": RowTypes,
    "lp-forms": LpForms,
    "changes": Changes,
    "lp-cases": LpCases,
    "tokens": Tokens,
    "reserved": Reserved,
    "keywords": Keywords,
    "files": Files,
    "statuses": Statuses,
    "sections": Sections,
    "errors": Errors,
}

# Tables that need no comment before them, by their heads.
HEADS = {"| status | meaning | standard error |": "statuses"}
