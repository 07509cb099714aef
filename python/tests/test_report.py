"""The page of a report: what it counts, what it shows, and that names cannot break it."""

import os
import random
import struct
import tempfile
import unittest
import zlib
from base64 import b64decode
from collections import Counter
from decimal import Decimal
from pathlib import Path
from unittest import mock

import mpslp
from mpslp import _main
from mpslp._files._sources import read
from mpslp._models._numbers import number_text
from mpslp._report import page
from mpslp._report._declared import LOWER, UPPER, declared_by
from mpslp._report._markup import element
from mpslp._text import _lp
from mpslp._text._lp_tokens import TOKEN
from report_pages import SAMPLE, Reader, models, number, read_page
from repository import EXAMPLES, large_text

from shared import models as random_models, spellings

INFINITY = Decimal("Infinity")
SORTS = ("coefficients", "objective coefficients", "row limits (RHS)", "column bounds")


class Pages(unittest.TestCase):
    """What all pages have."""

    def check(self, reader):
        self.assertEqual(reader.wrong, [])
        self.assertNotIn("script", [tag for tag, _, _ in reader.elements])
        for tag, attributes, _ in reader.elements:
            self.assertEqual([name for name in attributes if name.startswith("on")], [])
            for name in ("src", "href"):
                self.assertRegex(attributes.get(name, "#"), "^(#|data:image/png;base64,)", f"{tag} has {attributes}")
        names = [attributes["id"] for _, attributes, _ in reader.elements if "id" in attributes]
        self.assertEqual(len(names), len(set(names)))
        for attributes in reader.found("a"):
            self.assertIn(attributes["href"][1:], names)
        self.assertEqual(len(reader.found("table")), len(reader.tables))
        self.assertTrue(all(reader.tables))
        for attributes in reader.found("th"):
            self.assertIn(attributes["scope"], ("row", "col"))
        for attributes in reader.found("svg"):
            self.assertEqual(attributes["role"], "img")
            self.assertLessEqual(set(attributes["aria-labelledby"].split()), set(names))
        self.assertEqual([tag for tag, _, _ in reader.elements if tag in ("h1", "h2")][:2], ["h1", "h2"])
        self.assertEqual(reader.found("html"), [{"lang": "en"}])
        self.assertNotIn("url(", reader.text["style"])
        self.assertNotIn("@import", reader.text["style"])

    def test_every_model(self):
        for path in models():
            with self.subTest(path.name):
                self.check(read_page(path))

    def test_two_models(self):
        self.check(read_page(EXAMPLES / "small.mps", EXAMPLES / "semi.lp"))

    def test_one_file_has_one_page(self):
        self.assertEqual(page([EXAMPLES / "semi.mps"]), page([EXAMPLES / "semi.mps"]))

    def test_names_are_escaped(self):
        reader = read_page(SAMPLE)
        self.check(reader)
        self.assertEqual(reader.found("b"), [])
        self.assertIn(
            "<script>alert(1)</script>",
            reader.table("Smallest and largest numbers")["coefficients"][2] + reader.text["title"],
        )
        self.assertIn("<b>FOUR</b>, FIVE", reader.table("Column bounds that the file gives")["lower and upper"][2])

    def test_each_byte_of_names(self):
        byte = [chr(code) for code in range(33, 127)]
        lines = [f" L  {each}" for each in byte] + ["COLUMNS"] + [f"    {each}  {each}  1" for each in byte]
        self.check(read_page("\n".join(["ROWS", " N  <objective>", *lines, "ENDATA", ""])))
        self.check(
            read_page(
                "\n".join(
                    [
                        "ROWS",
                        ' N  "onload="',
                        " E  r",
                        "COLUMNS",
                        *(f"    {each * 255}  r  1" for each in byte),
                        "ENDATA",
                        "",
                    ]
                )
            )
        )

    def test_attributes_are_escaped(self):
        made = Reader(element("a", "<&>\"'", title="\"><b>'&amp;"))
        self.assertEqual((made.elements, made.text), ([("a", {"title": "\"><b>'&amp;"}, [])], {"a": "<&>\"'\n"}))

    def test_names_of_files(self):
        text = (EXAMPLES / "small.mps").read_bytes()
        for name, shown in (
            (b"<img src=x onerror=alert(1)>.mps", "<img src=x onerror=alert(1)>.mps"),
            (b"\xff\xc3\xa9.mps", "\\xffé.mps"),
            ("\u202eodd\n.mps".encode(), "\\u202eodd\n.mps"),
            (b"-- \"&quot;'.mps", "-- \"&quot;'.mps"),
        ):
            with self.subTest(name), tempfile.TemporaryDirectory() as directory:
                path = os.path.join(os.fsencode(directory), name)
                with open(path, "wb") as file:
                    file.write(text)
                made = page([os.fsdecode(path)])
                reader = Reader(made.encode("utf-8").decode("utf-8"))
                self.check(reader)
                self.assertEqual(reader.text["h1"], shown + "\n")

    def test_labels_of_two_files(self):
        with tempfile.TemporaryDirectory() as directory:
            paths = [Path(directory, each, "plan.lp") for each in ("old", "new")]
            for path in paths:
                path.parent.mkdir()
                path.write_bytes((EXAMPLES / "small.lp").read_bytes())
            self.assertEqual(Reader(page(paths)).text["h1"], f"{paths[0]} and {paths[1]}\n")
            self.assertEqual(Reader(page(paths[:1] * 2)).text["h1"], "the first file and the second file\n")
            self.assertEqual(Reader(page(paths[:1])).text["h1"], "plan.lp\n")

    def test_files_that_are_rejected(self):
        for paths in ([], [EXAMPLES / "small.mps"] * 3):
            with self.assertRaisesRegex(ValueError, "one file or two"):
                page(paths)
        with tempfile.TemporaryDirectory() as directory:
            path = Path(directory, "a.mps")
            path.write_text("ROWS\n")
            with self.assertRaises(mpslp.ModelFileError) as caught:
                page([EXAMPLES / "small.mps", path])
            self.assertEqual(str(caught.exception), f"{path}: file: MissingEnd")
            with self.assertRaises(FileNotFoundError):
                page([Path(directory, "b.mps")])

    def test_the_command(self):
        with tempfile.TemporaryDirectory() as directory:
            made = Path(directory, "page.html")
            status = _main.main(["report", "-o", str(made), str(EXAMPLES / "small.mps"), str(EXAMPLES / "semi.mps")])
            self.assertEqual(
                (status, made.read_text("utf-8")), (0, page([str(EXAMPLES / "small.mps"), str(EXAMPLES / "semi.mps")]))
            )


class Counts(unittest.TestCase):
    def test_every_model(self):
        for path in models():
            with self.subTest(path.name):
                self.check(path, mpslp.load(path), read_page(path))

    def check(self, path, model, reader):
        facts = reader.table("The model")
        self.assertEqual(facts["objective"], [f"{model.sense} {model.objective}"])
        self.assertEqual(facts["constant of the objective"], [number_text(model.constant)])
        nonzeros = sum(len(row.entries) for row in model.rows.values())
        for what, count in (("rows", len(model.rows)), ("columns", len(model.columns)), ("nonzeros", nonzeros)):
            self.assertEqual(number(facts[what][0]), count)
        self.assertEqual(facts["SHA-256 of the canonical MPS text"], [model.digest])
        rows = {kind: number(cells[0]) for kind, cells in reader.table("Rows by kind").items()}
        self.assertEqual(rows, self.rows(model))
        lines = {
            bounds: [number(cell) for cell in cells]
            for bounds, cells in reader.table("Columns by bounds and type").items()
        }
        self.assertEqual(lines, self.columns(model))
        self.check_lengths(reader.table("Nonzeros of rows and columns"), model)

    def rows(self, model):
        counts = dict.fromkeys(("equation", "at most", "at least", "ranged", "free", "all rows"), 0)
        for row in model.rows.values():
            has_lower, has_upper = row.lower.is_finite(), row.upper.is_finite()
            kind = {
                (True, True): "ranged",
                (True, False): "at least",
                (False, True): "at most",
                (False, False): "free",
            }[has_lower, has_upper]
            counts["equation" if row.lower == row.upper else kind] += 1
            counts["all rows"] += 1
        return counts

    def columns(self, model):
        counts = {}
        for column in model.columns.values():
            lower, upper = column.lower, column.upper
            what = {
                (True, True): "lower and upper bound",
                (True, False): "lower bound only",
                (False, True): "upper bound only",
                (False, False): "free",
            }[lower.is_finite(), upper.is_finite()]
            what = {(0, 1): "0 to 1", (0, INFINITY): "0 to infinity"}.get(
                (lower, upper), "fixed" if lower == upper else what
            )
            for line in (what, "all columns"):
                cells = counts.setdefault(line, [0, 0, 0, 0])
                cells[("continuous", "integer", "semi-continuous").index(column.kind)] += 1
                cells[3] += 1
        return counts

    def check_lengths(self, lines, model):
        for place, parts in enumerate((model.rows, model.columns)):
            lengths = sorted(len(each.entries) for each in parts.values())
            if not lengths:
                self.assertEqual({cells[place] for cells in lines.values()}, {""})
                continue
            for line, wanted in (
                ("fewest", lengths[0]),
                ("median", lengths[len(lengths) // 2]),
                ("most", lengths[-1]),
                ("with no nonzero", lengths.count(0)),
                ("with one nonzero", lengths.count(1)),
            ):
                self.assertEqual(number(lines[line][place]), wanted)
            self.assertEqual(len(parts[lines["most in"][place]].entries), lengths[-1])

    def test_a_sample(self):
        reader = read_page(SAMPLE)
        self.assertEqual(
            reader.table("Rows by kind"),
            {"equation": ["0"], "at most": ["1"], "at least": ["1"], "ranged": ["4"], "free": ["2"], "all rows": ["8"]},
        )
        self.assertEqual(
            reader.table("Columns by bounds and type"),
            {
                "0 to infinity": ["2", "1", "0", "3"],
                "0 to 1": ["0", "1", "0", "1"],
                "lower and upper bound": ["1", "0", "0", "1"],
                "lower bound only": ["0", "1", "0", "1"],
                "upper bound only": ["1", "0", "0", "1"],
                "fixed": ["1", "0", "0", "1"],
                "free": ["1", "0", "0", "1"],
                "all columns": ["6", "3", "0", "9"],
            },
        )
        self.assertEqual(reader.table("The model")["density"], ["16.7 %"])

    def test_rows_and_columns_that_doubles_do_not_distinguish(self):
        reader = read_page(
            "ROWS\n N  c\n G  near\n G  same\nCOLUMNS\n    x  near  1  same  1\n    y  c  1\nRHS\n"
            "    near  1  same  1\nRANGES\n"
            "    near  1e-30\n    same  0\nBOUNDS\n LO  x  1\n UP  x  1.0000000000000000000000000000001\n"
            " UP  y  1e-400\nENDATA\n"
        )
        self.assertEqual(
            reader.table("Rows by kind"),
            {"equation": ["1"], "at most": ["0"], "at least": ["0"], "ranged": ["1"], "free": ["0"], "all rows": ["2"]},
        )
        self.assertEqual(list(reader.table("Columns by bounds and type")), ["lower and upper bound", "all columns"])


class Magnitudes(unittest.TestCase):
    def numbers(self, model):
        """All finite numbers of a model by their sorts; a limit or bound counts once if both are equal."""
        rows, columns = model.rows.values(), model.columns.values()
        sides = [[{each.lower, each.upper} for each in parts] for parts in (rows, columns)]
        coefficients = [value for column in columns for value in column.entries.values()]
        numbers = [
            coefficients,
            [column.cost for column in columns],
            *([each for pair in both for each in pair] for both in sides),
        ]
        return dict(zip(SORTS, ([each for each in found if each.is_finite()] for found in numbers)))

    def check(self, model, reader):
        found = {sort: Counter() for sort in SORTS}
        for line, cells in reader.table("How many numbers have each power of ten").items():
            for sort, cell in zip(SORTS, cells):
                if cell:
                    found[sort][line] = number(cell)
        for sort, numbers in self.numbers(model).items():
            self.assertEqual(found[sort], Counter(f"1e{each.adjusted()}" if each else "zero" for each in numbers), sort)
            line = reader.table("Smallest and largest numbers")[sort]
            nonzero = [abs(Decimal(number_text(each))) for each in numbers if each]
            self.assertEqual(number(line[0]), len(nonzero))
            if nonzero:
                self.assertEqual((abs(Decimal(line[1])), abs(Decimal(line[3]))), (min(nonzero), max(nonzero)))
                self.check_place(model, sort, line[1:3])
                self.check_place(model, sort, line[3:5])

    def check_place(self, model, sort, cells):
        value, where = Decimal(cells[0]), cells[1].split(", ")
        if sort == "coefficients":
            self.assertEqual(model.rows[where[0]].entries[where[1]], value)
        elif sort == "objective coefficients":
            self.assertEqual(model.columns[where[0]].cost, value)
        else:
            part = (model.rows if sort.startswith("row") else model.columns)[where[0]]
            self.assertIn(value, (part.lower, part.upper))

    def test_every_model(self):
        for path in models():
            with self.subTest(path.name):
                self.check(mpslp.load(path), read_page(path))

    def test_a_sample(self):
        reader = read_page(SAMPLE)
        self.assertEqual(
            reader.table("Smallest and largest numbers")["coefficients"],
            ["12", "0.000001", 'HOURS, LINE"1"', "1e7", "BIG&BOLD, FIRST", "1e13"],
        )
        self.assertEqual(
            reader.table("How many numbers have each power of ten"),
            {
                "1e11": ["", "", "1", ""],
                "1e10": [""] * 4,
                "1e9": [""] * 4,
                "1e8": [""] * 4,
                "1e7": ["1", "", "", ""],
                "1e6 to 1e2": [""] * 4,
                "1e1": ["", "1", "2", ""],
                "1e0": ["10", "4", "5", "4"],
                "1e-1 to 1e-5": [""] * 4,
                "1e-6": ["1", "", "", ""],
                "zero": ["", "4", "2", "6"],
            },
        )

    def test_each_power_of_ten(self):
        """Powers of ten, their neighbours of 15 digits, and numbers that no double has."""
        literals = [
            f"{mantissa}e{power - len(mantissa) + 1}"
            for power in range(-470, 471)
            for mantissa in ("1", "999999999999999", "100000000000001", "5")
        ]
        lines = [f"    x{place:05}  r  {'-' if place % 2 else ''}{literal}" for place, literal in enumerate(literals)]
        text = "\n".join(["ROWS", " N  c", " L  r", "COLUMNS", *lines, "ENDATA", ""])
        reader = read_page(text)
        self.check(mpslp.load(text.encode(), "mps"), reader)
        self.assertIn(
            f"Coefficients of a magnitude that no double has: {4 * (470 - 308) + 4 * (470 - 324):,}.", reader.text["li"]
        )

    def test_coefficients_that_doubles_do_not_distinguish(self):
        text = (
            "ROWS\n N  c\n L  r\nCOLUMNS\n    x  r  10\n    y  r  -9.99999999999999999\n"
            "    z  r  10.00000000000000001\nENDATA\n"
        )
        reader = read_page(text)
        self.check(mpslp.load(text.encode(), "mps"), reader)
        self.assertEqual(
            reader.table("Smallest and largest numbers")["coefficients"][1:5],
            ["-9.99999999999999999", "r, y", "10.00000000000000001", "r, z"],
        )

    def test_limits_and_bounds_that_no_double_has(self):
        text = (
            "ROWS\n N  c\n E  r\n L  s\nCOLUMNS\n    x  c  1e-470  r  1\n    y  s  1\nRHS\n    r  -3e-450\n"
            "BOUNDS\n UP  x  2e-400\nENDATA\n"
        )
        self.check(mpslp.load(text.encode(), "mps"), read_page(text))

    def test_ratios(self):
        for second, shown in (
            ("4.6", "4.6"),
            ("1", "1"),
            ("998.4", "998"),
            ("999.6", "1e3"),
            ("1049", "1e3"),
            ("1051", "1.1e3"),
            ("1e400", "1e400"),
        ):
            with self.subTest(second):
                reader = read_page(f"ROWS\n N  c\n L  r\nCOLUMNS\n    x  r  1\n    y  r  -{second}\nENDATA\n")
                self.assertEqual(reader.table("Smallest and largest numbers")["coefficients"][5], shown)

    def test_remarks_on_ranges(self):
        for first, second, words in (
            ("1", "1000000", None),
            ("1", "1000001", "wide"),
            ("0.001", "1e6", "wide"),
            ("0.001", "1000001", "very wide"),
        ):
            with self.subTest(first=first, second=second):
                text = f"ROWS\n N  c\n L  r\nCOLUMNS\n    x  r  {first}\n    y  r  {second}\nENDATA\n"
                remarks = read_page(text).text.get("li", "")
                self.assertEqual(
                    f"the range is {words}," in remarks if words else "the range is" in remarks, bool(words)
                )

    def test_remarks_on_numbers(self):
        text = (
            "ROWS\n N  c\n L  r\nCOLUMNS\n    x  r  9e-10\n    y  r  1e15\n    z  c  1  r  1e400\nRHS\n"
            "    r  1e10\nBOUNDS\n UP  x  99999999999\n UP  y  9e9\nENDATA\n"
        )
        remarks = read_page(text).text["li"]
        for words in (
            "magnitude below 1e-9: 1.",
            "magnitude 1e15 or more: 2.",
            "Row limits (RHS) of magnitude 1e10 or more: 1.",
            "Column bounds of magnitude 1e10 or more: 1.",
            "Coefficients of a magnitude that no double has: 1.",
        ):
            self.assertIn(words, remarks)
        self.assertIn("There are no remarks.", read_page(EXAMPLES / "small.mps").text["p"])


class Pictures(unittest.TestCase):
    def test_small_models(self):
        for path in models():
            model = mpslp.load(path)
            if max(len(model.rows), len(model.columns)) > 40:
                continue
            with self.subTest(path.name):
                reader = read_page(path)
                signs = Counter(attributes["class"] for attributes in reader.found("rect"))
                values = [value for row in model.rows.values() for value in row.entries.values()]
                self.assertEqual(signs["positive"], sum(value > 0 for value in values))
                self.assertEqual(signs["negative"], sum(value < 0 for value in values))
                self.assertEqual((signs["frame"], len(reader.found("figure"))), (bool(model.rows),) * 2)

    def test_places_of_a_small_model(self):
        """Rows and columns are in the order of the file."""
        reader = read_page(
            "ROWS\n N  c\n L  second\n L  first\nCOLUMNS\n    y  second  1\n"
            "    x  first  -1e-400  second  2.00000000000000001\nENDATA\n"
        )
        places = [
            (attributes["class"], float(attributes["x"]), float(attributes["y"])) for attributes in reader.found("rect")
        ]
        frame, *squares = places
        steps = [(sign, round((x - frame[1]) // 18), round((y - frame[2]) // 18)) for sign, x, y in squares]
        self.assertEqual(sorted(steps), [("negative", 1, 1), ("positive", 0, 0), ("positive", 1, 0)])
        for title in ("second, y: 1\n", "first, x: -1e-400\n", "second, x: 2.00000000000000001\n"):
            self.assertIn(title, reader.text["title"])

    def png(self, reader):
        """The width, the height and the lines of pixels of the PNG of a page, which are numbers of the palette; and the
        palette's alphas."""
        (image,) = reader.found("image")
        content = b64decode(image["href"].removeprefix("data:image/png;base64,"), validate=True)
        self.assertEqual(content[:8], b"\x89PNG\r\n\x1a\n")
        chunks, at = {}, 8
        while at < len(content):
            (length,) = struct.unpack_from(">I", content, at)
            kind, data = content[at + 4 : at + 8], content[at + 8 : at + 8 + length]
            self.assertEqual(struct.unpack_from(">I", content, at + 8 + length), (zlib.crc32(kind + data),))
            chunks[kind] = data
            at += 12 + length
        self.assertEqual(list(chunks), [b"IHDR", b"PLTE", b"tRNS", b"IDAT", b"IEND"])
        width, height, *rest = struct.unpack(">IIBBBBB", chunks[b"IHDR"])
        self.assertEqual(rest, [8, 3, 0, 0, 0])
        self.assertEqual(len(chunks[b"PLTE"]), 3 * len(chunks[b"tRNS"]))
        lines = zlib.decompress(chunks[b"IDAT"])
        self.assertEqual(len(lines), height * (width + 1))
        self.assertEqual(set(lines[:: width + 1]), {0})
        return (
            width,
            height,
            [lines[start + 1 : start + 1 + width] for start in range(0, len(lines), width + 1)],
            chunks[b"tRNS"],
        )

    def text(self, rows, columns, places):
        """A model with its nonzeros at these places."""
        by_column = {}
        for row, column in places:
            by_column.setdefault(column, []).append(row)
        lines = [
            f"    x{column}  {f'r{row}  1' if by_column.get(column) else 'c  1'}"
            for column in range(columns)
            for row in by_column.get(column, [0])
        ]
        return "\n".join(["ROWS", " N  c", *(f" L  r{row}" for row in range(rows)), "COLUMNS", *lines, "ENDATA", ""])

    def test_a_point_for_each_place(self):
        places = {(0, 0), (49, 99), (10, 30), (30, 10), (11, 99)}
        reader = read_page(self.text(50, 100, places))
        width, height, lines, alphas = self.png(reader)
        self.assertEqual((width, height), (100, 50))
        self.assertEqual({(y, x) for y, line in enumerate(lines) for x, pixel in enumerate(line) if pixel}, places)
        self.assertEqual((alphas[0], alphas[-1]), (0, 255))
        self.assertEqual({pixel for line in lines for pixel in line if pixel}, {len(alphas) - 1})
        self.assertIn("Each point is a nonzero.", reader.text["figcaption"])

    def test_points_for_many_places(self):
        rows, columns = 2000, 3000
        places = {(row, row) for row in range(2000)} | {(row, 2999) for row in range(20)} | {(1999, 0)}
        reader = read_page(self.text(rows, columns, places))
        width, height, lines, alphas = self.png(reader)
        counts = Counter((row * height // rows, column * width // columns) for row, column in places)
        self.assertEqual({(y, x) for y, line in enumerate(lines) for x, pixel in enumerate(line) if pixel}, set(counts))
        ink = {
            count: {alphas[lines[y][x]] for (y, x), each in counts.items() if each == count}
            for count in sorted(set(counts.values()))
        }
        self.assertTrue(all(len(shades) == 1 for shades in ink.values()))
        shades = [min(each) for each in ink.values()]
        self.assertEqual(shades, sorted(shades))
        self.assertEqual((len(set(shades)), shades[-1]), (len(shades), 255))
        self.assertIn(f"the darkest {max(counts.values())}.", reader.text["figcaption"])

    def test_few_rows_or_few_columns(self):
        for rows, columns in ((1, 5000), (5000, 1), (3, 700), (700, 3)):
            with self.subTest(rows=rows, columns=columns):
                width, height, lines, _ = self.png(
                    read_page(self.text(rows, columns, {(0, 0), (rows - 1, columns - 1)}))
                )
                self.assertLessEqual(max(width, height), 640)
                self.assertGreaterEqual(min(width, height), min(rows, columns))
                self.assertTrue(lines[0][0] and lines[-1][-1])

    def test_a_model_without_rows_has_none(self):
        reader = read_page("ROWS\n N  c\nCOLUMNS\n    x  c  1\nENDATA\n")
        self.assertEqual(reader.found("svg"), [])
        self.assertIn("there is no picture", reader.text["p"])

    def test_a_model_without_nonzeros(self):
        self.assertEqual(len(read_page(self.text(50, 50, set())).found("image")), 1)


class Defaults(unittest.TestCase):
    def test_bounds_of_every_model(self):
        """A bound that a file does not give is its default."""
        for path in models():
            with self.subTest(path.name):
                self.check(path, mpslp.load(path))

    def check(self, path, model):
        declared = declared_by(read(path, None), model.objective)
        for column in model.columns.values():
            given = declared.bounds.get(column.name, 0)
            if not given & LOWER:
                self.assertEqual(column.lower, 0)
            if not given & UPPER:
                self.assertEqual(column.upper, 1 if column.name in declared.columns_with_upper_1() else INFINITY)
        self.assertLessEqual(
            declared.bounds.keys() | declared.marked.keys() | declared.binaries.keys(), model.columns.keys()
        )

    def test_bounds_of_a_sample(self):
        self.assertEqual(
            read_page(SAMPLE).table("Column bounds that the file gives"),
            {
                "none": ["0 to infinity", "2", "SEVEN, SIX"],
                "none, between markers": ["0 to 1", "1", 'LINE"1"'],
                "lower": ["the given one to infinity", "1", "LINE'2'"],
                "upper": ["0 to the given one", "3", "EIGHT, FIRST, THREE"],
                "lower and upper": ["the given ones", "2", "<b>FOUR</b>, FIVE"],
            },
        )

    def test_bounds_of_each_type(self):
        for kinds, given in (
            (("LO", "MI", "LI"), "lower"),
            (("UP", "PL", "UI", "SC"), "upper"),
            (("FX", "FR", "BV"), "lower and upper"),
        ):
            for kind in kinds:
                for line in (
                    (f" {kind}  x", f" {kind}  B  x", f" {kind}  B  x  ignored")
                    if kind in ("MI", "PL", "FR", "BV")
                    else (f" {kind}  x  3", f" {kind}  B  x  3")
                ):
                    with self.subTest(line):
                        reader = read_page(f"ROWS\n N  c\nCOLUMNS\n    x  c  1\n    y  c  1\nBOUNDS\n{line}\nENDATA\n")
                        lines = {
                            given: cells[2]
                            for given, cells in reader.table("Column bounds that the file gives").items()
                        }
                        self.assertEqual(lines, {"none": "y", given: "x"})

    def test_rules_of_a_sample(self):
        reader = read_page(SAMPLE)
        self.assertEqual(
            reader.table("Rules that apply to the file"),
            {
                "the comment *SENSE:Maximize": ["", "ignored, as every comment; the sense is minimize"],
                "no OBJSENSE": ["", "minimize"],
                "no OBJNAME": ["", "the first N row is the objective: COST"],
                "a number on the objective in RHS": ["", "the objective has the negative as its constant: 125"],
                "N rows other than the objective": ["1", "kept as free rows: CO2"],
                "N rows with a number in RHS": ["1", "the number is ignored: CO2"],
                "rows without a number in RHS": ["2", "the right-hand side is 0"],
                "right-hand sides of magnitude 1e20 or more": ["1", "no limit: a row without another one is free"],
                "numbers R in RANGES on L rows": ["1", "from RHS - |R| to RHS"],
                "numbers R in RANGES on G rows": ["1", "from RHS to RHS + |R|"],
                "numbers R in RANGES on E rows, R above 0": ["1", "from RHS to RHS + R"],
                "numbers R in RANGES on E rows, R below 0": ["1", "from RHS - |R| to RHS"],
                "columns between markers": ["3", "integer"],
                "bounds of type MI": ["1", "no lower bound; the upper bound stays what it is"],
                "columns between markers without a bound": ["1", 'the bounds are 0 and 1: LINE"1"'],
                "columns between markers with a lower bound only": ["1", "no upper bound: LINE'2'"],
                "upper bounds of 0 without a lower bound": ["1", "fixed at 0: EIGHT"],
                "upper bounds below 0": ["1", "each has its lower bound in the file, as is required: <b>FOUR</b>"],
                "bounds of magnitude 1e20 or more": ["1", "infinite: no bound"],
                "coefficients of 0": ["2", "accepted, and not part of the model"],
                "columns without a coefficient": ["1", "part of the model: SIX"],
                "the problem name WEEK-PLAN": ["", "not part of the model"],
                "text after ENDATA": ["", "ignored"],
            },
        )
        for words in (
            "Rows without a nonzero (2): ",
            "Columns that are only in the objective (1): ",
            "The comment *SENSE:Maximize: ",
            "Text after ENDATA: ",
        ):
            self.assertIn(words, reader.text["li"])

    def test_other_rules_of_mps(self):
        text = (
            "OBJSENSE MAX\nOBJNAME\n    B\nROWS\n N  A\n N  B\n L  r\n G  s\n E  t\nCOLUMNS\n    x  r  1\n"
            "    y  s  1\n    z  t  1\nRANGES\n    r  -0.0  s  -2\n    t  0e5\n"
            "BOUNDS\n BV  x\n LI  y  2\n UI  z  2\nENDATA\n"
        )
        self.assertEqual(
            read_page(text).table("Rules that apply to the file"),
            {
                "OBJNAME": ["", "it names the objective: B"],
                "N rows other than the objective": ["1", "kept as free rows: A"],
                "rows without a number in RHS": ["3", "the right-hand side is 0"],
                "numbers R in RANGES on G rows": ["1", "from RHS to RHS + |R|"],
                "zeros in RANGES on L or G rows": ["1", "both limits are RHS: an equation"],
                "zeros in RANGES on E rows": ["1", "the row stays an equation"],
                "bounds of type BV, LI or UI": ["3", "the column is integer"],
            },
        )
        self.assertIn(
            "No other rule of the format changes what the file says.", read_page(EXAMPLES / "production.lp").text["p"]
        )
        text = "NAME\nROWS\n L  r\nCOLUMNS\n    x  r  1\nENDATA\n"
        self.assertEqual(
            read_page(text).table("Rules that apply to the file")["no N row"], ["", "an empty objective called obj"]
        )

    def test_rules_of_lp(self):
        text = (
            "max 2 x - y + 3 z + 5 \\ 7 w :\nsubject to\n r: x + y <= 4 3 <= x + y\n"
            " <= 1e1 s: x + 0 y >= - 1e20 -1e21 <= x - z <= + inf\n"
            "bounds\n x <= 0 y <= -1 y >= -inf\n-1e30 <= z <= 1e19\n 2 = u\n v free\n 3 <= w\n 1 >= b\n"
            "binaries b c\ngeneral x\nend \\ it\nmore\n"
        )
        with tempfile.TemporaryDirectory() as directory:
            path = Path(directory, "a.lp")
            path.write_text(text)
            model, reader = mpslp.load(path), read_page(path)
        self.assertEqual(len(model.rows), 4)
        self.assertEqual(
            reader.table("Rules that apply to the file"),
            {
                "no label on the objective": ["", "its name is obj"],
                "rows without a label": ["2", "named c and the position among all rows"],
                "sides of rows that are inf, or of magnitude 1e20 or more": [
                    "3",
                    "no limit: a row without another one is free",
                ],
                "columns under Binaries": ["2", "integer; the bounds that are not given are 0 and 1"],
                "upper bounds of 0 without a lower bound": ["1", "fixed at 0: x"],
                "upper bounds below 0": ["1", "each has its lower bound in the file, as is required: y"],
                "bounds that are inf, or of magnitude 1e20 or more": ["2", "infinite: no bound"],
                "coefficients of 0": ["1", "accepted, and not part of the model"],
                "columns without a coefficient": ["5", "part of the model: b, c, u, v, w"],
                "text after end": ["", "ignored"],
            },
        )
        self.assertEqual(
            reader.table("Column bounds that the file gives"),
            {
                "none, under Binaries": ["0 to 1", "1", "c"],
                "lower": ["the given one to infinity", "1", "w"],
                "upper": ["0 to the given one", "2", "b, x"],
                "lower and upper": ["the given ones", "4", "u, v, y, z"],
            },
        )


class DrawnModels(unittest.TestCase):
    """Random models, each spelled in a random way in both formats."""

    def texts(self, count):
        for seed in range(count):
            source = random.Random(seed)
            drawn = random_models.drawn_model(source)
            yield seed, "mps", spellings.mps_text(source, drawn)
            if not random_models.canonical_lp(drawn).endswith(": NotLp\n"):
                yield seed, "lp", spellings.lp_text(source, drawn)

    def test_pages(self):
        with tempfile.TemporaryDirectory() as directory:
            for seed, form, text in self.texts(150):
                path = Path(directory, f"a.{form}")
                path.write_bytes(text)
                model, reader = mpslp.load(path), read_page(path)
                with self.subTest(seed, form=form):
                    Pages().check(reader)
                    Counts().check(path, model, reader)
                    Magnitudes().check(model, reader)
                    Defaults().check(path, model)

    def test_terms_of_lp(self):
        """The tokens of the objective and of rows are taken in groups, with the same result as one by one."""
        for seed, form, text in self.texts(400):
            if form == "lp":
                with self.subTest(seed):
                    found = declared_by(read(text, "lp"), "")
                    with mock.patch.object(_lp, "TERM", TOKEN):
                        self.assertEqual(declared_by(read(text, "lp"), ""), found)


class Differences(unittest.TestCase):
    def test_one_model(self):
        reader = read_page(EXAMPLES / "semi.mps", EXAMPLES / "semi.lp")
        self.assertIn("The files define the same model.", reader.text["p"])
        self.assertNotIn("differs\n", reader.text.get("b", ""))

    def test_two_models(self):
        reader = read_page(SAMPLE, SAMPLE.replace("12  HOURS  4\n", "13  HOURS  4.5\n").replace(" L  EMPTY\n", ""))
        self.assertIn("The files define different models: 3 differences.", reader.text["p"])
        self.assertEqual(
            reader.table("Differences of a.mps and b.mps"),
            {
                "rows that only one model has": ["1"],
                "types, bounds and objective coefficients of columns": ["1"],
                "coefficients in rows": ["1"],
            },
        )
        for line in (
            "- row EMPTY: -inf to 0, 0 entries\n",
            "column LINE'2': cost 12 -> 13\n",
            "entry HOURS LINE'2': 4 -> 4.5\n",
        ):
            self.assertIn(line, reader.text["code"])
        self.assertEqual(reader.table("The model")["rows"], ["8", "7", "differs"])
        self.assertEqual(reader.table("The model")["columns"], ["9", "9", ""])
        self.assertEqual(len(reader.found("figure")), 2)
        self.assertLessEqual({"both files", "a.mps", "b.mps", "differs"}, set(reader.text["b"].splitlines()))

    def test_what_is_compared(self):
        first = "ROWS\n N  c\n L  r\nCOLUMNS\n    x  r  1  c  2\nENDATA\n"
        second = first.replace("r", "<r>").replace("1", "1.0001")
        self.assertIn(
            "2 differences if they are compared to 3 digits", read_page(first, second, digits=3).text["p"] + " "
        )
        self.assertIn(
            "1 difference if they are compared by position", read_page(first, second, by_position=True).text["p"]
        )
        both = read_page(first, second, digits=3, by_position=True)
        self.assertIn("there is no difference if they are compared to 3 digits and by position.", both.text["p"])

    def test_many_differences(self):
        first = large_text(1500).decode()
        reader = read_page(first, first.replace("  1e1\n", "  11\n"))
        self.assertEqual(reader.table("Differences of a.mps and b.mps"), {"coefficients in rows": ["1,500"]})
        self.assertEqual(reader.text["summary"], "The first 100 differences; mpslp-tools diff prints all\n")
        self.assertEqual(
            len(reader.found("li")) - len(read_page(first).found("li")), 100 + 1
        )  # and a link to the section


if __name__ == "__main__":
    unittest.main()
