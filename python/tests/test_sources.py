"""What may be given to the calls: bytes, other buffers and paths, and formats."""

import array
import bz2
import copy
import gzip
import io
import lzma
import mmap
import os
import pickle
import tempfile
import unittest
from pathlib import Path

import mpslp
from repository import EXAMPLES

TEXT = (EXAMPLES / "small.mps").read_bytes()
CANONICAL = (EXAMPLES / "small.canonical.mps").read_bytes()


class BytesPath:
    """A path whose file system name is bytes."""

    def __init__(self, path):
        self.path = path

    def __fspath__(self):
        return os.fsencode(self.path)


class Buffers(unittest.TestCase):
    def test_bytes_and_other_buffers(self):
        class Named(bytes):
            pass

        spread = bytearray(2 * len(TEXT))
        spread[::2] = TEXT
        for source in (
            TEXT,
            Named(TEXT),
            bytearray(TEXT),
            memoryview(TEXT),
            memoryview(bytearray(TEXT)),
            memoryview(spread)[::2],
            array.array("B", TEXT),
        ):
            with self.subTest(type(source)):
                self.assertEqual(mpslp.canonical(source, "mps"), CANONICAL)
                self.assertIs(mpslp.is_canonical(source, "mps"), False)
                self.assertIs(mpslp.same(source, CANONICAL, "mps", "mps"), True)
                self.assertIs(mpslp.same(CANONICAL, source, "mps", "mps"), True)

    def test_a_mapped_file(self):
        with open(EXAMPLES / "small.mps", "rb") as file, mmap.mmap(file.fileno(), 0, access=mmap.ACCESS_READ) as mapped:
            self.assertEqual(mpslp.canonical(mapped, "mps"), CANONICAL)

    def test_the_answer_is_bytes(self):
        self.assertIs(type(mpslp.canonical(bytearray(TEXT), "mps")), bytes)

    def test_a_buffer_may_change_after_the_call(self):
        source = bytearray(TEXT)
        mpslp.canonical(source, "mps")
        source.clear()  # a buffer that was kept would refuse this
        self.assertEqual(source, b"")

    def test_no_bytes(self):
        with self.assertRaisesRegex(mpslp.ModelFileError, "^file: MissingEnd$"):
            mpslp.canonical(b"", "lp")

    def test_what_is_no_text(self):
        for source in (None, 7, 1.5, ["NAME"], object(), mpslp.load(TEXT, "mps")):
            for call in (
                mpslp.canonical,
                mpslp.is_canonical,
                mpslp.load,
                lambda *words: mpslp.same(TEXT, words[0], "mps", *words[1:]),
            ):
                for words in ((), ("mps",), ("qps",)):
                    with self.subTest(source, words=words), self.assertRaisesRegex(
                        TypeError, "^a text is bytes, a path or an open binary file, not "
                    ):
                        call(source, *words)


class Paths(unittest.TestCase):
    def setUp(self):
        folder = tempfile.TemporaryDirectory()
        self.addCleanup(folder.cleanup)
        self.folder = Path(folder.name)

    def file(self, name, text=TEXT):
        path = self.folder / name
        path.write_bytes(text)
        return path

    def test_kinds_of_paths(self):
        path = self.file("model.mps")
        for source in (path, str(path), BytesPath(path)):
            with self.subTest(type(source)):
                self.assertEqual(mpslp.canonical(source), CANONICAL)
                self.assertIs(mpslp.is_canonical(source), False)
                self.assertIs(mpslp.same(source, source), True)

    def test_the_format_is_known_from_the_ending(self):
        lp = (EXAMPLES / "small.lp").read_bytes()
        for name, text in (
            ("a.mps", TEXT),
            (".mps", TEXT),
            ("a.MPS", TEXT),
            ("a.lp.mps", TEXT),
            ("a.lp", lp),
            ("a.Lp", lp),
            ("a.mps.lp", lp),
        ):
            with self.subTest(name):
                self.assertEqual(mpslp.canonical(self.file(name, text), to_format="mps"), CANONICAL)

    def test_the_canonical_text_has_the_format_of_the_source(self):
        self.assertEqual(mpslp.canonical(EXAMPLES / "small.lp"), (EXAMPLES / "small.canonical.lp").read_bytes())
        self.assertEqual(mpslp.canonical(EXAMPLES / "small.mps"), CANONICAL)

    def test_a_format_that_is_given_goes_before_the_ending(self):
        self.assertEqual(mpslp.canonical(self.file("model.lp"), "mps"), CANONICAL)

    def test_an_ending_that_means_no_format(self):
        for name in ("model", "model.txt", "model.mps.zip", "model.mps ", "mps", "my-lp"):
            path = self.file(name)
            with self.subTest(name):
                self.assertEqual(mpslp.canonical(path, "mps"), CANONICAL)
                with self.assertRaisesRegex(ValueError, "has to be given"):
                    mpslp.canonical(path)

    def test_a_fault_has_the_path(self):
        path = self.file("broken.lp", b"min x y\nend\n")
        good = EXAMPLES / "small.lp"
        for call, source in (
            (mpslp.canonical, path),
            (mpslp.is_canonical, str(path)),
            (mpslp.load, BytesPath(path)),
            (lambda source: mpslp.same(source, good), path),
            (lambda source: mpslp.same(good, source), path),
            (lambda source: mpslp.same(b"min x\nend\n", source, "lp"), path),
        ):
            with self.subTest(type(source)), self.assertRaises(mpslp.ModelFileError) as caught:
                call(source)
            self.assertEqual(
                (caught.exception.filename, str(caught.exception)), (str(path), f"{path}: line 1: BadToken")
            )
            for other in (pickle.loads(pickle.dumps(caught.exception)), copy.copy(caught.exception)):
                self.assertEqual((other.filename, str(other)), (str(path), f"{path}: line 1: BadToken"))
        with self.assertRaises(mpslp.ModelFileError) as caught:
            mpslp.same(path, b"min x y\nend\n", second_format="lp")
        self.assertEqual((caught.exception.which, caught.exception.filename), ("first", str(path)))
        with self.assertRaises(mpslp.ModelFileError) as caught:
            mpslp.same(good, b"min x y\nend\n", second_format="lp")
        self.assertEqual((str(caught.exception), caught.exception.filename), ("second: line 1: BadToken", None))

    def test_a_name_that_is_no_text(self):
        path = Path(os.fsdecode(bytes(self.folder) + b"/\xff.mps"))
        path.write_bytes(TEXT)
        self.assertEqual(mpslp.canonical(path), CANONICAL)

    def test_paths_that_do_not_open(self):
        with self.assertRaises(FileNotFoundError) as caught:
            mpslp.canonical(self.folder / "none.mps")
        self.assertEqual(Path(caught.exception.filename), self.folder / "none.mps")
        with self.assertRaises(FileNotFoundError):
            mpslp.same(EXAMPLES / "small.mps", self.folder / "none.lp")
        with self.assertRaises(IsADirectoryError):
            mpslp.is_canonical(self.folder, "lp")


class CompressedFiles(unittest.TestCase):
    def setUp(self):
        folder = tempfile.TemporaryDirectory()
        self.addCleanup(folder.cleanup)
        self.folder = Path(folder.name)
        self.packs = {".gz": gzip.compress, ".bz2": bz2.compress, ".xz": lzma.compress}
        try:
            import zstandard
        except ImportError:
            return
        self.packs[".zst"] = zstandard.ZstdCompressor().compress

    def file(self, name, content):
        path = self.folder / name
        path.write_bytes(content)
        return path

    def test_a_text_as_str(self):
        for text in ("min x\nend\n", "NAME\nROWS\n N  COST\nENDATA"):
            with self.assertRaisesRegex(
                ValueError,
                "^a str is the path of a file, and this one has several lines: give a text as bytes, with its format$",
            ):
                mpslp.load(text)

    def test_paths_give_compression_and_format(self):
        lp = (EXAMPLES / "small.lp").read_bytes()
        for ending, pack in self.packs.items():
            for name, text in ((f"a.mps{ending}", TEXT), (f"a.LP{ending.upper()}", lp)):
                path = self.file(name, pack(text))
                with self.subTest(name):
                    self.assertEqual(mpslp.canonical(path, to_format="mps"), CANONICAL)
                    self.assertEqual(mpslp.load(str(path)), mpslp.load(text, name[2:].split(".")[0].lower()))
                    self.assertTrue(mpslp.same(path, EXAMPLES / "small.mps"))
                    self.assertIs(mpslp.is_canonical(path), False)
            path = self.file(f"a{ending}", pack(TEXT))
            self.assertEqual(mpslp.canonical(path, "mps"), CANONICAL)
            with self.assertRaisesRegex(ValueError, "has to be given"):
                mpslp.canonical(path)

    def test_files_of_several_parts(self):
        for ending, pack in self.packs.items():
            path = self.file(f"a.mps{ending}", pack(TEXT[:40]) + pack(TEXT[40:]))
            with self.subTest(ending):
                self.assertEqual(mpslp.canonical(path), CANONICAL)

    def test_files_that_are_broken(self):
        for ending, pack in self.packs.items():
            whole = pack(TEXT * 20)
            for content in (
                TEXT,
                whole[:-1],
                whole[: len(whole) // 2],
                whole[:3],
                whole[:20] + b"\xff" * 20 + whole[40:],
            ):
                path = self.file(f"a.mps{ending}", content)
                with self.subTest(ending, len=len(content)), self.assertRaises(OSError) as caught:
                    mpslp.load(path)
                self.assertIn(str(path), str(caught.exception))

    def test_files_that_are_empty(self):
        for ending, pack in self.packs.items():
            with self.subTest(ending):
                with self.assertRaisesRegex(OSError, f"is not a complete {ending} file: it is empty$"):
                    mpslp.load(self.file(f"a.mps{ending}", b""))
                with self.assertRaisesRegex(mpslp.ModelFileError, "MissingEnd"):
                    mpslp.load(self.file(f"a.mps{ending}", pack(b"")))

    def test_other_bytes_after_the_end(self):
        for ending, pack in self.packs.items():
            for junk in (b"\xff", b"junk and more junk", b"\n", pack(b"x")[:4], b"\0junk"):
                path = self.file(f"a.mps{ending}", pack(TEXT) + junk)
                with self.subTest(ending, junk=junk), self.assertRaises(OSError):
                    mpslp.load(path)

    def test_zeros_after_the_end(self):
        """They are legal for gzip, and for xz in fours; also between parts."""
        for ending, zeros, is_legal in (
            (".gz", 1, True),
            (".gz", 5000, True),
            (".xz", 4, True),
            (".xz", 4096, True),
            (".xz", 3, False),
            (".bz2", 4, False),
        ):
            pack = self.packs[ending]
            for content in (pack(TEXT) + bytes(zeros), pack(TEXT[:40]) + bytes(zeros) + pack(TEXT[40:])):
                path = self.file(f"a.mps{ending}", content)
                with self.subTest(ending, zeros=zeros):
                    if is_legal:
                        self.assertEqual(mpslp.canonical(path), CANONICAL)
                    else:
                        with self.assertRaises(OSError):
                            mpslp.load(path)

    def test_the_fault_of_a_file(self):
        path = self.file("a.lp.gz", gzip.compress(b"min x y\nend\n"))
        with self.assertRaisesRegex(mpslp.ModelFileError, "a.lp.gz: line 1: BadToken$"):
            mpslp.load(path)

    def test_files_that_are_written(self):
        model = mpslp.load(TEXT, "mps")
        for ending, pack in self.packs.items():
            for name in (f"b.mps{ending}", f"b.lp{ending}"):
                path = self.folder / name
                mpslp.dump(model, path)
                with self.subTest(name):
                    self.assertEqual(mpslp.load(path), model)
                    self.assertNotEqual(path.read_bytes()[:4], b"NAME")
                    first = path.read_bytes()
                    mpslp.dump(model, path)
                    self.assertEqual(path.read_bytes(), first)
        with gzip.open(self.folder / "b.mps.gz") as file:
            self.assertEqual(file.read(), CANONICAL)


class OpenFiles(unittest.TestCase):
    def test_files(self):
        for path in (EXAMPLES / "small.mps", EXAMPLES / "small.lp"):
            with open(path, "rb") as file:
                self.assertEqual(mpslp.canonical(file, to_format="mps"), CANONICAL)
                self.assertEqual(file.read(), b"")
            with open(path, "rb", buffering=0) as file:
                self.assertEqual(mpslp.load(file), mpslp.load(path))
        with open(EXAMPLES / "small.mps", "rb") as file, self.assertRaisesRegex(
            mpslp.ModelFileError, "small.mps: line "
        ):
            mpslp.load(file, "lp")

    def test_files_without_a_path(self):
        self.assertEqual(mpslp.canonical(io.BytesIO(TEXT), "mps"), CANONICAL)
        with self.assertRaisesRegex(ValueError, "has to be given"):
            mpslp.canonical(io.BytesIO(TEXT))
        with open(os.open(EXAMPLES / "small.mps", os.O_RDONLY), "rb") as file:
            with self.assertRaisesRegex(ValueError, "has to be given"):
                mpslp.load(file)
            self.assertEqual(mpslp.canonical(file, "mps"), CANONICAL)

    def test_a_file_that_is_decompressed(self):
        with tempfile.TemporaryDirectory() as folder:
            path = Path(folder) / "a.mps.gz"
            path.write_bytes(gzip.compress(TEXT))
            with gzip.open(path) as file:
                self.assertEqual(mpslp.canonical(file), CANONICAL)

    def test_files_of_text(self):
        with open(EXAMPLES / "small.mps") as file, self.assertRaisesRegex(
            TypeError, "open binary file, not TextIOWrapper"
        ):
            mpslp.load(file)
        with self.assertRaisesRegex(TypeError, "open binary file, not StringIO"):
            mpslp.load(io.StringIO("min x"), "lp")

        class Text:
            def read(self):
                return "min x"

        with self.assertRaisesRegex(TypeError, "an open file gives bytes, not str"):
            mpslp.load(Text(), "lp")


class Formats(unittest.TestCase):
    def test_bytes_want_a_format(self):
        for call in (
            lambda: mpslp.canonical(TEXT),
            lambda: mpslp.canonical(TEXT, to_format="mps"),
            lambda: mpslp.is_canonical(TEXT),
            lambda: mpslp.same(TEXT, TEXT, "mps"),
            lambda: mpslp.same(TEXT, TEXT, second_format="mps"),
        ):
            with self.assertRaisesRegex(ValueError, "has to be given") as caught:
                call()
            self.assertNotIsInstance(caught.exception, mpslp.ModelFileError)

    def test_unknown_formats(self):
        for word in ("", "MPS", "Lp", "mps ", ".mps", "qps", 0, 1, b"mps", ["mps"]):
            for call in (
                lambda: mpslp.canonical(TEXT, word),
                lambda: mpslp.canonical(TEXT, "mps", word),
                lambda: mpslp.canonical(EXAMPLES / "small.mps", word),
                lambda: mpslp.is_canonical(TEXT, word),
                lambda: mpslp.same(TEXT, TEXT, word, "mps"),
                lambda: mpslp.same(TEXT, TEXT, "mps", word),
            ):
                with self.subTest(word), self.assertRaisesRegex(ValueError, "^unknown format: ") as caught:
                    call()
                self.assertNotIsInstance(caught.exception, mpslp.ModelFileError)

    def test_formats_by_name(self):
        self.assertEqual(mpslp.canonical(source=TEXT, from_format="mps", to_format="mps"), CANONICAL)
        self.assertTrue(mpslp.same(first=TEXT, second=TEXT, first_format="mps", second_format="mps"))
        self.assertTrue(mpslp.is_canonical(source=CANONICAL, format="mps"))

    def test_formats_that_the_library_does_not_know(self):
        from mpslp import _mpslp

        for call in (
            lambda: _mpslp.canonical(TEXT, 2, _mpslp.LP),
            lambda: _mpslp.canonical(TEXT, _mpslp.MPS, 2),
            lambda: _mpslp.is_canonical(TEXT, 4294967295),
            lambda: _mpslp.same(TEXT, 2, TEXT, 0),
        ):
            with self.assertRaisesRegex(ValueError, "^unknown format$"):
                call()


if __name__ == "__main__":
    unittest.main()
