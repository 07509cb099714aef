"""The function that writes what commands print: all of it, or an error."""

import errno
import io
import os
import sys
import unittest
from unittest import mock

from mpslp._files._output import OutputError, encoded, write_all, write_lines


class Raw(io.RawIOBase):
    """Takes a few bytes at a time, and fails after so many."""

    def __init__(self, most, room=10**9):
        self.most, self.room, self.taken = most, room, b""

    def writable(self):
        return True

    def write(self, data):
        part = bytes(data[: min(self.most, self.room - len(self.taken))])
        if not part:
            raise OSError(errno.ENOSPC, os.strerror(errno.ENOSPC))
        self.taken += part
        return len(part)


class Output(unittest.TestCase):
    def test_short_writes(self):
        for is_buffered in (False, True):
            raw = Raw(3)
            write_all(
                io.TextIOWrapper(io.BufferedWriter(raw) if is_buffered else raw, write_through=True),
                b"0123456789" * 100,
            )
            self.assertEqual(raw.taken, b"0123456789" * 100)

    def test_what_was_written_before_comes_first(self):
        raw = Raw(1000)
        stream = io.TextIOWrapper(io.BufferedWriter(raw), "utf-8")
        stream.write("first ")
        write_all(stream, "second")
        self.assertEqual(raw.taken, b"first second")

    def test_a_disk_that_is_full(self):
        raw = Raw(3, room=10)
        stream = io.TextIOWrapper(io.BufferedWriter(raw))
        with mock.patch.object(sys, "stderr", stream), self.assertRaises(OutputError) as caught:
            write_all(stream, b"0123456789" * 2)
        error = caught.exception
        self.assertEqual((error.errno, error.filename, error.is_closed_pipe), (errno.ENOSPC, "standard error", False))
        self.assertIsInstance(error, OSError)
        stream.close()  # nothing is left that it would write

    def test_streams_that_are_closed(self):
        closed = io.TextIOWrapper(io.BytesIO())
        closed.close()
        for stream in (None, closed):
            with self.assertRaises(OutputError) as caught:
                write_all(stream, b"a")
            self.assertEqual(caught.exception.filename, "standard output")
            write_all(stream, b"")
        reader, writer = os.pipe()
        os.close(reader)
        with os.fdopen(writer, "w") as stream, self.assertRaises(OutputError) as caught:
            write_all(stream, b"a")
        self.assertTrue(caught.exception.is_closed_pipe)

    def test_streams_of_text(self):
        stream = io.StringIO()
        write_all(stream, "a\u00e9\udcff")
        self.assertEqual(stream.getvalue(), "a\u00e9\udcff")

    def test_names_are_their_bytes(self):
        stream = io.TextIOWrapper(io.BytesIO(), "ascii")
        write_all(stream, os.fsdecode(b"\xc3\xa9\xff.lp"))
        self.assertEqual(stream.buffer.getvalue(), b"\xc3\xa9\xff.lp")
        self.assertEqual(encoded("a\ud800"), b"a\\ud800")

    def test_lines(self):
        for count in (0, 1, 2, 50000):
            raw = Raw(100000)
            lines = [f"line {number}" for number in range(count)]
            write_lines(io.TextIOWrapper(io.BufferedWriter(raw)), iter(lines))
            self.assertEqual(raw.taken, "".join(f"{line}\n" for line in lines).encode())


if __name__ == "__main__":
    unittest.main()
