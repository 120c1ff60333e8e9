"""Tests of lines: of bytes, and of files, without a str of each."""

import bz2
import csv
import gzip
import io
import os
import pathlib
import random
import select
import signal
import tempfile
import threading
import unittest

from test_safety import running, take_back

from string_interner import Column, Interner

INPUTS = (b"", b"\n", b"a", b"a\n", b"a\nb", b"a\n\nb\n", b"\n\n\n", b"a\r\nb\r\n", "ß\n語\n𝄞\n".encode(), b"a\0b\nc\x0b\x0c\x1c\x85"[:-1] + b"\n",
          "a\u2028b\x85\nc".encode())
WRONG = ((b"\xff", 1), (b"a\nb\n\xc3", 3), (b"a\n\xed\xa0\x80\nb", 2), (b"a\nb\xf5\n", 2), (b"a\xc3\n\xa4\n", 1))


def lines_of(raw):
    """The lines that the page promises: each ends at a newline, or at the end."""
    lines = raw.decode().split("\n")
    return lines[:-1] if lines[-1] == "" else lines


class Few:
    """An open file that reads a byte at a time, or anything else."""

    def __init__(self, raw):
        self.raw, self.at = raw, 0

    def read(self, count):
        if isinstance(self.raw, Exception):
            raise self.raw
        if not isinstance(self.raw, (bytes, bytearray, memoryview)):
            return self.raw
        self.at += 1
        return self.raw[self.at - 1 : self.at]

    def __enter__(self):
        return self

    def __exit__(self, *_):
        pass


class OfBytes(unittest.TestCase):
    def test_lines(self):
        for raw in INPUTS:
            for backend in ("string", "bucket", "buffer"):
                for given in (raw, bytearray(raw), memoryview(raw)):
                    interner, other = Interner(["b"], backend=backend), Interner(["b"], backend=backend)
                    numbers = interner.intern_lines(given)
                    self.assertEqual((numbers, interner), (other.intern_all(lines_of(raw)), other))
                    self.assertEqual((numbers.typecode, interner.resolve_all(numbers)), ("I", lines_of(raw)))

    def test_a_line_that_is_not_utf8(self):
        for raw, line in WRONG:
            interner = Interner(["b"])
            with self.assertRaisesRegex(ValueError, f"^line {line} is not UTF-8$"):
                interner.intern_lines(raw)
            self.assertEqual(list(interner), ["b"])

    def test_parts(self):
        # Lines of all lengths, so that parts end within one, and one that is longer than a part.
        source = random.Random(1)
        lines = ["a" * source.randrange(200) + str(source.randrange(1000)) for _ in range(30_000)]
        lines[7] = "long" * 1_000_000
        for end in ("", "\n"):
            raw = ("\n".join(lines) + end).encode()
            interner, other = Interner(), Interner()
            self.assertEqual(interner.intern_lines(raw), other.intern_all(lines))
            self.assertEqual(interner, other)
            with self.assertRaisesRegex(ValueError, f"^line {len(lines)} is not UTF-8$"):
                Interner().intern_lines(raw.removesuffix(b"\n") + b"\xff" + end.encode())

    def test_what_has_no_lines(self):
        for wrong in ("a\nb", None, 1, ["a\n"]):
            with self.assertRaises(TypeError):
                Interner().intern_lines(wrong)
        closed = Interner()
        closed.close()
        self.assertRaises(ValueError, closed.intern_lines, b"a")


class BesideThreads(unittest.TestCase):
    """Other threads run between the parts of `intern_lines`, and may do anything to the interner."""

    LINES = [f"line {number} of many, which is long enough that a few thousand make a part" for number in range(60_000)]
    RAW = "\n".join(LINES).encode()

    def count_or_raise(self, interner, raw, known):
        """Interns lines, whose numbers must be right however others use the interner, or returns what that raised."""
        try:
            numbers = interner.intern_lines(raw)
        except (ValueError, RuntimeError) as error:
            return error
        self.assertEqual(interner.resolve_all(numbers), known)
        return None

    def test_another_thread_runs_meanwhile(self):
        # On a busy machine the other thread may get no time within one call.
        for _ in range(60):
            interner, seen = Interner(["first"]), set()
            with running(lambda: seen.add(len(interner))):
                interner.intern_lines(self.RAW)
            self.assertEqual(len(interner), 1 + len(self.LINES))
            if any(1 < count < 1 + len(self.LINES) for count in seen):
                return
        self.fail("no other thread ran between the parts")

    def test_lines_that_several_threads_have(self):
        # Those that fail at their last line must not undo lines that others have.
        for backend in ("string", "buffer"):
            for _ in range(6):
                interner, wrong = Interner(backend=backend), []
                with running(lambda: wrong.append(self.count_or_raise(interner, self.RAW + b"\n\xff", None)),
                             lambda: wrong.append(self.count_or_raise(interner, self.RAW[: len(self.RAW) // 2] + b"\xff", None))):
                    for _ in range(3):
                        self.assertIsNone(self.count_or_raise(interner, self.RAW, self.LINES))
                self.assertEqual({str(error).split(" ", 2)[2] for error in wrong} - {"is not UTF-8"}, set())

    def test_texts_that_others_intern_or_look_up_stay(self):
        for _ in range(6):
            interner, got = Interner(["first"]), {}
            texts = [self.LINES[5], "other", self.LINES[20_000]]
            with running(lambda: got.update((text, interner.get(text)) for text in texts if text in interner),
                         lambda: got.update(zip(texts, interner.intern_all(texts)))):
                error = self.count_or_raise(interner, self.RAW + b"\n\xff", None)
            self.assertIsInstance(error, ValueError)
            self.assertEqual({text: interner.get(text) for text in got}, got)

    def test_an_interner_that_others_close_or_truncate(self):
        for backend in ("string", "bucket", "buffer"):
            for change in (lambda it: it.close(), lambda it: it.truncate(len(it) // 2), lambda it: it.truncate(0),
                           lambda it: it.__init__(["again"])):
                interner, done = Interner(["first"], backend=backend), []

                def step():
                    try:
                        if len(interner) > 1 and not done:
                            done.append(change(interner))
                    except ValueError:
                        pass  # It is closed.

                with running(step), self.subTest(backend):
                    try:
                        interner.intern_lines(self.RAW)
                    except (ValueError, RuntimeError) as error:
                        self.assertRegex(str(error), "closed|changed this during the call")
                try:
                    texts = list(interner)
                except ValueError:
                    continue
                self.assertEqual(interner.intern_all(texts), interner.get_all(texts, missing=0))


class Fields(unittest.TestCase):
    def test_a_field_of_each_line(self):
        chance = random.Random(1)
        for _ in range(300):
            separator = chance.choice([",", "\t", ";;", "é", "aab", ", ", "\0"])
            rows = [["".join(chance.choices("ab,é;", k=chance.randrange(4))) for _ in range(3)] for _ in range(chance.randrange(9))]
            lines = [separator.join(row) for row in rows]
            for newline, end in (("\n", "\n"), (None, "\r\n"), (None, "\r")):
                raw = end.join(lines).encode() + (b"" if not lines or chance.random() < 0.5 and lines[-1] else end.encode())
                for field in range(3):
                    wanted = [line.split(separator)[field] for line in lines]
                    for given in (separator, separator.encode(), bytearray(separator.encode())):
                        column = Column.from_file(io.BytesIO(raw), field=field, separator=given, newline=newline)
                        self.assertEqual((list(column), column.dictionary), (wanted, list(dict.fromkeys(wanted))))

    def test_the_fields_that_csv_reads(self):
        chance = random.Random(2)
        rows = [[str(chance.randrange(99)), chance.choice(["", "ß", "b c"]), "x" * chance.randrange(300)] for _ in range(20_000)]
        text = io.StringIO()
        csv.writer(text, lineterminator="\n").writerows(rows)
        raw = text.getvalue().encode()
        for field in range(3):
            column = Column.from_file(io.BytesIO(raw), field=field)
            self.assertEqual(list(column), [row[field] for row in csv.reader(io.StringIO(raw.decode()))])
        for given in (Few(b"a,b\nc,d"), io.BytesIO(b"\xef\xbb\xbfa,b\r\nc,d")):
            column = Column.from_file(given, field=1, encoding="utf-8-sig", newline=None)
            self.assertEqual(list(column), ["b", "d"])

    def test_a_header(self):
        with tempfile.TemporaryFile() as file:
            file.write(b"name,city\nann,Oslo\nbob,Rome\n")
            file.seek(0)
            names = file.readline().decode().rstrip().split(",")
            self.assertEqual(list(Column.from_file(file, field=names.index("city"))), ["Oslo", "Rome"])

    def test_lines_without_the_field(self):
        for raw, line in ((b"a", 1), (b"a,b\na\n", 2), (b"a,b\n\na,b", 2)):
            with self.assertRaisesRegex(ValueError, f"^line {line} has no field 1$"):
                Column.from_file(io.BytesIO(raw), field=1)
        self.assertEqual(list(Column.from_file(io.BytesIO(b"\n,a"), field=0)), ["", ""])
        with self.assertRaisesRegex(ValueError, "^line 1 has no field 9223372036854775807$"):
            Column.from_file(io.BytesIO(b"a,b"), field=2**63 - 1)

    def test_fields_that_are_not_utf8(self):
        # What is in other fields is not looked at.
        raw = b"a,\xff\nb,c\n"
        self.assertEqual(list(Column.from_file(io.BytesIO(raw), field=0)), ["a", "b"])
        with self.assertRaisesRegex(ValueError, "^the field of line 1 is not UTF-8$"):
            Column.from_file(io.BytesIO(raw), field=1)

    def test_what_is_no_field_or_separator(self):
        for words, error, said in (
            ({"field": -1}, ValueError, "fields are counted from 0"),
            ({"field": 0, "separator": b""}, ValueError, "a separator is empty"),
            ({"field": 0, "separator": ""}, ValueError, "a separator is empty"),
            ({"separator": b","}, TypeError, "a separator, and no field"),
            ({"field": 0, "separator": "a\n"}, ValueError, "a separator has what ends a line"),
            ({"field": 0, "separator": b"\r", "newline": None}, ValueError, "a separator has what ends a line"),
            ({"field": 2**70}, OverflowError, ""), ({"field": "1"}, TypeError, ""), ({"field": 1.5}, TypeError, ""),
            ({"field": 0, "separator": 1}, TypeError, ""), ({"field": 0, "separator": None}, TypeError, ""),
            ({"field": 0, "separator": "\ud800"}, UnicodeEncodeError, ""),
        ):
            with self.assertRaisesRegex(error, f"^{said}"):
                Column.from_file(io.BytesIO(b"a,b"), **words)
        self.assertEqual(list(Column.from_file(io.BytesIO(b"a\rb"), field=1, separator="\r")), ["b"])


class Progress(unittest.TestCase):
    def test_it_is_told_how_far_a_file_is_read(self):
        raw = b"".join(b"%d\n" % number for number in range(600_000))
        for given in (io.BytesIO(raw), io.BufferedReader(io.BytesIO(raw))):
            told = []
            column = Column.from_file(given, progress=lambda *it: told.append(it))
            self.assertEqual(told[-1], (len(raw), len(column)))
            self.assertEqual(told, sorted(told))
            self.assertGreater(len(told), len(raw) >> 20)
            for count, rows in told:
                self.assertIn(rows - raw[:count].count(b"\n"), (0, -1))
        told = []
        with tempfile.TemporaryFile() as file:
            file.write(raw)
            file.seek(0)
            Column.from_file(file.fileno(), field=0, progress=lambda *it: told.append(it))
        self.assertEqual(told[-1], (len(raw), 600_000))
        told = []
        Column.from_file(io.BytesIO(b""), progress=lambda *it: told.append(it))
        self.assertEqual(told, [(0, 0)])

    def test_what_it_raises_ends_the_call(self):
        def fail(count, rows):
            raise ZeroDivisionError

        self.assertRaises(ZeroDivisionError, Column.from_file, io.BytesIO(b"a"), progress=fail)
        self.assertRaises(TypeError, Column.from_file, io.BytesIO(b"a"), progress=1)
        self.assertEqual(list(Column.from_file(io.BytesIO(b"a"), progress=None)), ["a"])

    def test_it_may_use_the_file(self):
        file = io.BytesIO(b"a\n" * 2_000_000)

        def close(count, rows):
            file.close()

        self.assertRaises(ValueError, Column.from_file, file, progress=close)

    def test_what_is_passed_by_its_name_stays(self):
        ends = []

        class Progress:
            calls = 0

            def __call__(self, count, rows):
                Progress.calls += 1
                take_back(self)

            def __del__(self):
                ends.append(Progress.calls)

        column = Column.from_file(io.BytesIO(b"a;b\n" * 1_000_000), **{"field": 1, "separator": b";", "progress": Progress()})
        self.assertEqual((len(column), column.dictionary, ends), (1_000_000, ["b"], [Progress.calls]))
        self.assertGreater(Progress.calls, 1)


class OfFiles(unittest.TestCase):
    def setUp(self):
        folder = tempfile.TemporaryDirectory()
        self.addCleanup(folder.cleanup)
        self.path = pathlib.Path(folder.name) / "lines ß"

    def test_lines(self):
        for raw in INPUTS:
            self.path.write_bytes(raw)
            for given in (self.path, str(self.path), os.fsencode(self.path)):
                column = Column.from_file(given)
                self.assertEqual((list(column), column), (lines_of(raw), Column(lines_of(raw))))
                self.assertEqual(column.dictionary, Column(lines_of(raw)).dictionary)
            with open(self.path, "rb") as file:
                self.assertEqual(list(Column.from_file(file.fileno())), lines_of(raw))
                self.assertEqual(os.fstat(file.fileno()).st_size, len(raw))

    def test_lines_that_are_not_utf8(self):
        for raw, line in WRONG:
            self.path.write_bytes(raw)
            with self.assertRaisesRegex(ValueError, f"^line {line} is not UTF-8$"):
                Column.from_file(self.path)

    def test_open_files(self):
        for raw in INPUTS:
            self.path.write_bytes(raw)
            packed = {open: self.path, gzip.open: self.path.with_suffix(".gz"), bz2.open: self.path.with_suffix(".bz2")}
            for make, path in packed.items():
                with make(path, "wb") as file:
                    file.write(raw)
                with make(path, "rb") as file:
                    self.assertEqual(list(Column.from_file(file)), lines_of(raw))
                    # It stays open, and is at its end.
                    self.assertEqual((file.closed, file.read()), (False, b""))
            for file in (io.BytesIO(raw), open(self.path, "rb", buffering=0), Few(raw), Few(bytearray(raw)), Few(memoryview(raw))):
                with file:
                    self.assertEqual(list(Column.from_file(file, hasher="fixed")), lines_of(raw))
        file = io.BytesIO(b"header\na\nb")
        file.readline()
        self.assertEqual(list(Column.from_file(file)), ["a", "b"])

    def test_what_an_open_file_may_do(self):
        for wrong, error, said in (
            (io.StringIO("a"), TypeError, "^the file is open as text: open it in the mode 'rb'$"), (Few(None), BlockingIOError, "does not wait"),
            (Few(ZeroDivisionError()), ZeroDivisionError, ""), (Few(7), TypeError, "bytes-like object"), (Few(b"a\n\xff\n"), ValueError, "^line 2 is not UTF-8$"),
        ):
            with self.assertRaisesRegex(error, said):
                Column.from_file(wrong)
        with open(__file__, encoding="utf-8") as file, self.assertRaises(TypeError):
            Column.from_file(file)

        class Again(io.BytesIO):
            def read(self, count):
                found.append(Column.from_file(io.BytesIO(b"x\ny\nx")))
                return super().read(count)

        found = []
        self.assertEqual(list(Column.from_file(Again(b"a\nb"))), ["a", "b"])
        self.assertEqual({tuple(it) for it in found}, {("x", "y", "x")})

    def test_a_file_that_is_compressed(self):
        for content in (b"a\n" * 3, os.urandom(3_000_000)):
            with gzip.open(self.path, "wb") as file:
                file.write(content)
            for given in (self.path, str(self.path), io.BytesIO(self.path.read_bytes())):
                with self.assertRaisesRegex(ValueError, r"^line 1 is not UTF-8: the file is compressed by gzip; give what gzip.open\(path\) returns$"):
                    Column.from_file(given)
        # Such bytes behind the first line, or a line that is UTF-8, are something else.
        for raw, line in ((b"a\n\x1f\x8b\n", 2), (b"\x1f\n\x8b", 2)):
            with self.assertRaisesRegex(ValueError, f"^line {line} is not UTF-8$"):
                Column.from_file(io.BytesIO(raw))

    def test_newlines_and_a_mark_as_open_reads_them(self):
        mark = "\ufeff".encode()
        for raw in (*INPUTS, b"a\rb\r\n\r\n\n\rc\r", b"\r", b"\r\n", b"\n\r", b"a\r\r\nb", b"a\r" * 3, b"x\rlong" * 300_000 + b"\r\nend"):
            for front in (b"", mark, mark * 2):
                self.path.write_bytes(front + raw)
                for encoding in ("utf-8", "utf-8-sig"):
                    for newline in ("\n", None):
                        with open(self.path, encoding=encoding, newline=newline) as file:
                            wanted = lines_of(file.read().encode())
                        for given in (self.path, Few(front + raw) if len(raw) < 100 else io.BytesIO(front + raw)):
                            column = Column.from_file(given, encoding=encoding, newline=newline)
                            self.assertEqual(list(column), wanted)
        # A mark that is cut is not UTF-8.
        self.assertRaises(ValueError, Column.from_file, Few(mark[:2]), encoding="utf-8-sig")
        for wrong in ({"newline": "\r\n"}, {"newline": ""}, {"newline": 1}, {"encoding": "latin-1"}, {"encoding": None}, {"encoding": b"utf-8"}):
            with self.assertRaises(ValueError):
                Column.from_file(self.path, **wrong)

    def test_many_lines_and_long_ones(self):
        source = random.Random(2)
        lines = ["a" * source.randrange(200) + str(source.randrange(1000)) for _ in range(30_000)]
        lines[7], lines[-1] = "long" * 1_000_000, "end" * 1_000_000
        for end in ("", "\n"):
            self.path.write_text("\n".join(lines) + end)
            column = Column.from_file(self.path, hasher="fixed")
            self.assertEqual((column, column.hasher), (Column(lines), "fixed"))

    def test_a_pipe(self):
        # Other threads run while this one reads.
        lines = [f"line {number % 500}" for number in range(200_000)]
        read, write = os.pipe()

        def fill():
            with open(write, "w", encoding="utf-8") as file:
                file.write("\n".join(lines))

        filler = threading.Thread(target=fill)
        filler.start()
        self.assertEqual(Column.from_file(read), Column(lines))
        filler.join()
        os.close(read)

    def test_a_handler_ends_the_reading(self):
        reader, writer = os.pipe()
        handled, has_ended = [], threading.Event()

        def handle(*_):
            if not handled:
                handled.append(True)
                raise ZeroDivisionError

        def interrupt():
            os.write(writer, b"a\n")
            # The reading has begun once nothing is left in the pipe. A signal may still come just before the next read.
            while select.select([reader], [], [], 0)[0] and not has_ended.wait(0.001):
                pass
            for _ in range(20_000):
                signal.pthread_kill(threading.main_thread().ident, signal.SIGALRM)
                if has_ended.wait(0.01):
                    break
            os.close(writer)

        before = signal.signal(signal.SIGALRM, handle)
        interrupter = threading.Thread(target=interrupt)
        interrupter.start()
        try:
            with self.assertRaises(ZeroDivisionError):
                Column.from_file(reader)
        finally:
            has_ended.set()
            interrupter.join()
            signal.signal(signal.SIGALRM, before)
            os.close(reader)

    def test_what_cannot_be_read(self):
        for wrong, error in ((self.path, FileNotFoundError), (self.path.parent, IsADirectoryError), (10**6, OSError), (-1, OSError),
                             (10**30, OverflowError), (2**32, (OSError, OverflowError)), ("a\0b", ValueError), (None, TypeError), (1.5, TypeError)):
            before = len(os.listdir("/proc/self/fd"))
            with self.assertRaises(error):
                Column.from_file(wrong)
            self.assertEqual(len(os.listdir("/proc/self/fd")), before)

    def test_a_subclass(self):
        class Named(Column):
            def __init__(self, name):
                super().__init__()
                self.name = name

        self.path.write_text("a\nb\na\n")
        column = Named.from_file(self.path)
        self.assertEqual((type(column), list(column)), (Named, ["a", "b", "a"]))


if __name__ == "__main__":
    unittest.main()
