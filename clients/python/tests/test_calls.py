"""Tests of each call, over each backend."""

import copy
import doctest
import json
import pickle
import random
import sys
import threading
import unittest
from array import array

import string_interner
from string_interner import Column, Interner

BACKENDS = ("string", "bucket", "buffer")
TEXTS = ["Tiger", "", "Käfer", "語", "𝄞", "a\0b", 'q"\\\n']


def places(texts, backend):
    """The numbers of distinct texts: they count them, or on a buffer the bytes before, each text behind its length."""
    if backend != "buffer":
        return list(range(len(texts)))
    found, place = [], 0
    for text in texts:
        found.append(place)
        length = len(text.encode())
        place += length + max(1, -(-length.bit_length() // 7))
    return found


class Calls:
    """The calls, over the backend of a subclass."""

    def make(self, texts=()):
        return Interner(texts, backend=self.backend)

    def test_a_known_text_keeps_its_number(self):
        interner = self.make()
        wanted = places(TEXTS, self.backend)
        self.assertEqual([interner.intern(text) for text in TEXTS], wanted)
        self.assertEqual([interner.intern(text) for text in reversed(TEXTS)], wanted[::-1])
        self.assertEqual([interner.get(text) for text in TEXTS], wanted)
        self.assertEqual([interner.resolve(number) for number in wanted], TEXTS)
        self.assertEqual(len(interner), len(TEXTS))
        self.assertEqual(interner.backend, self.backend)

    def test_walks_in_order_of_first_interning(self):
        interner = self.make(TEXTS + TEXTS)
        self.assertEqual(list(interner), TEXTS)
        self.assertEqual(list(interner.items()), list(zip(places(TEXTS, self.backend), TEXTS)))
        interner = self.make()
        self.assertEqual([*interner, *interner.items()], [])

    def test_a_walk_shows_what_there_was(self):
        interner = self.make(["a", "b"])
        walk, items = iter(interner), interner.items()
        interner.truncate(0)
        interner.intern("c")
        self.assertEqual(list(walk), ["a", "b"])
        self.assertEqual([text for _, text in items], ["a", "b"])

    def test_unknown_texts_and_numbers(self):
        interner = self.make(TEXTS)
        self.assertIsNone(interner.get("Horse"))
        self.assertNotIn("Horse", interner)
        self.assertIn("語", interner)
        self.assertNotIn(7, interner)
        for number in (-1, 10**6, 2**32, 2**64 - 1, 2**64, 10**30):
            self.assertIsNone(interner.resolve(number))

    def test_a_default_for_an_unknown_text(self):
        interner, other = self.make(TEXTS), object()
        self.assertIs(interner.get("Horse", other), other)
        self.assertIs(interner.get("Horse", default=other), other)
        self.assertIs(interner.get("lone \ud800", other), other)
        self.assertEqual(interner.get("語", other), places(TEXTS, self.backend)[3])
        for call in (lambda: interner.get(), lambda: interner.get("a", 1, 2), lambda: interner.get("a", missing=1),
                     lambda: interner.get("a", 1, default=2), lambda: interner.get(default=1), lambda: interner.get(text="a")):
            self.assertRaises(TypeError, call)

    def test_looks_many_texts_up(self):
        interner = self.make(TEXTS)
        wanted = places(TEXTS, self.backend)
        rows = [*TEXTS, "Horse", "lone \ud800", *TEXTS[::-1]]
        for given in (rows, tuple(rows), iter(rows)):
            numbers = interner.get_all(given)
            self.assertEqual((numbers.tolist(), numbers.typecode), ([*wanted, -1, -1, *wanted[::-1]], "i"))
        self.assertEqual(interner.get_all([]), array("i"))
        for missing, typecode in ((7, "i"), (2**31 - 1, "i"), (-(2**31), "i"), (2**31, "q"), (-(2**63), "q")):
            numbers = interner.get_all(["Horse", "Tiger", "Horse"], missing)
            self.assertEqual((numbers.tolist(), numbers.typecode), ([missing, wanted[0], missing], typecode))
            self.assertEqual(interner.get_all(["Horse"], missing=missing).tolist(), [missing])
        for wrong in (b"a", 1):
            with self.assertRaisesRegex(TypeError, f"^text 1 is of type {type(wrong).__name__}, not str or None$"):
                interner.get_all(["a", wrong])
        self.assertRaises(OverflowError, interner.get_all, ["a"], 2**63)
        self.assertRaises(TypeError, interner.get_all, ["a"], 1.5)
        self.assertEqual(list(interner), TEXTS)

    def test_texts_that_are_missing(self):
        interner, (first, second, _, *_) = self.make(TEXTS), places(TEXTS, self.backend)
        rows = [TEXTS[1], None, "Horse", TEXTS[0], None]
        known = dict(zip(TEXTS, places(TEXTS, self.backend)))
        for given in (rows, tuple(rows), iter(rows)):
            self.assertEqual(interner.get_all(given).tolist(), [known.get(text, -1) for text in rows])
        self.assertEqual(interner.get_all([None], 7).tolist(), [7])
        self.assertEqual(interner.resolve_all(interner.get_all(rows), missing=-1), [TEXTS[1], None, None, TEXTS[0], None])
        self.assertEqual(interner.resolve_all([first, 2**40], missing=2**40), [TEXTS[0], None])
        self.assertEqual(interner.resolve_all([first], missing=first), [None])
        # What is missing without a number for it is an error, and so are other numbers.
        for call in (lambda: interner.resolve_all([-1]), lambda: interner.resolve_all([-1, -2], missing=-1), lambda: interner.resolve_all([-1], missing=2),
                     lambda: interner.resolve_all([2**64], missing=2**63 - 1), lambda: interner.resolve_all([-(2**64)], missing=-(2**63)),
                     lambda: interner.resolve_all(array("Q", [2**64 - 1]), missing=-1)):
            self.assertRaises(KeyError, call)
        with self.assertRaisesRegex(TypeError, "^text 1 is of type NoneType, not str$"):
            interner.intern_all([TEXTS[0], None])
        numbers = interner.intern_all([TEXTS[1], None, "Horse", "Horse"], missing=-1)
        self.assertEqual((numbers.tolist(), numbers.typecode), ([second, -1, interner.get("Horse"), interner.get("Horse")], "i"))
        self.assertEqual(list(interner), [*TEXTS, "Horse"])
        self.assertEqual(interner.intern_all([None, TEXTS[0]], missing=2**31).tolist(), [2**31, first])
        for wrong, error in ((1.5, TypeError), ("1", TypeError), (2**63, OverflowError)):
            for call in (lambda: interner.intern_all(["new"], missing=wrong), lambda: interner.resolve_all([0], missing=wrong)):
                self.assertRaises(error, call)
        self.assertRaises(ValueError, interner.intern_all, ["new"], typecode="Q", missing=-1)
        with self.assertRaisesRegex(TypeError, "^text 1 is of type int, not str or None$"):
            interner.intern_all(["new", 1], missing=-1)
        self.assertEqual(list(interner), [*TEXTS, "Horse"])

    def test_a_text_is_no_number(self):
        interner = self.make(TEXTS)
        for call in (interner.resolve, interner.__getitem__):
            with self.assertRaisesRegex(TypeError, r"the number of a text is what get\(text\) or intern\(text\) returns$"):
                call(TEXTS[0])

    def test_a_str_is_one_text(self):
        interner = self.make(TEXTS)
        for given in ("Tiger", "", str.__new__(type("Name", (str,), {}), "ab")):
            for call in (interner.intern_all, interner.get_all, Interner, lambda it: interner.intern_all(it, missing=-1)):
                with self.assertRaisesRegex(TypeError, r"^a str is one text, and no rows: write \[text\], or list\(text\) for its letters$"):
                    call(given)
        self.assertEqual(list(interner), TEXTS)

    def test_encodes_columns(self):
        interner = self.make(["b"])
        column = ["a", "b", "ab", "a", "", "語", "b"]
        distinct = ["b", "a", "ab", "", "語"]
        numbers = dict(zip(distinct, places(distinct, self.backend)))
        codes = interner.intern_all(iter(column))
        self.assertIsInstance(codes, array)
        self.assertEqual(codes.tolist(), [numbers[text] for text in column])
        self.assertEqual(list(interner), distinct)
        self.assertEqual(interner.intern_all([]).tolist(), [])
        self.assertEqual(interner.intern_all(["b", "", "ab"]).tolist(), [numbers[text] for text in ("b", "", "ab")])
        self.assertEqual(interner.intern_column(b"abb", ends=[1, 3, 3]).tolist()[::2], [numbers["a"], numbers[""]])

    def test_a_column_with_a_fault_stops_there(self):
        rows = [
            (b"ab\xffc", [1, 2, 3, 4], ["a", "b"]),
            (b"abc", [1, 2, 4], ["a", "b"]),
            (b"abc", [2, 1], ["ab"]),
            ("aß".encode(), [1, 2, 3], ["a"]),
        ]
        for joined, ends, kept in rows:
            interner = self.make()
            with self.assertRaises(ValueError):
                interner.intern_column(joined, ends=array("Q", ends))
            self.assertEqual(list(interner), kept)

    def test_texts_without_utf8_are_refused(self):
        interner = self.make(["a"])
        for call in (interner.intern, lambda text: interner.intern_all(["b", text])):
            with self.assertRaises(UnicodeEncodeError):
                call("lone \ud800")
        # No such text is ever known, so it can be asked for, as in a set.
        self.assertNotIn("lone \ud800", interner)
        self.assertIsNone(interner.get("lone \ud800"))
        # Two halves that meet are no letter.
        with self.assertRaises(UnicodeEncodeError):
            interner.intern_all(["\ud834", "\udd1e"])
        self.assertEqual(list(interner), ["a"])

    def test_long_texts(self):
        interner = self.make()
        texts = ["x" * length for length in (127, 128, 129, 16383, 16384, 100_000)]
        numbers = interner.intern_all(texts).tolist()
        self.assertEqual(numbers, places(texts, self.backend))
        self.assertEqual([interner.resolve(number) for number in numbers], texts)
        self.assertEqual(list(interner), texts)

    def test_truncates_and_shrinks(self):
        interner = self.make(TEXTS)
        interner.truncate(2**80)
        self.assertEqual(list(interner), TEXTS)
        interner.truncate(2)
        interner.shrink()
        self.assertEqual(list(interner), TEXTS[:2])
        self.assertIsNone(interner.get("語"))
        self.assertEqual(interner.intern("語"), places(["Tiger", "", "語"], self.backend)[2])
        with self.assertRaises(ValueError):
            interner.truncate(-1)

    def test_copies_are_equal_and_apart(self):
        interner = self.make(TEXTS)
        copies = [interner.copy(), copy.copy(interner), copy.deepcopy(interner), pickle.loads(pickle.dumps(interner))]
        for other in copies:
            self.assertIsNot(other, interner)
            self.assertEqual(other, interner)
            self.assertEqual(list(other.items()), list(interner.items()))
            other.intern("Horse")
            self.assertNotEqual(other, interner)
        self.assertEqual(list(interner), TEXTS)

    def test_dask_reads_its_size_and_its_name(self):
        interner = self.make(TEXTS)
        self.assertEqual(sys.getsizeof(interner) - sys.getsizeof(self.make([])), 64 * len(TEXTS))
        self.assertEqual(interner.__dask_tokenize__(), self.make(TEXTS).__dask_tokenize__())
        others = [self.make(TEXTS[::-1]), self.make(TEXTS[1:]), self.make([]), self.make([", ".join(TEXTS)]), Column(TEXTS)]
        self.assertEqual(len({str(it.__dask_tokenize__()) for it in (interner, *others)}), 6)
        self.assertEqual(len({str(Interner(TEXTS, backend=it).__dask_tokenize__()) for it in ("string", "bucket", "buffer")}), 3)
        before = sys.getsizeof(self.make([]))
        interner.close()
        self.assertEqual(sys.getsizeof(interner), before)
        self.assertRaises(ValueError, interner.__dask_tokenize__)
        try:
            from dask.base import tokenize
            from dask.sizeof import sizeof
        except ImportError:
            return
        self.assertEqual(tokenize(self.make(TEXTS)), tokenize(self.make(TEXTS)))
        self.assertGreaterEqual(sizeof(self.make(map(str, range(1000)))), 64_000)

    def test_equality(self):
        interner = self.make(TEXTS)
        self.assertTrue(interner == interner)
        self.assertNotEqual(interner, self.make(reversed(TEXTS)))
        self.assertNotEqual(self.make(["a", "b"]), self.make(["a", "c"]))
        others = [Interner(TEXTS, backend=backend) == interner for backend in BACKENDS]
        self.assertEqual(others, [backend == self.backend for backend in BACKENDS])
        self.assertNotEqual(interner, TEXTS)
        with self.assertRaises(TypeError):
            hash(interner)

    def test_json(self):
        interner = self.make(TEXTS)
        self.assertEqual(json.loads(interner.to_json()), TEXTS)
        written = json.dumps(TEXTS)
        self.assertEqual(Interner.from_json(written, backend=self.backend, exact=True), interner)
        repeated = json.dumps(TEXTS + TEXTS[:1])
        self.assertEqual(Interner.from_json(repeated, backend=self.backend), interner)
        with self.assertRaisesRegex(ValueError, "repeats"):
            Interner.from_json(repeated, backend=self.backend, exact=True)
        for wrong, why in (('["a"', "not JSON"), ("{}", "not an array"), ('["a",1]', "not a string")):
            with self.assertRaisesRegex(ValueError, why):
                Interner.from_json(wrong)


class OverString(Calls, unittest.TestCase):
    backend = "string"


class OverBucket(Calls, unittest.TestCase):
    backend = "bucket"


class OverBuffer(Calls, unittest.TestCase):
    backend = "buffer"


class Objects(unittest.TestCase):
    """Arrays of objects are read in place."""

    def setUp(self):
        try:
            import numpy
        except ImportError:
            self.skipTest("no numpy")
        self.numpy = numpy

    def test_arrays_of_objects(self):
        rows = self.numpy.array(["b", "a", "b", "ß"] * 700, dtype=object)
        for given in (rows, rows[::-2], rows[1:1], rows.reshape(4, -1)[1], rows[:3].copy()):
            interner, other = Interner(), Interner()
            self.assertEqual(interner.intern_all(given), other.intern_all(given.tolist()))
            self.assertEqual(interner, other)
            self.assertEqual(interner.get_all(given), other.get_all(given.tolist()))

    def test_arrays_of_other_kinds(self):
        texts = self.numpy.array(["b", "a", "b"])
        self.assertEqual(Interner().intern_all(texts).tolist(), [0, 1, 0])
        for wrong in (self.numpy.array([1, 2]), self.numpy.array([1.5]), self.numpy.array([["a", "b"]]), self.numpy.array([True]),
                      self.numpy.array([b"a"]), self.numpy.array(["2020"], "M8"), self.numpy.array([("a",)], "O,"[0])):
            with self.assertRaises(TypeError):
                Interner().intern_all(wrong)

    def test_masked_arrays(self):
        masked = self.numpy.ma.array(["a", "b"], mask=[True, False], dtype=object)
        with self.assertRaisesRegex(TypeError, "^text 0 is of type NoneType, not str$"):
            Interner().intern_all(masked)


class Others(unittest.TestCase):
    def test_wrong_arguments(self):
        for call in (lambda: Interner(backend="tree"), lambda: Interner(capacity=-1), lambda: Interner(capacity=2**64)):
            with self.assertRaises(ValueError):
                call()
        for wrong in (b"bytes", 7, None):
            with self.assertRaises(TypeError):
                Interner().intern(wrong)
            with self.assertRaises(TypeError):
                Interner().intern_all([wrong])

    def test_too_much_room_is_refused(self):
        with self.assertRaises(MemoryError):
            Interner(capacity=2**64 - 1)
        self.assertEqual(Interner(["a"], capacity=1000).get("a"), 0)

    def test_threads_take_turns(self):
        interner, numbers = Interner(), []

        def fill(first):
            texts = [str(number % 1000) for number in range(first, first + 5000)]
            numbers.append({text: interner.intern(text) for text in texts})
            interner.intern_all(texts)
            assert len(list(interner)) == len(list(interner.items())) == 1000

        threads = [threading.Thread(target=fill, args=(first,)) for first in range(0, 400, 100)]
        for thread in threads:
            thread.start()
        for thread in threads:
            thread.join()
        self.assertEqual(len(numbers), 4)
        for found in numbers:
            self.assertEqual(found, {text: interner.get(text) for text in found})


class BeyondAscii(unittest.TestCase):
    """Batches of texts of any characters, whose UTF-8 form has another length than the text has."""

    LETTERS = "aZ~\0\x7f\x80ÿßĀ߿ࠀ語\ud7ff\ue000\uffff𐀀𝄞\U0010ffff"

    def draw(self, source):
        """A text of few letters, all or mostly ASCII or not, about as long as a short one may be, or short."""
        letters = source.choice((self.LETTERS, "ab", "ß", "ab" * 9 + "é", "語𝄞"))
        length = source.choice((253, 254, 255, 256, 257, 258, 1000)) if source.random() < 0.05 else source.randrange(12)
        return "".join(source.choices(letters, k=length))

    def test_batches_beside_a_dict(self):
        for seed in range(60):
            source = random.Random(seed)
            texts = [self.draw(source) for _ in range(source.randrange(400))]
            texts += source.choices(texts, k=len(texts) // 2)
            numbers, unknown = {}, "unknown" * 2 + "ß" * source.randrange(300)
            wanted = [numbers.setdefault(text, len(numbers)) for text in texts]
            with self.subTest(seed):
                interner, column = Interner(), Column(texts)
                self.assertEqual(interner.intern_all(texts).tolist(), wanted)
                self.assertEqual(list(interner), list(numbers))
                self.assertEqual(interner.get_all([unknown, *texts, unknown], missing=-1).tolist(), [-1, *wanted, -1])
                self.assertEqual((column.codes.tolist(), column.dictionary), (wanted, list(numbers)))
                column.extend(text for text in [*texts, None])
                self.assertEqual(column.codes.tolist(), [*wanted, *wanted, -1])

    def test_texts_keep_no_second_form(self):
        for count, letters in ((2000, "ß"), (2000, "語"), (2000, "𝄞a"), (300, "ä" * 200)):
            texts = [f"{letters}{number}" for number in range(count)]
            for call in (Column, Interner().intern_all, Column(["a"]).extend, Interner().get_all):
                fresh = ["".join(text) for text in map(list, texts)]
                before = sum(map(sys.getsizeof, fresh))
                for _ in range(3):
                    call(fresh)
                # CPython makes the form of the first one, and of what others hold, too.
                self.assertLess(sum(map(sys.getsizeof, fresh)) - before, 1024, (letters, call))

    def test_texts_that_keep_their_form(self):
        """Of all, of none, or of some, of which the first decides for those that follow."""
        for every in (1, 2, 3, 5000):
            texts = [f"{'ßa語'[number % 3]}{number}" for number in range(5000)]
            for text in texts[::every]:
                Interner().intern(text)
            for _ in range(3):
                self.assertEqual(Interner().intern_all(texts).tolist(), [*range(5000)])
                self.assertEqual(Column(texts).dictionary, texts)

    def test_a_text_without_a_form(self):
        for front in (["a"], ["ß"], ["ß" * 300], ["ß", "a"] * 20):
            for wrong in ("\ud800", "ß\udfff", "abcd\ud800", "a" * 300 + "\udfff"):
                texts = [*(f"{text}{row}" for row, text in enumerate(front)), wrong, "語"]
                with self.subTest(front=front[:2], wrong=wrong[-5:]):
                    interner, column = Interner(["first"]), Column(["first"])
                    for call in (interner.intern_all, column.extend, Column):
                        with self.assertRaises(UnicodeEncodeError) as caught:
                            call(texts)
                        self.assertEqual(caught.exception.object, wrong)
                    self.assertEqual((list(interner), column.dictionary), (["first"], ["first"]))
                    self.assertEqual(interner.get_all(["first", *texts], missing=-1).tolist(), [0] + [-1] * len(texts))

    def test_a_subclass(self):
        class Lying(str):
            __slots__ = ()

            def __len__(self):
                return 1

            def encode(self, *_):
                return b"lie"

        texts = [f"ß{number}" for number in range(40)]
        self.assertEqual(Column(map(Lying, texts)).dictionary, texts)


def load_tests(loader, tests, pattern):
    tests.addTests(doctest.DocTestSuite(string_interner))
    return tests


if __name__ == "__main__":
    unittest.main()
