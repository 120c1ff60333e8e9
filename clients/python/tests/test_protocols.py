"""Tests that an interner behaves as Python's own containers do."""

import copy
import ctypes
import gc
import pickle
import threading
import unittest
import weakref
from array import array
from collections.abc import Collection

from test_safety import run_apart

from string_interner import Interner

BACKENDS = ("string", "bucket", "buffer")
WRONG_TEXTS = (b"a", bytearray(b"a"), 1, 1.5, None, ["a"], object())
WRONG_NUMBERS = (1.5, "1", b"1", None, [1], object())


class Number:
    """No int, but as good as one."""

    def __init__(self, number):
        self.number = number

    def __index__(self):
        return self.number


class Named(Interner):
    """A subclass whose constructor takes something else."""

    def __init__(self, name, texts):
        super().__init__(texts, backend="buffer")
        self.name = name
        self.notes = [name]


class Slotted(Interner):
    __slots__ = ("note", "unset")

    def __new__(cls, note):
        interner = super().__new__(cls)
        interner.note = note
        return interner

    def __init__(self, note):
        super().__init__(["a", "b"])

    def __getnewargs__(self):
        return (self.note,)


class WrongArguments(unittest.TestCase):
    def test_a_text_is_a_str(self):
        interner = Interner(["a"])
        for wrong in WRONG_TEXTS:
            for call in (interner.intern, interner.get, Interner.from_json):
                with self.assertRaisesRegex(TypeError, f"a text is a str, not {type(wrong).__name__}"):
                    call(wrong)
            for call in (interner.intern_all, Interner):
                for texts in (["b", wrong], iter(["b", wrong, None]), ("ß", wrong)):
                    with self.assertRaisesRegex(TypeError, f"^text 1 is of type {type(wrong).__name__}, not str$"):
                        call(texts)
            self.assertNotIn(wrong, interner)
        for call in (interner.intern_all, Interner):
            with self.assertRaises(TypeError):
                call(1)
        self.assertEqual(list(interner), ["a"])

    def test_a_number_is_an_integer(self):
        interner = Interner(["a", "b"])
        for wrong in WRONG_NUMBERS:
            for call in (interner.resolve, interner.__getitem__, interner.truncate, lambda it: Interner(capacity=it),
                         lambda it: interner.resolve_all([0, it]), lambda it: interner.intern_column(b"ab", ends=[1, it])):
                with self.assertRaises(TypeError):
                    call(wrong)
        for right in (1, True, Number(1)):
            self.assertEqual(interner.resolve(right), "b")
            self.assertEqual(interner[right], "b")
            self.assertEqual(interner.resolve_all([right]), ["b"])
            self.assertEqual(interner.intern_column(b"b", ends=[right]).tolist(), [1])
            self.assertEqual(len(Interner(capacity=right)), 0)
        interner.truncate(Number(1))
        self.assertEqual(list(interner), ["a"])

    def test_bad_values(self):
        for call in (lambda: Interner(backend="tree"), lambda: Interner(backend=None), lambda: Interner(capacity=-1),
                     lambda: Interner(capacity=2**64), lambda: Interner.from_json("[]", backend="tree"),
                     lambda: Interner().truncate(-1), lambda: Interner().intern_all(["a"], typecode="d"),
                     lambda: Interner().intern_column(b"a", ends=[1], typecode="i")):
            with self.assertRaises(ValueError):
                call()
        with self.assertRaises(TypeError):
            Interner(backend=[])

    def test_a_wrong_typecode_interns_nothing(self):
        interner = Interner()
        with self.assertRaises(ValueError):
            interner.intern_all(["a"], typecode="d")
        self.assertEqual(list(interner), [])


class Ends(unittest.TestCase):
    def ends_of(self, *ends):
        """The same ends in each form that has a place for them."""
        yield from (list(ends), tuple(ends), iter(ends), [Number(end) for end in ends])
        for typecode in "bBhHiIlLqQ":
            try:
                numbers = array(typecode, ends)
            except OverflowError:
                continue
            doubled = array(typecode, [end for end in ends for _ in range(2)])
            yield from (numbers, memoryview(numbers), memoryview(doubled)[::2])
        if min(ends) >= 0:
            yield (ctypes.c_uint64 * len(ends))(*ends)
            yield (ctypes.c_uint32.__ctype_be__ * len(ends))(*(end % 2**32 for end in ends))

    def test_ends_in_each_form(self):
        for given in self.ends_of(1, 1, 3, 4):
            interner = Interner()
            self.assertEqual(interner.intern_column(b"abca", ends=given).tolist(), [0, 1, 2, 0])
            self.assertEqual(list(interner), ["a", "", "bc"])
        for given in ([], (), array("Q"), array("I"), b"", memoryview(b"")):
            self.assertEqual(Interner().intern_column(b"abca", ends=given).tolist(), [])

    def test_a_bad_end_is_a_value_error_and_texts_before_it_stay(self):
        for bad in (-1, 0, 5, -(2**31), -(2**63), 2**31, 2**32 - 1, 2**63, 2**64 - 1, 2**64, 2**64 + 2, -(2**64) + 2, 10**30):
            for given in self.ends_of(1, bad, 4):
                if isinstance(given, ctypes.Array) and list(given) != [1, bad, 4]:
                    continue
                interner = Interner()
                with self.assertRaisesRegex(ValueError, r"an end is less than the one before, or passes the bytes: end \d$"):
                    interner.intern_column(b"abcd", ends=given)
                self.assertEqual(list(interner), ["a"], (bad, given))

    def test_what_is_no_row_of_integers(self):
        for wrong in (None, 1, 1.5, [1.5], ["1"], array("d", [1]), memoryview(array("f", [1])), memoryview(b"ab").cast("c"),
                      memoryview(array("Q", [1, 2])).cast("B").cast("Q", (1, 2)), [[1]]):
            with self.assertRaises((TypeError, NotImplementedError)):
                Interner().intern_column(b"ab", ends=wrong)

    def test_ends_of_numpy(self):
        try:
            import numpy
        except ImportError:
            self.skipTest("no numpy")
        for kind in ("u1", "i2", "i4", "u4", "i8", "u8", ">i4", ">u8"):
            ends = numpy.array([1, 3, 4], dtype=kind)
            interner = Interner()
            codes = interner.intern_column(numpy.frombuffer(b"abca", numpy.uint8), ends=ends)
            self.assertEqual(codes.tolist(), [0, 1, 0])
            self.assertEqual(interner.resolve_all(numpy.asarray(codes)), ["a", "bc", "a"])
            self.assertEqual(interner.resolve_all(ends[:1]), ["bc"])
        with self.assertRaises(TypeError):
            Interner().intern_column(b"ab", ends=numpy.array([1.0, 2.0]))
        with self.assertRaises(TypeError):
            Interner().intern_column(b"ab", ends=numpy.array([[1, 2]]))
        with self.assertRaises(ValueError):
            Interner().intern_column(b"ab", ends=numpy.array([1, -1], dtype="i4"))


class Codes(unittest.TestCase):
    def test_codes_of_4_and_of_8_bytes(self):
        texts = ["a", "b" * 300, "a", "", "ß"]
        for backend in BACKENDS:
            wide = Interner(backend=backend).intern_all(texts, typecode="Q")
            narrow = Interner(backend=backend).intern_all(texts)
            self.assertEqual((wide.typecode, wide.itemsize), ("Q", 8))
            self.assertEqual((narrow.typecode, narrow.itemsize), ("I", 4))
            self.assertEqual(narrow.tolist(), wide.tolist())
            self.assertEqual(memoryview(narrow).tolist(), wide.tolist())
            self.assertEqual(Interner().intern_all([], typecode="I"), array("I"))
            interner = Interner(backend=backend)
            for options in ({}, {"typecode": "I"}, {"typecode": "Q"}):
                codes = interner.intern_column(b"aba", ends=[1, 2, 3], **options)
                self.assertEqual((codes, codes.typecode), (interner.intern_all(["a", "b", "a"], **options), options.get("typecode", "I")))

    def test_resolves_columns(self):
        texts = ["a", "b" * 300, "a", "", "ß", 'q"\\\n'] * 3
        for backend in BACKENDS:
            interner = Interner(backend=backend)
            for typecode in ("I", "Q"):
                codes = interner.intern_all(texts, typecode=typecode)
                for given in (codes, codes.tolist(), iter(codes), memoryview(codes), map(Number, codes)):
                    self.assertEqual(interner.resolve_all(given), texts)
            self.assertEqual(interner.resolve_all([]), [])
            for wrong in (-1, 10**6, 2**32, 2**64, -(2**64)):
                with self.assertRaises(KeyError):
                    interner.resolve_all([0, wrong])

    def test_resolves_a_few_of_many(self):
        texts = [f"text {number}" for number in range(1000)]
        for backend in BACKENDS:
            interner = Interner(backend=backend)
            codes = interner.intern_all(texts)
            self.assertEqual(interner.resolve_all([codes[7], codes[999], codes[7]]), ["text 7", "text 999", "text 7"])
            self.assertEqual(interner.resolve_all(codes[::-1]), texts[::-1])
            for wrong in (-1, 2**32, 2**64):
                with self.assertRaises(KeyError):
                    interner.resolve_all([wrong])


class Containers(unittest.TestCase):
    def test_in(self):
        interner = Interner(["a", "ß"])
        self.assertIsInstance(interner, Collection)
        for text in ("a", "ß"):
            self.assertIn(text, interner)
        for other in ("b", "\ud800", "a\udcff", 0, b"a", None, ["a"], 1.5):
            self.assertNotIn(other, interner)

    def test_by_number(self):
        for backend in BACKENDS:
            interner = Interner(["a", "ß"], backend=backend)
            self.assertEqual([interner[number] for number, _ in interner.entries()], ["a", "ß"])
            self.assertEqual(dict(interner.items()), {number: interner[number] for number, _ in interner.entries()})
            for wrong in (-1, 7, 2**32, 2**64, -(2**64)):
                with self.assertRaises(KeyError) as raised:
                    interner[wrong]
                self.assertEqual(raised.exception.args, (wrong,))

    def test_walks_both_ways(self):
        for backend in BACKENDS:
            interner = Interner(["a", "", "b"], backend=backend)
            self.assertEqual(list(reversed(interner)), ["b", "", "a"])
            self.assertEqual(list(reversed(Interner(backend=backend))), [])

    def test_weak_references_and_cycles(self):
        interner = Named("n", ["a"])
        interner.me, there = interner, weakref.ref(interner)
        del interner
        gc.collect()
        self.assertIsNone(there())


class Closing(unittest.TestCase):
    def test_a_closed_one_takes_no_call(self):
        other, interner, later = Interner(["a"]), Interner(["a"]), Interner(["a"])
        with interner as entered:
            self.assertIs(entered, interner)
            self.assertEqual(interner.get("a"), 0)
        interner.close()
        calls = [
            lambda: interner.intern("a"), lambda: interner.intern_all(["a"]), lambda: interner.intern_all([]),
            lambda: interner.intern_column(b"a", ends=[1]), lambda: interner.get("a"), lambda: interner.get("\ud800"),
            lambda: interner.resolve(0), lambda: interner.resolve(-1), lambda: interner[0], lambda: interner.resolve_all([0]),
            lambda: list(interner), lambda: list(reversed(interner)), lambda: interner.entries(), lambda: interner.items(),
            lambda: interner.truncate(0), lambda: interner.shrink(), lambda: interner.to_json(), lambda: len(interner),
            lambda: "a" in interner, lambda: 7 in interner, lambda: interner == other, lambda: other == interner,
            lambda: interner == later, lambda: later == interner,
            lambda: interner.copy(), lambda: copy.deepcopy(interner), lambda: pickle.dumps(interner),
            lambda: interner.__enter__(),
        ]
        for call in calls:
            with self.assertRaisesRegex(ValueError, "^the interner is closed$"):
                call()
        self.assertIn("closed", repr(interner))
        self.assertEqual(interner.backend, "string")
        self.assertEqual(list(other), ["a"])

    def test_a_thread_finds_it_closed(self):
        interner, raised = Interner(), []

        def fill():
            try:
                while True:
                    interner.intern_all(["a", "b"])
            except ValueError as error:
                raised.append(str(error))

        threads = [threading.Thread(target=fill, daemon=True) for _ in range(3)]
        for thread in threads:
            thread.start()
        interner.close()
        for thread in threads:
            thread.join(600)
        self.assertEqual(raised, ["the interner is closed"] * 3)

    def test_an_error_closes_too(self):
        interner = Interner()
        with self.assertRaises(KeyError), interner:
            interner[0]
        with self.assertRaises(ValueError):
            len(interner)

    def test_a_second_constructor(self):
        interner = Interner(["a"], backend="bucket")
        walk = iter(interner)
        interner.__init__(["b"])
        self.assertEqual((list(interner), interner.backend, list(walk)), (["b"], "string", ["a"]))
        # One that is refused changes nothing.
        for wrong in ({"backend": "tree"}, {"capacity": -1}, {"capacity": 1.5}, {"capacity": 2**64 - 1}):
            with self.assertRaises((TypeError, ValueError, MemoryError)):
                interner.__init__(**wrong)
            self.assertEqual(list(interner), ["b"])

    def test_what_no_constructor_made(self):
        interner = Interner.__new__(Interner)
        for call in (lambda: interner.intern("a"), lambda: len(interner), lambda: list(interner), interner.copy):
            with self.assertRaisesRegex(ValueError, "^the interner is closed$"):
                call()
        interner.__init__(["a"])
        self.assertEqual(list(interner), ["a"])


class Subclasses(unittest.TestCase):
    def copies(self, interner):
        pickles = [pickle.dumps(interner, protocol) for protocol in range(pickle.HIGHEST_PROTOCOL + 1)]
        return [interner.copy(), copy.copy(interner), copy.deepcopy(interner), *map(pickle.loads, pickles)]

    def test_copies_keep_class_and_attributes(self):
        interner = Named("n", ["a", "ß"])
        for other in self.copies(interner):
            self.assertIs(type(other), Named)
            self.assertEqual((other.name, other.notes, other.backend), ("n", ["n"], "buffer"))
            self.assertEqual(other, interner)
            other.intern("c")
            self.assertEqual(list(interner), ["a", "ß"])
        self.assertIs(interner.copy().notes, interner.notes)
        self.assertIsNot(copy.deepcopy(interner).notes, interner.notes)

    def test_copies_keep_slots(self):
        interner = Slotted("n")
        for other in self.copies(interner):
            self.assertIs(type(other), Slotted)
            self.assertEqual((other.note, hasattr(other, "unset"), list(other)), ("n", False, ["a", "b"]))

    def test_tokens_of_dask_tell_classes_and_attributes(self):
        def token(interner):
            return interner.__dask_tokenize__()

        named = Named("n", ["a"])
        self.assertEqual(token(named), token(Named("n", ["a"])))
        self.assertNotEqual(token(named), token(Named("m", ["a"])))
        self.assertNotEqual(token(named), token(Interner(["a"], backend="buffer")))
        self.assertNotEqual(token(Slotted("n")), token(Slotted("m")))

    def test_deep_copies_of_cycles(self):
        interner = Named("n", ["a"])
        interner.notes.append(interner)
        for other in (copy.deepcopy(interner), pickle.loads(pickle.dumps(interner))):
            self.assertIs(other.notes[1], other)
            self.assertIsNot(other, interner)

    def test_a_subclass_says_what_it_pickles(self):
        class Quiet(Interner):
            def __reduce__(self):
                return list, (tuple(self),)

        self.assertEqual(pickle.loads(pickle.dumps(Quiet(["a"]))), ["a"])

    def test_a_pickle_whose_texts_repeat_is_refused(self):
        for protocol in range(pickle.HIGHEST_PROTOCOL + 1):
            written = pickle.dumps(Interner(["aaaa", "bbbb"]), protocol)
            self.assertEqual(written.count(b"aaaabbbb"), 1)
            self.assertEqual(list(pickle.loads(written.replace(b"aaaabbbb", b"bbbbaaaa"))), ["bbbb", "aaaa"])
            with self.assertRaisesRegex(ValueError, "repeats"):
                pickle.loads(written.replace(b"aaaabbbb", b"aaaaaaaa"))

    def test_a_pickle_with_texts_out_of_band(self):
        for backend in BACKENDS:
            for hasher in ("seeded", "siphash", "fixed"):
                interner, buffers = Interner(["a" * 1000, "", "ß" * 300], backend=backend, hasher=hasher), []
                written = pickle.dumps(interner, 5, buffer_callback=buffers.append)
                self.assertLess(len(written), 300)
                self.assertEqual([len(it.raw()) for it in buffers], [1600, 24])
                other = pickle.loads(written, buffers=[bytearray(it.raw()) for it in buffers])
                self.assertEqual((other, other.backend, other.hasher), (interner, backend, hasher))
                with self.assertRaises(ValueError):
                    pickle.loads(written, buffers=[bytes(it.raw())[:-1] for it in buffers])

    def test_a_state_that_is_changed(self):
        (_, slots), interner = Interner(["a"]).__getstate__(), Interner(["b"])
        for wrong in (None, 1, ["a"], interner):
            with self.assertRaises(TypeError):
                interner._parts = wrong
        with self.assertRaises((AttributeError, TypeError)):
            del interner._parts
        walk = iter(interner)
        interner._parts = slots["_parts"]
        self.assertEqual((list(interner), list(walk)), (["a"], ["b"]))
        # The texts moved, so that they are not copied twice.
        with self.assertRaises(ValueError):
            interner._parts = slots["_parts"]
        self.assertEqual(list(interner), ["a"])

    def test_from_json_keeps_the_class(self):
        for kind in (Named, Interner):
            interner = kind.from_json('["a"]', backend="bucket")
            self.assertIs(type(interner), kind)
            self.assertEqual((list(interner), interner.backend), (["a"], "bucket"))

    def test_representation(self):
        self.assertEqual(repr(Interner(["a"])), "<Interner of 1 texts, backend 'string'>")
        self.assertEqual(repr(Named("n", [])), "<Named of 0 texts, backend 'buffer'>")

    def test_no_leak(self):
        """What was copied, pickled, refused, closed and walked is freed."""
        self.assertEqual(run_apart("""
            import copy, pickle, resource
            from string_interner import Interner
            texts = [f"{number:0100d}" for number in range(10_000)]
            def refuse(call, error):
                try:
                    call()
                except error:
                    return
                raise AssertionError
            def use():
                interner = Interner(texts)
                walk = iter(interner)
                next(walk)
                for make in (copy.copy, copy.deepcopy, Interner.copy, lambda it: pickle.loads(pickle.dumps(it))):
                    make(interner)
                interner.intern_all(texts), interner.resolve_all(range(10_000)), interner.get_all(texts), interner.entries()
                refuse(lambda: interner.intern_all([*texts, "new" * 10**5, 1]), TypeError)
                refuse(lambda: interner.intern_lines(b"new" * 10**5 + b"\\n\\xff"), ValueError)
                refuse(lambda: Interner.from_json(interner.to_json()[:-1]), ValueError)
                refuse(lambda: interner.resolve_all([*range(10_000), 10**9]), KeyError)
                interner.__init__(texts)
                interner.close()
            for turn in range(60):
                use()
                if turn == 10:
                    before = resource.getrusage(resource.RUSAGE_SELF).ru_maxrss
            # Fifty of any of these would take 50 MB.
            print(resource.getrusage(resource.RUSAGE_SELF).ru_maxrss - before < 15_000)
            """), (0, "True", ""))


if __name__ == "__main__":
    unittest.main()
