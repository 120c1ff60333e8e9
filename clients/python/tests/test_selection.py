"""Tests of masks, random ones beside lists of booleans, and of rows that are chosen by their numbers or by a mask: as numpy and pandas do
so, if they are there; and each refusal."""

import copy
import operator
import pickle
import random
import unittest
from array import array

from string_interner import Column, Interner, Mask

try:
    import numpy
except ImportError:
    numpy = None
try:
    import pandas
except ImportError:
    pandas = None

ROWS = ["b", "a", None, "b", "c"]
MASK = [True, False, True, False, False]
BOTH = (("&", operator.and_), ("|", operator.or_), ("^", operator.xor))


class Flag:
    """A number that is no bool."""

    def __init__(self, number):
        self.number = number

    def __index__(self):
        return self.number


class Plain:
    """A sequence without a buffer, as a Series of pandas is one."""

    def __init__(self, items):
        self.items = items

    def __getitem__(self, place):
        return self.items[place]


def masks():
    """The same mask in each form."""
    yield from (MASK, Plain(MASK), memoryview(bytes(MASK)).cast("?"), memoryview(bytes(MASK[::-1])).cast("?")[::-1])
    if numpy:
        yield from (numpy.array(MASK), list(numpy.array(MASK)), numpy.array(MASK, object), numpy.array(MASK[::-1])[::-1])


class Selections(unittest.TestCase):
    def test_a_mask_chooses_rows(self):
        for mask in masks():
            chosen = Column(ROWS)[mask]
            self.assertEqual((list(chosen), chosen.dictionary, type(chosen)), (["b", None], ["b", "a", "c"], Column))
        self.assertEqual((list(Column(ROWS)[[True] * 5]), list(Column(ROWS)[[False] * 5])), (ROWS, []))

    def test_a_mask_of_another_length(self):
        for mask in ([True], [False] * 4, [True] * 6, memoryview(b"").cast("?"), memoryview(b"\0" * 6).cast("?")):
            with self.assertRaisesRegex(IndexError, f"^the mask is for {len(mask)} rows, and the column has 5$"):
                Column(ROWS)[mask]
        self.assertEqual(list(Column()[memoryview(b"").cast("?")]), [])

    def test_numbers_choose_rows(self):
        column = Column(ROWS)
        for numbers in ([0, 2], [], [-1, 0, 0, 4], [Flag(1), Flag(-5)], range(5), range(4, -1, -2)):
            wanted = [ROWS[number] for number in numbers]
            for key in (numbers, Plain(numbers)):
                chosen = column[key]
                self.assertEqual((list(chosen), chosen.dictionary), (wanted, ["b", "a", "c"]))
        self.assertEqual(list(column[array("i", [3, -5])]), ["b", "b"])
        self.assertEqual(column[column.codes[:2]], Column(["b", "a"]))

    def test_a_number_without_a_row(self):
        for key, said in (([0, 5], 5), ([-6], -6), (array("q", [2**40]), 2**40), (array("Q", [2**64 - 1]), 2**64 - 1),
                          ([2**70], 2**70),
                          (array("q", [0] * 99 + [2**62]), 2**62), (array("q", [0] * 99 + [-(2**63)]), -(2**63))):
            with self.assertRaisesRegex(IndexError, f"^there is no row {said}$"):
                Column(ROWS)[key]

    def test_one_row_is_no_column(self):
        column = Column(ROWS)
        self.assertEqual([column[key] for key in (0, -1, Flag(2), 2**2)], ["b", "c", None, "c"])
        if numpy:
            self.assertEqual([column[key] for key in (numpy.int64(0), numpy.array(-1), numpy.uint8(2))], ["b", "c", None])

    def test_what_chooses_nothing(self):
        for key in ("a", (0, 2), None, 1.5, {0: 1}, {0}, iter([0])):
            said = f"^rows are chosen by a number, a slice, a list, an array or a mask, not by {type(key).__name__}$"
            with self.assertRaisesRegex(TypeError, said):
                Column(ROWS)[key]
        for key in (["a"], [1.5], [None], [[0]], array("d", [0.0])):
            with self.assertRaises(TypeError):
                Column(ROWS)[key]

    def test_some_booleans_among_numbers(self):
        for key in ([True, 2], [0, False], [1, 2, 3, 4, True]):
            with self.assertRaisesRegex(TypeError, "^some are booleans, and some are numbers$"):
                Column(ROWS)[key]

    def test_a_mask_is_not_taken_for_numbers(self):
        for make in (*(lambda mask=mask: mask for mask in masks()), lambda: iter(MASK), lambda: tuple(MASK), lambda: [1, True],
                     lambda: memoryview(b"").cast("?")):
            for call in (Column(ROWS).take, lambda it: Column.from_parts(["no", "yes"], it), lambda it: Column.from_buffers(b"noyes", ends=[2, 5], codes=it)):
                with self.assertRaisesRegex(TypeError, r"^booleans, where numbers belong: numpy\.flatnonzero\(mask\) "):
                    call(make())

    def test_a_comparison_is_no_mask(self):
        column = Column(ROWS)
        for key in (column == "a", column != "a", column == ROWS, column == column[:], True):
            with self.assertRaisesRegex(TypeError, r"^rows are chosen by .* not by bool: column\.isin\(\[value\]\) makes a mask$"):
                column[key]
        self.assertEqual(list(column[column.isin(["b"])]), ["b", "b"])

    @unittest.skipUnless(numpy, "no numpy")
    def test_one_boolean_of_numpy_is_no_number_of_a_row(self):
        for key in (numpy.bool_(True), numpy.array(True)):
            with self.assertRaisesRegex(TypeError, rf"not by {type(key).__name__}: column\.isin\(\[value\]\) makes a mask$"):
                Column(ROWS)[key]

    def test_a_mask_of_an_array_is_nowhere_taken_for_numbers(self):
        for mask in (memoryview(bytes(MASK)).cast("?"), *(() if numpy is None else (numpy.array(MASK), [numpy.bool_(True)]))):
            for call in (Interner(["no", "yes"]).resolve_all, lambda it: Interner().intern_column(b"a", ends=it),
                         lambda it: Interner().intern_column(b"a", offsets=it)):
                with self.assertRaisesRegex(TypeError, r"^booleans, where numbers belong: numpy\.flatnonzero\(mask\) "):
                    call(mask)
        # A boolean of Python is an integer.
        self.assertEqual(Interner(["no", "yes"]).resolve_all([True, False]), ["yes", "no"])

    def test_a_mask_that_changes_the_column(self):
        class Mask(Plain):
            def __getitem__(self, place):
                column.__init__(["x"])
                return self.items[place]

        column = Column(ROWS)
        with self.assertRaisesRegex(IndexError, "^the mask is for 5 rows, and the column has 1$"):
            column[Mask(MASK)]
        self.assertEqual(list(column[Mask([True])]), ["x"])

    @unittest.skipUnless(numpy, "no numpy")
    def test_numpy_chooses_the_same(self):
        source = random.Random(1)
        for _ in range(2000):
            rows = [source.choice(("a", "b", "c", None, "é")) for _ in range(source.randrange(9))]
            column, plain = Column(rows), numpy.array(rows, object)
            numbers = [source.randrange(-10, 10) for _ in range(source.randrange(4))]
            flags = [source.random() < 0.5 for _ in range(source.choice((len(rows), len(rows), source.randrange(9))))]
            start, stop, step = (source.choice((None, *range(-9, 0), *range(1, 9))) for _ in range(3))
            # A mask without items is for numpy one for any array.
            mask = numpy.array(flags or [True] * len(rows), bool)
            for key in (numbers, numpy.array(numbers, source.choice(("i1", "i2", "i8", ">i4"))), mask, mask.tolist(),
                        slice(start, stop, step), source.randrange(-10, 10)):
                try:
                    wanted = plain[key]
                except IndexError:
                    with self.assertRaises(IndexError):
                        column[key]
                else:
                    chosen = column[key]
                    both = (list(chosen), wanted.tolist()) if isinstance(chosen, Column) else (chosen, wanted)
                    self.assertEqual(*both)

    @unittest.skipUnless(numpy, "no numpy")
    def test_numbers_of_any_width_and_order(self):
        source = random.Random(2)
        for _ in range(2000):
            rows = [source.choice(("a", "b", "c", None, "é")) for _ in range(source.randrange(1, 40))]
            column, plain, count = Column(rows), numpy.array(rows, object), len(rows)
            kind = source.choice(("i1", "i2", "i4", "i8", "u1", "u2", "u4", "u8"))
            # Sometimes there is one number without a row, at its ends or beyond.
            numbers = [source.randrange(0 if kind[0] == "u" else -count, count) for _ in range(source.randrange(60))]
            if source.random() < 0.2:
                # numpy reads the greatest of 8 bytes without a sign as -1.
                beyond = source.choice((count, 99, numpy.iinfo(kind).max // 2, numpy.iinfo(kind).min or count))
                numbers.insert(source.randrange(len(numbers) + 1), beyond)
            key = numpy.array(numbers, kind)[:: source.choice((1, 1, -1, 2, -3))]
            try:
                wanted = plain[key].tolist()
            except IndexError:
                with self.assertRaises(IndexError):
                    column[key]
                with self.assertRaises(IndexError):
                    column.take(key)
            else:
                self.assertEqual(list(column[key]), wanted)
                self.assertEqual(list(column.take(key)), wanted)

    def test_many_rows_in_no_order(self):
        # Codes are copied into 1 or 2 bytes if so few texts are distinct that all fit.
        count, source = 1 << 18, random.Random(6)
        numbers = [row - count * source.randrange(2) for row in source.sample(range(count), count)]
        forms = (array("q", numbers), memoryview(array("i", numbers))[::-1], memoryview(array("q", numbers))[::-2])
        for distinct in (1, 128, 129, 1 << 15, (1 << 15) + 1):
            codes = array("i", (row % (distinct + 1) - 1 for row in range(count)))
            column = Column.from_parts(map(str, range(distinct)), codes)
            for key in forms:
                # A list of what differs would take minutes.
                self.assertTrue(column[key].codes.tolist() == [codes[number] for number in key], f"{distinct} texts")
            for wrong in (count, -count - 1):
                with self.assertRaisesRegex(IndexError, f"^there is no row {wrong}$"):
                    column[array("q", [*numbers, wrong])]


def mask_of(booleans):
    """The mask with these booleans."""
    return Column(["yes" if it else None for it in booleans]).eq("yes")


class Masks(unittest.TestCase):
    def test_rows_that_are_equal(self):
        column = Column(ROWS)
        for value in ("b", "c", "not there", None, "\ud800"):
            self.assertEqual(column.eq(value).tolist(), [row == value for row in ROWS])
        other = Column(["x", "a", None, "b", "b"])
        self.assertEqual(column.eq(other).tolist(), [False, True, True, True, False])
        self.assertEqual((column.eq(column).tolist(), column.eq(column[:]).sum()), ([True] * 5, 5))
        self.assertEqual(Column().eq(Column()).tolist(), [])

    def test_what_rows_are_not_compared_with(self):
        column = Column(ROWS)
        for count in (0, 4, 6):
            with self.assertRaisesRegex(ValueError, f"^one column has 5 rows, and the other {count}$"):
                column.eq(Column(["a"] * count))
        for wrong in (1, 1.5, b"a", ["a"], ROWS, object()):
            with self.assertRaisesRegex(TypeError, "^rows are compared with a text, None or a column, not with "):
                column.eq(wrong)
        self.assertRaises(ValueError, column.eq, Column.__new__(Column))
        self.assertRaises(ValueError, Column.__new__(Column).eq, "a")

    def test_random_masks(self):
        chance = random.Random(1)
        for count in [*range(9), 1000]:
            for _ in range(20):
                one, other = ([chance.random() < 0.5 for _ in range(count)] for _ in range(2))
                mask = mask_of(one)
                self.assertEqual((mask.tolist(), list(mask), len(mask), mask.sum()), (one, one, count, one.count(True)))
                self.assertEqual((~mask).tolist(), [not it for it in one])
                for name, both in BOTH:
                    wanted = [both(*it) for it in zip(one, other)]
                    buffer = memoryview(bytes(9 * it for it in other)).cast("?")
                    for right in (mask_of(other), buffer, memoryview(bytes(other[::-1])).cast("?")[::-1]):
                        for made in (both(mask, right), both(right, mask)):
                            self.assertEqual((made.tolist(), type(made)), (wanted, Mask), name)
                self.assertEqual((mask == mask_of(other), mask != mask_of(other)), (one == other, one != other))
                start, stop, step = chance.randrange(-9, 9), chance.randrange(-9, 9), chance.choice((-3, -1, 1, 2))
                self.assertEqual(mask[start:stop:step].tolist(), one[start:stop:step])
                self.assertEqual([mask[row] for row in range(-count, count)], one + one)
                column = Column(map(str, range(count)))
                self.assertEqual(list(column[mask]), [str(row) for row in range(count) if one[row]])
                self.assertEqual(list(column[~mask & mask_of(other)]),
                                 [str(row) for row in range(count) if other[row] and not one[row]])

    def test_its_buffer(self):
        mask = mask_of([True, False, True])
        view = memoryview(mask)
        self.assertEqual((view.format, view.shape, view.strides, view.readonly, view.tolist()),
                         ("?", (3,), (1,), True, [True, False, True]))
        self.assertEqual((bytes(mask), view == mask, mask == view, mask == memoryview(b"\1\0\1").cast("?")),
                         (b"\1\0\1", True, True, True))
        self.assertEqual((mask == b"\1\0\1", mask.format, mask.readonly, mask.nbytes, mask.tobytes()),
                         (False, "?", True, 3, b"\1\0\1"))
        del mask
        self.assertEqual(view[2], True)

    def test_it_has_no_truth(self):
        for mask in (mask_of([]), mask_of([True]), mask_of([False, True])):
            for wrong in (bool, operator.not_, lambda it: it and it, lambda it: it or it):
                with self.assertRaisesRegex(ValueError, r"^a mask has many booleans: write any\(mask\) or all\(mask\)"):
                    wrong(mask)
        self.assertEqual((any(mask_of([False, True])), all(mask_of([False, True]))), (True, False))

    def test_what_it_is_not_combined_with(self):
        mask = mask_of([True, False])
        for _, both in BOTH:
            for wrong in (True, 1, None, [True, False], b"\1\0", array("b", [1, 0]), memoryview(b"\1\0"),
                          memoryview(b"\1").cast("?", ()), Column(["a"])):
                for call in (lambda: both(mask, wrong), lambda: both(wrong, mask)):
                    self.assertRaises(TypeError, call)
            for count in (0, 1, 3):
                with self.assertRaisesRegex(ValueError, f"^one mask is for 2 rows, and the other for {count}$"):
                    both(mask, mask_of([True] * count))
        for wrong in (2, -3, 2**70):
            with self.assertRaises(IndexError):
                mask[wrong]
        for wrong in ("a", None, 1.5, [0], mask):
            with self.assertRaises(TypeError):
                mask[wrong]
        for call in (Mask, lambda: hash(mask), lambda: mask < mask, lambda: pickle.dumps(mask), lambda: copy.copy(mask),
                     lambda: -mask,
                     lambda: type("Sub", (Mask,), {}), lambda: object.__new__(Mask), lambda: mask.sum(1)):
            self.assertRaises(TypeError, call)
        with self.assertRaises(TypeError):
            mask[0] = False
        self.assertRaises(IndexError, lambda: Column(ROWS)[mask])

    def test_it_is_no_numbers(self):
        mask = mask_of([True, False])
        for call in (Column(["a", "b"]).take, Interner(["a", "b"]).resolve_all, lambda it: Column.from_parts(["a", "b"], it)):
            with self.assertRaisesRegex(TypeError, "^booleans, where numbers belong"):
                call(mask)
        self.assertEqual(repr(mask), "<Mask of 2 rows, 1 true>")

    def test_it_stays_as_it_is(self):
        column = Column(ROWS)
        mask, missing = column.isin(["b"]), column.isna()
        column.extend(["b", None])
        self.assertEqual((mask.tolist(), missing.sum()), ([True, False, False, True, False], 1))

    @unittest.skipUnless(pandas, "no pandas")
    def test_beside_numpy(self):
        one, other = [True, False, True, False], [True, True, False, False]
        mask, booleans = mask_of(one), numpy.array(other)
        self.assertEqual((numpy.asarray(mask).dtype, numpy.asarray(mask).tolist()), (numpy.dtype(bool), one))
        for _, both in BOTH:
            wanted = both(numpy.array(one), booleans).tolist()
            for made in (both(mask, booleans), both(booleans, mask), both(mask, pandas.Series(other)),
                         both(pandas.Series(other), mask)):
                self.assertEqual(made.tolist(), wanted)
        self.assertEqual(numpy.arange(4)[mask].tolist(), [0, 2])
        self.assertEqual(pandas.Series([0, 1, 2, 3])[mask].tolist(), [0, 2])
        self.assertEqual(numpy.flatnonzero(~mask).tolist(), [1, 3])


if __name__ == "__main__":
    unittest.main()
