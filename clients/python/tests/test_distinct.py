"""Tests of the calls that change the texts of a column, or their order, over the distinct texts alone: what pandas makes of a
Categorical, if it is there; each refusal; and functions that change the column meanwhile."""

import gc
import pickle
import random
import sys
import unittest
from array import array
from collections import Counter

from test_protocols import Number
from test_safety import take_back

from string_interner import Column

try:
    import numpy
    import pandas
except ImportError:
    numpy = pandas = None

ROWS = ["b", "A", None, "a", "b", ""]
NOT_TEXTS = (b"a", 1, 1.5, ["a"], object())


def shared(text):
    """A text with a front that many share, and with few bytes behind it, among them zeros."""
    return f"the same front {text}"


class Texts(unittest.TestCase):
    def test_texts_that_become_equal_become_one(self):
        column = Column(ROWS).map_texts(str.lower)
        self.assertEqual((list(column), column.dictionary, type(column)), (["b", "a", None, "a", "b", ""], ["b", "a", ""], Column))
        self.assertEqual(list(Column(ROWS).map_texts({"b": "c"}.get)), ["c", None, None, None, "c", None])

    def test_a_text_that_no_row_has_is_mapped(self):
        column = Column.from_parts(["a", "b"], [1]).map_texts(str.upper)
        self.assertEqual((list(column), column.dictionary), (["B"], ["A", "B"]))
        self.assertEqual(Column().map_texts(str.upper).dictionary, [])

    def test_what_texts_may_not_become(self):
        column = Column(ROWS)
        for wrong in NOT_TEXTS:
            with self.assertRaisesRegex(TypeError, f"^text 1 became of type {type(wrong).__name__}, not str or None$"):
                column.map_texts(lambda text, wrong=wrong: wrong if text == "A" else text)
        self.assertRaises(UnicodeEncodeError, column.map_texts, lambda text: "\ud800")
        self.assertRaises(ZeroDivisionError, column.map_texts, lambda text: 1 // 0)
        for wrong in (None, 1, "a", {"a": "b"}):
            self.assertRaises(TypeError, column.map_texts, wrong)
        self.assertEqual((list(column), column.dictionary), (ROWS, ["b", "A", "a", ""]))

    def test_a_function_that_changes_the_column(self):
        for change in (lambda it: it.append("new"), lambda it: it.extend(map(str, range(99))), lambda it: it.merge(Column(["x"])),
                       lambda it: it.__init__(["other"]), lambda it: it.shrink(),
                       lambda it: setattr(it, "_parts", Column()._parts)):
            for call in (lambda it, function: it.map_texts(function), lambda it, function: it.sort_dictionary(key=function),
                         lambda it, function: it.remap(map(function, "bAa"))):
                column = Column(ROWS)

                def function(text):
                    change(column)
                    return text

                made = call(column, function)
                self.assertEqual(list(made)[:5], ROWS[:5])
                self.assertLessEqual(made.distinct, 4)


class Held(unittest.TestCase):
    """What is passed by its name stays until the call ends, whoever empties the dict that has it."""

    def test_a_key(self):
        ends = []

        class Key:
            calls = 0

            def __call__(self, text):
                Key.calls += 1
                take_back(self)
                return text.lower()

            def __del__(self):
                ends.append(Key.calls)

        self.assertEqual(Column(ROWS).sort_dictionary(**{"key": Key()}).dictionary, ["", "A", "a", "b"])
        self.assertEqual(ends, [4])

    def test_what_stands_for_unknown_texts(self):
        ends, ends_then = [], []

        class Unknown(str):
            def __del__(self):
                ends.append("unknown")

        class Categories:
            def __iter__(self):
                take_back(self)
                ends_then.extend(ends)
                return iter("bAa")

        column = Column(ROWS).remap(**{"categories": Categories(), "unknown": Unknown("b")})
        self.assertEqual(list(column), ["b", "A", None, "a", "b", "b"])
        self.assertEqual((ends_then, ends), ([], ["unknown"]))


class Orders(unittest.TestCase):
    def test_codes_have_the_order_of_the_texts(self):
        column = Column(ROWS).sort_dictionary()
        self.assertEqual((column.dictionary, column.codes.tolist()), (["", "A", "a", "b"], [3, 1, -1, 2, 3, 0]))
        self.assertEqual(Column(ROWS).sort_dictionary(str.lower).dictionary, ["", "A", "a", "b"])
        self.assertEqual(Column(["a", "A"]).sort_dictionary(str.lower).dictionary, ["a", "A"])

    def test_the_order_is_that_of_python(self):
        chance = random.Random(1)
        letters = "ab\0\x7f\x80\xffß語\uffff\U00010000\U0010ffff"
        for front in ("", "語", "the same front "):
            for count in (0, 1, 2, 3, 7, 64, 1000):
                texts = [*{front + "".join(chance.choices(letters, k=chance.randrange(14))) for _ in range(count)}]
                # The order of code points is that of UTF-8. Comparing wide letters, glibc reads further than memcheck allows.
                in_order = sorted(texts, key=str.encode)
                for order in (texts, in_order, in_order[::-1]):
                    self.assertEqual(Column(order).sort_dictionary().dictionary, in_order)
                    self.assertEqual(Column(order).sort_dictionary(key=len).dictionary, sorted(order, key=len))

    def test_keys_that_fail(self):
        column = Column(ROWS)
        with self.assertRaises(TypeError):
            column.sort_dictionary(key=lambda text: object())
        with self.assertRaises(ZeroDivisionError):
            column.sort_dictionary(key=lambda text: 1 // len(text))
        self.assertRaises(TypeError, column.sort_dictionary, 1)
        self.assertRaises(TypeError, column.sort_dictionary, None, None)

    def test_keys_that_contradict_each_other(self):
        class Key:
            def __lt__(self, other):
                return chance.random() < 0.5

        chance = random.Random(1)
        texts = [str(number) for number in range(500)]
        column = Column(texts).sort_dictionary(key=lambda text: Key())
        self.assertEqual((list(column), sorted(column.dictionary)), (texts, sorted(texts)))

    def test_keys_that_change_the_column(self):
        class Key(str):
            def __lt__(self, other):
                column.append(f"{len(column)} more")
                column.shrink()
                return super().__lt__(other)

        column = Column(ROWS)
        self.assertEqual(column.sort_dictionary(key=Key).dictionary, ["", "A", "a", "b"])


class Categories(unittest.TestCase):
    def test_rows_under_fixed_categories(self):
        column = Column(ROWS).remap(["x", "a", "b"])
        self.assertEqual((list(column), column.dictionary), (["b", None, None, "a", "b", None], ["x", "a", "b"]))
        self.assertEqual(list(Column(ROWS).remap(["x", "a"], "x")), ["x", "x", None, "a", "x", "x"])
        self.assertEqual(list(Column(ROWS).remap([])), [None] * 6)

    def test_the_categories_of_a_column(self):
        train = Column(["a", "b", "a"])
        test = Column(ROWS).remap(train)
        self.assertEqual((test.dictionary, test.codes.tolist()), (["a", "b"], [1, -1, -1, 0, 1, -1]))
        test.append("only there")
        self.assertEqual((train.dictionary, list(train.remap(train))), (["a", "b"], ["a", "b", "a"]))

    def test_what_are_no_categories(self):
        column = Column(ROWS)
        with self.assertRaisesRegex(ValueError, "^entry 2 of the dictionary repeats entry 0$"):
            column.remap(["a", "b", "a"])
        with self.assertRaisesRegex(ValueError, "^what stands for unknown texts is no category$"):
            column.remap(["a", "b"], "c")
        for wrong in (None, 1, "a", ["a", None], [1]):
            self.assertRaises(TypeError, column.remap, wrong)
        for wrong in NOT_TEXTS:
            self.assertRaises(TypeError, column.remap, ["a"], wrong)
        self.assertRaises(ValueError, column.remap, Column.__new__(Column))


class Missing(unittest.TestCase):
    def test_filled_rows(self):
        column = Column(ROWS)
        self.assertEqual((list(column.fillna("a")), column.fillna("a").dictionary),
                         (["b", "A", "a", "a", "b", ""], ["b", "A", "a", ""]))
        self.assertEqual(column.fillna("new").dictionary, ["b", "A", "a", "", "new"])
        self.assertEqual(column.dropna().fillna("new").dictionary, ["b", "A", "a", ""])
        for wrong in (None, *NOT_TEXTS):
            self.assertRaises(TypeError, column.fillna, wrong)
        self.assertRaises(UnicodeEncodeError, column.fillna, "\ud800")

    def test_dropped_rows(self):
        for rows in ([], [None], [None, None], ["a"], ["a", None], [None, "a", None]):
            column = Column(rows).dropna()
            column.append("b")
            self.assertEqual(list(column), [*filter(None, rows), "b"])

    def test_a_part_stays_one(self):
        # Else a pickle of few rows would have all texts.
        long = Column([None, *map(str, range(99))])
        for part in (long[:3].dropna(), long[:3].fillna("5"), long.dropna()[:2]):
            self.assertTrue(part._is_part)
        self.assertTrue(long.dropna()._is_part)

    def test_numbers_of_distinct_values(self):
        column = Column.from_parts(["a", "b", "c"], [0, 2, -1, 0])
        self.assertEqual((column.nunique(), column.nunique(dropna=False), column.distinct), (2, 3, 3))
        self.assertEqual((column[:2].nunique(dropna=False), Column().nunique(dropna=False)), (2, 0))
        self.assertRaises(TypeError, column.nunique, False)


class Sums(unittest.TestCase):
    def test_a_sum_for_each_text(self):
        column = Column(["a", None, "b", "a"])
        for weights in ([1, 2, 3, 4.5], (1, 2, 3, 4.5), iter([1, 2, 3, 4.5]), array("d", [1, 2, 3, 4.5]),
                        array("f", [1, 2, 3, 4.5]),
                        memoryview(array("d", [4.5, 3, 2, 1]))[::-1]):
            self.assertEqual(column.counts(weights), array("d", [5.5, 3]))
        for weights in (array("b", [-1, 2, 3, 4]), array("Q", [2**63, 0, 1, 0]), memoryview(b"\1\0\1\1").cast("?"),
                        [True, 0, 1, True]):
            numbers = [*weights]
            self.assertEqual(column.counts(weights), array("d", [numbers[0] + numbers[3], numbers[2]]))
        self.assertEqual(column.counts(weights=None).typecode, "Q")

    def test_what_are_no_weights(self):
        column = Column(["a", None])
        for count in (0, 1, 3):
            with self.assertRaisesRegex(ValueError, f"^there are {count} weights, and 2 rows$"):
                column.counts([1] * count)
        for wrong in (1, ["a", "b"], [None, 1], "ab", [1j, 1]):
            self.assertRaises(TypeError, column.counts, wrong)
        self.assertRaises(ZeroDivisionError, column.counts, (1 // it for it in (1, 0)))

    def test_weights_that_change_the_column(self):
        column = Column(["a", "b"])

        class Weight:
            def __float__(self):
                column.append("c")
                return 1.0

        self.assertEqual(column.counts([Weight(), Weight()]), array("d", [1, 1]))
        self.assertEqual(len(column), 4)


class Values(unittest.TestCase):
    def test_counts_of_many_rows(self):
        """Also with more rows of a text than are sorted by their numbers, and as many of several."""
        chance = random.Random(1)
        for counts in ([20_000, 16_384, 30_000, 20_000, 16_383, 5, 5], [16_384], [16_383, 1], [1, 2, 3] * 40, [70_000, 70_000]):
            texts = [None, *(f"text {number}" for number in range(1, len(counts)))]
            rows = [text for text, count in zip(texts, counts) for _ in range(count)]
            chance.shuffle(rows)
            column = Column(rows)
            count_of = dict(zip(texts, counts))
            in_order = sorted([*column.dictionary, None], key=lambda text: -count_of[text])
            self.assertEqual(list(column.value_counts(dropna=False).items()), [(text, count_of[text]) for text in in_order])
            in_order.remove(None)
            self.assertEqual(list(column.value_counts().items()), [(text, count_of[text]) for text in in_order])
            self.assertEqual(column.unique(), list(dict.fromkeys(rows)))
            texts, found = column.frequencies(dropna=False)
            self.assertEqual(dict(zip(texts, found)), count_of)
            self.assertEqual([*found], sorted(counts, reverse=True))
        self.assertEqual((Column().value_counts(dropna=False), Column().unique()), ({}, []))
        self.assertEqual(Column().frequencies(dropna=False), (Column(), array("Q")))
        self.assertEqual(Column.from_parts(["a", "b"], [-1]).value_counts(), {})

    def test_the_most_frequent_values(self):
        chance = random.Random(2)
        for _ in range(300):
            texts = [None, *(f"text {number}" for number in range(chance.randrange(40)))]
            rows = chance.choices(texts, k=chance.choice((0, 5, 200)))
            column = Column(["no row has this"] + rows)[1:]
            for drops in (True, False):
                whole = list(column.value_counts(dropna=drops).items())
                self.assertEqual(dict(whole), Counter(row for row in rows if row is not None or not drops))
                for most in (0, 1, chance.randrange(40), len(whole), len(whole) + 1, 10**30, True):
                    self.assertEqual(list(column.value_counts(dropna=drops, most=most).items()), whole[:most])
                    self.assertEqual([*zip(*column.frequencies(dropna=drops, most=most))], whole[:most])
                self.assertEqual(list(column.value_counts(dropna=drops, most=None).items()), whole)
                self.assertEqual([*zip(*column.frequencies(dropna=drops, most=None))], whole)

    def test_what_is_no_number_of_values(self):
        column = Column(["a", "b", "a"])
        for call in (column.value_counts, column.frequencies):
            for most in (-1, -(10**30)):
                self.assertRaisesRegex(ValueError, "^most is less than 0$", call, most=most)
            for most in ("1", 1.0, [1]):
                self.assertRaises(TypeError, call, most=most)

        class Adds:
            def __index__(self):
                column.extend(["c"] * 9)
                return 1

        self.assertEqual(column.value_counts(most=Adds()), {"c": 9})
        texts, counts = column.frequencies(most=Adds())
        self.assertEqual(([*texts], [*counts]), (["c"], [18]))

    def test_frequencies_make_no_strings_and_share_the_dictionary(self):
        column = Column([f"text {number}" for number in range(100_000)] + ["text 7"])
        before = sys.getsizeof(column)
        texts, counts = column.frequencies()
        self.assertEqual(sys.getsizeof(column), before)
        self.assertEqual((len(texts), texts[0], texts[1], counts[0], sum(counts)), (100_000, "text 7", "text 0", 2, 100_001))
        self.assertEqual(texts.distinct, column.distinct)
        # They are columns of their own: what one gets, the other has not.
        texts.append("new")
        self.assertEqual((len(column), "new" in column, column.distinct), (100_001, False, 100_000))
        # Of a few rows of a long column only their texts are gone over, and go along.
        texts, counts = column[-2:].frequencies()
        self.assertEqual((sorted(texts), [*counts], texts.distinct), (["text 7", "text 99999"], [1, 1], 2))
        # What goes to another process is few values, without the dictionary.
        self.assertLess(len(pickle.dumps(column.frequencies(most=3)[0])), 1000)

    def test_few_values_make_few_strings(self):
        column = Column([f"text {number}" for number in range(100_000)] + ["text 7"])
        before = sys.getsizeof(column)
        self.assertEqual(column.value_counts(most=2), {"text 7": 2, "text 0": 1})
        # A place for each, and the strings of two.
        self.assertLess(sys.getsizeof(column) - before, 9 * 100_000 + 1000)

    def test_equal_rows_are_one_object(self):
        column = Column(["text a", "text b", "text a"])
        self.assertIs(column.unique()[0], next(iter(column.value_counts())))
        if numpy:
            rows = column.to_numpy()
            self.assertIs(rows[0], rows[2])

    def test_what_rows_are_not_written_into(self):
        column = Column(["a", None])
        for wrong in (bytearray(16), array("q", [0, 0]), memoryview(bytearray(16)).cast("P")):
            self.assertRaises(TypeError, column._write, wrong)
        for wrong in (b"a" * 16, [None, None], None):
            self.assertRaises((TypeError, BufferError), column._write, wrong)
        if numpy:
            for wrong in (numpy.empty(1, object), numpy.empty(3, object), numpy.empty((2, 1), object), numpy.empty(4, object)[::2]):
                self.assertRaises((TypeError, ValueError), column._write, wrong)
            kept = numpy.array([object(), object()])
            column._write(kept)
            self.assertEqual(kept.tolist(), ["a", None])

    @unittest.skipUnless(numpy, "no numpy")
    def test_rows_are_written_whatever_their_places_have(self):
        """A place may have an object at whose end code lets go of the strings, or adds texts, or makes the column anew."""
        chance = random.Random(3)

        class Ends:
            def __init__(self, act):
                self.act = act

            def __del__(self):
                self.act()

        for _ in range(200):
            rows = chance.choices([None, *(f"text {number}" for number in range(30))], k=chance.randrange(80))
            column = Column(["no row has this", *rows])[1:]
            acts = (column.shrink, lambda: column.append("new"), lambda: column.__init__(["x"]), lambda: list(column))
            places = numpy.empty(len(rows), object)
            for place in range(len(rows)):
                if chance.random() < 0.1:
                    places[place] = Ends(chance.choice(acts))
            column._write(places)
            self.assertEqual(places.tolist(), rows)

    @unittest.skipUnless(numpy, "no numpy")
    def test_an_array_of_rows_leaves_as_many_references(self):
        column = Column([f"text {number % 300}" if number % 7 else None for number in range(5000)])
        texts = column.dictionary
        # What a collection frees meanwhile has some, too.
        gc.collect()
        before = [sys.getrefcount(it) for it in (None, *texts)]
        for _ in range(5):
            column.to_numpy()
        # A few are made of None by what else runs.
        self.assertLess(max(abs(sys.getrefcount(it) - count) for it, count in zip((None, *texts), before)), 50)


class Additions(unittest.TestCase):
    def test_a_column_and_another(self):
        one, other = Column(["a", None]), Column(["b", "a"])
        whole = one + other
        self.assertEqual((list(whole), whole.dictionary, list(one)), (["a", None, "b", "a"], ["a", "b"], ["a", None]))
        self.assertEqual(list(one + one), ["a", None] * 2)
        same = one
        one += other
        self.assertIs(one, same)
        self.assertEqual(list(same), list(whole))

    def test_what_is_no_column(self):
        column = Column(["a"])
        for wrong in (["a"], "a", None, 1):
            with self.assertRaisesRegex(TypeError, "^a column is added to a column, not to "):
                column + wrong
            with self.assertRaises(TypeError):
                wrong + column
            with self.assertRaises(TypeError):
                column += wrong
        self.assertRaises(ValueError, lambda: column + Column.__new__(Column))
        self.assertRaises(ValueError, lambda: Column.__new__(Column) + column)
        self.assertEqual(list(column), ["a"])

    def test_columns_that_were_not_initialized(self):
        for call in (lambda it: it.map_texts(str.lower), lambda it: it.sort_dictionary(), lambda it: it.remap(["a"]),
                     lambda it: it.fillna("a"),
                     lambda it: it.dropna(), lambda it: it.nunique(), lambda it: it.counts(), lambda it: it.counts([])):
            with self.assertRaisesRegex(ValueError, "^the column was not initialized$"):
                call(Column.__new__(Column))


@unittest.skipUnless(pandas, "no pandas")
class BesidePandas(unittest.TestCase):
    def test_a_categorical_gives_the_same(self):
        chance = random.Random(1)
        for count in (0, 1, 5, 300):
            rows = [chance.choice([None, *"abcABC", "語", "ß", "SS"]) for _ in range(count)]
            column = Column(rows)
            # Not those of a column, so that nothing is compared with itself.
            series = pandas.Series(rows, dtype=object)
            for function in (str.lower, str.upper, lambda text: text[:1]):
                self.assertEqual(list(column.map_texts(function)), [None if it is None else function(it) for it in rows])
            self.assertEqual(column.sort_dictionary().dictionary, pandas.Categorical(series).categories.tolist())
            self.assertEqual(column.sort_dictionary().codes.tolist(), pandas.Categorical(series).codes.tolist())
            fixed = pandas.Categorical(series, categories=["b", "語", "x"])
            self.assertEqual(column.remap(["b", "語", "x"]).codes.tolist(), fixed.codes.tolist())
            self.assertEqual(list(column.fillna("z")), series.fillna("z").tolist())
            self.assertEqual(list(column.dropna()), series.dropna().tolist())
            self.assertEqual((column.nunique(), column.nunique(dropna=False)), (series.nunique(), series.nunique(dropna=False)))
            self.assertEqual(list(column + column), pandas.concat([series, series]).tolist())
            weights = numpy.arange(count, dtype="f8")
            sums = pandas.Series(weights).groupby(series).sum()
            self.assertEqual(dict(zip(column.dictionary, column.counts(weights))), sums.to_dict())

    def test_integers_of_numpy(self):
        column = Column(["a", "b"])
        for kind in ("i1", "u2", "i4", "u8", "f4", "f8", "?", "f2", "O", ">i4", ">f8"):
            self.assertEqual(column.counts(numpy.array([1, 0], kind)), array("d", [1, 0]))
        self.assertEqual(column.counts(pandas.Series([1, 2])), array("d", [1, 2]))
        self.assertRaises(TypeError, column.counts, Number(1))


if __name__ == "__main__":
    unittest.main()
