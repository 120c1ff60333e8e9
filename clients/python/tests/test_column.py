"""Tests of columns: random calls beside a plain list of rows, and each refusal.

EXAMPLES=10000 makes as many runs of each, each time others. Else there are fifty, always the same. clients/check runs this twice:
the second time over a module whose codes take 8 bytes from 3 texts on, and which reads iterators 3 values at a time.
"""

import copy
import doctest
import os
import pickle
import random
import signal
import sys
import tempfile
import threading
import tracemalloc
import unittest
from array import array
from html.parser import HTMLParser
from unittest import mock

from hypothesis import settings, strategies
from hypothesis.stateful import RuleBasedStateMachine, initialize, invariant, rule
from test_protocols import Number
from test_safety import HANGS, LyingStr, collecting, run_apart, running
from within import attempts

from string_interner import Column, Interner, _column, _native

try:
    import numpy
except ImportError:
    numpy = None
try:
    import pandas
except ImportError:
    pandas = None

MOST = _native._MOST_NARROW
"""How many texts a dictionary may have for codes of 4 bytes."""
WIDTH = 4 if MOST > 2**30 else 8
"""The bytes of a code of a dictionary with three texts."""

# Few texts, so that they repeat, and are known to the other column or not.
TEXTS = strategies.text("abß語", max_size=2) | strategies.text(max_size=3)
VALUES = strategies.none() | TEXTS
ROWS = strategies.lists(VALUES, max_size=12)
DICTIONARIES = strategies.lists(TEXTS, max_size=6, unique=True)
FORMS = strategies.sampled_from((list, tuple, iter, dict.fromkeys, Column))
PLACES = strategies.none() | strategies.integers(-20, 20)
WRONG_VALUES = (b"a", 1, 1.5, ["a"], object())
WRONG_NUMBERS = (1.5, "1", None, [1])


def first_appearances(texts):
    """The distinct texts of some rows."""
    return list(dict.fromkeys(text for text in texts if text is not None))


class BesideAList(RuleBasedStateMachine):
    """A column, its rows, and the texts of its dictionary."""

    def __init__(self):
        super().__init__()
        self.column, self.rows, self.texts, self.lent = Column(), [], [], []
        self.is_part = False

    def add(self, rows, texts=None):
        """Notes that rows were added, and texts if these are not only those of the rows."""
        self.rows = self.rows + rows
        self.texts = first_appearances(self.texts + (rows if texts is None else texts))

    @initialize(rows=ROWS, make=strategies.sampled_from((Column, Column.from_values, Column.encode)))
    def make(self, rows, make):
        self.column = make(rows)
        self.add(rows)

    @rule(value=VALUES)
    def append(self, value):
        self.column.append(value)
        self.add([value])

    @rule(rows=ROWS, form=FORMS)
    def extend(self, rows, form):
        self.column.extend(form(rows))
        self.add(list(form(rows)))

    @rule(texts=DICTIONARIES, codes=strategies.lists(strategies.integers(-1, 5), max_size=12))
    def merge(self, texts, codes):
        codes = [code for code in codes if code < len(texts)]
        other = Column.from_parts(texts, codes)
        rows = [None if code < 0 else texts[code] for code in codes]
        self.column.merge(other)
        assert (list(other), other.dictionary) == (rows, texts)
        self.add(rows, texts)

    @rule()
    def merge_with_itself(self):
        # No more than that, because each time doubles it.
        if len(self.rows) < 40:
            self.column.merge(self.column)
            self.add(self.rows)

    @rule(rows=ROWS, wrong=strategies.sampled_from((*WRONG_VALUES, "lone \ud800")), place=strategies.integers(0, 12))
    def extend_by_what_is_no_text(self, rows, wrong, place):
        for call in (lambda: self.column.append(wrong), lambda: self.column.extend([*rows[:place], wrong, *rows[place:]])):
            try:
                call()
            except (TypeError, UnicodeEncodeError):
                continue
            raise AssertionError("a wrong value was taken")

    @rule(rows=ROWS)
    def extend_by_an_iterator_that_fails(self, rows):
        def fail():
            yield from rows
            raise ZeroDivisionError

        try:
            self.column.extend(fail())
        except ZeroDivisionError:
            return
        raise AssertionError("the exception is gone")

    @rule(rows=ROWS, start=PLACES, stop=PLACES)
    def share_the_dictionary_and_part(self, rows, start, stop):
        part, texts = self.column[start:stop], self.texts
        self.column.extend(rows)
        self.add(rows)
        part.append("only there")
        assert part.dictionary == first_appearances([*texts, "only there"])

    @rule(places=strategies.lists(strategies.integers(-100, 100), max_size=8), form=strategies.sampled_from((list, iter, tuple)))
    def take(self, places, form):
        places = [place % len(self.rows) - len(self.rows) * (place < 0) for place in places] if self.rows else []
        taken = self.column.take(form(places))
        assert list(taken) == [self.rows[place] for place in places] and taken.dictionary == self.texts

    @rule(start=PLACES, stop=PLACES, step=PLACES.filter(lambda step: step != 0))
    def slice(self, start, stop, step):
        part = self.column[start:stop:step]
        assert list(part) == self.rows[start:stop:step] and part.dictionary == self.texts
        part.extend(["new", None])
        assert list(part) == self.rows[start:stop:step] + ["new", None]

    @rule(start=PLACES, stop=PLACES)
    def go_on_with_a_slice(self, start, stop):
        self.is_part = self.is_part or len(self.rows[start:stop]) < len(self.rows)
        self.column, self.rows = self.column[start:stop], self.rows[start:stop]

    @rule(make=strategies.sampled_from((copy.copy, copy.deepcopy)))
    def go_on_with_a_copy(self, make):
        before, self.column = self.column, make(self.column)
        assert before == self.column
        before.extend(["only there", None])

    @rule(make=strategies.sampled_from((
        lambda it: Column.from_buffers(**dict(zip(("joined", "ends", "codes"), it.to_buffers()))),
        lambda it: Column.from_parts(it.dictionary, it.codes),
        lambda it: Column.from_buffers(it.to_buffers()[0], offsets=[0, *it.to_buffers()[1]], codes=it.codes),
        lambda it: Column.from_parts(Interner(it.dictionary), iter(it.codes)),
    )))
    def go_on_with_its_parts(self, make):
        self.go_on_with_a_copy(make)
        self.is_part = False

    @rule(protocol=strategies.sampled_from((0, 2, 4, 5)))
    def go_on_with_a_pickle(self, protocol):
        # That of a part has only the texts of its rows.
        if self.is_part:
            self.texts = [text for text in self.texts if text in self.rows]
        self.go_on_with_its_parts(lambda it: pickle.loads(pickle.dumps(it, protocol)))

    @rule()
    def go_on_with_what_arrow_reads(self):
        # Of a part with few rows only their texts.
        if self.is_part and len(self.rows) < len(self.texts) // 8:
            self.texts = [text for text in self.texts if text in self.rows]
        self.go_on_with_its_parts(Column.from_arrow)

    @rule()
    def compact(self):
        texts, part = [text for text in self.texts if text in self.rows], self.column.compact()
        assert (list(part), part.dictionary, part.hasher) == (self.rows, texts, self.column.hasher)
        assert part == self.column and part.compact().dictionary == texts
        part.append("only there")

    @rule(function=strategies.sampled_from((str.upper, str.strip, lambda text: text[:1], lambda text: text or None,
                                            {"a": "b"}.get)))
    def map_texts(self, function):
        seen = []
        mapped = self.column.map_texts(lambda text: (seen.append(text), function(text))[1])
        assert seen == self.texts and mapped.hasher == self.column.hasher
        assert list(mapped) == [None if row is None else function(row) for row in self.rows]
        assert mapped.dictionary == first_appearances(map(function, self.texts))
        mapped.append("only there")

    @rule(key=strategies.sampled_from((None, len, lambda text: text[::-1], lambda text: 0)))
    def sort_dictionary(self, key):
        in_order = self.column.sort_dictionary(key=key)
        assert (list(in_order), in_order.dictionary) == (self.rows, sorted(self.texts, key=key))
        in_order.append("only there")

    @rule(categories=DICTIONARIES, unknown=strategies.integers(0, 6), form=strategies.sampled_from((list, iter, Column)))
    def remap(self, categories, unknown, form):
        unknown = categories[unknown] if unknown < len(categories) else None
        encoded = self.column.remap(form(categories), unknown)
        assert list(encoded) == [row if row in categories or row is None else unknown for row in self.rows]
        assert encoded.dictionary == categories
        encoded.append("only there")

    @rule(value=TEXTS)
    def fill_and_drop(self, value):
        filled, dropped = self.column.fillna(value), self.column.dropna()
        assert list(filled) == [value if row is None else row for row in self.rows]
        assert filled.dictionary == first_appearances(self.texts + [value] * (None in self.rows))
        assert (list(dropped), dropped.dictionary) == ([row for row in self.rows if row is not None], self.texts)
        filled.append("only there")
        dropped.append("only there")

    @rule(value=TEXTS)
    def go_on_without_none(self, value):
        if None in self.rows:
            self.column, self.rows = self.column.fillna(value), [value if row is None else row for row in self.rows]
            self.texts = first_appearances([*self.texts, value])

    @rule(rows=ROWS)
    def add_a_column(self, rows):
        whole = self.column + Column(rows)
        assert (list(whole), whole.dictionary) == (self.rows + rows, first_appearances([*self.texts, *rows]))
        before = self.column
        self.column += Column(rows)
        assert self.column is before
        self.add(rows)

    @rule(weights=strategies.lists(strategies.integers(-8, 8), min_size=12, max_size=12),
          form=strategies.sampled_from((list, iter, lambda it: array("d", it), lambda it: array("f", it),
                                        lambda it: array("b", it))))
    def sum_weights(self, weights, form):
        weights = (weights * len(self.rows))[: len(self.rows)]
        sums = self.column.counts(form(weights))
        assert sums == array("d", [sum(it for it, row in zip(weights, self.rows) if row == text) for text in self.texts])

    @rule()
    def shrink(self):
        self.column.shrink()

    @rule()
    def lend(self):
        self.lent.append((self.column.codes, self.column.codes.tolist(), iter(self.column), self.rows))

    @rule(rows=ROWS, change=strategies.integers(0, 20))
    def compare(self, rows, change):
        assert (self.column == Column(rows)) == (rows == self.rows)
        # The same rows, under another dictionary and its codes, and then with one changed.
        other = Column(["x", *reversed(self.rows)])[:0]
        other.extend(self.rows)
        assert self.column == other and other == self.column
        if self.rows:
            rows = self.rows[:]
            rows[change % len(rows)] = "not here" if change % 2 else None
            assert (self.column == Column(rows)) == (rows == self.rows)

    @invariant()
    def holds_the_rows(self):
        column, rows = self.column, self.rows
        codes = [-1 if row is None else self.texts.index(row) for row in rows]
        assert (list(column), len(column), column.dictionary, column.distinct) == (rows, len(rows), self.texts, len(self.texts))
        assert column.codes.tolist() == codes and column.codes.readonly
        assert column.codes.itemsize == (4 if len(self.texts) <= MOST else 8)
        assert list(reversed(column)) == rows[::-1]
        assert [column[row] for row in range(-len(rows), len(rows))] == rows + rows
        assert column.counts() == array("Q", map(rows.count, self.texts))
        counted = sorted(((text, rows.count(text)) for text in self.texts if text in rows), key=lambda row: -row[1])
        assert list(column.value_counts().items()) == counted
        missing = [(None, rows.count(None))] if None in rows else []
        assert list(column.value_counts(dropna=False).items()) == sorted(counted + missing, key=lambda row: -row[1])
        assert [*zip(*column.frequencies())] == counted
        assert [*zip(*column.frequencies(dropna=False, most=2))] == sorted(counted + missing, key=lambda row: -row[1])[:2]
        assert column.unique() == list(dict.fromkeys(rows))
        assert (column.nunique(), column.nunique(dropna=False)) == (len({*rows} - {None}), len({*rows}))
        assert column.isna().tolist() == [row is None for row in rows]
        for values in ([], [None], self.texts[:2], [*self.texts[1:], "not there", None, 1]):
            assert column.isin(values).tolist() == [row in values for row in rows]
        assert column.__dask_tokenize__() == Column(rows, hasher="fixed").__dask_tokenize__()
        assert [column.code(text) for text in self.texts] == [*range(len(self.texts))] and column.code("not there") is None
        reversed_rows = Column(rows[::-1])
        same = column.eq(reversed_rows)
        assert same.tolist() == [row == other for row, other in zip(rows, rows[::-1])]
        assert (~same & column.isna() | same).tolist() == [row == other or row is None for row, other in zip(rows, rows[::-1])]
        assert list(column[~same]) == [row for row, other in zip(rows, rows[::-1]) if row != other]
        for value in (*self.texts, None, "not there"):
            assert column.eq(value).tolist() == [row == value for row in rows]
            assert (value in column, column.count(value)) == (value in rows, rows.count(value))
            assert value not in rows or column.index(value) == rows.index(value)
        for place in (len(rows), -len(rows) - 1, 2**70):
            try:
                column[place]
            except IndexError:
                continue
            raise AssertionError("there is no such row")

    @invariant()
    def what_was_lent_stays(self):
        for view, codes, _, _ in self.lent:
            assert view.tolist() == codes
        while self.lent and len(self.lent) > 3:
            _, _, walk, rows = self.lent.pop(0)
            assert list(walk) == rows


TestBesideAList = BesideAList.TestCase
TestBesideAList.settings = settings(max_examples=int(os.environ.get("EXAMPLES", 50)), stateful_step_count=30, deadline=None,
                                    derandomize="EXAMPLES" not in os.environ, database=None)


class Named(Column):
    """A subclass whose constructor takes something else."""

    def __init__(self, name, values):
        super().__init__(values)
        self.name = name


class Refusals(unittest.TestCase):
    def test_a_repeated_entry(self):
        for dictionary, said in (
            (["a", "b", "a", "b"], "entry 2 of the dictionary repeats entry 0"),
            (["a", "b", "c", "b", "a", "d"], "entry 3 of the dictionary repeats entry 1"),
            (["", ""], "entry 1 of the dictionary repeats entry 0"),
        ):
            for codes in ([0], [7], []):
                with self.assertRaisesRegex(ValueError, f"^{said}$"):
                    Column.from_parts(dictionary, codes)

    def codes_of(self, *codes):
        """The same codes in each form that has a place for them."""
        yield from (list(codes), iter(codes), [Number(code) for code in codes])
        for typecode in "bBhHiIlLqQ":
            try:
                numbers = array(typecode, codes)
            except OverflowError:
                continue
            yield from (numbers, memoryview(numbers))
            if numpy:
                yield from (numpy.array(numbers), numpy.array(numbers).byteswap().newbyteorder())

    def test_a_code_outside(self):
        limits = (2**31 - 1, 2**31, -(2**31), 2**32 - 1, 2**32, 2**63, -(2**63), 2**64 - 1, 2**64, -(2**64))
        for bad in (2, -2, 127, -128, *limits):
            for given in self.codes_of(0, 1, bad, -3) if bad < 0 else self.codes_of(0, 1, bad, 9):
                with self.assertRaisesRegex(ValueError, f"^row 2 has code {bad}, and the dictionary has 2 texts$"):
                    Column.from_parts(["a", "b"], given)
        for bad in (0, -2):
            with self.assertRaisesRegex(ValueError, f"^row 1 has code {bad}, and the dictionary has 0 texts$"):
                Column.from_parts([], [-1, bad])

    def test_codes_in_each_form(self):
        for given in self.codes_of(1, 0, 1):
            self.assertEqual(list(Column.from_parts(["a", "b"], given)), ["b", "a", "b"])
        for given in self.codes_of(1, -1, 0):
            self.assertEqual(list(Column.from_parts(["a", "b"], given)), ["b", None, "a"])

    def test_what_is_no_code(self):
        for wrong in WRONG_NUMBERS:
            with self.assertRaises(TypeError):
                Column.from_parts(["a"], [0, wrong])
        for wrong in (None, 1, array("d", [0.0])):
            with self.assertRaises(TypeError):
                Column.from_parts(["a"], wrong)

    def test_what_is_no_text(self):
        for wrong in (*WRONG_VALUES, None):
            with self.assertRaisesRegex(TypeError, f"^text 1 is of type {type(wrong).__name__}, not str$"):
                Column.from_parts(["a", wrong], [0])
        for call in (Column, Column.from_values, Column().extend):
            with self.assertRaises(TypeError):
                call(1)
        with self.assertRaises(UnicodeEncodeError):
            Column(["a", None, "\ud800"])

    def test_a_row_that_is_no_text_is_named(self):
        for wrong, why in (*((it, "") for it in WRONG_VALUES), (float("nan"), ": it is NaN, which Column.from_pandas makes None")):
            for rows in ([wrong], ["a", wrong], [None, wrong], ["a", None, wrong], ["ß", "a", "a", None, wrong, None, 1]):
                for make in (list, tuple, iter):
                    said = f"^row {rows.index(wrong)} is of type {type(wrong).__name__}, not str or None{why}$"
                    with self.assertRaisesRegex(TypeError, said):
                        Column(make(rows))
        for missing in () if pandas is None else (pandas.NA, pandas.NaT, numpy.float64("nan")):
            with self.assertRaisesRegex(TypeError, ": it is (NA|NaN|NaT), which Column.from_pandas makes None$"):
                Column(["a", missing])
            with self.assertRaisesRegex(TypeError, r"^text 1 is of type \w+, not str or None: it is N\w+, which values\.where\(values\.notna\(\), None\) makes"):
                Interner().get_all(["a", missing])
        for before in (["a"] * 300000, ["a", None] * 150000):
            for make in (list, iter):
                column = Column(["b"])
                with self.assertRaisesRegex(TypeError, "^row 300000 is of type float, not str or None$"):
                    column.extend(make([*before, 3.0, None]))
                self.assertEqual(list(column), ["b"])

    def test_a_str_is_one_text(self):
        column = Column(["a"])
        for call in (Column, Column.from_values, Column.encode, column.extend, column.isin, lambda it: Column.from_parts(it, [0])):
            for given in ("red", ""):
                with self.assertRaisesRegex(TypeError, r"^a str is one text, and no rows: write \[text\], or list\(text\) for its letters$"):
                    call(given)
        column.append("red")
        self.assertEqual(list(column), ["a", "red"])

    def test_merging_what_is_no_column(self):
        column = Column(["a"])
        for wrong in (["a"], Interner(["a"]), None):
            with self.assertRaisesRegex(TypeError, f"^a column is merged with a column, not {type(wrong).__name__}$"):
                column.merge(wrong)
        self.assertEqual(list(column), ["a"])

    def test_what_is_no_row(self):
        column = Column(["a", None])
        for wrong in (1.5, "1", None, [1.5], (1, 0)):
            with self.assertRaises(TypeError):
                column[wrong]
        self.assertEqual(column[Number(-2)], "a")

    def test_what_is_no_hasher(self):
        def make_of_parts(texts, hasher):
            Column.from_parts(texts, [], hasher=hasher)

        for make in (Column, Column.from_values, Column.encode, make_of_parts):
            with self.assertRaisesRegex(ValueError, "^no hasher 'none'$"):
                make([], hasher="none")

    def test_a_call_without_memory_adds_no_row(self):
        # The library's own requests fail, too.
        self.assertEqual(run_apart("""
            import resource
            from string_interner import Column
            column, part, texts = Column(["a", None]), Column(["b"]), [str(number) * 100 for number in range(100_000)]
            other, wide = Column(texts), Column(["a"] * 10**7)
            class Held:
                made = other.__arrow_c_array__()
                def __arrow_c_array__(self):
                    return self.made
            held = Held()
            with open("/proc/self/statm") as pages:
                used = int(pages.read().split()[0]) * resource.getpagesize()
            resource.setrlimit(resource.RLIMIT_AS, (used + 10_000_000,) * 2)
            for call in (lambda: column.extend(texts), lambda: column.extend(iter(texts)), lambda: column.merge(other),
                         lambda: part.merge(wide), lambda: wide.append("z"), lambda: wide[1:], lambda: wide.take(range(10**7)), lambda: wide[range(10**7)],
                         lambda: Column.from_parts(texts, [0]), lambda: other.__arrow_c_array__(), lambda: other.dictionary,
                         lambda: other.__arrow_c_stream__(), lambda: Column.from_arrow(other), lambda: Column.from_arrow(held)):
                try:
                    call()
                except MemoryError:
                    continue
                print("enough memory")
            print(list(column), column.dictionary, list(part), part.dictionary, len(wide), wide.dictionary)
            """), (0, "['a', None] ['a'] ['b'] ['b'] 10000000 ['a']", ""))

    def test_a_call_whose_requests_are_refused(self):
        try:
            from _testcapi import remove_mem_hooks, set_nomemory
        except ImportError:
            self.skipTest("no _testcapi")
        for call in (lambda it: it.extend(["b", None]), lambda it: it.append("c"), lambda it: it.merge(Column(["d"])), list,
                     lambda it: it.extend(map(str, range(9))), lambda it: it.codes, lambda it: it[::2], lambda it: it.counts(),
                     lambda it: it.dictionary, lambda it: it._buffers(), lambda it: it.take([0]), lambda it: it._parts, lambda it: it.compact(),
                     lambda it: it[:1].compact(), lambda it: it[1:].compact(), lambda it: it.shrink(), lambda it: it.isin(["a"]), lambda it: it[1:]._parts.__reduce_ex__(2),
                     Column.from_arrow, lambda it: it.__arrow_c_stream__(), lambda it: it[[0, 1]], lambda it: it[[True, False]],
                     lambda it: it.frequencies(dropna=False), lambda it: it.value_counts(), Column.unique):
            for request in range(60):
                column = Column(["a", None])
                set_nomemory(request, request + 1)
                try:
                    call(column)
                    failed = False
                except MemoryError:
                    failed = True
                finally:
                    remove_mem_hooks()
                if failed:
                    self.assertEqual((list(column), column.dictionary), (["a", None], ["a"]))

    def test_parts_whose_requests_are_refused(self):
        # A block of this size is malloc's, which ends the process if it is freed twice.
        self.assertEqual(run_apart("""
            try:
                from _testcapi import remove_mem_hooks, set_nomemory
            except ImportError:
                set_nomemory, remove_mem_hooks = lambda *_: None, lambda: None
            import pickle
            from string_interner import Column
            parts, every_second, column = type(Column()._parts), memoryview(bytearray(4000))[::2], Column(["a"])
            pickle.dumps(column, 5)
            for call in (lambda: parts("string", "seeded", every_second, b"", None, 4), lambda: column._parts.__reduce_ex__(5)):
                for request in range(40):
                    set_nomemory(request, request + 1)
                    try:
                        call()
                    except MemoryError:
                        pass
                    finally:
                        remove_mem_hooks()
            """), (0, "", ""))


class Calls(unittest.TestCase):
    def test_hashers(self):
        for hasher in ("seeded", "siphash", "fixed", (1, 2)):
            for column in (Column(["a", None, "a"], hasher=hasher), Column.encode(["a", None, "a"], hasher=hasher),
                           Column.from_parts(["a"], [0, -1, 0], hasher=hasher)):
                self.assertEqual(list(column), ["a", None, "a"])
                self.assertEqual(column.hasher, "siphash" if hasher == (1, 2) else hasher)

    def test_a_dictionary_of_any_backend(self):
        for backend in ("string", "bucket", "buffer"):
            names = Interner(["b", "a" * 200, "c"], backend=backend)
            column = Column.from_parts(names, [2, -1, 0])
            names.truncate(0)
            self.assertEqual((list(column), column.dictionary), (["c", None, "b"], ["b", "a" * 200, "c"]))

    def test_what_it_shows(self):
        for rows, shown in (
            ([], ""), ([None], ": None"), (["it's", "\n\0\x85"], ": \"it's\", '\\n\\x00\\x85'"),
            (map(str, range(10)), ": '0', '1', '2', '3', '4', '5', '6', '7', '8', '9'"),
            (map(str, range(11)), ": '0', '1', '2', '3', '4', .., '6', '7', '8', '9', '10'"),
            (["a" * 60, "b" * 61], f": '{'a' * 60}', '{'b' * 60}'.."),
            (["語" * 99, "a" + "語" * 99], f": '{'語' * 20}'.., 'a{'語' * 19}'.."),
        ):
            column = Column(rows)
            self.assertEqual(repr(column), f"<Column of {len(column)} rows, {column.distinct} distinct texts{shown}>")
        self.assertEqual(repr(Named("n", ["a"])), "<Named of 1 rows, 1 distinct texts: 'a'>")

    def test_what_a_notebook_shows(self):
        class Cells(HTMLParser):
            def __init__(self, html):
                super().__init__()
                self.cells, self.tags = [], []
                self.feed(html)

            def handle_starttag(self, tag, attrs):
                self.tags.append(tag)
                if tag in ("caption", "th", "td"):
                    self.cells.append("")

            def handle_data(self, data):
                self.cells[-1] += data

        for rows in ([], [None], ["<b>&amp;", "'\"", "a" * 60], [str(number) for number in range(10)],
                     [str(number) for number in range(11)]):
            column = Column(rows)
            shown = Cells(column._repr_html_())
            numbered = [(str(row), str(value)) for row, value in enumerate(rows)]
            wanted = numbered if len(rows) <= 10 else [*numbered[:5], ("..", ".."), *numbered[-5:]]
            self.assertEqual(shown.cells, [f"Column of {len(rows)} rows, {column.distinct} distinct texts",
                                           *(it for pair in wanted for it in pair)])
            self.assertLessEqual({*shown.tags}, {"table", "caption", "tr", "th", "td", "i"})
        self.assertEqual(Cells(Column(["a" * 61])._repr_html_()).cells[-1], "a" * 60 + "..")

    def test_a_sequence(self):
        column = Column(["a", None, "b", "a"])
        self.assertTrue("b" in column and None in column and "c" not in column and 7 not in column)
        self.assertEqual((column.index("b"), column.count("a"), list(reversed(column))), (2, 2, ["a", "b", None, "a"]))
        self.assertEqual(repr(column), "<Column of 4 rows, 2 distinct texts: 'a', None, 'b', 'a'>")
        self.assertFalse(Column())
        self.assertNotEqual(column, ["a", None, "b", "a"])
        with self.assertRaises(TypeError):
            hash(column)

    def test_rows_are_found_by_their_codes(self):
        column = Column.from_parts(["unused", "a", LyingStr("b"), "ß"], [1, -1, 2, 1, 3, -1])
        for value in ("a", "b", LyingStr("a"), "ß", None, "unused", "not here", "lone \ud800", 7, 0, -1, b"a", object()):
            plain, held = ["a", None, "b", "a", "ß", None], "a" if isinstance(value, LyingStr) else value
            self.assertEqual((value in column, column.count(value)), (held in plain, plain.count(held)))
            for start in range(-7, 8):
                for stop in (*range(-7, 8), None):
                    ends = (start,) if stop is None else (start, stop)
                    try:
                        found = plain.index(held, *ends)
                    except ValueError:
                        with self.assertRaisesRegex(ValueError, "^no row has this value$"):
                            column.index(value, start, stop)
                    else:
                        self.assertEqual(column.index(value, *ends), found)
        self.assertEqual(column.index("a", start=1), 3)

    def test_a_text_is_looked_up(self):
        column = Column(["a", None, "ß", "a"])
        self.assertEqual([column.code(text) for text in ("a", "ß", LyingStr("ß"), "b", "lone \ud800")], [0, 1, 1, None, None])
        self.assertEqual((column[:0].code("ß"), column[:0].codes.tolist(), column.distinct), (1, [], 2))
        for wrong in (*WRONG_VALUES, None):
            with self.assertRaisesRegex(TypeError, f"^a text is a str, not {type(wrong).__name__}$"):
                column.code(wrong)

    def test_its_size_has_codes_and_dictionary(self):
        column = Column()
        empty = sys.getsizeof(column)
        column.extend([None] * 1000)
        self.assertEqual(sys.getsizeof(column) - empty, 4000)
        column.extend(map(str, range(1000)))
        self.assertEqual(sys.getsizeof(column) - empty, 2000 * WIDTH + 64 * 1000)
        # Of a part with few rows what a pickle of it has.
        self.assertEqual(sys.getsizeof(column[1500:1503]) - empty, 3 * WIDTH + 64 * 3)
        self.assertEqual(sys.getsizeof(Column.from_parts(column.dictionary, [0])) - empty, WIDTH + 64 * 1000)

    def test_a_part_has_the_texts_of_its_rows(self):
        column = Column((f"text {number}" for number in range(100_000)), hasher="fixed")
        few = ["text 9", "text 7", None, "text 9"]
        for part in (column[3:6], column[9:6:-1], column.take([9, 7, 9]), column[7:10][:2], copy.copy(column[3:6]), column[:0]):
            part.append(None)
            for protocol in range(pickle.HIGHEST_PROTOCOL + 1):
                written = pickle.dumps(part, protocol)
                self.assertLess(len(written), 600)
                read = pickle.loads(written)
                self.assertEqual((read, read.dictionary), (part, part.compact().dictionary))
                self.assertEqual((part.distinct, read.distinct), (100_000, len({*part} - {None})))
        # The texts stay in the order of the dictionary, and those of a whole column all stay.
        part = Column.from_parts(["no", "b", "a"], [2, -1, 1])
        for whole in (part, part[:], part.take([0, 1, 2]), part[::-1]):
            self.assertEqual(pickle.loads(pickle.dumps(whole)).dictionary, ["no", "b", "a"])
            self.assertEqual((whole.compact().dictionary, whole.compact()), (["b", "a"], whole))
        self.assertEqual(column.take([9, 7])[1:].compact().hasher, "fixed")
        column.extend(few)
        self.assertEqual((list(column[-4:].compact()), column[-4:].compact().dictionary), (few, ["text 7", "text 9"]))

    def test_few_rows_are_read_without_the_whole_dictionary(self):
        column = Column(f"text {number}" for number in range(100_000))
        part, texts = column[5:8], ["text 5", "text 6", "text 7"]
        tracemalloc.start()
        try:
            self.assertEqual((list(part), list(reversed(part)), list(part.compact())), (texts, texts[::-1], texts))
            self.assertEqual(part.value_counts(), dict.fromkeys(texts, 1))
            self.assertLess(tracemalloc.get_traced_memory()[1], 100_000)
            # The first row of a long column makes one string, and a place for each.
            self.assertEqual(next(iter(column)), "text 0")
            self.assertLess(tracemalloc.get_traced_memory()[1], 100_000 + 9 * 100_000)
        finally:
            tracemalloc.stop()
        if numpy:
            self.assertEqual(part.to_numpy().tolist(), texts)
        self.assertEqual([it.dictionary for it in map(Column.from_arrow, (part, column[:3], part[:0]))], [texts, ["text 0", "text 1", "text 2"], []])
        # What is no part has all texts there.
        categories = list(map(str, range(100)))
        self.assertEqual(Column.from_arrow(Column.from_parts(categories, [7, 1])).dictionary, categories)

    def test_strings_are_told_and_let_go(self):
        column = Column(f"text {number}" for number in range(10_000))
        before, codes = sys.getsizeof(column), bytes(column.codes)
        for read in (list, lambda it: list(reversed(it)), lambda it: it.dictionary, set):
            tracemalloc.start()
            try:
                read(column)
                kept, told = tracemalloc.get_traced_memory()[0], sys.getsizeof(column) - before
                self.assertTrue(0.8 * kept < told < 1.2 * kept, (kept, told))
                walk = iter(column)
                self.assertEqual(next(walk), "text 0")
                column.shrink()
                self.assertLess(tracemalloc.get_traced_memory()[0], 2000)
            finally:
                tracemalloc.stop()
            self.assertEqual(sys.getsizeof(column), before)
            # An iterator goes on, and so do codes that were lent.
            self.assertEqual(list(walk), [f"text {number}" for number in range(1, 10_000)])
            self.assertEqual((bytes(column.codes), column[-1]), (codes, "text 9999"))

    def test_what_is_read_in_steps_is_of_the_rows_that_there_were(self):
        """Another thread may add rows after each step."""
        for read in (Column.unique, lambda it: it.value_counts(dropna=False), lambda it: it.frequencies()[0]):
            for step in ("_in_order", "counts", "__contains__"):
                column = Column(["a", "b"])
                taken = getattr(Column, step)

                def take(it, *words, column=column, taken=taken):
                    found = taken(it, *words)
                    column.extend(["c", None])
                    return found

                with mock.patch.object(Column, step, take, create=True):
                    self.assertEqual([*read(column)], ["a", "b"])

    def test_a_walk_shows_the_rows_that_there_were(self):
        column = Column(["a", None, "b"])
        walks = [iter(column), reversed(column), iter(column[:2])]
        for act in (lambda: column.append("c"), lambda: column.extend(map(str, range(100))), column.shrink, lambda: column.__init__(["x"])):
            act()
            walks.append(iter(column))
            next(walks[-1])
        del column
        self.assertEqual([[*walk][:4] for walk in walks],
                         [["a", None, "b"], ["b", None, "a"], ["a", None], [None, "b", "c"], [None, "b", "c", "0"], [None, "b", "c", "0"], []])

    def test_an_iterator_shrinks_the_column_before_it_fails(self):
        rows = 2 * _native._VALUES_AT_ONCE

        def values():
            yield from map(str, range(rows))
            self.assertIn("1", column.dictionary)
            column.shrink()
            raise ZeroDivisionError

        column = Column(["x"])
        with self.assertRaises(ZeroDivisionError):
            column.extend(values())
        self.assertEqual(column.code("1"), 2)
        column.append("new")
        self.assertEqual((list(column), column.dictionary[column.code("new")]), (["x", "new"], "new"))

    def test_a_text_is_what_it_holds(self):
        self.assertEqual(list(Column([LyingStr("Tiger"), None])), ["Tiger", None])

    def test_a_row_is_read_without_the_whole_dictionary(self):
        column = Column(["a", None, *map(str, range(10_000)), "b"])
        tracemalloc.start()
        try:
            self.assertEqual([column[0], column[1], column[-1]], ["a", None, "b"])
            self.assertTrue("7" in column and column.count("a") == 1 and column.index("b") == 10_002)
            self.assertLess(tracemalloc.get_traced_memory()[1], 10_000)
        finally:
            tracemalloc.stop()

    def test_merging_by_either_name(self):
        for add in (Column.merge, Column.extend):
            one, other = Column(["a", "b"] * 50), Column(["b", "c", None] * 50)
            add(one, other)
            self.assertEqual(list(one), ["a", "b"] * 50 + ["b", "c", None] * 50)

    def test_texts_of_an_iterator_are_not_all_in_memory(self):
        alive, most = 0, 0

        class Counted(str):
            def __init__(self, _):
                nonlocal alive, most
                alive += 1
                most = max(most, alive)

            def __del__(self):
                nonlocal alive
                alive -= 1

        at_once = _native._VALUES_AT_ONCE
        rows = 100 + 3 * at_once
        column = Column(Counted(row % 7) for row in range(rows))
        self.assertEqual(list(column), [str(row % 7) for row in range(rows)])
        self.assertLess(most, at_once + 10)

    def test_an_iterator_that_fails_adds_no_row(self):
        def rows(last):
            yield from "abcde"
            yield last

        for last, error in ((7, TypeError), (b"a", TypeError), ("\ud800", UnicodeEncodeError)):
            column = Column(["x", None])
            with self.assertRaises(error):
                column.extend(rows(last))
            self.assertEqual((list(column), column.dictionary), (["x", None], ["x"]))
        with self.assertRaises(ZeroDivisionError):
            column.extend(str(1 // (3 - row)) for row in range(5))
        self.assertEqual((list(column), column.dictionary), (["x", None], ["x"]))
        column.extend(rows(None))
        self.assertEqual((list(column), column.distinct), (["x", None, *"abcde", None], 6))

    def test_an_iterator_that_uses_the_column(self):
        column, kept = Column(["x", None]), []

        def rows(act):
            yield from "abcd"
            act()
            yield from "efg"

        column.extend(rows(lambda: column.append("y")))
        self.assertEqual(list(column), ["x", None, "y", *"abcdefg"])
        column = Column(["x", None])
        column.extend(rows(lambda: kept.append(column[:])))
        self.assertEqual((list(column), list(kept[0])), (["x", None, *"abcdefg"], ["x", None]))
        for act in (lambda: column.append("z") or 1 // 0, lambda: kept.append(column[:]) or 1 // 0):
            column = Column(["x", None])
            with self.assertRaises(ZeroDivisionError):
                column.extend(rows(act))
            self.assertIn(list(column), (["x", None], ["x", None, "z"]))
            self.assertEqual([column.dictionary[code] for code in column.codes if code >= 0], [it for it in column if it])
        with self.assertRaisesRegex(RuntimeError, "changed this during the call"):
            column.extend(rows(lambda: column.__init__(["new"])))
        self.assertEqual(list(column), ["new"])

    def test_an_iterator_that_reads_the_texts_before_it_fails(self):
        rows = 2 * _native._VALUES_AT_ONCE

        def values():
            yield from map(str, range(rows))
            column.dictionary
            raise ZeroDivisionError

        column = Column(["x"])
        with self.assertRaises(ZeroDivisionError):
            column.extend(values())
        column.append("new")
        self.assertEqual((list(column), column.dictionary[column.code("new")]), (["x", "new"], "new"))
        self.assertEqual(len(column.dictionary), column.distinct)

    def test_an_iterator_that_gives_the_texts_away_before_it_fails(self):
        rows = [str(row % 7) for row in range(_native._VALUES_AT_ONCE)]
        texts = ["x", *dict.fromkeys(rows)]

        def values(give):
            yield from rows
            given.append(give())
            raise ZeroDivisionError

        with tempfile.TemporaryDirectory() as folder:
            for give in (lambda: bytes(column.to_buffers()[0]), lambda: Column.from_arrow(column).dictionary,
                         lambda: pickle.loads(pickle.dumps(column)).dictionary, lambda: column.to_plain(folder)):
                column, given = Column(["x"]), []
                with self.assertRaises(ZeroDivisionError):
                    column.extend(values(give))
                column.append("new")
                self.assertEqual((list(column), column.code("0"), column.code("new")), (["x", "new"], 1, len(texts)))
                self.assertIn(given, (["".join(texts).encode()], [texts], [None]))

    def test_an_iterator_that_uses_its_texts_before_it_fails(self):
        last = str(2 * _native._VALUES_AT_ONCE - 1)
        for act in (lambda: column.append(last), lambda: column.extend([last]), lambda: column.extend(iter([last])),
                    lambda: column.merge(Column([last]))):
            def values():
                yield from map(str, range(int(last) + 1))
                act()
                raise ZeroDivisionError

            column = Column(["x"])
            with self.assertRaises(ZeroDivisionError):
                column.extend(values())
            self.assertEqual((list(column), column.index(last)), (["x", last], 1))

    def test_an_iterator_that_begins_again(self):
        class Again:
            left = 3

            def __iter__(self):
                return self

            def __next__(self):
                self.left -= 1
                if self.left < 0:
                    self.left = 3
                    raise StopIteration
                return str(self.left)

        # As a list is made of it.
        for rows in (2, 3, 4):
            Again.left = rows
            self.assertEqual(list(Column(Again())), list(Again()))

    def test_a_value_that_uses_the_column_when_it_is_dropped(self):
        rows = 100 + 2 * _native._VALUES_AT_ONCE

        class Late(str):
            def __del__(self):
                act()

        for act, kind in ((lambda: column.__init__(["new"]), RuntimeError), (lambda: len(column) < 5 and column.append("late"), None),
                          (lambda: len(kept) < 5 and kept.append(column[:]), None)):
            kept, column = [], Column(["x", None])
            if kind:
                with self.assertRaises(kind):
                    column.extend(Late(row % 7) for row in range(rows))
                self.assertEqual(list(column), ["new"])
            else:
                column.extend(Late(row % 7) for row in range(rows))
                self.assertEqual([row for row in column if row != "late"], ["x", None, *(str(row % 7) for row in range(rows))])
                self.assertTrue(all(list(part) == ["x", None] for part in kept))

    def test_merging_is_associative(self):
        parts = [["a", None, "b"], ["c", "a"], ["d", "c", "b", None]]
        first, last = Column(parts[0]), Column(parts[1])
        first.merge(Column(parts[1]))
        first.merge(Column(parts[2]))
        last.merge(Column(parts[2]))
        whole = Column(parts[0])
        whole.merge(last)
        self.assertEqual((list(whole), whole.dictionary, whole.codes), (list(first), first.dictionary, first.codes))
        self.assertEqual(list(whole), sum(parts, []))

    def test_copies_keep_class_and_attributes(self):
        column = Named("n", ["a", None])
        pickles = [pickle.loads(pickle.dumps(column, protocol)) for protocol in range(pickle.HIGHEST_PROTOCOL + 1)]
        for other in (copy.copy(column), copy.deepcopy(column), *pickles):
            self.assertEqual((type(other), other.name, list(other)), (Named, "n", ["a", None]))
            other.append("b")
            self.assertEqual(list(column), ["a", None])
        for other in (Named.from_values(["a", None]), Named.from_parts(["a"], [0, -1])):
            self.assertIs(type(other), Named)
            self.assertEqual(other, column)

    def test_another_process_reads_a_pickle(self):
        written = pickle.dumps(Column(["a", None, "ß", "a"]))
        self.assertEqual(run_apart(f"""
            import pickle
            column = pickle.loads({written!r})
            column.append("b")
            print(ascii(list(column)), column.codes.tolist())
            """), (0, "['a', None, '\\xdf', 'a', 'b'] [0, -1, 1, 0, 2]", ""))

    def test_neither_numpy_nor_pandas_is_imported(self):
        self.assertEqual(run_apart("""
            import sys
            from string_interner import Column
            column = Column(["a", None, "b"])
            column.merge(Column(["b", "c"]))
            column == Column.from_parts(["a", "c", "b"], column.codes), column.counts(), column[1:], list(column)
            print(*{"numpy", "pandas"} & {*sys.modules})
            sys.modules |= {"numpy": None, "pandas": None}
            print(column.counts().tolist(), column == column[:])
            for call in (column.to_pandas, lambda: Column.from_pandas([])):
                try:
                    call()
                except ImportError:
                    print("ImportError")
            """), (0, "[1, 2, 1] True\nImportError\nImportError", ""))


class Copies(unittest.TestCase):
    def test_pickles_out_of_band(self):
        for hasher in ("seeded", "siphash", "fixed"):
            column, buffers = Column(["a" * 1000, None, "ß"] * 1000, hasher=hasher), []
            written = pickle.dumps(column, 5, buffer_callback=buffers.append)
            self.assertLess(len(written), 300)
            self.assertEqual([len(it.raw()) for it in buffers], [1002, 16, 12_000])
            for make in (bytes, bytearray):
                other = pickle.loads(written, buffers=[make(it.raw()) for it in buffers])
                self.assertEqual((other, other.hasher, other.codes), (column, hasher, column.codes))

    def test_buffers_that_were_cut_short(self):
        for it in (Column(["red", "green", None, "red"]), Column(["a", "b", "c"])[1:2], Interner(["red", "green"]), Interner(["a"], backend="buffer"),
                   Column([None, None])):
            buffers = []
            written = pickle.dumps(it, 5, buffer_callback=buffers.append)
            raws = [bytes(buffer.raw()) for buffer in buffers]
            self.assertEqual(pickle.loads(written, buffers=raws), it)
            for place, raw in enumerate(raws):
                for length in range(len(raw)):
                    with self.assertRaises(ValueError):
                        pickle.loads(written, buffers=[*raws[:place], raw[:length], *raws[place + 1 :]])
            with self.assertRaisesRegex(ValueError, "^the pickle is of . (texts|rows), and its buffers hold 0$"):
                pickle.loads(written, buffers=[b""] * len(raws))

    def test_pickles_of_the_release_before(self):
        """They do not say how many texts and rows there are."""
        column = (
            b"\x80\x04\x95\xa8\x00\x00\x00\x00\x00\x00\x00\x8c\x17string_interner._column\x94\x8c\x06Column\x94\x93\x94)\x81\x94N}\x94\x8c\x06_parts\x94"
            b"\x8c\x17string_interner._native\x94\x8c\x06_Parts\x94\x93\x94(\x8c\x06string\x94\x8c\x06seeded\x94C\x08redgreen\x94C\x10\x03\x00\x00\x00\x00"
            b"\x00\x00\x00\x08\x00\x00\x00\x00\x00\x00\x00\x94C\x10\x00\x00\x00\x00\xff\xff\xff\xff\x01\x00\x00\x00\x00\x00\x00\x00\x94K\x04t\x94R"
            b"\x94s\x86\x94b."
        )
        interner = (
            b"\x80\x05\x95\x90\x00\x00\x00\x00\x00\x00\x00\x8c\x0fstring_interner\x94\x8c\x08Interner\x94\x93\x94)\x81\x94N}\x94\x8c\x06_parts\x94"
            b"\x8c\x17string_interner._native\x94\x8c\x06_Parts\x94\x93\x94(\x8c\x06buffer\x94\x8c\x06seeded\x94C\x08redgreen\x94C\x10\x03\x00\x00\x00\x00"
            b"\x00\x00\x00\x08\x00\x00\x00\x00\x00\x00\x00\x94NK\x04t\x94R\x94s\x86\x94b."
        )
        self.assertEqual(list(pickle.loads(column)), ["red", None, "green", "red"])
        self.assertEqual(list(pickle.loads(interner).items()), [(0, "red"), (4, "green")])

    def test_dask_names_equal_columns_alike(self):
        try:
            from dask.base import tokenize
        except ImportError:
            self.skipTest("no dask")
        rows = ["b", None, "a", "b"]
        other = Column(["x", "a"])[:0]
        other.extend(rows)
        self.assertEqual(tokenize(other), tokenize(Column(rows, hasher="fixed")))
        self.assertEqual(len({*map(tokenize, (other, other[1:], Column(["ba"]), Column(["b", "a"]), Column([None]), Column()))}), 6)

    def test_tokens_of_dask_tell_classes_and_attributes(self):
        tokens = [it.__dask_tokenize__() for it in (Named("n", ["a"]), Named("n", ["a"]), Named("m", ["a"]), Column(["a"]))]
        self.assertEqual(tokens[0], tokens[1])
        self.assertTrue(all(tokens[0] != it for it in tokens[2:]))

    def test_changed_pickles(self):
        # Each byte of a small pickle, changed to others: refused when it is read, or a column whose rows are in its dictionary. A
        # changed pickle may also ask for much memory, of pickle itself.
        self.assertEqual(run_apart("""
            import pickle, resource
            from string_interner import Column
            with open("/proc/self/statm") as pages:
                used = int(pages.read().split()[0]) * resource.getpagesize()
            resource.setrlimit(resource.RLIMIT_AS, (used + 100_000_000,) * 2)
            read = refused = 0
            for protocol in (2, 5):
                written = pickle.dumps(Column(["red", None, "green", "red"]), protocol)
                for place in range(len(written)):
                    for byte in {0, 1, 2, 3, 5, 0x7F, 0xFF, written[place] ^ 1, written[place] ^ 0x80}:
                        changed = written[:place] + bytes([byte]) + written[place + 1 :]
                        if b"string_interner" not in changed:
                            continue
                        try:
                            column = pickle.loads(changed)
                        except Exception:
                            refused += 1
                            continue
                        if type(column) is Column:
                            try:
                                assert {*column} <= {*column.dictionary, None}
                            except ValueError as error:
                                assert str(error) == "the column was not initialized"
                            read += 1
            print(min(read, refused) > 100)
            """), (0, "True", ""))

    def test_changed_parts(self):
        _, (name, hasher, joined, ends, codes, width, *_) = Column(["red", None, "green", "red"])._parts.__reduce_ex__(2)
        for changes, said in (
            ({"joined": b"redgreex"[:-1]}, "an end"), ({"joined": b"\xff" * 8}, "text 0 is not UTF-8"), ({"ends": ends[:-1]}, "the ends have another width"),
            ({"ends": ends[::-1]}, "an end"), ({"codes": codes[:-1]}, "the codes have another width"), ({"codes": b"\2" * 16}, "row 0 has code 33686018, "),
            ({"codes": b"\xfe" + b"\xff" * 15}, "row 0 has code -2, "), ({"width": 2}, "the codes have another width"), ({"width": -4}, "the codes have another width"),
            ({"name": "buffer"}, "the codes have another backend"), ({"name": "tree"}, "no backend 'tree'"), ({"hasher": "none"}, "no hasher 'none'"),
            ({"joined": b"redredxx", "ends": array("Q", [3, 6]).tobytes()}, "a text repeats an earlier one"),
        ):
            if width == 8 and "codes" in changes:
                continue
            given = {"name": name, "hasher": hasher, "joined": joined, "ends": ends, "codes": codes, "width": width} | changes
            with self.assertRaisesRegex(ValueError, f"^{said}"):
                _native._Parts(*given.values())
        column = Column(["a"])
        for wrong in (None, Interner()._parts, column, 1):
            with self.assertRaises(TypeError):
                column._parts = wrong
        with self.assertRaises(TypeError):
            Interner()._parts = column._parts
        self.assertEqual(list(column), ["a"])

    def test_what_no_constructor_made(self):
        column = Column.__new__(Column)
        for call in (lambda: len(column), lambda: list(column), lambda: column[0], lambda: column[:], lambda: "a" in column,
                     lambda: column.append("a"), lambda: column.append(None), lambda: column.extend(["a"]), lambda: column.extend(iter("a")),
                     lambda: column.merge(Column()), lambda: Column().merge(column), lambda: column == Column(), lambda: Column() == column,
                     lambda: column.codes, lambda: column.dictionary, lambda: column.counts(), lambda: column.take([]), lambda: column.distinct,
                     lambda: column.__arrow_c_array__(), lambda: column.__arrow_c_schema__(), lambda: pickle.dumps(column), lambda: column.hasher,
                     lambda: column.index("a"), lambda: column.count(None), lambda: column.code("a"), lambda: column.to_buffers(),
                     lambda: column.__arrow_c_stream__(), lambda: Column.from_arrow(column), lambda: column[[0]], lambda: column[[True]],
                     lambda: column.value_counts(), lambda: column.__dask_tokenize__(), lambda: reversed(column), lambda: copy.copy(column),
                     lambda: column.frequencies(), lambda: column._frequencies(True, None),
                     lambda: column.compact(), lambda: column.shrink(), lambda: column.isin([]), lambda: column.isna(), lambda: column.unique()):
            with self.assertRaisesRegex(ValueError, "^the column was not initialized$"):
                call()
        self.assertEqual(repr(column), "<Column that was not initialized>")
        column.__init__(["a"])
        self.assertEqual(list(column), ["a"])

    def test_copies_share_the_dictionary_until_one_adds_a_text(self):
        column = Column(map(str, range(1000)))
        tracemalloc.start()
        try:
            copies = [column[:], copy.copy(column), copy.deepcopy(column), column[:0], column.take([0])]
            self.assertLess(tracemalloc.get_traced_memory()[1], 5000)
        finally:
            tracemalloc.stop()
        for number, it in enumerate(copies):
            it.extend(["7", None])
            it.append(f"own {number}")
        self.assertEqual([it.distinct for it in (column, *copies)], [1000, *[1001] * 5])
        self.assertEqual([it.dictionary[1000:] for it in copies], [[f"own {number}"] for number in range(5)])


class Buffers(unittest.TestCase):
    def test_from_buffers(self):
        for ends in ([3, 8], array("i", [3, 8]), array("Q", [3, 8]), iter([3, 8])):
            column = Column.from_buffers(bytearray(b"redgreen"), ends=ends, codes=[1, -1, 0], hasher="fixed")
            self.assertEqual((list(column), column.dictionary, column.hasher), (["green", None, "red"], ["red", "green"], "fixed"))
        for joined, ends, codes, said in (
            (b"redred", [3, 6], [0], "a text repeats an earlier one: text 1 is text 0 again$"), (b"ab", [1, 3], [0], "an end .* bytes: end 1$"),
            (b"abcbb", [1, 2, 3, 4, 5], [0], "a text repeats an earlier one: text 3 is text 1 again$"), (b"ab", [2, 1], [0], "an end .*: end 1$"),
            (b"ab", [-1], [0], "an end .*: end 0$"), (b"a\xff", [1, 2], [0], "text 1 is not UTF-8"), (b"ab", [1, 2], [0, 2], "row 1 has code 2, and the dictionary has 2 texts"),
            (b"ab", [1, 2], array("Q", [0, 2**64 - 1]), f"row 1 has code {2**64 - 1}, "),
        ):
            with self.assertRaisesRegex(ValueError, f"^{said}"):
                Column.from_buffers(joined, ends=ends, codes=codes)
        joined, ends, codes = Column(["a", None, "ß"]).to_buffers()
        self.assertEqual((joined, ends.tolist(), ends.format, codes.tolist()), ("aß".encode(), [1, 3], "Q", [0, -1, 1]))

    def test_take_refuses(self):
        column = Column(["a", None])
        for wrong in (2, -3, 2**63, -(2**70)):
            with self.assertRaisesRegex(IndexError, f"^there is no row {wrong}$"):
                column.take([0, wrong])
        # Numbers without signs, which are great, and no rows from the end.
        for great in (2**64 - 1, 2**64 - 2):
            with self.assertRaisesRegex(IndexError, f"^there is no row {great}$"):
                column.take(array("Q", [great]))
        # One with more digits than Python writes.
        with self.assertRaisesRegex(IndexError, f"^there is no row 0x1{'0' * 5000}$"):
            column.take([16**5000])
        with self.assertRaisesRegex(ValueError, "^row 0 has code -0x10.*0, and the dictionary has 1 texts$"):
            Column.from_parts(["a"], [-(16**5000)])
        for wrong in WRONG_NUMBERS:
            with self.assertRaises(TypeError):
                column.take([wrong])

    def test_a_column_that_changes_while_its_view_lives(self):
        column, views = Column(["a", None]), []
        for number in range(300):
            views.append((column.codes, column.codes.tolist()))
            act = (lambda: column.append(f"text {number}"), lambda: column.extend(["a"] * 100), lambda: column.merge(column[:5]),
                   lambda: column.__init__(["b"] * 10), lambda: column.extend(iter(["c", None])))[number % 5]
            act()
        del column
        for view, codes in views:
            self.assertEqual(view.tolist(), codes)

    def test_the_codes_are_lent(self):
        column = Column(["a", None, "b"])
        view = column.codes
        self.assertEqual((view.format, view.nbytes, view.readonly), ("i", 12, True))
        with self.assertRaises(TypeError):
            view[0] = 1
        column.extend(["a", "b"])
        self.assertEqual(view.tolist(), [0, -1, 1])
        self.assertEqual(column.codes.tolist(), [0, -1, 1, 0, 1])

    def test_the_dictionary_is_a_list_of_its_own(self):
        column = Column(["a", None, "b"])
        column.dictionary.clear()
        column.dictionary.append("c")
        self.assertEqual((list(column), column.dictionary, column[2]), (["a", None, "b"], ["a", "b"], "b"))

    @unittest.skipUnless(numpy and WIDTH == 4, "no numpy, or wide codes")
    def test_numpy_shares_the_codes(self):
        column = Column(["a", None, "b"] * 100)
        address = numpy.asarray(column.codes).ctypes.data
        for codes in (numpy.frombuffer(column.codes, numpy.int32), numpy.asarray(column.codes)):
            self.assertEqual((codes.dtype, codes.tolist()), (numpy.int32, [0, -1, 1] * 100))
            self.assertEqual(codes.__array_interface__["data"], (address, True))
            self.assertFalse(codes.flags.writeable)
        self.assertTrue(numpy.shares_memory(numpy.frombuffer(column.codes, numpy.int32), numpy.asarray(column.codes)))
        self.assertEqual(numpy.asarray(Column().codes).tolist(), [])

    @unittest.skipUnless(numpy, "no numpy")
    def test_rows_are_added_behind_a_view_without_a_copy(self):
        column, addresses, views = Column(["a"] * 1000), set(), []
        for number in range(500):
            views.append(numpy.asarray(column.codes))
            addresses.add(views[-1].ctypes.data)
            column.append("b" if number % 2 else None)
        self.assertLess(len(addresses), 9)
        rows = ["a"] * 1000 + [None, "b"] * 250
        self.assertEqual(list(column), rows)
        wanted = [{"a": 0, None: -1, "b": 1}[row] for row in rows]
        for number, view in enumerate(views):
            self.assertEqual(view.tolist(), wanted[: 1000 + number])

    @unittest.skipUnless(numpy, "no numpy")
    def test_two_columns_that_add_behind_one_block(self):
        one = Column(["a"] * 100)
        one.append("b")
        other, third = one[:], copy.copy(one)
        for column, rows in ((one, ["c", "d"]), (other, ["e", "f"]), (third, ["c", None])):
            column.extend(rows)
        self.assertEqual([list(it)[-3:] for it in (one, other, third)], [["b", "c", "d"], ["b", "e", "f"], ["b", "c", None]])
        self.assertEqual([it.dictionary[2:] for it in (one, other, third)], [["c", "d"], ["e", "f"], ["c"]])

    @unittest.skipUnless(numpy, "no numpy")
    def test_numpy_reads_the_rows(self):
        rows = ["b", None, "a", "b"]
        for given in (rows, [], [None]):
            column = Column(given)
            for found in (column.to_numpy(), numpy.asarray(column), numpy.array(column, dtype=object), numpy.array(column)):
                self.assertEqual((found.dtype, found.tolist()), (object, given))
        self.assertEqual(numpy.asarray(Column(["b", "a"]), dtype="U1").tolist(), ["b", "a"])

    @unittest.skipUnless(numpy, "no numpy")
    def test_arrays_of_texts_of_numpy(self):
        chance = random.Random(1)
        for _ in range(200):
            rows = ["".join(chance.choices("ab\0éß語\uffff𝄞\U0010ffff", k=chance.randrange(5))) for _ in range(chance.randrange(20))]
            for kind in ("U", "<U5", ">U5", ">U4"):
                array = numpy.array(rows, kind)
                for given in (array, array[::-1], array[1::2],
                              numpy.array([*zip(range(len(rows)), rows)], [("n", "i1"), ("text", "U4")])["text"]):
                    # As numpy makes a str of each, without the zeros at its end.
                    column = Column(["b", *given[:1].tolist()])
                    column.extend(given)
                    self.assertEqual(list(column), ["b", *given[:1].tolist(), *given.tolist()])
                    self.assertEqual(column.dictionary, list(dict.fromkeys(column)))
        masked = numpy.ma.array(["a", "b"], mask=[False, True])
        self.assertEqual(list(Column(masked)), ["a", None])
        self.assertEqual(list(Column(numpy.array(["a", "b"]).reshape(2, 1)[:, 0])), ["a", "b"])

    @unittest.skipUnless(numpy, "no numpy")
    def test_what_is_no_text_in_an_array_of_numpy(self):
        column = Column(["a"])
        shared = column[:]
        for rows in (["b", "c\ud800"], ["b", "\udfffc", "d"]):
            for kind in ("U", ">U2"):
                self.assertRaises(UnicodeEncodeError, column.extend, numpy.array(rows, kind))
        self.assertRaises(UnicodeDecodeError, column.extend, numpy.array([98, 0x110000], "u4").view("U1"))
        self.assertEqual((list(column), column.dictionary, shared.dictionary), (["a"], ["a"], ["a"]))
        for wrong in (numpy.array([b"a"]), numpy.array([1]), numpy.array(["2026-01-01"], "M8[D]"), numpy.array([["a"]])):
            self.assertRaises(TypeError, column.extend, wrong)

    @unittest.skipUnless(numpy, "no numpy")
    def test_a_handler_that_uses_the_column_while_an_array_is_read(self):
        array = numpy.array([f"text {number}" for number in range(300_000)])
        for change, wanted in ((lambda it: it.append("handler"), type(None)), (lambda it: it.__init__(["other"]), RuntimeError)):
            for attempt in attempts():
                column = Column(["first"])
                found = attempt.run(lambda: change(column), column.extend, array)
            self.assertIsInstance(found, wanted)
            self.assertEqual(list(column), ["other"] if wanted is RuntimeError else ["first", "handler", *array.tolist()])

    @unittest.skipUnless(numpy, "no numpy")
    def test_numpy_reads_what_isin_finds_as_booleans(self):
        column = Column(["a", None, "b", "a"])
        for found, wanted in ((column.isin({"a", "c"}), [True, False, False, True]), (column.isna(), [False, True, False, False]), (Column().isna(), [])):
            self.assertEqual((found.format, found.readonly, found.tolist()), ("?", True, wanted))
            if numpy:
                mask = numpy.asarray(found)
                self.assertEqual((mask.dtype, mask.tolist()), (bool, wanted))
        self.assertEqual(list(column[column.isin(["a"])]), ["a", "a"])
        self.assertRaises(TypeError, column.isin, 1)

    def test_masked_arrays(self):
        masked = numpy.ma.array(["a", "b", "c"], mask=[True, False, False], dtype=object)
        for given in (masked, numpy.ma.array(["a", "b", "c"], mask=[True, False, False])):
            column = Column(given)
            self.assertEqual((list(column), column.dictionary), ([None, "b", "c"], ["b", "c"]))
        self.assertEqual(list(Column(masked[::-1])), ["c", "b", None])
        self.assertEqual(list(Column(numpy.ma.array(["a", "b"], dtype=object))), ["a", "b"])
        for kind in ("i1", "u1", "i4", "i8", "u8"):
            codes = numpy.ma.array([0, 1, 9], mask=[True, False, True], dtype=kind)
            self.assertEqual(list(Column.from_parts(["a", "b"], codes)), [None, "b", None])
        with self.assertRaisesRegex(ValueError, f"^row 0 has code {2**64 - 1}, "):
            Column.from_parts(["a"], numpy.ma.array([2**64 - 1, 0], mask=[False, True], dtype="u8"))

    @unittest.skipUnless(numpy, "no numpy")
    def test_arrays_of_every_kind(self):
        for wrong in (numpy.array([1, 2]), numpy.array([1.5]), numpy.array([["a", "b"]]), numpy.array([True]), numpy.array([b"a"]),
                      numpy.array(["2020"], "M8"), numpy.array([1j]), numpy.array([(1, 2)], "i4,i4"), numpy.array(["a", 1.5], object),
                      numpy.array([2**70, 1], object)):
            with self.assertRaises(TypeError):
                Column(wrong)
        for wrong in (numpy.array([1.0]), numpy.array([[0]]), numpy.array(["0"]), numpy.array([b"0"]), numpy.array([1j]),
                      numpy.array(["2020"], "M8"), numpy.array([(0, 0)], "i4,i4"), numpy.array([None], object), numpy.array([numpy.nan])):
            with self.assertRaises(TypeError):
                Column.from_parts(["a"], wrong)
        for row in (numpy.array(["b", "a", None], object), numpy.empty(3, object), numpy.array(["b", "a"])):
            for given in (row, row[::-1], row[::2]):
                self.assertEqual(list(Column(given)), given.tolist())

    @unittest.skipUnless(numpy, "no numpy")
    def test_codes_of_numpy(self):
        for kind in ("i1", "u1", "i2", "u4", "i8", "u8", ">i4", ">u8"):
            codes = numpy.array([1, 0, 1], kind)
            column = Column.from_parts(["a", "b"], codes)
            codes[:] = 0
            self.assertEqual(list(column), ["b", "a", "b"])
            self.assertEqual(list(Column.from_parts(["a", "b"], codes[::2])), ["a", "a"])
            with self.assertRaisesRegex(ValueError, "^row 1 has code 2, "):
                Column.from_parts(["a", "b"], numpy.array([1, 2, 3], kind))
        for wrong in (numpy.array([1.0]), numpy.array([[1]])):
            with self.assertRaises(TypeError):
                Column.from_parts(["a", "b"], wrong)


@unittest.skipUnless(pandas, "no pandas")
class Pandas(unittest.TestCase):
    def test_there_and_back(self):
        for rows in ([], [None], ["a"], ["b", None, "a", "b"], [f"text {number % 300}" for number in range(1000)]):
            column = Column(rows)
            there = column.to_pandas()
            self.assertIsInstance(there, pandas.Categorical)
            self.assertEqual([None if value is numpy.nan else value for value in there], rows)
            self.assertEqual((there.categories.tolist(), there.codes.tolist()), (column.dictionary, column.codes.tolist()))
            for given in (there, pandas.Series(there), pandas.CategoricalIndex(there)):
                back = Column.from_pandas(given)
                self.assertEqual((list(back), back.dictionary), (rows, column.dictionary))

    def test_other_than_categorical(self):
        rows = ["b", None, "a", "b", ""]
        for given in (rows, numpy.array(rows, object), pandas.Index(rows), pandas.Series(rows), pandas.Series(rows, dtype="string"),
                      pandas.Series(["b", numpy.nan, "a", "b", ""]), pandas.Series(["b", pandas.NA, "a", "b", ""])):
            column = Column.from_pandas(given)
            self.assertEqual((list(column), column.dictionary), (rows, ["b", "a", ""]))
        masked = numpy.ma.array(["b", numpy.nan, "a", "c"], mask=[True, False, False, False], dtype=object)
        self.assertEqual(list(Column.from_pandas(masked)), [None, None, "a", "c"])
        kept = pandas.Series(["a", None])
        Column.from_pandas(kept).append("b")
        self.assertEqual(kept.tolist(), ["a", None])
        self.assertEqual(list(Column.from_pandas(pandas.Series([], dtype=object))), [])

    def test_each_kind_there_and_back(self):
        """The rows of the table in docs/use/pandas.md: what is lost, and how `x` is had again."""
        texts, same = ["b", None, "a", "b"], pandas.testing
        categorical = pandas.Categorical(texts, categories=["b", "a", "z"])

        def back(x):
            return Column.from_pandas(x).to_pandas()

        def check(found, x):
            same.assert_index_equal(found.categories, x.categories)
            self.assertEqual((found.codes.tolist(), found.codes.dtype, found.ordered), (x.codes.tolist(), x.codes.dtype, x.ordered))

        for x in (categorical, pandas.Categorical([]), pandas.Categorical(["a"]), pandas.Categorical([f"{number:05}" for number in range(40_000)])):
            check(back(x), x)
        x = categorical.as_ordered()
        self.assertFalse(back(x).ordered)
        check(back(x).as_ordered(), x)
        named = pandas.Index(["b", "a"], name="n")
        for x in (pandas.Categorical(pandas.array(texts, "string")), pandas.Categorical.from_codes([0, -1, 1], named), pandas.Categorical([None])):
            self.assertEqual((back(x).categories.dtype, back(x).categories.name), (object, None))
            check(pandas.Categorical.from_codes(back(x).codes, dtype=x.dtype), x)
        x = pandas.CategoricalIndex(categorical, name="n")
        same.assert_index_equal(pandas.Index(back(x), name=x.name), x)
        for x in (pandas.Series(categorical, index=[7, 8, 9, 7], name="n"), pandas.Series(categorical)):
            same.assert_series_equal(pandas.Series(back(x), x.index, name=x.name), x)
        for dtype, missing in ((object, None), (object, numpy.nan), (object, pandas.NA), ("string", pandas.NA)):
            x = pandas.Series(["b", missing, "a", "b"], index=[7, 8, 9, 7], name="n", dtype=dtype)
            again = pandas.Series(back(x), x.index, x.dtype, x.name)
            self.assertTrue(pandas.isna(again.iloc[1]))
            # None and NA of objects are NaN then.
            same.assert_series_equal(again, x if dtype == "string" else x.fillna(numpy.nan))
        x = pandas.Index(texts, name="n")
        same.assert_index_equal(pandas.Index(back(x), x.dtype, name=x.name), pandas.Index(["b", numpy.nan, "a", "b"], name="n"))
        x = pandas.array(texts, "string")
        same.assert_extension_array_equal(pandas.array(back(x), x.dtype), x)

    def test_categories_stay_in_their_order(self):
        given = pandas.Categorical(["b", None], categories=["z", "b", "a"], ordered=True)
        column = Column.from_pandas(given)
        self.assertEqual((column.dictionary, column.codes.tolist()), (["z", "b", "a"], [1, -1]))
        self.assertEqual(column.counts().tolist(), [0, 1, 0])
        self.assertTrue(column.to_pandas().as_ordered().equals(given))

    def test_a_table_and_an_index_of_levels(self):
        frame = pandas.DataFrame({"a": ["x", "y"], "b": ["y", None]})
        for call in (Column, Column.from_values, Column.from_pandas, Column().extend, Column(["a"]).isin, Interner, Interner().intern_all,
                     lambda it: Column.from_parts(it, [])):
            for given in (frame, frame[:0]):
                with self.assertRaisesRegex(TypeError, r"^a DataFrame has columns, of which one .*: choose it, as table\[name\]$"):
                    call(given)
            with self.assertRaisesRegex(TypeError, r"^a MultiIndex has levels, of which one .*: choose it, as index\.get_level_values\(0\)$"):
                call(pandas.MultiIndex.from_frame(frame))
        self.assertEqual(list(Column(frame["b"])), ["y", None])
        self.assertEqual(list(Column.from_pandas(pandas.MultiIndex.from_frame(frame).get_level_values(0))), ["x", "y"])
        self.assertEqual(list(Column(pandas.Series(["x", "y"], index=["columns", "levels"]))), ["x", "y"])
        # Items of a dict are its keys, as for list.
        self.assertEqual(list(Column({"a": 1, "b": 2})), ["a", "b"])

    def test_what_are_no_texts(self):
        for wrong in (pandas.Series([1, 2]), pandas.Series(["a", 1]), pandas.Categorical([1, 2]), pandas.Series([True]),
                      pandas.Categorical(["a", 1]), pandas.Series(pandas.date_range("2020", periods=2))):
            with self.assertRaises(TypeError):
                Column.from_pandas(wrong)

    def test_codes_are_shared_if_pandas_keeps_4_bytes(self):
        for distinct, width in ((126, 1), (127, 2), (32_766, 2), (32_767, 4), (40_000, 4)):
            column = Column(map(str, range(distinct)))
            there = column.to_pandas()
            self.assertEqual(there.codes.dtype.itemsize, width)
            self.assertEqual(numpy.shares_memory(there.codes, numpy.asarray(column.codes)), width == WIDTH)
            # What pandas does with it, it does without changing the column, and the column without changing it.
            series, last = pandas.Series(there), str(distinct - 1)
            column.extend(["0", None, "new"])
            self.assertEqual((len(there), there[-1]), (distinct, last))
            self.assertEqual(series.value_counts().to_dict(), dict.fromkeys(map(str, range(distinct)), 1))
            self.assertEqual(series[series == last].tolist(), [last])
            self.assertEqual(series.sort_values(ascending=False).iloc[0], last)
            self.assertEqual(int(pandas.Series(1, series.index).groupby(series, observed=True).sum().sum()), distinct)
            self.assertEqual(series.isna().sum(), 0)
            self.assertEqual(pandas.concat([series, series]).nunique(), distinct)
            self.assertEqual(series.astype(object).tolist(), list(map(str, range(distinct))))
            changed = there.copy()
            changed[0] = last
            self.assertEqual((changed[0], there[0], column[0]), (last, "0", "0"))
            if width == WIDTH:
                with self.assertRaises(ValueError):
                    there[0] = last

    def test_factorize_finds_the_same(self):
        rows = [f"user{number * number % 7919}" for number in range(20_000)]
        codes, texts = pandas.factorize(numpy.array(rows, dtype=object))
        column = Column(rows)
        self.assertTrue((numpy.asarray(column.codes) == codes).all())
        self.assertEqual(column.dictionary, texts.tolist())


class SharedColumns(unittest.TestCase):
    def test_threads_take_turns(self):
        column, seen = Column(), []

        def fill(name):
            other = Column([f"{name} {number % 50}" for number in range(100)])
            for _ in range(50):
                column.merge(other)
                column.extend([name, None])
                column.append(name)
                seen.append({*map(type, column)} == {str, type(None)} and column[-9:] != other and len(column.dictionary) > 50)

        threads = [threading.Thread(target=fill, args=(name,)) for name in "abcd"]
        for thread in threads:
            thread.start()
        for thread in threads:
            thread.join(HANGS)
        self.assertEqual((len(seen), all(seen), len(column), column.distinct), (200, True, 4 * 50 * 103, 4 * 51))
        for name in "abcd":
            self.assertEqual(column.count(name), 100)
            self.assertEqual(column.count(f"{name} 7"), 100)
        self.assertEqual(column.count(None), 200)

    def test_dictionary_and_codes_belong_together(self):
        columns, wrong = [Column()], []

        def fill():
            columns[0].append(str(len(columns[0])))

        with running(fill):
            for _ in range(3000):
                for read in (list, lambda column: list(copy.copy(column)), lambda column: [*reversed(column[:])][::-1]):
                    column = columns[0]
                    try:
                        rows = read(column)
                    except IndexError as error:
                        wrong.append(error)
                    else:
                        wrong += [rows] if rows != list(map(str, range(len(rows)))) else []
                if len(column) > 50:
                    columns[0] = Column()
        self.assertEqual(wrong, [])

    def test_a_list_that_another_thread_changes(self):
        rows, wrong = ["ab"] * 500, []

        def change():
            for row in range(0, len(rows), 7):
                rows[row] = None
            rows.append("cd")
            del rows[500:]
            for row in range(0, len(rows), 7):
                rows[row] = "ab"

        with running(change):
            for _ in range(1000):
                column = Column(rows)
                if not (500 <= len(column) <= 501 and {*column} <= {"ab", "cd", None}):
                    wrong.append(column)
        self.assertEqual(wrong, [])

    def test_two_that_merge_each_other(self):
        one, other = Column(["a", "b"]), Column(["b", "c"])
        threads = [threading.Thread(target=lambda: [one.merge(other[:2]) or one == other for _ in range(500)], daemon=True),
                   threading.Thread(target=lambda: [other.merge(one[:2]) or other == one for _ in range(500)], daemon=True)]
        for thread in threads:
            thread.start()
        for thread in threads:
            thread.join(HANGS)
        self.assertEqual((len(one), len(other)), (1002, 1002))
        self.assertEqual((list(one), list(other)), (["a", "b"] + ["b", "c"] * 500, ["b", "c"] + ["a", "b"] * 500))

    def test_a_finalizer_adds_rows_too(self):
        column, other, added = Column(), Column(["other", None]), []

        def add():
            added.append(f"finalizer {len(added)}")
            column.append(added[-1])

        own = []
        with collecting(add):
            for number in range(400):
                view = column.codes
                column.extend([f"row {number}", None])
                column.merge(other)
                column.append("last")
                own += [f"row {number}", None, "other", None, "last"]
                self.assertLess(len(view), len(column))
        rows = list(column)
        self.assertGreater(len(added), 200)
        self.assertEqual([row for row in rows if row and row.startswith("finalizer")], added)
        self.assertEqual([row for row in rows if not (row and row.startswith("finalizer"))], own)

    def test_a_child_finds_the_column_whole(self):
        column, ended = Column(), threading.Event()

        def fill():
            while not ended.is_set() and len(column) < 10**6:
                column.extend(["a", None, f"text {len(column)}"])

        filler = threading.Thread(target=fill, daemon=True)
        filler.start()
        bad = 0
        for _ in range(20):
            child = os.fork()
            if not child:
                status = 1
                try:
                    signal.alarm(HANGS)
                    rows = list(column)
                    column.append("new")
                    status = int(len(rows) % 3 or column[-1] != "new" or rows[:2] != ["a", None][: len(rows)])
                finally:
                    os._exit(status)
            bad += os.waitpid(child, 0)[1] != 0
        ended.set()
        filler.join(HANGS)
        self.assertEqual(bad, 0)


def load_tests(loader, tests, pattern):
    tests.addTests(doctest.DocTestSuite(_column))
    return tests


if __name__ == "__main__":
    unittest.main()
