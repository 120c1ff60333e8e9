"""Tests that calls, also those that fail, leave as many references as there were. Only a debug build of CPython counts them all, those
of a module in C if it was built by it. clients/check does that."""

import copy
import gc
import io
import pickle
import sys
import tempfile
import unittest
from array import array

from string_interner import Column, Interner

# Fewer than one each round. The interpreter itself makes a few, such as those of its caches.
MOST_NEW, ROUNDS = 20, 50


class Wrong:
    def __index__(self):
        raise ZeroDivisionError


def failing(of):
    """Yields texts, and then fails."""
    yield from of
    raise ZeroDivisionError


def calls_of_interners():
    texts = [f"text {number}" for number in range(20)] + ["ß", "語" * 30]
    for backend in ("string", "bucket", "buffer"):
        interner = Interner(texts, backend=backend)
        numbers = interner.intern_all(texts)
        yield from (
            lambda: Interner(texts, backend=backend, capacity=9, hasher=(1, 2)), lambda: Interner(texts, backend="none"),
            lambda: Interner([1]), lambda: Interner(failing(texts)), lambda: Interner(hasher=(1, Wrong())), lambda: Interner(capacity=Wrong()),
            lambda: interner.intern("ß"), lambda: interner.intern("\ud800"), lambda: interner.intern(1), lambda: Interner().intern("ß"),
            lambda: interner.get("ß"), lambda: interner.get("no", []), lambda: interner.get("no", default=[]), lambda: interner.get(1),
            lambda: interner.get(), lambda: interner.get("\ud800"), lambda: "ß" in interner, lambda: 1 in interner, lambda: interner[0],
            lambda: interner[10**30], lambda: interner[Wrong()], lambda: interner.resolve(0), lambda: interner.resolve(-1),
            lambda: interner.intern_all(texts, typecode="Q"), lambda: interner.intern_all(texts, typecode="x"),
            lambda: interner.intern_all(iter(texts)), lambda: interner.intern_all([*texts, "new", 1]), lambda: interner.intern_all(failing(texts)),
            lambda: interner.get_all([*texts, "no"]), lambda: interner.get_all(["no"], 2**40), lambda: interner.get_all([1]),
            lambda: interner.resolve_all(numbers), lambda: interner.resolve_all(list(numbers)), lambda: interner.resolve_all([0, 2**70]),
            lambda: interner.resolve_all([0, -1], missing=-1), lambda: interner.get_all(["a", None]), lambda: interner.intern_all(["a", None], missing=-1),
            lambda: interner.intern_all("a"), lambda: interner["a"], lambda: interner.resolve_all([0, -2**70], missing=-(2**63)),
            lambda: interner.resolve_all([0, Wrong()]), lambda: interner.resolve_all(array("Q", [2**64 - 1])),
            lambda: interner.intern_column(b"text 1", ends=[6]), lambda: interner.intern_column(bytearray(b"text 1"), ends=array("Q", [6])),
            lambda: interner.intern_column(b"\xff", ends=[1]), lambda: interner.intern_column(b"a", ends=[2]), lambda: interner.intern_column("a", ends=[1]),
            lambda: interner.intern_column(b"text 1", offsets=[0, 6]), lambda: interner.intern_column(b"text 1", offsets=array("Q", [0, 6])),
            lambda: interner.intern_column(b"text 1", offsets=[10**30, 6]), lambda: interner.intern_column(b"text 1", offsets=[3, 10**30]),
            lambda: interner.intern_column(b"text 1", ends=[1], offsets=[1]), lambda: interner.intern_column(bytearray(b"text 1"), offsets=[7]),
            lambda: interner.intern_lines(b"text 1\ntext 2"), lambda: interner.intern_lines(b"new\n\xff"), lambda: interner.intern_lines("a"),
            lambda: list(interner), lambda: list(interner.items()), lambda: list(reversed(interner)), lambda: next(iter(interner)),
            lambda: truncate_under_walk(texts, backend), lambda: interner.truncate(-1), lambda: interner.shrink(), lambda: repr(interner),
            lambda: Interner.from_json(interner.to_json()), lambda: Interner.from_json("["), lambda: Interner.from_json("{}"),
            lambda: Interner.from_json('["a", "a"]', exact=True), lambda: interner == interner.copy(), lambda: interner == 1,
            lambda: copy.deepcopy(interner), lambda: pickle.loads(pickle.dumps(interner, 2)), lambda: pickle.loads(pickle.dumps(interner, 5)),
            lambda: setattr(interner, "_parts", 1), lambda: twice(interner), lambda: interner.backend + interner.hasher, lambda: close(texts),
        )


def truncate_under_walk(texts, backend):
    interner = Interner(texts, backend=backend)
    walks = iter(interner), interner.items()
    interner.truncate(1)
    next(walks[0])
    return [list(walk) for walk in walks]


def twice(interner):
    parts = interner._parts
    other = Interner()
    other._parts = parts
    other._parts = parts


def close(texts):
    with Interner(texts) as interner:
        walk = iter(interner)
    interner.close()
    list(walk)
    interner.intern("a")


def calls_of_columns():
    values = ["a", None, "ß", "語" * 30] * 5
    column, other = Column(values), Column(["b", "a", None])
    file = tempfile.NamedTemporaryFile()
    file.write("a\nß\n".encode())
    file.flush()
    joined, ends, codes = column.to_buffers()
    yield from (
        lambda: Column(values), lambda: Column(iter(values)), lambda: Column([*values, 1]), lambda: Column(failing(values)), lambda: Column(1),
        lambda: Column(column), lambda: grow(values), lambda: column[:3].append("new"), lambda: column[:3].append(1), lambda: column[:3].merge(other),
        lambda: column.merge(1), lambda: column[1:9:2], lambda: column[::-1], lambda: column[0], lambda: column[99], lambda: column[Wrong()],
        lambda: column.take([0, -1]), lambda: column.take([99]), lambda: column.take([Wrong()]), lambda: column.take(array("Q", [2**64 - 1])),
        lambda: column[[0, -1]], lambda: column[[True] * 20], lambda: column[[True]], lambda: column[[True, 2]], lambda: column[[Wrong()]], lambda: column["a"],
        lambda: column.take([True] * 20), lambda: column.take(memoryview(b"\1" * 20).cast("?")), lambda: Column.from_parts(["a"], [False]),
        lambda: list(column), lambda: list(reversed(column)), lambda: column.dictionary, lambda: column.codes, lambda: memoryview(column.codes),
        lambda: column.counts(), lambda: column.value_counts(), lambda: column.code("a"), lambda: column.code("no"), lambda: column.code(1),
        lambda: "a" in column, lambda: 1 in column, lambda: column.count("a"), lambda: column.index("ß"), lambda: column.index("no"),
        lambda: column.index("a", Wrong()), lambda: column == other, lambda: column == column[:], lambda: column == 1, lambda: repr(column),
        lambda: Column.from_parts(["a", "b"], [0, -1]), lambda: Column.from_parts(["a", "a"], [0]), lambda: Column.from_parts(["a"], [5]),
        lambda: Column.from_parts(["a"], [2**70]), lambda: Column.from_parts(["a"], [Wrong()]), lambda: Column.from_parts([1], []),
        lambda: Column.from_buffers(joined, ends=ends, codes=codes), lambda: Column.from_buffers(b"\xff", ends=[1], codes=[]), lambda: Column.from_buffers(b"aa", ends=[1, 2], codes=[]),
        lambda: Column.from_buffers(bytearray(joined), offsets=[0, *ends], codes=codes), lambda: Column.from_buffers(joined, offsets=[99], codes=[]),
        lambda: Column.from_buffers(joined, offsets=[0, 10**30], codes=[]), lambda: Column.from_buffers(joined, offsets=[0]),
        lambda: Column.from_buffers(joined, ends=ends, codes=[99]), lambda: Column.from_file(file.name), lambda: Column.from_file("/no such file"),
        lambda: Column.from_file(-1), lambda: Column.from_file([]), lambda: column.__arrow_c_array__(), lambda: column.__arrow_c_schema__(),
        lambda: column.compact(), lambda: column[1:3].compact(), lambda: column.shrink(), lambda: pickle.dumps(column[1:3]), lambda: next(iter(column)),
        lambda: column.isin(["a", None, 1]), lambda: column.isin("a"), lambda: column.unique(), lambda: column.value_counts(dropna=False),
        lambda: Column.from_file(io.BytesIO(b"a\nb")), lambda: Column.from_file(io.StringIO("a")), lambda: Column.from_file(io.BytesIO(b"\x1f\x8b")),
        lambda: Column.from_file(file.name, encoding="utf-8-sig", newline=None), lambda: Column.from_file(file.name, newline="x"),
        lambda: column._lines(), lambda: Column(["a\nb"])._lines(), lambda: Column._checksum(b"abcd"), lambda: Column._checksum("a"), lambda: column._kept,
        lambda: Column._with_dictionary(column, [0, -1]), lambda: Column._with_dictionary(column, [99]),
        lambda: column.__arrow_c_stream__(), lambda: Column.from_arrow(column), lambda: Column.from_arrow(HasStream(column)), lambda: Column.from_arrow(1),
        lambda: Column.from_arrow(HasStream(1)), lambda: Column.from_arrow(column, hasher="none"), lambda: take_twice(column),
        lambda: column._write(bytearray(160)), lambda: column._write(array("q", range(20))), lambda: column._write(1),
        lambda: other.unique(),
        lambda: column[:1].unique(), lambda: column.value_counts(dropna=Wrong()),
        lambda: column.frequencies(), lambda: column.frequencies(dropna=False, most=2), lambda: column.frequencies(most=-1),
        lambda: column.frequencies(most="1"), lambda: column[:1].frequencies(), lambda: Column.__new__(Column)._frequencies(True, None),
        lambda: column.value_counts(most=1), lambda: column.value_counts(most=-1), lambda: column.value_counts(most="1"), lambda: column[memoryview(array("i", [0, 3]))],
        lambda: column[array("q", [0, 99])], lambda: column[array("Q", [2**64 - 1])],
        lambda: column[memoryview(b"\1\0" * 10).cast("?")],
        lambda: column[memoryview(b"\1").cast("?")], lambda: column.take(column.isna()), lambda: column._repr_html_(),
        lambda: Column.from_file(io.BytesIO(b"a,b"), field=1), lambda: Column.from_file(io.BytesIO(b"a"), field=1),
        lambda: Column.from_file(io.BytesIO(b"a;b"), field=0, separator=bytearray(b";")),
        lambda: Column.from_file(io.BytesIO(b"a"), separator=b","),
        lambda: Column.from_file(io.BytesIO(b"a;b"), field=0, separator="\ud800"),
        lambda: Column.from_file(io.BytesIO(b"a;b"), field=Wrong()),
        lambda: Column.from_file(io.BytesIO(b"a"), progress=len), lambda: Column.from_file(io.BytesIO(b"a"), progress=max),
        lambda: Column.from_file(file.name, field=0, progress=failing),
        lambda: Column.from_file(io.BytesIO(b"a"), field=-1, separator=bytearray(b",")),
        lambda: column.eq("a"), lambda: column.eq(column), lambda: column.eq(other), lambda: column.eq(1),
        lambda: column.eq("\ud800"),
        lambda: ~column.isna() & column.eq("a") | column.isin(["ß"]) ^ memoryview(bytes(20)).cast("?"), lambda: column.isna() & 1,
        lambda: column.isna() & other.isna(), lambda: column.isna()[1:], lambda: column.isna()[0], lambda: column.isna()[99],
        lambda: column.isna()["a"],
        lambda: bool(column.isna()), lambda: column.isna() == column.isna(), lambda: column.isna() == 1,
        lambda: repr(column.isna()),
        lambda: (column.isna().tolist(), column.isna().sum(), column.isna().tobytes(), memoryview(column.isna())),
        lambda: column[column.isna()],
        lambda: column.map_texts(str.upper), lambda: column.map_texts(lambda text: "a"), lambda: column.map_texts({"a": "b"}.get),
        lambda: column.map_texts(len), lambda: column.map_texts(1), lambda: column.map_texts(lambda text: "\ud800"),
        lambda: column.sort_dictionary(), lambda: column.sort_dictionary(key=len),
        lambda: column.sort_dictionary(lambda text: object()),
        lambda: column.sort_dictionary(key=1), lambda: column.remap(["ß", "new"]), lambda: column.remap(["a", "a"]),
        lambda: column.remap(other, "b"),
        lambda: column.remap(["a"], "b"), lambda: column.remap([1]), lambda: column.remap(["a"], 1),
        lambda: column.remap(Column.__new__(Column)),
        lambda: column.fillna("a"), lambda: column.fillna("new"), lambda: column.fillna(None), lambda: column.fillna("\ud800"),
        lambda: column.dropna(), lambda: other.dropna(), lambda: column.nunique(), lambda: column.nunique(dropna=False),
        lambda: column + other,
        lambda: column + 1, lambda: iadd(column, other), lambda: column.counts([0.5] * 20),
        lambda: column.counts(array("f", [0.5] * 20)),
        lambda: column.counts(range(20)), lambda: column.counts(array("i", range(20))), lambda: column.counts([1]),
        lambda: column.counts(["a"] * 20),
        lambda: column.__dask_tokenize__(), lambda: copy.copy(column), lambda: copy.deepcopy(column), lambda: column.__sizeof__(),
        lambda: pickle.loads(pickle.dumps(column, 2)), lambda: out_of_band(column), lambda: setattr(column, "_parts", 1),
        lambda: Column.__new__(Column).append("a"), lambda: Column.__init__(Column(["b"]), values, hasher="none"),
    )
    file.close()


def grow(values):
    column, views = Column(), []
    for value in values:
        column.append(value)
        views.append((column.codes, column[:2], iter(column)))
    column.extend(values)
    column.merge(column)
    return views


def iadd(column, other):
    column = column[:]
    column += other
    column += 1


class HasStream:
    def __init__(self, column):
        self.column = column

    def __arrow_c_stream__(self):
        return self.column.__arrow_c_stream__()


def take_twice(column):
    class HasArray:
        array = column.__arrow_c_array__()

        def __arrow_c_array__(self):
            return self.array

    Column.from_arrow(HasArray())
    Column.from_arrow(HasArray())


def out_of_band(column):
    buffers = []
    data = pickle.dumps(column, 5, buffer_callback=buffers.append)
    return pickle.loads(data, buffers=buffers)


class References(unittest.TestCase):
    def new_references(self, call):
        """How many references more there are after some rounds of a call."""
        def run():
            try:
                call()
            except (TypeError, ValueError, KeyError, IndexError, OSError, OverflowError, ZeroDivisionError, AttributeError):
                pass

        for _ in range(5):
            run()
        gc.collect()
        before = sys.gettotalrefcount()
        for _ in range(ROUNDS):
            run()
        gc.collect()
        return sys.gettotalrefcount() - before

    def test_a_leak_is_found(self):
        kept = []
        self.assertGreaterEqual(self.new_references(lambda: kept.append(object())), ROUNDS)

    def check(self, calls):
        for number, call in enumerate(calls):
            with self.subTest(line=call.__code__.co_firstlineno, number=number):
                self.assertLess(self.new_references(call), MOST_NEW)

    def test_interners(self):
        self.check(calls_of_interners())

    def test_columns(self):
        self.check(calls_of_columns())


if __name__ == "__main__":
    unittest.main()
