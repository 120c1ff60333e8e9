"""What a type checker must find: `mypy --strict` reads it, and nothing runs it. An error that it does not find is one, too."""

from array import array
from collections.abc import Iterator
from typing import Literal, assert_type

from string_interner import Backend, Column, Hasher, Interner, Mask


class Named(Interner):
    name: str = ""


backend: Backend = "buffer"
hasher: Hasher = (1, 2)
names = Interner(["a"], backend=backend, capacity=3, hasher=hasher)
assert_type(names.backend, Backend)
assert_type(names.hasher, Literal["seeded", "siphash", "fixed"])
assert_type(names.intern("a"), int)
assert_type(names.get("a"), int | None)
assert_type(names.get("a", -1), int)
assert_type(names.get("a", default="none"), int | str)
assert_type(names.get_all(["a"], missing=2**40), "array[int]")
assert_type(names.intern_lines(b"a\nb"), "array[int]")
assert_type(names.resolve(0), str | None)
assert_type(names[0], str)
assert_type(names.resolve_all(names.intern_all(["a"], typecode="I")), list[str])
assert_type(names.intern_all(names), "array[int]")
assert_type(names.intern_all(["a", None], missing=-1), "array[int]")
assert_type(names.get_all(["a", None]), "array[int]")
assert_type(names.resolve_all([0, -1], missing=-1), list[str | None])
assert_type(names.intern_column(bytearray(b"ab"), ends=array("I", [1, 2])), "array[int]")
assert_type(names.intern_column(b"ab", offsets=array("I", [0, 1, 2]), typecode="Q"), "array[int]")
assert_type(names.entries(), Iterator[tuple[int, str]])
assert_type(Named.from_json("[]", hasher="fixed"), Named)
assert_type(Named().copy(), Named)
with Named() as named:
    assert_type(named, Named)
assert_type(list(names), list[str])


class Colors(Column):
    name: str = ""


colors = Column(["red", None], hasher=hasher)
assert_type(Colors.from_values(["red"], hasher="fixed"), Colors)
assert_type(Colors.encode(colors), Colors)
assert_type(Colors.from_parts(names, array("b", [0, -1])), Colors)
assert_type(colors[0], str | None)
assert_type(colors[1:], Column)
assert_type(colors[[0, -1]], Column)
assert_type(colors[[True, False]], Column)
assert_type(colors[array("b", [0, -1])], Column)
assert_type(list(colors), list[str | None])
assert_type(Colors.from_file("lines", hasher="fixed"), Colors)
assert_type(Colors.from_file("lines", field=2, separator=b",", progress=lambda count, rows: None), Colors)
joined, ends, rows = colors.to_buffers()
assert_type(Colors.from_buffers(joined, ends=ends, codes=rows), Colors)
assert_type(Colors.from_arrow(colors, hasher="fixed"), Colors)
assert_type(Colors.from_buffers(b"redgreen", offsets=[0, 3, 8], codes=[0, 1]), Colors)
assert_type(colors.take([0, -1]), Column)
assert_type(colors.value_counts(), dict[str, int])
assert_type(colors.value_counts(dropna=True), dict[str, int])
assert_type(colors.value_counts(dropna=False), dict[str | None, int])
assert_type(colors.value_counts(most=10), dict[str, int])
assert_type(colors.value_counts(dropna=False, most=10), dict[str | None, int])
assert_type(colors.frequencies(dropna=False, most=10), "tuple[Column, array[int]]")
assert_type(colors.unique(), list[str | None])
assert_type(colors.isin(["red", None, 1]), Mask)
assert_type(~colors.isna() & colors.eq("red") | colors.eq(colors), Mask)
assert_type(colors.isna()[0], bool)
assert_type(colors.isna()[1:], Mask)
assert_type(colors[~colors.isna()], Column)
assert_type(colors.isna().sum(), int)
assert_type(colors.compact(), Column)
assert_type(colors.map_texts(str.lower), Column)
assert_type(colors.map_texts({"red": "blue"}.get), Column)
assert_type(colors.sort_dictionary(), Column)
assert_type(colors.sort_dictionary(key=len), Column)
assert_type(colors.remap(["red"], unknown="red"), Column)
assert_type(colors.remap(colors), Column)
assert_type(colors.fillna("none").dropna(), Column)
assert_type(colors.nunique(dropna=False), int)
assert_type(colors.counts([0.5, 2]), "array[float]")
assert_type(colors + Colors(), Column)
colors.shrink()
assert_type(colors.dictionary, list[str])
assert_type(colors.codes.tolist(), list[int])
assert_type(colors.counts(), "array[int]")
assert_type(colors.distinct, int)
assert_type(colors.code("red"), int | None)
assert_type((None in colors, colors.count(None), colors.index("red", 0, None)), tuple[bool, int, int])
colors.append(None)
colors.extend(names)
colors.merge(Colors())

names.intern(b"a")  # type: ignore[arg-type]
names.intern_all([1])  # type: ignore[list-item]
names.intern_all(["a", None])  # type: ignore[list-item]
names.intern_all(["a"], typecode="d")  # type: ignore[call-overload]
names.intern_column("a", ends=[1])  # type: ignore[call-overload]
names.intern_column(b"a")  # type: ignore[call-overload]
names.intern_column(b"a", ends=[1], offsets=[0, 1])  # type: ignore[call-overload]
Column.from_buffers(b"a", ends=[1])  # type: ignore[call-overload]
Column.from_buffers(b"a", [1], [0])  # type: ignore[call-overload]
names.intern_column(b"a", [1])  # type: ignore[call-overload]
Column.from_arrow(["a"])  # type: ignore[arg-type]
names.resolve(1.5)  # type: ignore[arg-type]
names.get_all([1])  # type: ignore[list-item]
names.intern_lines("a")  # type: ignore[arg-type]
Column.from_file(1.5)  # type: ignore[arg-type]
names["a"]  # type: ignore[index]
Interner(backend="tree")  # type: ignore[arg-type]
Interner(hasher="sip")  # type: ignore[arg-type]
Interner.from_json(b"[]")  # type: ignore[arg-type]
Column([1])  # type: ignore[list-item]
colors.append(b"red")  # type: ignore[arg-type]
colors.merge(["red"])  # type: ignore[arg-type]
colors.eq(["red"])  # type: ignore[arg-type]
colors.map_texts(len)  # type: ignore[arg-type]
colors.sort_dictionary(key=lambda text: None)  # type: ignore[arg-type, return-value]
colors.fillna(None)  # type: ignore[arg-type]
colors.remap([None])  # type: ignore[list-item]
colors + ["red"]  # type: ignore[operator]
colors["red"]  # type: ignore[call-overload]
colors[["red"]]  # type: ignore[type-var]
colors[{0, 1}]  # type: ignore[call-overload]
colors[0, 1]  # type: ignore[call-overload]
colors.code(None)  # type: ignore[arg-type]
Column.from_parts(["red", None], [0])  # type: ignore[list-item]
Column.from_parts(["red"], [0.5])  # type: ignore[list-item]
