"""Columns: lists of rows that store each distinct text once."""

from __future__ import annotations

from collections.abc import Sequence

from . import _native, _types
from ._pickled import Pickled

TYPE_CHECKING = False
if TYPE_CHECKING:
    from typing import overload
else:

    def overload(call):
        """Stands for that of `typing`, which a type checker alone needs."""
        return call


class Column(Pickled, _native.Column):
    """A list of rows, each a text or None, that stores each distinct text once.

    It has a dictionary, which is a list of distinct texts, and a code for each row: the index of its text in the dictionary, or
    -1 if the row is None. You can append rows, and not change them.

    >>> colors = Column(["red", "green", None, "red"])
    >>> colors.dictionary, colors.codes.tolist()
    (['red', 'green'], [0, 1, -1, 0])
    >>> colors.merge(Column(["blue", "green"]))
    >>> list(colors)
    ['red', 'green', None, 'red', 'blue', 'green']
    >>> colors.value_counts()
    {'red': 2, 'green': 2, 'blue': 1}

    It is a sequence of its rows, and equals another column with the same rows. `in`, `count` and `index` look a text up once, and
    then compare codes. As of an array of numpy, `column[2:9]`, `column[[0, 2]]` and `column[mask]` are columns of some rows: of
    those with these numbers, or of those for which a mask of booleans is true. A mask of another length, and a number without a row,
    raise IndexError.

    Threads and finalizers may call it as they may call an `Interner`. A call that raises changes nothing.

    The texts are in the library, and take little memory there. `dictionary`, `to_pandas`, `to_numpy` and iteration make a string
    of each that they read, and the column keeps these strings, until you call `shrink`. Iteration keeps none if the column has few
    rows, less than one for eight texts.

    Slices, copies and what `take` returns share the dictionary until one of them adds a text. A pickle of fewer rows than there were
    has only their texts, as `compact` makes it.

    Copies and pickles have the class and the attributes of a subclass. They do not call its `__init__`. They have the keys that
    copies and pickles of an `Interner` have. From protocol 5 on a pickle may hold its texts and codes out of band.
    """

    __slots__ = ()

    @classmethod
    def from_values(cls, values: _types.Iterable[str | None], *, hasher: _types.Hasher = "seeded") -> _types.Self:
        """Makes a column of the values, as `Column` does. Does not call the `__init__` of a subclass."""
        column = cls.__new__(cls)
        Column.__init__(column, values, hasher=hasher)
        return column

    @classmethod
    def encode(cls, values: _types.Iterable[str | None], *, hasher: _types.Hasher = "seeded") -> _types.Self:
        """Does what `from_values` does, under the name that dictionary encoding has elsewhere."""
        return cls.from_values(values, hasher=hasher)

    @classmethod
    def from_plain(cls, folder: _types.Path, *, hasher: _types.Hasher = "seeded") -> _types.Self:
        """Makes a column of the lines that `dictcol encode --plain` wrote into a folder, or `to_plain`.

        The dictionary is that of the folder, and has equal lines once. Raises ValueError if the files are damaged or do not belong
        together, and OSError: FileNotFoundError if there is no codes.npy, as for a moment while a run replaces the files,
        BlockingIOError if one replaced them meanwhile.
        """
        from os import fsdecode

        from . import _plain

        return _plain.read(cls, fsdecode(folder), hasher)

    def to_plain(self, folder: _types.Path) -> None:
        """Writes the rows as lines into a folder, as `dictcol encode --plain` does: `dictcol decode` reads it, and numpy the codes.

        The folder is made if it is not there. Files of these names are replaced, by ones with their mode, and their owner and group if
        the system allows it. Raises ValueError for a row that is None, and for a text of the dictionary with a newline,
        BlockingIOError if another run writes there, and OSError. Then the files that were there stay. Only if replacing them failed,
        there may be no codes.npy, so that no one reads those of two runs, or the new files.
        """
        from os import fsdecode

        from . import _plain

        _plain.write(self, fsdecode(folder))

    @classmethod
    def from_pandas(cls, values: _types.Any, *, hasher: _types.Hasher = "seeded") -> _types.Self:
        """Makes a column of a Series, Index, Categorical or other array of pandas. What pandas counts as missing becomes None.

        The categories of a Categorical become the dictionary, in their order. Whether it is ordered is lost: write
        `column.to_pandas().as_ordered()`. Raises TypeError for a category or a value that is no text, and for a DataFrame or a
        MultiIndex, which have several of these, and ImportError without pandas.
        """
        import numpy
        import pandas

        if isinstance(values, (pandas.DataFrame, pandas.MultiIndex)):
            return cls.from_values(values, hasher=hasher)  # It says what to choose.
        rows = getattr(values, "array", values)
        if isinstance(rows, pandas.Categorical):
            return cls.from_parts(rows.categories.tolist(), rows.codes, hasher=hasher)
        rows = numpy.asanyarray(rows, dtype=object)
        try:
            return cls.from_values(rows, hasher=hasher)
        except TypeError:
            # Only now, because most have no missing value but None.
            missing = pandas.isna(numpy.asarray(rows)) | getattr(rows, "mask", False)
            return cls.from_values(numpy.where(missing, None, rows), hasher=hasher)

    def to_pandas(self) -> _types.Any:
        """Returns a Categorical of pandas, whose categories are the dictionary. Raises ImportError without pandas.

        Below 127 categories pandas copies the codes to 1 byte each, and below 32,767 to 2 bytes each. From there on it reads the
        codes of this column in place. You cannot change such a Categorical, but a copy of it.
        """
        import numpy
        import pandas

        codes = numpy.asarray(self.codes)
        return pandas.Categorical.from_codes(codes, categories=pandas.Index(self.dictionary, dtype=object))

    def _with_few_texts(self) -> Column:
        # To read the whole dictionary for few rows takes longer than to leave it.
        return self.compact() if self._has_few_rows else self

    def to_numpy(self) -> _types.Any:
        """Returns the rows in an array of objects of numpy. Raises ImportError without numpy.

        Equal rows are one str. The column keeps these, unless it has few rows of a long one, so it takes longest the first time.
        """
        import numpy

        # As it is now, whatever others add.
        column = self._with_few_texts()[:]
        rows = numpy.empty(len(column), dtype=object)
        column._write(rows)
        return rows

    def __array__(self, dtype: _types.Any = None, copy: bool | None = None) -> _types.Any:
        if copy is False:
            raise ValueError("the rows of a column are copied")
        rows = self.to_numpy()
        return rows if dtype is None else rows.astype(dtype)

    @overload
    def value_counts(self, *, dropna: _types.Literal[True] = True, most: _types.SupportsIndex | None = None) -> dict[str, int]: ...
    @overload
    def value_counts(self, *, dropna: _types.Literal[False], most: _types.SupportsIndex | None = None) -> dict[str | None, int]: ...
    @overload
    def value_counts(
        self, *, dropna: bool, most: _types.SupportsIndex | None = None
    ) -> dict[str, int] | dict[str | None, int]: ...
    def value_counts(self, *, dropna: bool = True, most: _types.SupportsIndex | None = None) -> _types.Any:
        """Returns the number of rows with each text that a row has, the most frequent first.

        Counts rows that are None only if `dropna` is false. With `most` it returns at most so many, and raises ValueError for a number
        below 0. It makes a str and an entry of a dict for each text that it returns. So of many distinct texts ask for the first few,
        or call `frequencies` or `counts`, which make none.
        """
        return self._with_few_texts()._value_counts(dropna, most)

    def frequencies(self, *, dropna: bool = True, most: _types.SupportsIndex | None = None) -> tuple[Column, _types.Numbers]:
        """Returns the same as `value_counts` in a column of the values, and an array of how often each occurs.

        >>> texts, counts = Column(["red", "green", None, "red"]).frequencies()
        >>> list(texts), counts.tolist()
        (['red', 'green'], [2, 1])

        Makes no str: the column has the dictionary of this one, or of few rows of a long column only their texts, as `compact` has.
        Goes over the rows and over the dictionary. Raises ValueError for a number below 0.
        """
        return self._with_few_texts()._frequencies(dropna, most)

    def unique(self) -> list[str | None]:
        """Returns the distinct values of the rows, in order of first appearance. None is one of them if a row is None.

        Goes over the rows once, and makes a str of each text, which the column keeps: so it takes longest the first time.
        """
        return self._with_few_texts()._unique()

    def isin(self, values: _types.Iterable[object]) -> _native.Mask:
        """Returns a mask of the rows that are one of the values, of which one may be None.

        Looks each value up once, and goes over the rows. A value that is no text is in no row. Raises TypeError for one text in the
        place of values: write `column.eq(text)`.
        """
        return self._isin(values)

    def isna(self) -> _native.Mask:
        """Returns a mask of the rows that are None. Goes over the rows once."""
        return self.eq(None)

    def to_buffers(self) -> tuple[bytes, memoryview, memoryview]:
        """Returns the texts of the dictionary end to end in UTF-8, where each ends, and the codes. numpy reads each in place.

        >>> joined, ends, codes = Column(["red", None]).to_buffers()
        >>> list(Column.from_buffers(joined, ends=ends, codes=codes))
        ['red', None]
        """
        joined, ends, codes = self._buffers()
        return joined, memoryview(ends).cast("Q"), codes

    def _repr_html_(self) -> str:
        """The first and the last rows as a table, for notebooks: what `repr` shows."""
        from html import escape

        # As it is now, whatever others add.
        column, most = self[:], 5
        shows_all = len(column) <= 2 * most
        numbers = [range(len(column))] if shows_all else [range(most), range(len(column) - most, len(column))]

        def show(row: int) -> str:
            text = column[row]
            value = "<i>None</i>" if text is None else escape(text if len(text) <= 60 else f"{text[:60]}..")
            return f"<tr><th>{row}</th><td>{value}</td></tr>"

        parts = ["".join(map(show, each)) for each in numbers]
        caption = f"{escape(type(self).__name__)} of {len(column)} rows, {column.distinct} distinct texts"
        return f"<table><caption>{caption}</caption>{'<tr><th>..</th><td>..</td></tr>'.join(parts)}</table>"

    def __sizeof__(self) -> int:
        """About how many bytes it takes, with a guess of 64 for each distinct text, and the strings that iteration made of them.

        dask decides by it what to move.
        """
        # Of a part with few rows `pickle` has only their texts.
        texts, kept = (len(self), 0) if self._is_part and self._has_few_rows else (self.distinct, self._kept)
        return object.__sizeof__(self) + self.codes.nbytes + 64 * texts + kept

    def __dask_tokenize__(self) -> object:
        """The same for columns of one class with the same rows and attributes, whatever their dictionaries are."""
        from hashlib import sha256

        digest = sha256()
        for part in self.compact()._in_order()._buffers():
            digest.update(memoryview(part).nbytes.to_bytes(8, "little"))
            digest.update(part)
        return type(self), super(Pickled, self).__getstate__(), digest.hexdigest()  # type: ignore[misc]


Sequence.register(Column)
