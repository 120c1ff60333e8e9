"""columns_on_dask.py [--scheduler ADDRESS] FILE..: counts the lines of files on many machines, and prints the most frequent.

Workers of dask encode the lines of a file each. Each distinct line belongs to a shard, by its checksum, and whoever works on a
shard finds out which file has the line first. Then that file gives it a code. So no worker has all distinct lines, and yet a code
means the same text everywhere: the codes are those of one process that encodes all files in order.

Each machine can read the files, and imports string_interner and numpy. Without a scheduler there are two workers on this machine.
"""

from __future__ import annotations

import argparse
from collections.abc import Callable, Iterable
from dataclasses import dataclass
from functools import partial
from heapq import nsmallest
from itertools import compress
from operator import getitem
from sys import getsizeof
from typing import Any, TypeVar
from zlib import crc32

import numpy

from string_interner import Column

Part = TypeVar("Part")
# How often a task that raised is tried again: a worker that dask ends may take one more, which cannot run there.
RETRIES = 3


class Sized:
    """Tells dask about how many bytes it takes. By that a worker near its memory limit decides what to move to its disk."""

    def __sizeof__(self) -> int:
        values = [it for value in vars(self).values() for it in (value if isinstance(value, list) else [value])]
        return object.__sizeof__(self) + sum(map(getsizeof, values))


@dataclass(frozen=True)
class Split(Sized):
    """The texts of a dictionary by shard."""

    shard_of: Any
    """The shard of each text, in the order of the dictionary."""
    texts: list[Column]
    """The texts of each shard, in the same order."""


@dataclass(frozen=True)
class Shard(Sized):
    """The texts that all parts have of a shard."""

    codes: Any
    """A code of each text, one part after another. Equal texts have equal codes, in order of first appearance."""
    bounds: list[int]
    """Where the texts of each part begin, and where those of the last end."""
    known: list[int]
    """How many codes there are before each part."""


@dataclass(frozen=True)
class Encoded(Sized):
    """A part of a column whose dictionary is on many workers."""

    codes: Any
    """The code of each row, or -1 if the row is None."""
    start: int
    """The code of the first of `texts`. Those of the others follow."""
    texts: Column
    """The texts that no earlier part has, in order of first appearance."""


def encode_lines(path: str) -> Column:
    """The lines of a file, as a column."""
    return Column.from_file(path)


def split_by_shard(column: Column, shards: int) -> Split:
    """The texts of the column's dictionary by shard."""
    texts = column.dictionary
    shard_of = numpy.fromiter((crc32(text.encode()) % shards for text in texts), numpy.uint32, len(texts))
    return Split(shard_of, [Column(compress(texts, shard_of == shard)) for shard in range(shards)])


def texts_of_shard(split: Split, shard: int) -> Column:
    return split.texts[shard]


def gather_shard(parts: list[Column]) -> Shard:
    """What the parts have of a shard."""
    column = Column()
    bounds, known = [0], []
    for texts in parts:
        known.append(column.distinct)
        column.merge(texts)
        bounds.append(len(column))
    return Shard(numpy.array(column.codes), bounds, known)


def find_new(shard: Shard, part: int) -> Any:
    """Whether each text that a part has of a shard is in no earlier part."""
    start, end = shard.bounds[part : part + 2]
    return shard.codes[start:end] >= shard.known[part]


def join_shards(split: Split, values: list[Any]) -> Any:
    """The values that shards have for the texts of a dictionary, in the order of the dictionary."""
    joined = numpy.empty(len(split.shard_of), values[0].dtype)
    for shard, value in enumerate(values):
        joined[split.shard_of == shard] = value
    return joined


def add_up(counts: list[int]) -> list[int]:
    """The code of the first new text of each part, from the number of new texts of each."""
    return [0, *numpy.cumsum(counts).tolist()]


def number_new(split: Split, is_new: Any, starts: list[int], part: int) -> list[Any]:
    """The codes of the new texts of a part, by shard."""
    codes = starts[part] + numpy.cumsum(is_new) - 1
    return [codes[is_new & (split.shard_of == shard)] for shard in range(len(split.texts))]


def number_shard(shard: Shard, new: list[Any]) -> list[Any]:
    """The codes of all texts that each part has of a shard, from those of the new texts of each part."""
    codes = numpy.concatenate(new)[shard.codes]
    return [codes[start:end] for start, end in zip(shard.bounds, shard.bounds[1:])]


def renumber(column: Column, split: Split, is_new: Any, starts: list[int], part: int, values: list[Any]) -> Encoded:
    """A part with the codes that mean the same in all parts."""
    # The last is the one at -1.
    codes = numpy.append(join_shards(split, values), -1)
    return Encoded(codes[numpy.asarray(column.codes)], starts[part], Column(compress(column.dictionary, is_new)))


def encode_on(client: Any, encode: Callable[[Part], Column], parts: Iterable[Part], shards: int | None = None) -> list[Any]:
    """Has workers encode parts of a column, and returns a future of an `Encoded` for each.

    The texts of all, one part after another, are the dictionary in order of first appearance, as if one process had encoded all
    parts in order. There are as many shards as workers, if you do not say how many. If a worker fails, dask has another one do
    again what is lost, and an error comes after three more attempts. Each call reads the parts again, because files may have changed.
    """
    run = partial(client.submit, retries=RETRIES)
    columns = client.map(encode, list(parts), pure=False, retries=RETRIES)
    count = shards or max(1, len(client.nthreads()))
    every, each = range(len(columns)), range(count)
    split = client.map(split_by_shard, columns, shards=count, retries=RETRIES)
    gathered = [run(gather_shard, [run(texts_of_shard, split[part], shard) for part in every]) for shard in each]
    is_new = [run(join_shards, split[part], [run(find_new, gathered[shard], part) for shard in each]) for part in every]
    starts = run(add_up, client.map(numpy.count_nonzero, is_new, retries=RETRIES))
    new = [run(number_new, split[part], is_new[part], starts, part) for part in every]
    codes = [run(number_shard, gathered[shard], [run(getitem, new[part], shard) for part in every]) for shard in each]
    return [
        run(renumber, columns[part], split[part], is_new[part], starts, part, [run(getitem, codes[shard], part) for shard in each])
        for part in every
    ]


def count_rows(encoded: Encoded) -> Any:
    """How many rows of a part have each code, from 0 to the greatest."""
    return numpy.bincount(encoded.codes[encoded.codes >= 0])


def sum_counts(counts: list[Any]) -> Any:
    """How many rows of all parts have each code."""
    total = numpy.zeros(max(map(len, counts)), numpy.int64)
    for count in counts:
        total[: len(count)] += count
    return total


def find_most_frequent(encoded: Encoded, total: Any) -> list[tuple[int, str]]:
    """The ten of a part's new texts that occur most often in all parts, each behind its count below zero."""
    return nsmallest(10, zip((-total[encoded.start :][: len(encoded.texts)]).tolist(), encoded.texts.dictionary))


def print_most_frequent(parts: list[Any], client: Any) -> None:
    """Prints the ten lines that occur most often, with their counts."""
    total = client.submit(sum_counts, client.map(count_rows, parts))
    found = client.gather([client.submit(find_most_frequent, part, total) for part in parts])
    for count, text in nsmallest(10, sum(found, [])):
        print(-count, text)


def main() -> None:
    from dask.distributed import Client

    parser = argparse.ArgumentParser(description=__doc__, formatter_class=argparse.RawDescriptionHelpFormatter)
    parser.add_argument("--scheduler", metavar="ADDRESS")
    parser.add_argument("files", metavar="FILE", nargs="+")
    given = parser.parse_args()
    here = {"n_workers": 2, "threads_per_worker": 1, "dashboard_address": None}
    with Client(given.scheduler) if given.scheduler else Client(**here) as client:
        print_most_frequent(encode_on(client, encode_lines, given.files), client)


if __name__ == "__main__":
    main()
