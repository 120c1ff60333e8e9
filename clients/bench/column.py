"""Times columns of a million rows, in Python. Each figure is the least of some runs, divided by that of a loop that fills a dict.

It tries pandas, dask, and GNU parallel with `dictcol`, as far as they are there.
"""

import importlib.util
import json
import logging
import pickle
import random
import shutil
import subprocess
import sys
import tempfile
import time
from array import array
from itertools import accumulate
from pathlib import Path

TOP = Path(__file__).resolve().parent.parent.parent
sys.path[:0] = [str(TOP / "clients/python"), str(TOP / "clients/python/examples")]
from columns_on_dask import encode_lines, encode_on  # noqa: E402
from string_interner import Column, Interner  # noqa: E402

ROWS, WORDS, RUNS, PARTS = 1_000_000, 50_000, 7, 8
DICTCOL = TOP / "crates/dictcol/out/dictcol"


def by_dict(column):
    numbers, codes = {}, array("Q")
    for word in column:
        codes.append(numbers.setdefault(word, len(numbers)))
    return codes


def time_once(call, given):
    start = time.perf_counter()
    call(given)
    return time.perf_counter() - start


def compare(read, call, prepare=tuple):
    """The least time of some runs, each with what was prepared for it, divided by that of a dict.

    The two take turns, because the machine may have other work.
    """
    times = [(time_once(call, prepare()), time_once(by_dict, read())) for _ in range(RUNS)]
    taken, by_a_dict = map(min, zip(*times))
    return taken / by_a_dict


def merge_all(columns):
    whole = Column()
    for column in columns:
        whole.merge(column)
    return whole


def read_parts(paths):
    """Columns of what `dictcol encode` wrote."""
    for path in paths:
        with open(f"{path}.json") as file:
            part = json.load(file)
        yield Column.from_parts(part["dictionary"], part["lines"])


def in_one_process(read):
    """What is done with rows in memory: how each is called, what it does, and what is prepared for it."""
    rows = read()
    column, joined, ends = Column(rows), "".join(rows).encode(), array("Q", accumulate(map(len, rows)))
    yield "Interner().intern_all(rows)", lambda rows: Interner().intern_all(rows), read
    yield "Interner().intern_column(joined, ends=ends)", lambda _: Interner().intern_column(joined, ends=ends)
    yield "Column(rows)", Column, read
    yield "Column.merge", lambda _: Column(["first"]).merge(column)
    yield "Column.counts", lambda _: column.counts()
    yield "list(column)", lambda _: list(column)
    yield "a pickle, written and read", lambda _: pickle.loads(pickle.dumps(column))
    if importlib.util.find_spec("pandas"):
        import numpy
        import pandas

        def read_objects():
            return numpy.array(read(), dtype=object)

        there = column.to_pandas()
        yield "Column.to_pandas", lambda _: column.to_pandas()
        yield "Column.from_pandas of a Categorical", lambda _: Column.from_pandas(there)
        yield "Column.from_pandas of a Series", Column.from_pandas, lambda: pandas.Series(read_objects())
        yield "pandas.factorize", pandas.factorize, read_objects
        yield "pandas.Categorical", pandas.Categorical, read_objects


def over_files(paths):
    """The ways to make a column of the lines of files, by name."""
    yield "files: one process", lambda _: merge_all(map(encode_lines, paths))
    if DICTCOL.exists() and shutil.which("parallel"):
        words = ["parallel", f"{DICTCOL} encode {{}} >{{}}.json", ":::", *paths]
        yield "files: parallel and dictcol", lambda _: subprocess.run(words, check=True)
        yield "files: what dictcol wrote, read and merged", lambda _: merge_all(read_parts(paths))
        merge = [DICTCOL, "merge", *(f"{path}.json" for path in paths)]
        yield "files: what dictcol wrote, merged by it", lambda _: subprocess.run(merge, stdout=subprocess.DEVNULL, check=True)
    if importlib.util.find_spec("distributed"):
        from dask.distributed import Client, LocalCluster, wait

        options = {"threads_per_worker": 1, "dashboard_address": None, "silence_logs": logging.CRITICAL}
        for workers in (1, 2, 4):
            with LocalCluster(n_workers=workers, **options) as cluster, Client(cluster) as client:
                def encode(_):
                    columns = wait(encode_on(client, encode_lines, paths)).done
                    client.cancel(list(columns))

                yield f"files: dask, workers: {workers}", encode


def main():
    chooser = random.Random(1)
    words = [f"word{chooser.randrange(10**9)}" for _ in range(WORDS)]
    # Few words are frequent and many rare, as in a text.
    rows = [words[min(int(chooser.paretovariate(0.5)), WORDS) - 1] for _ in range(ROWS)]
    joined = "\n".join(rows)

    def read():
        """The rows as they come from a file: no text has its hash yet, and none is there twice."""
        return joined.split("\n")

    assert by_dict(rows).tolist() == Interner().intern_all(rows).tolist() == Column(rows).codes.tolist()
    print(f"{ROWS} rows of {len({*rows})} distinct texts")
    with tempfile.TemporaryDirectory() as folder:
        paths = [f"{folder}/{part}" for part in range(PARTS)]
        for part, path in enumerate(paths):
            lines = rows[part * ROWS // PARTS : (part + 1) * ROWS // PARTS]
            Path(path).write_text("".join(f"{line}\n" for line in lines))
        for ways in (in_one_process(read), over_files(paths)):
            for name, *way in ways:
                print(f"{name}: {compare(read, *way):.2f}", flush=True)


if __name__ == "__main__":
    main()
