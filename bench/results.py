"""What bench/run measured, as the files of its parts in bench/out have it, and of what code."""
import collections
import hashlib
import pathlib
import re
import sys
from collections.abc import Iterable, Iterator

HERE = pathlib.Path(__file__).resolve().parent
TOP = HERE.parent
sys.path.append(str(TOP / "tools"))
from source import CLAUSE, GHOST_USE

DOCS = TOP / "docs"
PICTURES = {"out": HERE / "out/pictures", "docs": DOCS / "use/pictures"}
# The results that the documents show.
MEASURED = HERE / "measured"
# What is measured by itself, each with a file of results.
PARTS = ("times", "memory", "cycles", "rust", "columns", "threads")
# Those that the driver measures, which has the library's proved half.
OF_LIBRARY = ("times", "memory", "cycles")
TEXTS = ("identifiers", "words", "long")
# The sources of what each part measures, and of what it is measured by.
LIBRARY = ("crates/string_interner/src", "crates/handles/src", "crates/string_interner_c/src", "bench/ours", "bench/beside/src",
           "bench/driver.py")
SOURCES = {
    **dict.fromkeys(OF_LIBRARY, LIBRARY),
    "rust": ("clients/rust/src", "bench/rust"),
    "columns": ("crates/string_interner/src", "crates/string_column/src", "crates/dictcol/src", "bench/columns.py"),
    "threads": ("clients/rust/src", "bench/threads"),
}
COMMENT = re.compile(r"^ *(?://|# ).*\n|(?<=\S) +//.*$", re.M)

# What a kind is: the first four columns of the files of results.
Kind = tuple[str, ...]
# A row of a table: its label, and numbers.
Row = tuple[str, Iterable[float | None]]
# The first columns of the files of results, which a row has whatever was measured.
ROW = ("library", "backend", "index", "hasher", "input", "count", "bytes")
# The phases, and what each is called where it is shown.
PHASES = {
    "fill": "fill: get_or_intern of new texts",
    "known": "known: get_or_intern of known texts",
    "unknown": "unknown: get of unknown texts",
    "resolve": "resolve, in order",
    "shuffled": "resolve, shuffled",
    "iterate": "iterate",
    "clone": "clone",
    "copy": "copy: try_copy, or the original's clone",
    "together": "together: intern_all of known texts, or one by one",
}
# What a kind without a phase does in its place.
IN_PLACE_OF = {"copy": "clone", "together": "known"}
# The inputs of which times and cycles are shown; of words memory is.
INPUTS = {"identifiers": "identifiers of 10 bytes on average", "long": "texts of 200 bytes"}
NOUNS = {"identifiers": "identifiers", "words": "words", "long": "texts of 200 bytes"}
# What the programs read.
LINES = {
    "in order": "of a log, in order",
    "shuffled": "of a log, shuffled",
    "encoded": "what `encode` made of the first",
    "repeated": "600 distinct ones",
}

BACKENDS = ("string", "bucket", "buffer")
FNV = {backend: ("original", backend, "-", "FNV") for backend in BACKENDS}
ORIGINAL = {backend: ("original", backend, "-", "default") for backend in BACKENDS}
DEFAULT = {backend: ("ours", backend, "Index", "FixedState") for backend in BACKENDS}
FAST = {backend: ("ours", backend, "TaggedIndex", "FoldState") for backend in BACKENDS}
CHOICES = {
    "Tagged, Fold": FAST["string"],
    "Index, FixedState": DEFAULT["string"],
    "Tagged, FixedState": ("ours", "string", "TaggedIndex", "FixedState"),
    "Index, Fold": ("ours", "string", "Index", "FoldState"),
    "Tagged, Random": ("ours", "string", "TaggedIndex", "RandomState"),
    "Index, Random": ("ours", "string", "Index", "RandomState"),
    "Tagged, Seeded": ("ours", "string", "TaggedIndex", "SeededHasher"),
}
MAP = ("HashMap and Vec", "-", "-", "default")
SET = ("IndexSet", "-", "-", "default")
THROUGH_C = [("ours through C", "string", "-", of) for of in ("UTF-8", "bytes")]
# The kinds that are measured. The driver has more, which bench/cycles.py counts one by one.
KINDS = [*FNV.values(), *ORIGINAL.values(), MAP, SET, *THROUGH_C, *DEFAULT.values(), *FAST.values(), *list(CHOICES.values())[2:]]
# In one program: the Rust crate under its default hasher and without keys, and the original under its own default.
RUST = {kind: ("rust", kind, "-", "-") for kind in ("original", "default", "fixed")}
# How the kinds of what threads share begin.
THREADS = ("threads", "-", "-")


def summary(name: str, times: Iterable[float]) -> dict[str, float]:
    """The least and the median of some times."""
    in_order = sorted(times)
    return {name: in_order[0], f"{name} median": in_order[(len(in_order) - 1) // 2]}


def code_of(text: str) -> str:
    """A source without comments, imports of words, contracts, proofs and layout, of which no machine code is made."""
    return " ".join(CLAUSE.sub("", GHOST_USE.sub("", COMMENT.sub("", text))).split())


def sum_of(part: str, top: pathlib.Path = TOP) -> str:
    """A short sum of the code that a part measures."""
    total = hashlib.sha256()
    for source in SOURCES[part]:
        paths = sorted(path for path in (top / source).rglob("*") if path.is_file()) or [top / source]
        for path in paths:
            total.update(f"{path.relative_to(top)}\n{code_of(path.read_text(encoding='utf-8'))}\n".encode())
    return total.hexdigest()[:16]


def table_of(lines: Iterable[str]) -> Iterator[str]:
    """The lines of a file of results, first the names of its columns: a row for each kind, input and count, and a column for each
    measure. These lines have one value each, behind its row and measure."""
    rows: dict[tuple[str, ...], dict[str, str]] = {}
    for line in lines:
        *row, measure, value = line.split("\t")
        rows.setdefault(tuple(row), {})[measure] = value
    measures = list(dict.fromkeys(measure for values in rows.values() for measure in values))
    yield "\t".join([*ROW, *measures])
    yield from ("\t".join([*row, *(values.get(it, "") for it in measures)]) for row, values in rows.items())


class Results:
    """Values by kind, input, count and measure: nanoseconds, bytes or estimated cycles, a text each."""

    def __init__(self, folder: str | pathlib.Path = HERE / "out") -> None:
        self.heads: dict[str, dict[str, str]] = {}
        self.values: dict[tuple[Kind, str, int], dict[str, float]] = collections.defaultdict(dict)
        self.counts: dict[str, list[int]] = collections.defaultdict(list)
        self.bytes: dict[tuple[str, int], float] = {}
        for part in PARTS:
            self.add(part, pathlib.Path(folder, f"{part}.tsv").read_text(encoding="utf-8").splitlines())

    def add(self, part: str, lines: list[str]) -> None:
        """Adds the lines of a part's file: of its head, of the names of its columns, and of its values."""
        self.heads[part] = head = dict(line[2:].split(": ", 1) for line in lines if line.startswith("# "))
        names, *rows = (line.split("\t") for line in lines[len(head) :])
        for row in rows:
            *kind, name, count, size = row[: len(ROW)]
            values = zip(names[len(ROW) :], row[len(ROW) :])
            self.values[tuple(kind), name, int(count)].update((it, float(value)) for it, value in values if value)
            if int(count) not in self.counts[name]:
                self.counts[name] = sorted([*self.counts[name], int(count)])
            if size:
                self.bytes[name, int(count)] = float(size)

    def value(self, kind: Kind, name: str, count: int, measure: str) -> float | None:
        """The value, or none. A kind without `try_copy` has that of `clone`, and one without `intern_all` that of known texts."""
        row = self.values.get((kind, name, count), {})
        # The library has all phases, so one that it lacks was not measured.
        if measure in row or kind[0] == "ours":
            return row.get(measure)
        phase, *unit = measure.split(" ", 1)
        return row.get(" ".join([IN_PLACE_OF.get(phase, phase), *unit]))

    def ratio(self, kind: Kind, other: Kind, name: str, count: int, measure: str) -> float | None:
        ours, theirs = self.value(kind, name, count, measure), self.value(other, name, count, measure)
        return ours / theirs if ours is not None and theirs else None

    def counted(self, name: str) -> list[int]:
        """The counts of an input whose cycles were estimated."""
        return sorted({count for (_, of, count), row in self.values.items() if of == name and "fill cycles" in row})

    def line(self, *parts: str) -> str:
        """What is said below pictures and above tables of these parts."""
        said = collections.defaultdict(list)
        for part in parts:
            said["commit {commit}, {date}, {machine}; {load}".format(**self.heads[part])].append(part)
        lines = (f"{' and '.join(of).capitalize()}: {head}" for head, of in said.items())
        return f"{'. '.join(lines)}. The original is {self.heads[parts[0]]['original']}."
