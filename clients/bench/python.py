"""Measures calls of the Python package beside what a dict and pandas take, and compares each figure with the most that it may be.

    python.py [calls] [batches] [keys] [columns] [memory] [import] [file]    all if none is named; RUNS=9 takes the median of nine runs
    python.py --docs [PART ..]                              writes bench/measured, tables, and a picture (needs matplotlib); what was
                                                            measured before of parts that are not named stays
    python.py draw                                          draws the picture of what bench/measured has
    python.py instructions                                  of each call, by callgrind (needs gcc and valgrind)

Each figure but those of the import and of callgrind is a ratio of two medians of processor time, whose runs took turns; of keys and
columns, where what else the machine does to its caches counts most, of the least of twice as many runs. The last line counts the
figures that are too great.
"""

import gc
import os
import random
import re
import statistics
import subprocess
import sys
import tempfile
import time
from pathlib import Path

TOP = Path(__file__).resolve().parent.parent.parent
sys.path.insert(0, str(TOP / "clients/python"))
RUNS = int(os.environ.get("RUNS", 5))
PICTURES = TOP / "docs/use/pictures"
MEASURED = TOP / "bench/measured/python.tsv"
figures, too_great = {}, []


def tell(what, where, figure, most=None, unit=""):
    """Prints a figure of some texts or of some way, and notes if it is too great."""
    said = "" if most is None else f"at most {most}{unit}: {'met' if figure <= most else 'MISSED'}"
    figures[what, where] = figure
    if most is not None and figure > most:
        too_great.append((what, where))
    print(f"{what + ', ' * bool(where) + where:62} {figure:9.2f}{unit:3} {said}", flush=True)


def times_of(ways, runs):
    """Some times of each way, which is a function that prepares an argument and one that takes it. The ways take turns."""
    times = {name: [] for name in ways}
    for _ in range(runs):
        for name, (prepare, call) in ways.items():
            given = prepare()
            gc.collect()
            gc.disable()
            start = time.process_time()
            kept = call(given)
            times[name].append(time.process_time() - start)
            gc.enable()
            del given, kept
    return times


def medians(ways):
    return {name: statistics.median(times) for name, times in times_of(ways, RUNS).items()}


def leasts(ways):
    return {name: min(times) for name, times in times_of(ways, 2 * RUNS).items()}


def words(count, letter):
    source = random.Random(1)
    return [f"{letter}ord{source.randrange(10**9)}x{number}" for number in range(count)]


def rows_of(kind, count, letter):
    """Distinct rows; or few words that are frequent and many that are rare."""
    if kind == "distinct":
        return words(count, letter)
    source, some = random.Random(1), words(50_000, letter)
    return [some[min(int(source.paretovariate(0.5)) - 1, len(some) - 1)] for _ in range(count)]


def looping(call):
    def run(rows):
        for text in rows:
            call(text)

    return run


def setdefault(numbers):
    def run(rows):
        call = numbers.setdefault
        for text in rows:
            call(text, len(numbers))

    return run


def by_dict(rows):
    numbers = {}
    return [numbers.setdefault(text, len(numbers)) for text in rows]


def measure_calls():
    from string_interner import Interner

    for letter, name in (("w", "ASCII"), ("ŵ", "not ASCII")):
        rows = words(100_000, letter)
        random.Random(2).shuffle(rows)
        joined, numbers, interner = "\n".join(rows), {text: row for row, text in enumerate(rows)}, Interner(rows)
        unknown = [text + "?" for text in rows]
        for form, read in (("same objects", lambda: rows), ("fresh objects", lambda: joined.split("\n"))):
            found = medians({
                "intern": (read, looping(interner.intern)), "d.setdefault": (read, setdefault(numbers)),
                "get": (read, looping(interner.get)), "d.get": (read, looping(numbers.get)),
                "get, unknown": (lambda: unknown, looping(interner.get)), "d.get, unknown": (lambda: unknown, looping(numbers.get)),
                "new": (read, lambda rows: looping(Interner().intern)(rows)),
                "d.setdefault, new": (read, lambda rows: setdefault({})(rows)),
            })
            where = f"{name}, {form}"
            tell("intern of a known text / d.setdefault", where, found["intern"] / found["d.setdefault"], 1.5)
            tell("get of a known text / d.get", where, found["get"] / found["d.get"], 2.0)
            tell("get of an unknown text / d.get", where, found["get, unknown"] / found["d.get, unknown"], 2.0)
            tell("intern of a new text / d.setdefault", where, found["new"] / found["d.setdefault, new"])


def measure_batches():
    import numpy
    import pandas

    from string_interner import Column, Interner

    forms = ("same objects", "fresh objects")
    ways = [(kind, letter, name, forms) for kind in ("repeats", "distinct") for letter, name in (("w", "ASCII"), ("ŵ", "not ASCII"))]
    for kind, letter, name, forms in ways:
        rows = rows_of(kind, 1_000_000, letter)
        joined = "\n".join(rows)
        for form in forms:
            read = (lambda: rows) if form == "same objects" else (lambda: joined.split("\n"))
            found = medians({
                "factorize": (lambda: numpy.array(read(), dtype=object), pandas.factorize),
                "dict": (read, by_dict),
                "intern_all": (read, lambda rows: Interner().intern_all(rows)),
                "Column(rows)": (read, Column),
            })
            # Rows that repeat are the same objects then.
            most = 0.5 if kind == "repeats" and form == "same objects" else 0.8
            where = f"{kind}, {name}, {form}"
            for call in ("intern_all", "Column(rows)"):
                tell(f"{call} / pandas.factorize", where, found[call] / found["factorize"], most)
                tell(f"{call} / a dict", where, found[call] / found["dict"])
            tell("a dict / pandas.factorize", where, found["dict"] / found["factorize"])


def measure_keys():
    """Distinct texts that are not ASCII, as a counter makes them: new strings."""
    import numpy
    import pandas

    from string_interner import Column, Interner

    for count in (100_000, 300_000, 1_000_000):
        keys = [f"schlüssel_{number:07}" for number in range(count)]
        inputs = {"`schlüssel_0000001` ..": keys, "the same, shuffled": random.Random(1).sample(keys, count)}
        inputs["`東京都千代田区1` .."] = [f"東京都千代田区{number}" for number in range(count)]
        for name, rows in inputs.items():
            joined = "\n".join(rows)
            found = leasts({
                "factorize": (lambda: numpy.array(joined.split("\n"), dtype=object), pandas.factorize),
                "intern_all": (lambda: joined.split("\n"), lambda rows: Interner().intern_all(rows)),
                "Column(rows)": (lambda: joined.split("\n"), Column),
            })
            for call in ("intern_all", "Column(rows)"):
                tell(f"{call} / pandas.factorize, keys", f"{name}, {count:,}", found[call] / found["factorize"], 0.9)


def measure_columns():
    """What reads rows of a column that has a str of each text, as a Categorical has."""
    import numpy
    import pandas

    from string_interner import Column

    source, count = random.Random(1), 1_000_000
    permuted, chosen = numpy.random.default_rng(1).permutation(count), numpy.flatnonzero(numpy.random.default_rng(2).random(count) < 0.5)
    for distinct in (100, 50_000, count):
        some = words(distinct, "w")
        rows = some if distinct == count else source.choices(some, k=count)
        column, categorical, wide = Column(rows), pandas.Categorical(rows), numpy.array(rows)
        calls = {
            "unique / that of a Categorical": (column.unique, categorical.unique),
            "value_counts / that of a Categorical": (column.value_counts, categorical.value_counts),
            "value_counts(most=10) / that of a Categorical": (lambda: column.value_counts(most=10), categorical.value_counts),
            "frequencies / value_counts of a Categorical": (column.frequencies, categorical.value_counts),
            "to_numpy / numpy.asarray of a Categorical": (column.to_numpy, lambda: numpy.asarray(categorical)),
            "column[numbers], permuted / Categorical.take": (lambda: column[permuted], lambda: categorical.take(permuted)),
            "column[numbers], in order / Categorical.take": (lambda: column[chosen], lambda: categorical.take(chosen)),
            "Column(texts of numpy) / pandas.factorize": (lambda: Column(wide), lambda: pandas.factorize(wide)),
        }
        for what, (ours, theirs) in calls.items():
            ours()
            found = leasts({"ours": (lambda: None, lambda _: ours()), "theirs": (lambda: None, lambda _: theirs())})
            # A dict of all texts takes longer than codes of pandas in any case.
            most = None if ours == column.value_counts else 1.0
            tell(what, f"{distinct:,}", found["ours"] / found["theirs"], most)


def measure_memory():
    filled = """
import ctypes, gc, random, sys
sys.path.insert(0, {path!r})
from string_interner import Interner
def held():
    gc.collect(); ctypes.CDLL(None).malloc_trim(0)
    return int(open("/proc/self/statm").read().split()[1]) * 4096
def texts():
    source = random.Random(1)
    for number in range({count}):
        yield f"{letter}ord{{source.randrange(10**9)}}x{{number}}"
def fill(interner):
    part = []
    for text in texts():
        part.append(text)
        if len(part) == 4096: interner.intern_all(part); part.clear()
    interner.intern_all(part)
    return interner
before = held()
kept = {made}
print((held() - before) / {count})
"""
    for letter, name in (("w", "ASCII"), ("ŵ", "not ASCII")):
        def bytes_of(made):
            lines = filled.format(path=str(TOP / "clients/python"), count=1_000_000, letter=letter, made=made)
            return float(subprocess.run([sys.executable, "-c", lines], capture_output=True, text=True, check=True).stdout)

        by_a_dict = bytes_of("{text: number for number, text in enumerate(texts())}")
        tell("bytes of a distinct text in a dict", name, by_a_dict)
        for backend in ("string", "bucket", "buffer"):
            tell("memory of a distinct text / a dict", f"{name}, {backend}", bytes_of(f"fill(Interner(backend={backend!r}))") / by_a_dict,
                 0.35 if backend == "string" else None)


def measure_import():
    lines = "import time; start = time.process_time(); import string_interner; print(time.process_time() - start)"
    words_of = [sys.executable, "-c", lines]
    paths = os.environ | {"PYTHONPATH": str(TOP / "clients/python")}
    times = [float(subprocess.run(words_of, env=paths, capture_output=True, text=True, check=True).stdout) for _ in range(4 * RUNS)]
    tell("import", "", 1000 * statistics.median(times), 5, " ms")


def measure_file():
    from string_interner import Column

    def by_dict_of(path):
        numbers, codes = {}, []
        with open(path, encoding="utf-8", newline="\n") as file:
            for line in file:
                codes.append(numbers.setdefault(line.removesuffix("\n"), len(numbers)))
        return codes

    with tempfile.TemporaryDirectory() as folder:
        for kind in ("repeats", "distinct"):
            for letter, name in (("w", "ASCII"), ("ŵ", "not ASCII")):
                path = f"{folder}/lines"
                Path(path).write_text("".join(f"{row}\n" for row in rows_of(kind, 1_000_000, letter)))
                assert by_dict_of(path) == Column.from_file(path).codes.tolist()
                found = medians({"dict": (lambda: path, by_dict_of), "file": (lambda: path, Column.from_file)})
                tell("Column.from_file / a dict loop", f"{kind}, {name}", found["file"] / found["dict"], 0.5)


COUNTER = """
#include <valgrind/callgrind.h>
void begin_count(void) { CALLGRIND_ZERO_STATS; }
void end_count(const char *name) { CALLGRIND_DUMP_STATS_AT(name); }
"""
COUNTED = r'''
import ctypes, random, sys
sys.path.insert(0, sys.argv[2])
from string_interner import Column, Interner
counter, source, N = ctypes.CDLL(sys.argv[1]), random.Random(1), 4000
rows = [f"word{source.randrange(10**9)}" for _ in range(1000)]
same = [rows[row * 7 % 1000] for row in range(N)]
numbers, d = [row * 7 % 1000 for row in range(N)], {text: row for row, text in enumerate(rows)}
def fresh(): return "\n".join(same).split("\n")
def new(): return "\n".join(f"{text}{row}" for row, text in enumerate(same)).split("\n")
def count(name, call, rows):
    call(rows[:300])
    counter.begin_count(); call(rows); counter.end_count(f"{name}|{N}".encode())
def looping(call):
    def run(rows):
        for text in rows: call(text)
    return run
def setdefault(d):
    def run(rows):
        call = d.setdefault
        for text in rows: call(text, len(d))
    return run
i, fixed, c = Interner(rows), Interner(rows, hasher="fixed"), Column(rows)
count("dict, d.setdefault(text, len(d))", setdefault(d), same)
count("dict, d.setdefault(text, len(d)), new", setdefault({}), new())
count("dict, d.get(text)", looping(d.get), same)
count("intern, known", looping(i.intern), same)
count("intern, known, hasher fixed", looping(fixed.intern), same)
count("intern, new", looping(Interner().intern), new())
count("get, known", looping(i.get), same)
count("get, unknown", looping(i.get), [text + "?" for text in same])
count("resolve", looping(i.resolve), numbers)
count("a row of intern_all, same objects", i.intern_all, same)
count("a row of intern_all, fresh objects", i.intern_all, fresh())
count("a row of intern_all, new", Interner().intern_all, new())
count("a row of get_all, fresh objects", i.get_all, fresh())
count("a row of resolve_all", i.resolve_all, numbers)
count("a row of Column.extend, same objects", c.extend, same)
count("a row of Column.extend, fresh objects", c.extend, fresh())
count("a row of list(column)", lambda rows: list(c[:len(rows)]), same)
'''


def measure_instructions():
    with tempfile.TemporaryDirectory() as folder:
        Path(f"{folder}/counter.c").write_text(COUNTER)
        subprocess.run(["gcc", "-O1", "-shared", "-fPIC", f"{folder}/counter.c", "-o", f"{folder}/counter.so"], check=True)
        words_of = ["valgrind", "--tool=callgrind", "-q", f"--callgrind-out-file={folder}/out", sys.executable, "-S", "-c", COUNTED,
                    f"{folder}/counter.so", str(TOP / "clients/python")]
        subprocess.run(words_of, check=True, env=os.environ | {"PYTHONHASHSEED": "1"})
        for path in sorted(Path(folder).glob("out.*"), key=lambda path: int(path.suffix[1:])):
            text = path.read_text()
            if trigger := re.search(r"^desc: Trigger: Client Request: (.*)\|(\d+)$", text, re.M):
                instructions = int(re.search(r"^(?:summary|totals): (\d+)", text, re.M)[1])
                print(f"{trigger[1]:62} {instructions / int(trigger[2]):9.0f} instructions", flush=True)


def draw_ratios(axes, title, ways, most):
    """A row for each input, with a mark for each way that was measured over it."""
    marks = ({"marker": "o", "color": "black"}, {"marker": "s", "color": "black", "markerfacecolor": "white"},
             {"marker": "^", "color": "0.5"}, {"marker": "x", "color": "0.5"})
    inputs = [where for what, where in figures if what == next(iter(ways))]
    for mark, (what, name) in zip(marks, ways.items()):
        axes.plot([figures[what, where] for where in inputs], range(len(inputs)), linestyle="", markersize=5, label=name, **mark)
    axes.axvline(1, color="black", linewidth=0.8)
    axes.axvline(most, color="0.5", linestyle="--", linewidth=0.8)
    axes.set_yticks(range(len(inputs)), inputs)
    axes.invert_yaxis()
    axes.set_xlim(left=0)
    axes.grid(axis="x", color="0.9", linewidth=0.5)
    axes.set_title(title, fontsize=8, loc="left", x=-0.6)
    axes.set_xlabel("time divided by what it is beside; lower is better")
    place = {"loc": "upper right", "bbox_to_anchor": (1.03, -0.19), "ncols": 2}
    axes.legend(fontsize=7, **place, frameon=False, columnspacing=1, handletextpad=0.1)


def draw(commit):
    """Draws the calls and the batches as bench/pictures.py draws: to be read 480 pixels wide, in black and white, on any ground."""
    sys.path.append(str(TOP / "bench"))
    from pictures import plot, write

    figure, (upper, lower) = plot.subplots(2, 1, figsize=(5, 6.2))
    figure.subplots_adjust(left=0.38, right=0.97, top=0.96, bottom=0.17, hspace=0.55)
    draw_ratios(upper, "A million rows at once, beside pandas.factorize", {
        "intern_all / pandas.factorize": "intern_all", "Column(rows) / pandas.factorize": "Column(rows)",
        "a dict / pandas.factorize": "a loop over a dict"}, 0.8)
    draw_ratios(lower, "Call by call, beside a dict's method", {
        "intern of a known text / d.setdefault": "intern, known", "intern of a new text / d.setdefault": "intern, new",
        "get of a known text / d.get": "get, known", "get of an unknown text / d.get": "get, unknown"}, 1.5)
    line = f"Commit {commit}, medians of {RUNS} runs that took turns. Dashed: the most that it is meant to take."
    figure.text(0.01, 0.01, line, fontsize=6, color="0.3")
    write(figure, PICTURES / "python.svg")


def record(keeps_others):
    """Writes the figures, with those that were measured before of other parts if they are kept, and tables and a picture of them."""
    words_of = ["git", "rev-parse", "--short=12", "HEAD"]
    commit = subprocess.run(words_of, cwd=TOP, capture_output=True, text=True, check=True).stdout.strip()
    if keeps_others:
        before, recorded = read_recorded()
        figures.update(recorded | figures)
        commit += f", other parts {before.split(',')[0]}"
    lines = [f"# commit: {commit}", *(f"{what}\t{where}\t{figure:.3f}" for (what, where), figure in figures.items())]
    MEASURED.write_text("\n".join(lines) + "\n")
    subprocess.run([sys.executable, TOP / "bench/tables.py", "--measured"], check=True)
    draw(commit)


def read_recorded():
    """The commit and the figures that were written before."""
    head, *lines = MEASURED.read_text().splitlines()
    rows = (line.split("\t") for line in lines)
    return head.removeprefix("# commit: "), {(what, where): float(figure) for what, where, figure in rows}


def draw_recorded():
    """Draws the figures that were written before."""
    commit, recorded = read_recorded()
    figures.update(recorded)
    draw(commit)


def main(*words):
    if words == ("draw",):
        return draw_recorded()
    is_recorded = words[:1] == ("--docs",)
    for part in (words[is_recorded:] or ("calls", "batches", "keys", "columns", "memory", "import", "file")):
        {"calls": measure_calls, "batches": measure_batches, "keys": measure_keys, "columns": measure_columns, "memory": measure_memory,
         "import": measure_import, "file": measure_file, "instructions": measure_instructions}[part]()
    print(f"{len(too_great)} figures are too great")
    if is_recorded:
        record(keeps_others=len(words) > 1)


if __name__ == "__main__":
    main(*sys.argv[1:])
