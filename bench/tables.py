#!/usr/bin/env python3
"""tables.py [--docs | --measured | --check]: makes the tables of the documents of what bench/run measured, in bench/out/tables.md.

With --docs it also puts each block between its two marker lines in the documents, and the results into bench/measured. With
--measured it puts blocks of what bench/measured has into the documents. With --check it makes nothing, and fails if these are results
of other code than today's, or the documents show others: comments, contracts and proofs are no code here. What
clients/bench/python.py measured is always taken from bench/measured."""
import re
import shutil
import sys
from collections.abc import Callable, Collection, Iterable, Iterator, Mapping, Sequence

from results import BACKENDS, DEFAULT, DOCS, FAST, FNV, HERE, INPUTS, LINES, MAP, MEASURED, NOUNS, ORIGINAL, PARTS, PHASES, SET
from results import Results, Row, sum_of
from machine import tell_count
from rust_crate import PHASES as RUST_PHASES, table_rows, truncate_rows
import threads

PAGES = ("README.md", "docs/use/PERFORMANCE.md", "docs/use/python.md", "docs/use/pandas.md", "clients/rust/README.md")
DOCUMENTS = tuple(DOCS.parent / it for it in PAGES)
CALLS = ("fill", "known", "unknown")
# What was measured in Python, each of some texts.
Figures = dict[str, dict[str, float]]
PICTURE = "![Time per call of four calls, by the count of texts](docs/use/pictures/interning.svg)"


def short(value: float | None) -> str:
    """A number in about two digits, or nothing."""
    if value is None:
        return ""
    return f"{value:,.0f}" if value >= 100 else f"{value:.1f}" if value >= 9.95 else f"{value:.2f}"


def grid(head: Sequence[str], rows: Iterable[Iterable[str]], labels: int = 1) -> str:
    """A table of texts, of which so many columns are labels."""
    lines = (" | ".join(row) for row in (head, *rows))
    first, *others = (f"| {line} |" for line in lines)
    return "\n".join([first, f"|{'---|' * labels}{'---:|' * (len(head) - labels)}", *others])


def table(said: str, head: Sequence[str], rows: Iterable[Row]) -> str:
    """A table and what is said above it. A row is a label, which may take several columns, and its numbers."""
    return f"{said}:\n\n{grid(head, ((label, *map(short, values)) for label, values in rows))}"


def cycles(measure: str) -> str:
    """The name of a phase's estimated cycles. What is no phase has none."""
    return f"{measure} cycles" if measure in PHASES else measure


def calls(results: Results) -> str:
    """Both interners over the original under the same kind of hasher: times by the count of identifiers, and estimated cycles by
    input and count."""
    pairs = {"fast": (FAST["string"], ORIGINAL["string"]), "default": (DEFAULT["string"], FNV["string"])}
    cases: list[tuple[str, Callable[[str], str], str, int]] = []
    cases += [("time", str, "identifiers", count) for count in results.counts["identifiers"]]
    cases += [("cycles", cycles, name, count) for name in INPUTS for count in results.counted(name)]
    columns = [(pair, call) for pair in pairs.values() for call in CALLS]
    rows = [
        (f"{what}, {count:,} {NOUNS[name]}", [results.ratio(*pair, name, count, of(call)) for pair, call in columns])
        for what, of, name, count in cases
    ]
    said = f"Time, or estimated cycles, divided by the original's, for {' and '.join(INPUTS.values())}; lower is better"
    return table(said, ["", *(f"*{kind}* {call}" for kind in pairs for call in CALLS)], rows)


def with_backends(results: Results) -> str:
    """The fast interner over the original with the same backend, at the least count: estimated cycles, and bytes."""
    measures, count = (*CALLS, "resolve", "iterate", "clone", "live"), min(results.counts["identifiers"])
    rows = [(it, [results.ratio(FAST[it], ORIGINAL[it], "identifiers", count, cycles(of)) for of in measures]) for it in BACKENDS]
    said = f"Estimated cycles, and bytes, divided by the original's with the same backend, {count:,} identifiers; lower is better"
    return table(said, ["backend", *measures], rows)


def peers(results: Results) -> str:
    """Both interners, and what a user would take instead: estimated cycles, and bytes at that count and the greatest."""
    kinds = {"`FastStringInterner`": FAST["string"], "`DefaultStringInterner`": DEFAULT["string"]}
    kinds |= {"the original": ORIGINAL["string"], "`IndexSet`": SET, "`HashMap` and `Vec`": MAP}
    phases, count = (*CALLS, "shuffled", "iterate"), max(results.counted("identifiers"), default=0)
    columns = {phase: (count, cycles(phase)) for phase in phases}
    columns |= {f"live, {count:,}": (count, "live") for count in (count, max(results.counts["identifiers"]))}
    rows = [(label, [results.value(kind, "identifiers", *column) for column in columns.values()]) for label, kind in kinds.items()]
    return table(f"Estimated cycles per call, {count:,} identifiers; bytes per text, by their count", ["", *columns], rows)


def measured(results: Results) -> str:
    """When, on which machine and next to what was measured."""
    dates, machines = ("; ".join(dict.fromkeys(results.heads[part][key] for part in PARTS)) for key in ("date", "machine"))
    head = results.heads["times"]
    return f"Measured {dates}: {machines}; for times, {head['load']}. The original is {head['original']}."


def rust(results: Results) -> str:
    """The Rust crate beside the original."""
    said = "Estimated cycles divided by those of the original with its own default hasher, identifiers; lower is better"
    rows = list(table_rows(results))
    return table(said, ["", "texts", *RUST_PHASES], rows) if rows else "Not measured."


def truncated(results: Results) -> str:
    """What removing texts from an index costs beside filling it anew."""
    said = "Estimated cycles of `truncate` divided by those of filling the index anew, identifiers; lower is better"
    rows = list(truncate_rows(results))
    return table(said, ["", "texts", "one goes", "a ninth", "a half"], rows) if rows else "Not measured."


def shared(results: Results) -> str:
    """What threads share."""
    head = [it for call in threads.CALLS for it in (f"{call}, ns", "by 4")]
    said = (
        "Nanoseconds of a call by one thread, how many times its work four threads do, both by processor time; bytes of a text; "
        f"{threads.TEXTS}"
    )
    return table(said, ["", "texts", *head, "bytes"], list(threads.table_rows(results)))


def columns(results: Results) -> str:
    measures = {"cycles": "run cycles", "ns": "run", "bytes": "memory"}
    rows: dict[str, dict[str, float]] = {}
    for (kind, lines, _), row in results.values.items():
        if lines in LINES:
            rows.setdefault(f"`{kind[0]}` | {LINES[lines]}".replace(" | uniq", r" \| uniq"), {}).update(row)
    # Cycles are of the lesser count, where there are any.
    least, most = (of(results.counts["shuffled"], default=0) for of in (min, max))
    said = (
        f"Per line: estimated cycles for {least:,} lines; least nanoseconds of all runs, and the most bytes that one process had, "
        f"for {most:,} lines"
    )
    return table(said, ["", "lines", *measures], [(label, map(row.get, measures.values())) for label, row in rows.items()])


def speed(results: Results, is_short: bool = False) -> str:
    """For the crate's page, and in short, of the most texts, for the README: what a user of the original gets."""
    shown = {"fill": "new text", "known": "known text", "unknown": "unknown text", "resolve": "resolve", "loop": "`for` loop"}
    shown["tokenizer"] = "tokenizer"
    said = "Estimated cycles divided by those of string-interner 0.19, by the default hasher and the fixed one; lower is better"
    rows = list(table_rows(results, shown))
    if is_short:
        # Of each hasher the last one, by the counts of texts.
        rows = [*{label.partition(" |")[0]: (label, values) for label, values in rows}.values()]
    return table(said, ["", "texts", *shown.values()], rows) if rows else "Not measured."


def measured_in_python() -> Figures:
    """What clients/bench/python.py measured: figures by what was measured, each of some texts."""
    figures: Figures = {}
    for line in (MEASURED / "python.tsv").read_text(encoding="utf-8").splitlines():
        if not line.startswith("# "):
            what, where, figure = line.split("\t")
            figures.setdefault(what, {})[where] = float(figure)
    return figures


def ranges(figures: Collection[float]) -> str:
    """The least and the most of some figures, or the one that there is."""
    least, most = (f"{of(figures):.2f}" for of in (min, max))
    return least if least == most else f"{least} .. {most}"


def in_python(figures: Figures, rows: Mapping[str, tuple[str, str]]) -> str:
    """A table of the Python package beside what a program has without it: a row for each call."""
    said = "Processor time, or memory, divided by that of the other, over several kinds of texts; lower is better:"
    lines = [f"| {ours} | {theirs} | {ranges(figures[what].values())} |" for what, (ours, theirs) in rows.items()]
    return "\n".join([f"{said}\n", "| from Python | divided by | |", "|---|---|---:|", *lines])


def batches_in_python(figures: Figures) -> str:
    """Batches of a million rows, by their kind."""
    columns = {
        "intern_all / pandas.factorize": "`intern_all` / `pandas.factorize`",
        "Column(rows) / pandas.factorize": "`Column(rows)` / `pandas.factorize`",
        "intern_all / a dict": "`intern_all` / a dict",
    }
    kinds = {
        "repeats, the same objects": "repeats, .*same", "repeats, fresh objects": "repeats, .*fresh",
        "distinct, the same objects": "distinct, .*same", "distinct, fresh, ASCII": "distinct, ASCII, fresh",
        "distinct, fresh, not ASCII": "distinct, not ASCII, fresh",
    }
    found = {name: [[it for where, it in figures[column].items() if re.match(pattern, where)] for column in columns]
             for name, pattern in kinds.items()}
    return grid(["a million rows", *columns.values()], [(name, *map(ranges, row)) for name, row in found.items() if all(row)])


def keys_in_python(figures: Figures) -> str:
    """Keys that are not ASCII, by how many there are."""
    columns = {"intern_all / pandas.factorize, keys": "`intern_all`", "Column(rows) / pandas.factorize, keys": "`Column(rows)`"}
    rows: dict[str, dict[tuple[str, str], float]] = {}
    for what in columns:
        for where, figure in figures.get(what, {}).items():
            # A number has commas, and a name may have one.
            name, count = re.findall(r"(.*), (\d[\d,]*)$", where)[0]
            rows.setdefault(name, {})[what, count] = figure
    counts = list(dict.fromkeys(count for row in rows.values() for _, count in row))
    head = [f"{name}, {count}" for count in counts for name in columns.values()]
    lines = [(name, *(f"{row[what, count]:.2f}" for count in counts for what in columns)) for name, row in rows.items()]
    said = "Processor time divided by that of `pandas.factorize`, the least of some runs that took turns; lower is better:"
    return f"{said}\n\n{grid(['distinct texts', *head], lines)}" if rows else "Not measured."


def columns_in_python(figures: Figures) -> str:
    """What reads a column of a million rows beside what pandas takes for a Categorical of them, by how many distinct texts there are."""
    if any(what not in figures for what in COLUMN_CALLS):
        return "Not measured."
    counts = list(figures[next(iter(COLUMN_CALLS))])
    lines = [(*names, *(f"{figures[what][count]:.2f}" for count in counts)) for what, names in COLUMN_CALLS.items()]
    said = "Processor time divided by that of pandas, a million rows, by their distinct texts, of which each has a str; lower is better:"
    return f"{said}\n\n{grid(['a column', 'a Categorical', *counts], lines, 2)}"


COLUMN_CALLS = {
    "unique / that of a Categorical": ("`unique`", "`unique`"),
    "frequencies / value_counts of a Categorical": ("`frequencies`", "`value_counts`"),
    "value_counts(most=10) / that of a Categorical": ("`value_counts(most=10)`", "`value_counts`"),
    "value_counts / that of a Categorical": ("`value_counts`, a dict", "`value_counts`"),
    "to_numpy / numpy.asarray of a Categorical": ("`to_numpy`", "`numpy.asarray`"),
    "column[numbers], in order / Categorical.take": ("`column[numbers]`, in order", "`take`"),
    "column[numbers], permuted / Categorical.take": ("`column[numbers]`, permuted", "`take`"),
    "Column(texts of numpy) / pandas.factorize": ("`Column` of dtype `U`", "`factorize` of the array"),
}
IN_SHORT = {
    "intern of a known text / d.setdefault": ("`intern` of a known text", "`d.setdefault(text, len(d))`"),
    "get of a known text / d.get": ("`get` of a known text", "`d.get(text)`"),
    "Column(rows) / pandas.factorize": ("`Column` of a million rows", "`pandas.factorize`"),
    "memory of a distinct text / a dict": ("memory of a distinct text", "a dict"),
}
IN_FULL = {
    "intern of a known text / d.setdefault": IN_SHORT["intern of a known text / d.setdefault"],
    "intern of a new text / d.setdefault": ("`intern` of a new text", "the same"),
    "get of a known text / d.get": IN_SHORT["get of a known text / d.get"],
    "get of an unknown text / d.get": ("`get` of an unknown text", "the same"),
    "Column.from_file / a dict loop": ("`Column.from_file` of a million lines", "a loop over the file that fills a dict"),
    "memory of a distinct text / a dict": IN_SHORT["memory of a distinct text / a dict"],
}


def blocks(results: Results) -> dict[str, str]:
    """The blocks of the documents, by name."""
    return {
        "measured": measured(results),
        "calls": calls(results),
        "backends": with_backends(results),
        "peers": peers(results),
        "rust": rust(results),
        "truncate": truncated(results),
        "threads": shared(results),
        "columns": columns(results),
        "picture": PICTURE,
        "speed": speed(results),
        "speed in short": speed(results, is_short=True),
        "python": in_python(measured_in_python(), IN_SHORT),
        "python in full": "\n\n".join([in_python(measured_in_python(), IN_FULL), batches_in_python(measured_in_python())]),
        "python keys": keys_in_python(measured_in_python()),
        "python columns": columns_in_python(measured_in_python()),
    }


def put(text: str, made: Mapping[str, str]) -> str:
    """The text, with what stands between the marker lines of each block replaced."""
    for name, block in made.items():
        begin, end = f"<!-- bench/run: {name} -->", f"<!-- end: {name} -->"
        text = re.sub(f"{begin}\n.*?{end}", lambda _: f"{begin}\n{block}\n{end}", text, flags=re.S)
    return text


def show(made: Mapping[str, str]) -> None:
    """Puts blocks into the documents."""
    for document in DOCUMENTS:
        document.write_text(put(document.read_text(encoding="utf-8"), made), encoding="utf-8")


def faults(results: Results) -> Iterator[str]:
    """What the documents show that was not measured of today's code, or not at all."""
    for part in PARTS:
        if results.heads[part].get("code") != sum_of(part):
            yield f"bench/measured/{part}.tsv: the code has changed since; bench/run --docs --only {part} measures it"
    made = blocks(results)
    for document in DOCUMENTS:
        text = document.read_text(encoding="utf-8")
        if put(text, made) != text:
            yield f"{document.relative_to(DOCS.parent)}: shows other results than bench/measured has"


def check() -> int:
    found = list(faults(Results(MEASURED)))
    print(*(f"{it}\n" for it in found), sep="", end="")
    return tell_count(len(PARTS) + len(DOCUMENTS) - len(found), len(found))


def main() -> int:
    if "--check" in sys.argv:
        return check()
    if "--measured" in sys.argv:
        show(blocks(Results(MEASURED)))
        return 0
    results = Results()
    made = blocks(results)
    (HERE / "out/tables.md").write_text("\n\n".join(made.values()) + "\n", encoding="utf-8")
    if "--docs" in sys.argv:
        show(made)
        for part in PARTS:
            shutil.copy(HERE / f"out/{part}.tsv", MEASURED)
    print(f"{made['speed']}\n\n{results.line(*PARTS)}")
    return 0


if __name__ == "__main__":
    sys.exit(main())
