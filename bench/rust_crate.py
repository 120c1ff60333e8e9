"""The Rust crate beside the original, in one program (bench/rust)."""
import concurrent.futures
import os
import shutil
from collections.abc import Iterable, Iterator

from cycles import count, cycles_in
from results import HERE, RUST, Kind, Results, Row

OUT = HERE / "out"
INDEXES = ("Index", "TaggedIndex")
# How many texts go, and how: as an interner does it, and by filling the index anew. What bench/rust/truncate.rs measures, in order.
TRUNCATED = ("one", "one refilled", "ninth", "ninth refilled", "half", "half refilled")
PHASES = ("fill", "known", "unknown", "resolve", "shuffled", "iterate", "loop", "extend", "clone", "again", "tokenizer")


def count_rounds(is_quick: bool) -> Iterator[str]:
    """Lines of the estimated cycles of each kind, a text each, and of truncating, a call each."""
    cases = [(kind, texts) for texts in (10_000, 100_000)[: 1 if is_quick else 2] for kind in RUST]
    truncated = [(index, texts) for texts in (10_000, 100_000, 1_000_000)[: 1 if is_quick else 3] for index in INDEXES]
    program = OUT / "rust/target/release/rust"

    def run(case: tuple[str, int]) -> list[dict[str, int]]:
        # A part ends before each reading of the clock, so those of the phases are the second, the fourth, and so on.
        return count([program, *map(str, case)], "--dump-before=clock_gettime*")[1::2]

    with concurrent.futures.ThreadPoolExecutor(os.cpu_count()) as pool:
        for (kind, texts), parts in zip(cases, pool.map(run, cases)) if shutil.which("valgrind") else ():
            for phase, totals in zip(PHASES, parts):
                yield "\t".join((*RUST[kind], "identifiers", str(texts), "", f"{phase} cycles", f"{cycles_in(totals) / texts:.1f}"))
        for (index, texts), parts in zip(truncated, pool.map(run, truncated)) if shutil.which("valgrind") else ():
            for what, totals in zip(TRUNCATED, parts):
                yield "\t".join((*truncating(index), "identifiers", str(texts), "", f"{what} cycles", f"{cycles_in(totals):.0f}"))


def truncating(index: str) -> Kind:
    """The kind of an interner over an index that truncates."""
    return ("rust", "truncate", index, "-")


def truncate_rows(results: Results) -> Iterator[Row]:
    """The estimated cycles of truncating over those of filling the index anew, a row for each index and count of texts."""
    for index in INDEXES:
        for texts in results.counts["identifiers"]:
            row = results.values.get((truncating(index), "identifiers", texts), {})
            if row:
                yield f"`{index}` | {texts:,}", [row[f"{what} cycles"] / row[f"{what} refilled cycles"] for what in TRUNCATED[::2]]


def table_rows(results: Results, phases: Iterable[str] = PHASES) -> Iterator[Row]:
    """The crate's estimated cycles over the original's, by default and without keys, a row for each count of texts."""
    for kind in ("default", "fixed"):
        for texts in results.counts["identifiers"]:
            pair = (RUST[kind], RUST["original"], "identifiers", texts)
            row = [results.ratio(*pair, f"{phase} cycles") for phase in phases]
            if any(row):
                yield f"`rust, {kind}` | {texts:,}", row
