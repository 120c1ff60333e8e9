"""The shared interner beside other ways in which threads share one, in one program (bench/threads)."""
import subprocess
from collections.abc import Iterator

from results import THREADS, Results, Row
from rust_crate import OUT

CRATES = ('ahash = "0.7"', 'dashmap = { version = "5.4", features = ["raw-api"] }', 'hashbrown = "0.12"', 'libc = "0.2"',
          'string_cache = "0.8"')
TEXTS = "texts of 9 bytes"
CALLS = ("known", "new", "resolve")


def time_rounds(is_quick: bool) -> Iterator[str]:
    """Lines of the times and bytes of each contestant. The program compares them, so nothing else of this run goes on beside it."""
    for count, rounds in ((10_000, 101), (1_000_000, 31))[: 1 if is_quick else 2]:
        words = [str(OUT / "threads/target/release/threads"), str(count), str(rounds)]
        for line in subprocess.run(words, text=True, stdout=subprocess.PIPE, check=True).stdout.splitlines():
            name, measure, value = line.split("\t")
            yield "\t".join((*THREADS, name, TEXTS, str(count), "", measure, value))


def table_rows(results: Results) -> Iterator[Row]:
    """For each contestant and count the nanoseconds of processor time of each call by one thread, and how many times its work four
    threads do in as much each; and the bytes of a text."""
    for (kind, _, count), row in results.values.items():
        if kind[:-1] == THREADS:
            used = [(row.get(f"{call} 1 used"), row.get(f"{call} 4 used")) for call in CALLS]
            shown = [it for one, four in used for it in (one, 4 * one / four if one and four else None)]
            yield f"{kind[-1]} | {count:,}", [*shown, row.get("bytes")]
