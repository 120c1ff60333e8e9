"""Trials of a built program, which run over all processors.

A trial is a function with what it gets after the program. It yields for each thing that it sees a name, what was found, and
what is wanted. It runs in an empty folder of its own.
"""

import tempfile
import time
import traceback
from collections.abc import Iterable, Iterator, Mapping
from concurrent.futures import ProcessPoolExecutor
from contextlib import chdir, contextmanager
from functools import partial
from itertools import zip_longest
from typing import Any

from machine import PROCESSORS, tell_count

SHOWN_FAULTS = 20
# What a trial sees: a name, what was found, and what is wanted.
Seen = Iterator[tuple[str, Any, Any]]
# A function with what it gets after the program.
Trial = tuple[Any, ...]


@contextmanager
def own_folder() -> Iterator[None]:
    """Has this process, and what it starts, in an empty folder, which then goes."""
    with tempfile.TemporaryDirectory() as folder, chdir(folder):
        yield


def lines_of(value: object) -> list[object]:
    """The lines of a value that are compared: of how a run ended its status, and those of standard error and output."""
    match value:
        case status, bytes(output), bytes(error):
            return [f"status {status}", *(f"error {line!r}" for line in error.split(b"\n")), *output.split(b"\n")]
        case bytes():
            return [*value.split(b"\n")]
    return [value]


def difference(found: object, wanted: object) -> str:
    """The first line in which two values differ."""
    pairs = zip_longest(lines_of(found), lines_of(wanted), fillvalue="nothing")
    one, other = next(pair for pair in pairs if pair[0] != pair[1])
    return f"{str(one)[:300]} in the place of {str(other)[:300]}"


def outcome(program: object, trial: Trial) -> tuple[list[str], int]:
    """The faults of a trial, and how many things it saw. What keeps it from going on is a fault, too."""
    function, *given = trial
    faults, count, name = [], 0, f"{function.__name__} {given}"[:200]
    try:
        with own_folder():
            for count, (name, found, wanted) in enumerate(function(program, *given), 1):
                if found != wanted:
                    faults.append(f"{name}: {difference(found, wanted)}")
    except Exception:
        faults.append(f"{name}, and then: {traceback.format_exc(limit=-1)}")
        count += 1
    return faults, count


def alone(module: Mapping[str, Any]) -> list[Trial]:
    """The trials among the names of a module that take the program alone: its functions `try_..` of one parameter."""
    return [(it,) for name, it in module.items() if name.startswith("try_") and it.__code__.co_argcount == 1]


def chosen(parts: Mapping[str, Iterable[Trial]], word: str) -> Iterable[Trial]:
    """The trials that a word names: those of a part, as `columns`, or of one function of it, as `columns:try_links`."""
    part, _, function = word.partition(":")
    trials = parts.get(part, ())
    return (it for it in trials if it[0].__name__ == function) if function else trials


class Tally:
    """Counts what passed and what failed, part by part."""

    def __init__(self) -> None:
        self.passed = self.failed = 0

    def run(self, what: str, program: object, trials: Iterable[Trial]) -> None:
        """Runs a part, and prints its faults and how many things were compared."""
        start = time.monotonic()
        with ProcessPoolExecutor(PROCESSORS) as pool:
            outcomes = list(pool.map(partial(outcome, program), trials))
        faults = [fault for found, _ in outcomes for fault in found]
        compared = sum(compared for _, compared in outcomes)
        print(*faults[:SHOWN_FAULTS], sep="\n", end="\n" * bool(faults))
        print(f"{what}: {compared} comparisons in {len(outcomes)} trials, {len(faults)} faults, "
              f"{time.monotonic() - start:.1f} seconds", flush=True)
        self.passed += compared - len(faults)
        self.failed += len(faults)

    def end(self) -> int:
        return tell_count(self.passed, self.failed)
