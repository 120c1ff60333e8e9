#!/usr/bin/env python3
"""Prints what a kind of interner costs a text, by phase, as callgrind counts it:

    bench/cycles.py KIND INPUT:COUNT..    as   bench/cycles.py ours/string/Index/FixedState identifiers:10000

once bench/run has built its driver, which lists the kinds (bench/out/beside/target/release/beside kinds).

Estimated cycles are the instructions, 10 more for each mispredicted branch and for each miss of the first caches, and 100 more
for each miss of the last one. The caches are simulated, and have the same sizes on each machine. No processor fetches ahead
there, so the figure is no time; but it is the same whatever else the machine does.
"""
import pathlib
import subprocess
import sys
import tempfile
from collections.abc import Iterable, Mapping, Sequence
from typing import Any

from driver import DRIVER, input_of
from results import PHASES

SIMULATED = ["--cache-sim=yes", "--branch-sim=yes", "--I1=32768,8,64", "--D1=32768,8,64", "--LL=8388608,16,64"]
WEIGHTS = {"Ir": 1, "Bcm": 10, "Bim": 10, "I1mr": 10, "D1mr": 10, "D1mw": 10, "ILmr": 100, "DLmr": 100, "DLmw": 100}


def cycles_in(totals: Mapping[str, int]) -> int:
    return sum(weight * totals.get(event, 0) for event, weight in WEIGHTS.items())


def totals_in(lines: Iterable[str]) -> dict[str, int]:
    """What a file of callgrind's counted in all, by event. It leaves out zeros at the end."""
    fields = dict(line.split(": ", 1) for line in lines if line.startswith(("events: ", "totals: ")))
    return dict(zip(fields["events"].split(), map(int, fields["totals"].split())))


def number_of_part(path: pathlib.Path) -> int:
    """The number in counts.PROCESS.NUMBER. The part that ends with the process comes last, and has none."""
    numbers = path.name.split(".")[2:]
    return int(numbers[0]) if numbers else sys.maxsize


def count(words: Sequence[str | pathlib.Path], *options: str, **named: Any) -> list[dict[str, int]]:
    """The totals of each part of a run under callgrind, in the order of their numbers."""
    with tempfile.TemporaryDirectory() as folder:
        tool = ["valgrind", "-q", "--tool=callgrind", *SIMULATED, *options, f"--callgrind-out-file={folder}/counts.%p"]
        result = subprocess.run([*tool, *words], text=True, stdout=subprocess.DEVNULL, stderr=subprocess.PIPE, **named)
        if result.returncode:
            sys.exit(f"{result.stderr}bench: {words[0]} failed under callgrind")
        parts = sorted(pathlib.Path(folder).iterdir(), key=number_of_part)
        return [totals_in(part.read_text().splitlines()) for part in parts]


def count_phases(kind: str, path: str) -> dict[str, dict[str, int]]:
    """The totals of each phase of a round over the texts of a file: a part ends whenever the clock is read, before a phase and
    after it."""
    parts = count([DRIVER, kind, path, "1", "0"], "--dump-before=clock_gettime*")
    # The rounds begin with a reading of the clock, and go on with two for each phase that there is.
    return dict(zip(PHASES, parts[2:-1:2]))


def main() -> None:
    kind, *cases = sys.argv[1:]
    for case in cases:
        name, _, count = case.partition(":")
        print(f"{kind} {case}")
        with input_of(name, int(count)) as given:
            for phase, totals in count_phases(kind, given.path).items():
                of_each = {"cycles": cycles_in(totals) / given.count, "instructions": totals["Ir"] / given.count}
                print(f"  {phase:9}", *(f"{what} {value:8.1f} " for what, value in of_each.items()))


if __name__ == "__main__":
    main()
