#!/usr/bin/env python3
"""The parts of the gate, and what it says at the end of a log, if it is a whole one of `./check all` that passed.

    tools/gate_log.py LOG      prints that end, or fails and says why not

Each part that it counts there must be in the log, with the same count at its end, and they must come to the count of all.
"""

import re
import sys
from pathlib import Path
from typing import NamedTuple

# Compiles in the folder that comes behind, and tries so many texts as do.
ATTACK = 'rustc --edition 2021 -O -o "$0/attacks" tools/tests/attacks.rs && "$0/attacks" "$@"'
CLIENTS = ("clients/check", "--what-is-there", "--once")
# What a part counted, as it prints it.
COUNT = re.compile(r"^(\d+) passed, (\d+) failed$", re.M)
# What the commands of the gate take on 4 processors, idle ones and shared ones: time, and memory.
TAKES = {
    "./check tests": ("5 to 20 minutes", "5 GiB"),
    "./check": ("25 to 110 minutes", "9 GiB"),
    "./check quick": ("1 to 30 minutes", "6 GiB"),
    "./check edits": ("1 to 100 minutes", "6 GiB"),
    "./check all": ("2.5 to 6 hours", "9 GiB"),
}
END = "== what it took"
COMMAND = "./check all"
# What the gate says of a part at the end.
TAKEN = re.compile(r"^(.+): (\d+) passed, \d+ seconds, \d+ processor seconds$", re.M)


class Row(NamedTuple):
    """A part: the commands of the gate that have it, as `check` for ./check, and `cargo` for ./check tests without the toolchain; what
    it runs, behind which come words that the command knows; what it needs of the machine, or is left out; for who waits, about how
    many minutes it takes on 4 processors, if more than two; whether it fails if nothing passed; and whether it is `rt`, which counts in
    its last line alone. What else counts hands its numbers over (`tell_count` in machine.py)."""

    forms: str = ""
    words: tuple[str, ...] = ()
    needs: tuple[str, ...] = ()
    minutes: str = ""
    is_counted: bool = True
    is_of_rt: bool = False


PARTS = {
    "texts chosen without keys": Row("check all", ("sh", "-c", ATTACK), ("cargo",)),
    "linters": Row("check tests cargo all", ("tools/lint.py",), is_counted=False),
    "proofs": Row("check all", ("bash", "-c"), minutes="15 to 30", is_of_rt=True),
    "the library for C and its clients": Row("check all", (".ci/run-clients",), ("cc",), "5 to 10"),
    "scenarios": Row("check quick all", ("tools/run-scenarios",)),
    "the program": Row("check tests quick all", ("tools/run-program",)),
    "the program dictcol": Row("check tests quick all", ("tools/run-program",)),
    "the program dictcol on large inputs": Row("all", ("tools/run-program",)),
    "the steps of the pages for users": Row("check tests all", ("tools/try_guide.py",)),
    "the steps of the pages by cargo": Row("check cargo all", ("tools/try_guide.py", "--by-cargo"), ("cc", "cargo")),
    "records of proofs": Row("check all", ("tools/records.py", "compare"), is_counted=False),
    "what was measured": Row("check all", ("python3", "bench/tables.py", "--check")),
    "tests of the gate's tools": Row("edits all", ("tools/run-tests", "tools/tests")),
    "tests of the benchmark's tools": Row("edits all", ("tools/run-tests", "bench/tests")),
    "planted bugs that the prover refuses": Row("edits all", ("tools/refuse-edits", "--kept")),
    "planted bugs that a run catches": Row("all", ("tools/catch-edits", "--kept")),
    "the Rust crate": Row("tests", (*CLIENTS, "--only", "rust"), ("cc",), "5 to 10"),
    "the library for C": Row("tests", ("clients/build",), ("cc",), is_counted=False),
    "from C": Row("tests", CLIENTS, ("cc",)),
    "from Python": Row("tests", CLIENTS, ("cc",)),
    "all clients by cargo": Row("cargo", CLIENTS, ("cc", "cargo"), "5 to 10"),
    "the programs by cargo": Row("cargo", (*CLIENTS, "--only", "programs"), ("cc", "cargo")),
}


class Refused(Exception):
    """Why a log is not taken."""


def sections(log: str, names: list[str]) -> dict[str, str]:
    """What each of these parts printed, by its name."""
    heads = "|".join(map(re.escape, names))
    parts = re.split(rf"^== ({heads}|what it took)\n", log, flags=re.M)
    return dict(zip(parts[1::2], parts[2::2]))


def one_line(text: str, word: str) -> str:
    """What is behind a word at the begin of a line."""
    found = re.search(rf"^{word}: (.*)$", text, re.M)
    return found[1] if found else ""


def check_counts(log: str, end: str) -> None:
    """Compares the counts at the end with those of the parts."""
    taken = {name: int(passed) for name, passed in TAKEN.findall(end)}
    if lacking := sorted({name for name, row in PARTS.items() if "all" in row.forms.split()} - taken.keys()):
        raise Refused(f"has not the parts {', '.join(lacking)}")
    said = sections(log, list(taken))
    for name, passed in taken.items():
        counts = COUNT.findall(said.get(name, ""))
        if (int(counts[-1][0]) if counts else 0) != passed:
            raise Refused(f"says {passed} passed of {name}, which says otherwise")
    if sum(taken.values()) != int(end.split("\n")[-1].partition(" ")[0]):
        raise Refused("has parts that do not come to the count of all")


def read_end(log: str) -> str:
    """Returns the end of a log."""
    _, head, end = log.rpartition(f"{END}\n")
    end = head + end.rstrip("\n")
    if not re.search(r"\n[1-9]\d* passed, 0 failed$", end):
        raise Refused("is no log of a gate that passed")
    if (command := one_line(end, "ran")) != COMMAND:
        raise Refused(f"is of {command or 'no command'}, and not of {COMMAND}")
    if left := re.search(r"^left out: .*planted bugs.*$", end, re.M):
        raise Refused(f"says {left[0]}")
    check_counts(log, end)
    return end


def main(path: str = "") -> None:
    if not path:
        sys.exit(__doc__)
    try:
        print(read_end(Path(path).read_text(encoding="utf-8")))
    except FileNotFoundError:
        sys.exit(f"no file {path}")
    except Refused as why:
        sys.exit(f"{path} {why}")


if __name__ == "__main__":
    main(*sys.argv[1:])
