#!/usr/bin/env python3
"""What a machine has of the commands, Python modules and crates that .ci/packages lists with their packages.

    tools/needs.py                     prints the packages of all that is missing, but for bench/run
    tools/needs.py NEED..              names each of these that is missing, with its packages, and then fails. A NEED is what is
                                       before the colon of a line: a command, `python MODULE ..`, or `crates NAME ..`
    tools/needs.py --python MODULE..   prints the first Python that has these modules, this shell's or Debian's, or fails
"""

import shutil
import subprocess
import sys
from collections.abc import Iterable
from functools import cache
from pathlib import Path

from machine import has_rt

CRATES = Path("/usr/share/cargo/registry")
PACKAGES = Path(__file__).resolve().parent.parent / ".ci/packages"
# What bench/run uses besides.
ONLY_TO_MEASURE = {"hyperfine": ["hyperfine"], "python matplotlib": ["python3-matplotlib"]}
HAS = "import importlib.util, sys; sys.exit(not all(map(importlib.util.find_spec, sys.argv[1:])))"


def packages() -> dict[str, list[str]]:
    lines = (line.partition(": ") for line in PACKAGES.read_text(encoding="utf-8").splitlines() if not line.startswith("#"))
    return {need: names.split() for need, _, names in lines} | ONLY_TO_MEASURE


def needs_of_tests() -> list[str]:
    return [need for need in packages() if need not in ONLY_TO_MEASURE]


def packages_of(needs: Iterable[str]) -> list[str]:
    return [name for need in needs for name in packages()[need]]


@cache
def python_with(*modules: str) -> str | None:
    for name in ("python3", "/usr/bin/python3"):
        python = shutil.which(name)
        if python and subprocess.run([python, "-c", HAS, *modules], capture_output=True, check=False).returncode == 0:
            return python
    return None


def is_there(need: str) -> bool:
    """Reports whether a command is there, or some Python with modules, or the sources of crates; and of `rt`, that it is the
    toolchain's."""
    command, *names = need.split()
    if need == "rt":
        return has_rt()
    if command == "crates":
        return all(any(CRATES.glob(f"{name}-[0-9]*")) for name in names)
    return bool(python_with(*names) if names else shutil.which(command))


def missing(needs: Iterable[str]) -> list[str]:
    lacking = (it for it in needs if not is_there(it))
    return [f"no {it} on this machine: what needs it is left out. Debian's packages: {' '.join(packages_of([it]))}" for it in lacking]


def main(*words: str) -> int:
    match words:
        case ():
            print(*packages_of(it for it in needs_of_tests() if not is_there(it)))
            return 0
        case ("--python", *modules):
            found = python_with(*modules)
            print(found or "", end="\n" if found else "")
            return 0 if found else 1
    lacking = missing(words)
    print(*lacking, sep="\n", end="\n" if lacking else "")
    return 1 if lacking else 0


if __name__ == "__main__":
    sys.exit(main(*sys.argv[1:]))
