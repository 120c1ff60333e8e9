#!/usr/bin/env python3
"""Has linters look at what is written by hand: flake8 and mypy at Python, shellcheck at shell, and the warnings of a compiler at C.
setup.cfg and .shellcheckrc say what they ask for. Of Rust clients/check does so, and of Rattle `rt`.

    tools/lint.py          all that the machine has; it names what is missing, with its packages
    tools/lint.py NAME..   these alone, as `mypy`

Prints what they find. The last line counts linters that find nothing, and those that find something.
"""

import re
import subprocess
import sys
import sysconfig
import tempfile
from collections.abc import Iterator
from concurrent.futures import ThreadPoolExecutor
from dataclasses import dataclass
from pathlib import Path

from documents import Repository
from machine import tell_count
from needs import missing
from tree import TOP

# What shell scripts read, and have no first line that says so.
READ_BY_SHELL = ("bin/lib/stamp.sh", "bin/lib/find.sh", "bin/lib/prove.sh")
# The tests of the Python package pass what they must not, and clients/check has mypy look at the package and its examples.
OF_PACKAGE = ("clients/python/examples/", "clients/python/string_interner/", "clients/python/tests/")
UNTYPED = ("--follow-imports=silent", "--allow-untyped-defs", "--allow-untyped-calls", "--allow-incomplete-defs")
WARNINGS = ("-std=c11", "-Wall", "-Wextra", "-Wconversion", "-Werror", "-fsyntax-only")
# What the interface of CPython asks for: Py_ssize_t beside size_t, and functions of other types.
OF_CPYTHON = ("-Wno-conversion", "-Wno-sign-conversion", "-Wno-cast-function-type", "-Wno-missing-field-initializers")


@dataclass
class Lint:
    """A linter over files: its name, what it needs, and its command."""

    name: str
    need: str
    words: list[str]

    def run(self) -> str:
        """What it finds."""
        ran = subprocess.run(self.words, cwd=TOP, stdout=subprocess.PIPE, stderr=subprocess.STDOUT, encoding="utf-8", check=False)
        return f"{self.name} finds (status {ran.returncode}):\n{ran.stdout}" if ran.returncode else ""


def scripts_of(names: list[str], shells: str, suffix: str) -> list[str]:
    """The files of a language, by their names or first lines."""
    found = []
    for name in names:
        with open(TOP / name, encoding="utf-8", errors="replace") as file:
            if name.endswith(suffix) or re.match(rf"#!.*\b(?:{shells})\b", file.readline()):
                found.append(name)
    return found


def lints(names: list[str], cache: str) -> Iterator[Lint]:
    """All linters over these files, with a folder for what mypy keeps."""
    python = scripts_of(names, "python3", ".py")
    yield Lint("flake8", "flake8", ["flake8", *python])
    tests = [it for it in python if it.startswith(("tools/tests/", "bench/tests/"))]
    mypy = ["mypy", f"--cache-dir={cache}"]
    yield Lint("mypy", "mypy", [*mypy, *(it for it in python if it not in tests and not it.startswith(OF_PACKAGE))])
    yield Lint("mypy over tests", "mypy", [*mypy, *UNTYPED, *tests])
    yield Lint("shellcheck", "shellcheck", ["shellcheck", *scripts_of(names, "sh|bash", ".sh"), *READ_BY_SHELL])
    c = [it for it in names if it.endswith(".c")]
    of_module = [it for it in c if it.startswith("clients/python/")]
    yield Lint("warnings of C", "cc", ["cc", *WARNINGS, "-Iclients/c", *(it for it in c if it not in of_module)])
    headers = ["-isystem", sysconfig.get_path("include"), "-Iclients/c"]
    yield Lint("warnings of the module in C", "python3-config", ["cc", *WARNINGS, *OF_CPYTHON, *headers, *of_module])


def main(*wanted: str) -> int:
    names = [it for it in Repository().files if not Path(TOP, it).is_symlink()]
    with tempfile.TemporaryDirectory() as cache, ThreadPoolExecutor() as pool:
        every = list(lints(names, cache))
        if unknown := {*wanted} - {it.name for it in every}:
            sys.exit(f"no linter {' '.join(sorted(unknown))}\n{__doc__}")
        chosen = [it for it in every if not wanted or it.name in wanted]
        lacking = missing(dict.fromkeys(it.need for it in chosen))
        print(*lacking, sep="\n", end="\n" if lacking else "")
        said = list(pool.map(Lint.run, [it for it in chosen if not missing([it.need])]))
    print(*filter(None, said), sep="\n", end="")
    failed = sum(map(bool, said))
    tell_count(len(said) - failed, failed, lacking)
    return int(failed > 0)


if __name__ == "__main__":
    sys.exit(main(*sys.argv[1:]))
