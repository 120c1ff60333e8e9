#!/usr/bin/env python3
"""Counts the files and lines of this clone that git has, those that are made by machines, which .gitattributes marks as
linguist-generated, and those that people write and read.

    tools/weigh.py            prints the counts
    tools/weigh.py DEPTH      and before them those of each folder, down to so many names of a path
"""

import subprocess
import sys
from pathlib import PurePosixPath
from typing import NamedTuple

from tree import TOP

# What builds, tries and measures: without tests of these, pages and what is measured.
HARNESS = ("check", "tools/", "bench/", ".ci/", "clients/check", "clients/fuzz")


class Weight(NamedTuple):
    """A file, how many lines it has, and whether a machine makes it."""

    name: str
    lines: int
    is_made: bool

    @property
    def is_harness(self) -> bool:
        """Whether it is of what builds, tries and measures."""
        is_of_it = self.name.startswith(HARNESS) and not self.name.endswith(".md")
        return is_of_it and not self.is_made and "/tests/" not in self.name


def ask_git(*words: str, given: str = "") -> list[str]:
    """What git prints, between zeros."""
    ran = subprocess.run(["git", *words], cwd=TOP, input=given, check=True, stdout=subprocess.PIPE, encoding="utf-8")
    return ran.stdout.split("\0")[:-1]


def weigh() -> list[Weight]:
    """All files that git has."""
    names = ask_git("ls-files", "-z")
    answers = ask_git("check-attr", "-z", "--stdin", "linguist-generated", given="".join(f"{it}\0" for it in names))
    made = {name for name, answer in zip(answers[::3], answers[2::3]) if answer in ("set", "true")}
    return [Weight(it, (TOP / it).read_bytes().count(b"\n"), it in made) for it in names if (TOP / it).is_file()]


def tell(weights: list[Weight], what: str) -> None:
    print(f"{len(weights):6} files {sum(it.lines for it in weights):8} lines  {what}")


def tell_folders(weights: list[Weight], depth: int) -> None:
    """Prints the counts of each folder."""
    folders = {it: "/".join(PurePosixPath(it.name).parts[:-1][:depth]) or "." for it in weights}
    for folder in sorted({*folders.values()}):
        tell([it for it in weights if folders[it] == folder], folder)


def main(depth: str = "0") -> None:
    if not depth.isdigit():
        sys.exit(__doc__)
    weights = weigh()
    if int(depth):
        tell_folders(weights, int(depth))
    tell(weights, "in all")
    tell([it for it in weights if it.is_made], "made by machines")
    tell([it for it in weights if not it.is_made], "by hand")
    tell([it for it in weights if it.is_harness], f"by hand of {' '.join(HARNESS)}, without tests and pages")


if __name__ == "__main__":
    main(*sys.argv[1:])
