"""What a check of the clients is, the place where it runs, and how those of a language run one after another."""

import os
import re
import shlex
import shutil
import subprocess
import tempfile
import threading
from collections.abc import Callable
from dataclasses import dataclass
from pathlib import Path
from string import Template
from typing import NamedTuple

from needs import missing, python_with
from tree import TOP

CLIENTS = TOP / "clients"
# What .ci/run unpacks.
CACHE = Path(os.environ.get("HOME") or TOP / "out", ".cache")
# After so many seconds something hangs: no machine is so busy that it takes as long.
HANGS = 7200
# By the name that steps have for it, the modules of a Python.
PYTHONS = {"hypothesis": ("hypothesis",), "wheel": ("pip", "setuptools", "wheel"), "dask": ("distributed", "pandas")}


class Failed(Exception):
    """Why a check failed. The log has what commands printed before."""


@dataclass
class Options:
    """What the words of clients/check choose."""

    what_is_there: bool = False
    once: bool = False
    archive: str = ""
    original: str = ""


class Place:
    """Where the checks of a language run: a folder of theirs, the folder of the library, and the Python package over it."""

    def __init__(self, work: Path, options: Options, out: Path = CLIENTS / "out", package: Path = CLIENTS / "python") -> None:
        self.work, self.options, self.out, self.package = work, options, out, package
        self.names = {"top": TOP, "clients": CLIENTS, "work": work, "out": out, "package": package, "archive": options.archive,
                      "original": options.original, "cache": CACHE, **{it: python_with(*PYTHONS[it]) or it for it in PYTHONS}}
        self.environment = os.environ | {
            "STRING_INTERNER_LIB": str(out), "CARGO_TARGET_DIR": f"{work}/target", "PYTHONDONTWRITEBYTECODE": "1"}
        self.log = ""
        self.hangs: float | None = HANGS

    def can_repeat(self, command: str) -> bool:
        """Whether a command is there that repeats what runs without it, and repeating is wanted."""
        return not self.options.once and shutil.which(command) is not None

    def run(self, step: str, given: str = "", status: int | None = 0, /, **names: object) -> str:
        """Runs a command, and returns what it prints, on both outputs. It must end with this status, or, with none, fail by itself. It
        is `[in FOLDER] [NAME=VALUE ..] WORD ..`, quoted as for a shell, with names of this place and others behind a `$`. A setting
        without a value is not set."""
        values = {name: str(it) for name, it in (self.names | names).items()}
        words = [Template(it).substitute(values) for it in shlex.split(step)]
        folder = Path(words[1]) if words[0] == "in" else TOP
        words = [it for it in words[2 if words[0] == "in" else 0:] if it]
        settings = {}
        while match := re.fullmatch(r"(?s)(\w+)=(.*)", words[0]):
            settings[match[1]] = match[2]
            del words[0]
        environment = {name: it for name, it in (self.environment | settings).items() if it}
        try:
            ran = subprocess.run(words, cwd=folder, env=environment, input=given, stdout=subprocess.PIPE, stderr=subprocess.STDOUT,
                                 encoding="utf-8", errors="replace", timeout=self.hangs, check=False)
        except subprocess.TimeoutExpired as why:
            self.log += (why.stdout or b"").decode(errors="replace")
            raise Failed(str(why)) from None
        self.log += ran.stdout
        if ran.returncode <= 0 if status is None else ran.returncode != status:
            raise Failed(f"{words[0]} ended with status {ran.returncode}")
        return ran.stdout

    def refused(self, why: str, step: str, *, given: str = "", status: int | None = None, **names: object) -> None:
        """Runs a command that must fail, and say what this pattern has."""
        if not re.search(why, self.run(step, given, status, **names)):
            raise Failed(f"does not say: {why}")

    def printed(self, step: str, *lines: str, given: str = "", **names: object) -> None:
        """Runs a command, which must print these lines."""
        if (found := self.run(step, given, **names)).splitlines() != [*lines]:
            raise Failed(f"prints {found!r} in the place of {lines}")

    def write(self, name: str, *lines: str) -> Path:
        """Writes a file in the folder, and returns the file's."""
        path = self.work / name
        path.parent.mkdir(parents=True, exist_ok=True)
        path.write_text("".join(f"{it}\n" for it in lines), encoding="utf-8")
        return path.parent

    def script(self, name: str, *words: object) -> Path:
        """Writes a program that runs another one by these words and its own, and returns it."""
        path = self.write(name, "#!/bin/sh", f'exec {shlex.join(map(str, words))} "$@"') / name
        path.chmod(0o755)
        return path

    def only(self, pattern: str) -> Path:
        """The one file in the folder that has this name."""
        found = [*self.work.glob(pattern)]
        if len(found) != 1:
            raise Failed(f"{len(found)} files {pattern}")
        return found[0]

    def tell(self, told: str) -> str:
        """What a check tells: these words, with the count of tests that cargo ran, of which there must be some, in the place of {};
        the last line that begins by these, if they end in a dash; or the last line of the log, if there are none."""
        if told.endswith("-"):
            told = (re.findall(rf"^ *{told[:-1]}.*$", self.log, re.M) or [""])[-1]
        elif "{}" in told:
            count = len(re.findall(r"^test .* ok$", self.log, re.M))
            told = told.format(count) if count else ""
        elif not told:
            return (self.log.splitlines() or [""])[-1]
        if not told:
            raise Failed("tells no test")
        return told


class Need(NamedTuple):
    """What a check needs beside what .ci/packages names, and what is left out without it, which does not count as failed."""

    is_there: Callable[[Place], object]
    left_out: str


# A line is a step.
Steps = str | Callable[[Place], object]


@dataclass(frozen=True)
class Check:
    """A check: the name that is printed; the steps that it takes, or a function; what it tells then; what it needs of .ci/packages, and
    beside; which one must have passed before it; and whether --once has it."""

    name: str
    steps: Steps
    tells: str = ""
    needs: tuple[str, ...] = ()
    also: tuple[Need, ...] = ()
    after: str = ""
    once: bool = True

    def run(self, place: Place) -> str:
        """Takes the steps, and returns what is told."""
        place.log = ""
        if callable(self.steps):
            said = self.steps(place)
            return said if isinstance(said, str) else place.tell(self.tells)
        for step in filter(None, map(str.strip, self.steps.split("\n"))):
            place.run(step)
        return place.tell(self.tells)


class Language(NamedTuple):
    """The checks of a language; what all of them need, as one does; whether they want the library, whether a run of all with --once has
    them, and where they run."""

    checks: list[Check]
    needs: tuple[str, ...] = ()
    also: tuple[Need, ...] = ()
    wants_library: bool = True
    once: bool = True
    place: Callable[[Path, Options], Place] = Place


class Told:
    """How checks ended that run beside each other, and what was left out. Each is told at once, under its name."""

    def __init__(self) -> None:
        self.passed = self.failed = 0
        self.left_out: list[str] = []
        self.lock = threading.Lock()

    def tell(self, line: str, passed: int = 0, failed: int = 0) -> None:
        with self.lock:
            print(line, flush=True)
            self.passed, self.failed = self.passed + passed, self.failed + failed

    def leave_out(self, what: str, line: str, failed: int = 0) -> None:
        with self.lock:
            is_new = what not in self.left_out
            self.left_out += [what] * is_new
        if is_new:
            self.tell(line, failed=failed)

    def try_one(self, check: Check, place: Place) -> bool:
        """Runs a check, tells its line, and counts how it ended. All that it printed is told if it failed."""
        try:
            self.tell(f"{check.name}: {check.run(place)}", passed=1)
        except (Failed, OSError) as why:
            self.tell("\n    ".join([f"{check.name}: failed", *place.log.splitlines(), str(why)]), failed=1)
            return False
        return True

    def try_all(self, language: Language, options: Options) -> bool:
        """Runs the checks that the options have, and of which all is there. What .ci/packages names and is missing counts as failed,
        unless that does not count. Returns whether all passed."""
        wanted = [it for it in language.checks if it.once or not options.once]
        for need in dict.fromkeys(need for it in wanted for need in (*language.needs, *it.needs)):
            for lacking in missing([need]):
                self.leave_out(lacking, lacking, failed=not options.what_is_there)
        passed = {""}
        with tempfile.TemporaryDirectory(ignore_cleanup_errors=True) as work:
            place = language.place(Path(work), options)
            for check in wanted:
                if check.after in passed and not missing((*language.needs, *check.needs)):
                    if lacks := next((it.left_out for it in (*language.also, *check.also) if not it.is_there(place)), ""):
                        self.leave_out(lacks, f"left out: {lacks}")
                    elif self.try_one(check, place):
                        passed.add(check.name)
        return passed == {"", *(it.name for it in wanted)}
