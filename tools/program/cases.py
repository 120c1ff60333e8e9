"""Folders of cases, which are read as cram reads a test, and of tables, which have a row for each of many inputs that end alike."""

import re
import shlex
from collections.abc import Callable, Iterator
from dataclasses import dataclass
from pathlib import Path
from typing import Any, Self

from tree import TOP

# In bytes: the first room that `intern` asks for to read its input.
FIRST_INPUT = 512
# How much a large input has.
MANY, MEBIBYTE = 200000, 2**20
# The name; standard input, which another command or the lines behind it give; the arguments; what is printed, and the status
# where it is not 0.
CASE = re.compile(rb"\n?(?! )(.+):\n\n  \$ (?:printf '(.*)' \| )?\w+(.*?)(?: <<'END'\n((?:  > .*\n)*)  > END)?\n"
                  rb"((?:  (?!\$ ).*\n)*?)(?:  \[(\d+)\]\n)?(?=\n|\Z)")
# A line of what is printed, whether it has no newline, and whether its bytes are escaped.
LINE = re.compile(rb"  (.*?)( \(no-eol\))?( \(esc\))?\n")


def rooms_of_input(data: bytes) -> list[int]:
    """The room asked for to read an input: it doubles until all is read."""
    rooms = [FIRST_INPUT]
    while rooms[-1] < len(data):
        rooms.append(2 * rooms[-1])
    return rooms


def unescape(text: bytes) -> bytes:
    return text.decode("unicode_escape").encode("latin-1")


@dataclass
class Case:
    """The arguments and the input of a program, and how its run must end."""

    name: str
    words: list[bytes]
    data: bytes
    end: tuple[int, bytes, bytes]

    @classmethod
    def of(cls, stem: str, found: re.Match[bytes]) -> Self:
        """The case of a file. What it prints is standard output where the status is 0, and else standard error."""
        name, made, words, lines, printed, status = found.groups()
        data = re.sub(rb"(?m)^  > ", b"", lines or b"") if made is None else unescape(made.replace(b"%%", b"%"))
        told = b"".join((unescape(line) if is_escaped else line) + b"\n" * (not is_cut)
                        for line, is_cut, is_escaped in LINE.findall(printed))
        end = (int(status), b"", told) if status else (0, told, b"")
        return cls(f"{stem}, {name.decode()}", [word.encode() for word in shlex.split(words.decode())], data, end)


def read_cases(path: Path) -> list[Case]:
    """Reads the cases of a file."""
    text, found, end = path.read_bytes(), [], 0
    while end < len(text):
        one = CASE.match(text, end)
        if not one:
            line = text.count(b"\n", 0, end) + 1
            raise ValueError(f"{path.name}: no case from line {line} on")
        found.append(Case.of(path.stem, one))
        end = one.end()
    return found


def try_folder(_: Any, folder: str) -> Iterator[tuple[str, Any, Any]]:
    """There are cases, and each file has some, or is a table."""
    files = sorted((TOP / folder).iterdir())
    yield f"files of {folder} that have no case", [it.name for it in files if it.suffix not in ("", ".md", ".t")], []
    yield f"there are cases in {folder}", any(it.suffix == ".t" for it in files), True


def cases(folder: str | Path, try_case: Callable[..., Any]) -> Iterator[tuple[Any, ...]]:
    yield try_folder, folder
    yield from ((try_case, case) for path in sorted((TOP / folder).glob("*.t")) for case in read_cases(path))


def try_table(_: Any, name: str, count: int) -> Iterator[tuple[str, Any, Any]]:
    yield f"{name} has rows", count > 0, True


def rows(folder: str | Path, tables: dict[str, Callable[..., Any]]) -> Iterator[tuple[Any, ...]]:
    """The trials of a folder's tables: what tries a row, by the name of the table."""
    for name, try_row in tables.items():
        found = (TOP / folder / name).read_bytes().split(b"\n")[:-1]
        yield try_table, name, len(found)
        yield from ((try_row, row) for row in found)
