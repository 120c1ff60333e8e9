"""The planted bugs of the crates, as their tables say them.

crates/CRATE/bugs/PART.bugs has the planted bugs of src/PART.rt and of src/PART/, and lib.bugs or main.bugs those of all sources
without such a table, with an empty line between two bugs. The lines of one:

  source:     the source file of this bug and of those after it, if that is not src/PART.rt
  bug:        its name
  function:   the function whose promise it breaks, for a bug that the prover must refuse
  scenario:   what catches it, for a bug that the prover accepts and a run of a built program must catch: a scenario and words of
              its first line, or words for run-program, which name a function of a part: the fewer trials, the sooner the end
  file:       another file of the crate, or this source as a whole, in which the next old texts stand
  old:        a text that stands once in the function, or in the file if there is no `function:`, or a `file:`; it may be empty
              for all of a file, if there is one
  new:        what replaces it
  right:      what may replace it, for the control, if the function is not written there

A text of several lines has a line here for each of them.
"""

import sys
from collections.abc import Collection, Iterable
from dataclasses import dataclass, field
from itertools import groupby

from tree import TABLES, TOP, read

# The programs whose runs catch the bugs of a library.
PROGRAMS = {"string_interner": "suite", "string_column": "dictcol"}


@dataclass
class Change:
    """A text and what replaces it, in a file, or in the function of the bug."""

    file: str | None
    old: str
    new: str | None = None
    right: str | None = None


@dataclass
class Edit:
    """A planted bug of a crate, in a source file."""

    name: str
    crate: str
    source: str
    changes: list[Change] = field(default_factory=list)
    function: str = ""
    scenario: list[str] = field(default_factory=list)

    @property
    def files(self) -> list[str]:
        """The files that it changes, in order, each once."""
        return list(dict.fromkeys(change.file or self.source for change in self.changes))

    @property
    def program(self) -> str:
        """The program whose runs catch it."""
        return PROGRAMS.get(self.crate, self.crate)


def read_bug(lines: list[tuple[str, str]], edit: Edit) -> Edit:
    """Reads the lines of one bug, each with its place. Fails with the place of a line that is none of a planted bug, or of the
    first if one is missing."""
    file = None
    for place, line in lines:
        word, colon, text = line.partition(":")
        text, last = text.removeprefix(" "), edit.changes[-1] if edit.changes else None
        match word if colon else None:
            case "source" if not edit.name:
                edit.source = text
            case "bug" if not edit.name:
                edit.name = text
            case "function":
                edit.function = text
            case "scenario":
                edit.scenario = text.split()
            case "file":
                file = text
            case "old" if last and last.new is None:
                last.old += f"\n{text}"
            case "old":
                edit.changes.append(Change(file, text))
            case "new" | "right" if last:
                before = getattr(last, word)
                setattr(last, word, text if before is None else f"{before}\n{text}")
            case _:
                raise ValueError(f"{place}: not a line of a planted bug: {line}")
    if not edit.name or not edit.changes or edit.changes[-1].new is None or bool(edit.function) == bool(edit.scenario):
        raise ValueError(f"{lines[0][0]}: a bug needs `bug:`, `old:`, `new:`, and one of `function:` and `scenario:`")
    return edit


def read_table(text: str, name: str) -> list[Edit]:
    """Reads the table that has this name in the repository."""
    _, crate, _, path = name.removesuffix(".bugs").split("/", 3)
    lines = [(f"{name}:{number}", line) for number, line in enumerate(text.splitlines(), 1)]
    found, source = [], f"src/{path}.rt"
    for has_lines, block in groupby(lines, lambda it: bool(it[1])):
        if has_lines:
            found.append(read_bug([*block], Edit("", crate, source)))
            source = found[-1].source
    return found


def edits_of(crate: str, by_runs: bool = False) -> list[Edit]:
    """The planted bugs of a crate that the prover must refuse, or those that runs must catch."""
    tables = sorted((TOP / "crates" / crate / TABLES).rglob("*.bugs"))
    every = (it for path in tables for it in read_table(read(path), path.relative_to(TOP).as_posix()))
    return [it for it in every if bool(it.scenario) == by_runs]


def choose_edits(of: Iterable[str], names: Collection[str], by_runs: bool = False) -> list[Edit]:
    """The planted bugs of these crates that have these names, or all where there is no name. Ends the program where none has
    one of them."""
    every = [edit for crate in of for edit in edits_of(crate, by_runs)]
    if unknown := set(names) - {edit.name for edit in every}:
        sys.exit(f"no such edit: {' '.join(sorted(unknown))}")
    return [edit for edit in every if not names or edit.name in names]
