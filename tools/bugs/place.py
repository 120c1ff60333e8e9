"""How planted bugs are tried: which texts are put where, of which functions the prover is asked, and which are tried together.

The bugs of a function that is no method of a trait stand beside it: NAME_bug1 and so on are the function with a bug, with its
contract and copies of its proof files, and NAME_bug0 is it without one. A bug of a method of a trait, or of what stands outside
its function, is put in its place.
"""

import re
import shutil
from collections import Counter
from dataclasses import dataclass, field, replace
from pathlib import Path

from bugs.tables import Edit
from source import Function, block_around, find_functions, functions, start_of
from tree import TOP, read, write

# Offsets of a file, and what replaces the text between them.
Replacement = tuple[str, int, int, str]
# What a control has that the function has not.
COMMENT = "/* as it is */ "
# An answer of a proof file to a goal.
ANSWER = re.compile(r"^pub (\S+) : goal\.\S+\n(?:.+\n)*", re.M)
# A check takes some twenty seconds beside its bugs, so few get so many each, in the mean.
TOGETHER = 80


class Unfit(Exception):
    """A planted bug that cannot be tried, and why."""


def text_of(path: Path) -> str:
    """The text of a file, which is empty where there is none."""
    return read(path) if path.exists() else ""


def definition(edit: Edit, text: str) -> Function:
    """The function of a bug, in a text of its source."""
    found = find_functions(text, edit.function)
    if len(found) != 1:
        raise Unfit(f"{edit.name}: {len(found)} functions of {edit.source} are {edit.function}")
    return found[0]


def placed(edit: Edit, word: str = "new") -> list[Replacement]:
    """What a planted bug replaces, or what its control does."""
    changes = []
    for change in edit.changes:
        text = text_of(TOP / "crates" / edit.crate / (change.file or edit.source))
        within = 0, len(text)
        if edit.function and not change.file:
            own = definition(edit, text)
            within = own.start, own.end
        if not change.old:
            changes.append((change.file or edit.source, *within, f"{getattr(change, word)}\n"))
            continue
        if text.count(change.old, *within) != 1:
            where = change.file or edit.function or edit.source
            raise Unfit(f"{edit.name}: its old text does not stand once in {where}: {change.old}")
        start = text.index(change.old, *within)
        changes.append((change.file or edit.source, start, start + len(change.old), getattr(change, word)))
    return changes


def replaced(text: str, changes: list[Replacement], begin: int = 0) -> str:
    """A text after changes, of which the offsets count from before it."""
    for _, start, end, new in sorted(changes, reverse=True):
        text = text[: start - begin] + new + text[end - begin :]
    return text


def apply(changes: list[Replacement], folder: Path) -> None:
    for file in {it[0] for it in changes}:
        write(folder / file, replaced(text_of(folder / file), [it for it in changes if it[0] == file]))


@dataclass(eq=False)
class Trial:
    """A planted bug or a control in its place, and the function of which the prover is asked."""

    name: str
    crate: str
    function: str
    changes: list[Replacement]
    # Of which its proof files are copies, if they are.
    original: str | None = None
    control: "Trial | None" = None
    is_alone: bool = False
    without: set[str] = field(default_factory=set)
    # Where the function begins that is changed.
    place: tuple[str, int] = ("", 0)

    @property
    def answered(self) -> set[str]:
        """The goals that its proof file has answers to."""
        path = Path("crates", self.crate, "proofs", (self.original or self.function).replace("::", "/"), "Answers.antt")
        return {it[1] for it in ANSWER.finditer(text_of(TOP / path))}

    def put(self, folder: Path) -> list[Replacement]:
        """Puts its proof files into this copy of its crate, and returns what it changes there."""
        proofs = folder / "proofs" / self.function.replace("::", "/")
        own = folder / "proofs" / self.original.replace("::", "/") if self.original else proofs
        if self.original and own.is_dir():
            shutil.copytree(own, proofs)
            for path in proofs.rglob("*.antt"):
                old, new = (f"proofs.{it.replace('::', '.')}." for it in (self.original, self.function))
                write(path, read(path).replace(old, new))
        if self.without:
            kept = ANSWER.sub(lambda it: "" if it[1] in self.without else it[0], read(proofs / "Answers.antt"))
            write(proofs / "Answers.antt", kept)
        return self.changes

    def without_answers(self, goals: list[str]) -> "Trial | None":
        """The same trial without the answers to these goals, if there is an answer to each."""
        return replace(self, without=set(goals)) if set(goals) <= self.answered else None

    def goals(self) -> "Trial":
        """A trial of its function as it is without answers and tactics, which leaves each goal open."""
        by_hand = [(*self.place, self.place[1], "#[tactic(none)]\n")]
        return Trial(f"all goals of {self.name}", self.crate, self.original or self.function, by_hand, without=self.answered)


def is_beside(edit: Edit, text: str) -> bool:
    """Reports whether a bug lies within a function that is no method of a trait."""
    if any(it.file for it in edit.changes):
        return False
    block = block_around(text, definition(edit, text))
    return not (block and (block["kind"] == "trait" or " for " in block[0]))


def comment(edit: Edit, own: Function) -> Replacement:
    """A comment at the end of a function."""
    return edit.source, own.end - 1, own.end - 1, COMMENT


def beside(edits: list[Edit], text: str) -> list[Trial]:
    """The trials of bugs of one function that stand beside it."""
    function, own = edits[0].function, definition(edits[0], text)
    start = start_of(text, own)

    def trial(number: int, name: str, changes: list[Replacement], control: Trial | None = None) -> Trial:
        copy = replaced(text[start : own.end], changes, start).replace(f"fn {own.name}", f"fn {own.name}_bug{number}", 1)
        behind, place = (edits[0].source, own.end, own.end, f"\n\n{copy}"), (edits[0].source, own.start)
        return Trial(name, edits[0].crate, f"{function}_bug{number}", [behind], function, control, place=place)

    control = trial(0, f"the control of {function}", [comment(edits[0], own)])
    return [trial(number, it.name, placed(it), control) for number, it in enumerate(edits, 1)]


def in_place(edit: Edit, text: str) -> Trial:
    """The trial of a bug in its place. Where the bug writes the function, so does its control."""
    has_right = all(it.right is not None for it in edit.changes)
    changes = placed(edit, "right") if has_right else [comment(edit, definition(edit, text))]
    own = definition(edit, replaced(text, changes))
    control = Trial(f"the control of {edit.function}", edit.crate, edit.function, changes)
    is_alone, place = any(it.file for it in edit.changes), (edit.source, own.start)
    return Trial(edit.name, edit.crate, edit.function, placed(edit), None, control, is_alone, place=place)


def trials_of(edits: list[Edit]) -> list[Trial]:
    """The trials of these bugs. Those of one function have one control."""
    trials: list[Trial] = []
    groups: dict[str, tuple[list[Edit], str]] = {}
    for edit in edits:
        text = text_of(TOP / "crates" / edit.crate / edit.source)
        if is_beside(edit, text):
            groups.setdefault(edit.function, ([], text))[0].append(edit)
        else:
            trials.append(in_place(edit, text))
    return [*trials, *(it for of_one in groups.values() for it in beside(*of_one))]


def batches(trials: list[Trial], workers: int) -> list[list[Trial]]:
    """Deals out trials so that no batch has two of a function, and all workers end at about the same time. One that is about more
    than its function comes alone."""
    alone = [[it] for it in trials if it.is_alone]
    others = sorted((it for it in trials if not it.is_alone), key=lambda it: it.function)
    most = max(Counter(it.function for it in others).values(), default=0)
    count = int(-(-max(most, len(others) / TOGETHER) // workers) * workers)
    return [*alone, *(batch for start in range(count) if (batch := others[start::count]))]


def places(edit: Edit) -> set[tuple[str, int]]:
    """What a planted bug changes, by the file and where the last function begins before it."""
    texts = {it: text_of(TOP / "crates" / edit.crate / it) for it in edit.files}
    return {(file, max((it.start for it in functions(texts[file]) if it.start <= start), default=0)) for file, start, *_ in placed(edit)}


def apart(edits: list[Edit], most: int) -> list[list[Edit]]:
    """Deals out planted bugs so that no batch has more than so many, or two of a function or place. One that changes a definition
    or a constant, which any function may cite, comes alone."""
    dealt: list[tuple[list[Edit], set[tuple[str, int]]]] = []
    alone = []
    for edit in edits:
        if any((it.file or "").startswith("specs/") or it.old.startswith("const ") for it in edit.changes):
            alone.append([edit])
            continue
        own = places(edit)
        for batch, taken in dealt:
            if len(batch) < most and not own & taken:
                batch.append(edit)
                taken |= own
                break
        else:
            dealt.append(([edit], own))
    return [*(batch for batch, _ in dealt), *alone]
