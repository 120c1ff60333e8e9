#!/usr/bin/env python3
"""Prints which planted bugs the changes since the last run can touch, a line each: CRATE NAME

The file tools/bugs-last-run has the toolchain's logic; the last commit on which one run tried all planted bugs that the prover must
refuse; and for each crate the last commit on which each of its own was refused, either in a run on it or in an earlier one with no
change since then that touches it. A planted bug is touched if something of this has changed since that commit: its lines, in
whichever table; the text of its function, and what stands outside functions in the same source; a file that its lines name; a proof
file of its function; a file of specs/ of its crate or of one below; or, in a source there, the contract of a function, a type or
a constant, if the bug's function or what stands outside functions beside it has this name. With no such commit, or under another
logic, all are. Lemmas are not considered, nor what tries the bugs: the gate proves the ones; after the others run `./check all`.
"""

import re
import subprocess
import sys

from bugs.place import text_of
from bugs.tables import Edit, edits_of, read_table
from machine import ask_rt
from source import find_functions, functions, outside_functions
from tree import TOP, below, crates, read, write

TRIED = TOP / "tools/bugs-last-run"
NAMED = re.compile(r"^(?:pub )?(?:struct|enum|trait|type|const|static) (\w+)", re.M)


def git(*words: str) -> str | None:
    """What git prints, or None if it fails."""
    ran = subprocess.run(["git", *words], cwd=TOP, capture_output=True, encoding="utf-8", check=False)
    return ran.stdout if ran.returncode == 0 else None


def renewed_names(old: str, new: str) -> set[str]:
    """The functions of a source text that have another contract or are gone, and its types and constants if something outside
    functions is."""
    old_contracts, new_contracts = ({(it.name, it.contract) for it in functions(text)} for text in (old, new))
    named = NAMED.findall(old) if outside_functions(old) != outside_functions(new) else []
    return {name for name, _ in old_contracts - new_contracts}.union(named)


def read_by(text: str, edit: Edit) -> str:
    """What of a source text the trial of a bug depends on: the function, and what stands outside functions."""
    return "\n".join([*(it.text for it in find_functions(text, edit.function)), *outside_functions(text)])


class Changes:
    """The files that have changed since a commit, the texts of sources before, of each the names that no longer stand for the same,
    and the planted bugs of then by crate and name, whichever table had them."""

    def __init__(self, commit: str) -> None:
        listed = git("diff", "--name-only", "--no-renames", commit, "--", "crates"), git("ls-files", "-o", "--exclude-standard", "crates")
        tables = git("ls-tree", "-r", "--name-only", commit, "crates")
        if tables is None or None in listed:
            sys.exit(f"git does not tell what changed since {commit}")
        self.files = {name for names in listed if names for name in names.split()}
        self.before = {it: git("show", f"{commit}:{it}") or "" for it in self.files if it.endswith(".rt")}
        self.names = {it: renewed_names(old, text_of(TOP / it)) for it, old in self.before.items()}
        bugs = (bug for it in tables.split() if it.endswith(".bugs") for bug in read_table(git("show", f"{commit}:{it}") or "", it))
        self.bugs = {(it.crate, it.name): it for it in bugs}

    def touch(self, edit: Edit) -> bool:
        folder, reached = f"crates/{edit.crate}", [f"crates/{it}/" for it in [edit.crate, *below(edit.crate)]]
        source = f"{folder}/{edit.source}"
        own, text = tuple(f"{folder}/{it.file}" for it in edit.changes if it.file), text_of(TOP / source)
        own += f"{folder}/proofs/{edit.function.replace('::', '/')}/", *(f"{it}specs/" for it in reached)
        renewed = set().union(*(names for file, names in self.names.items() if file.startswith(tuple(reached))))
        words = set(re.findall(r"\w+", read_by(text, edit)))
        is_new = self.bugs.get((edit.crate, edit.name)) != edit
        is_other = source in self.files and read_by(self.before[source], edit) != read_by(text, edit)
        return is_other or is_new or any(it.startswith(own) for it in self.files) or not renewed.isdisjoint(words)


def logic() -> str:
    """The hash of the toolchain's logic, by which proofs are judged."""
    return ask_rt("version").rpartition("logic")[2].strip()


def runs() -> dict[str, str]:
    """What tools/bugs-last-run says of the logic, of the run of all planted bugs `at once`, and of each crate."""
    lines = read(TRIED).splitlines() if TRIED.exists() else []
    return {name: said for name, _, said in (line.rpartition(" ") for line in lines)}


def last_run(crate: str) -> str | None:
    """The commit of the last run over a crate's planted bugs, or None if there is none to compare with."""
    found = runs()
    commit = found.get(crate)
    is_there = commit and git("cat-file", "-e", f"{commit}^{{commit}}") is not None
    return commit if is_there and found.get("logic") == logic() else None


def commit_as_it_stands() -> str | None:
    """The commit that is checked out, or None if the checkout differs from it."""
    commit, status = git("rev-parse", "HEAD"), git("status", "--porcelain")
    return commit.strip() if commit and status == "" else None


def note_run(commit: str, *names: str) -> None:
    """Notes for these crates that on this commit each planted bug that changes since the last run touch was refused; or for `at once`
    that one run tried all."""
    found = runs()
    if found.get("logic") != logic():
        found = {"at once": found["at once"]} if "at once" in found else {}
    found |= {"logic": logic(), **dict.fromkeys(names, commit)}
    write(TRIED, "".join(f"{name} {found[name]}\n" for name in ("logic", "at once", *crates()) if name in found))


def touched() -> dict[str, list[str]]:
    """The names of the planted bugs that are touched, for each crate that has any."""
    last = {crate: last_run(crate) for crate in crates()}
    changes = {commit: Changes(commit) for commit in {*last.values()} if commit}
    found = {crate: [it.name for it in edits_of(crate) if not commit or changes[commit].touch(it)] for crate, commit in last.items()}
    return {crate: names for crate, names in found.items() if names}


if __name__ == "__main__":
    for crate, names in touched().items():
        for name in names:
            print(crate, name)
