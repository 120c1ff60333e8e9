"""The tree of this repository and copies of it: its files and its crates."""

import os
import shutil
from collections.abc import Collection
from functools import cache
from pathlib import Path

from machine import toolchain

TOP = Path(__file__).resolve().parent.parent
# The folder of a crate that has the tables of its planted bugs.
TABLES = "bugs"


def read(path: str | Path) -> str:
    return Path(path).read_text(encoding="utf-8")


def write(path: str | Path, text: str) -> None:
    Path(path).parent.mkdir(parents=True, exist_ok=True)
    Path(path).write_text(text, encoding="utf-8")


def listed(top: Path) -> dict[str, str]:
    """The lines of a tree's crates.txt, by crate."""
    return {line.partition(":")[0].split()[0]: line for line in read(top / "crates.txt").splitlines() if line.strip()}


@cache
def crates() -> dict[str, list[str]]:
    """The crates in the order of crates.txt, each with the crates that its line names."""
    return {crate: line.partition(":")[2].split() for crate, line in listed(TOP).items()}


def below(crate: str) -> list[str]:
    """The crates of this repository that a crate stands on."""
    own = crates()
    found = [it for it in own[crate] if it in own]
    return list(dict.fromkeys([*found, *(it for one in found for it in below(one))]))


def copy_crates(source: Path, into: Path, names: Collection[str] | None = None) -> None:
    """Copies what `rt` reads of these crates, or of all, into an empty tree: without what is built, and without planted bugs."""
    names = crates() if names is None else names
    for name in names:
        left_out = shutil.ignore_patterns(TABLES, "out")
        shutil.copytree(source / "crates" / name, into / "crates" / name, ignore=left_out)
    write(into / "crates.txt", "".join(f"{line}\n" for crate, line in listed(source).items() if crate in names))
    shutil.copy(source / "HANDLES", into)


def take_kept_work(kept: Path, tree: Path, crate: str) -> None:
    """Puts into a copy what checks of this crate have kept in another tree, and the libraries below that are built there."""
    for part in (f"{crate}/out/incremental", *(f"{it}/out/rlib" for it in below(crate))):
        if (kept / "crates" / part).is_dir():
            shutil.copytree(kept / "crates" / part, tree / "crates" / part, dirs_exist_ok=True)


def link_kept_work(tree: Path, into: Path) -> None:
    """Puts into a copy what checks have kept in another one."""
    for kept in tree.glob("crates/*/out"):
        # rt writes none of these files in its place, so a link serves as a copy.
        shutil.copytree(kept, into / kept.relative_to(tree), copy_function=os.link)


def stamp_libraries(tree: str | Path) -> None:
    """Writes beside each library of a copy in which `rt ci` has passed the stamp by which `rt` knows of what text it is, as the
    toolchain itself reckons it: `rt ci` leaves none, and without it all would be proved again."""
    for it in toolchain().crates_below(str(tree)):
        stamp = Path(it.folder, "out/rlib/stamp")
        if Path(it.rlib).is_dir() and not stamp.exists():
            write(stamp, it.stamp())


def take_libraries(tree: str | Path, top: str | Path) -> None:
    for it in toolchain().crates_below(str(tree)):
        kept = f"{top}/crates/{it.name}/out/rlib"
        if os.path.exists(f"{it.folder}/out/rlib/stamp"):
            shutil.rmtree(kept, ignore_errors=True)
            shutil.copytree(f"{it.folder}/out/rlib", kept)
