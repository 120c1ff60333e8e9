#!/usr/bin/env python3
"""Takes the steps of the pages for users as they are printed, each page in a clean copy of the repository.

    tools/try_guide.py [CLONE [PAGE..]]        takes what is built from another tree of the same sources, as from one where all is proved
    tools/try_guide.py --by-cargo [PAGE..]     takes no step with `rt`, as on a machine without it: cargo builds all

The pages are README.md and those of docs/use/ that have commands, or those that are named. A step is a block of code:

    sh          is run, in the folder where the commands before it ended
    another     is written into FILE there, if the line before it ends in "`FILE`:"
    text        is what the commands before it print

What is not built yet, the commands build. A page is left out if the machine lacks what it needs.
"""

import os
import shutil
import subprocess
import sys
import tempfile
from collections.abc import Iterable, Iterator
from pathlib import Path
from shlex import quote

from documents import STEP, Repository, is_tried
from machine import tell_count
from needs import missing, python_with
from tree import TOP, read

# What a page needs besides a shell and `rt`.
NEEDS = {
    "docs/use/c.md": ["cc", "pkg-config"],
    "docs/use/columns.md": ["cc", "python3-config"],
    "docs/use/dask.md": ["cc", "python3-config", "python distributed"],
    "docs/use/python.md": ["cc", "python3-config", "python pip setuptools wheel"],
    "docs/use/rust.md": ["cc", "cargo"],
}
# Puts what was built elsewhere into its place, where it counts as newer than its sources.
TAKE = """set -eu
. bin/lib/prove.sh
for name in intern dictcol; do
  if [ -x "$1/crates/$name/out/$name" ]; then
    cp "$1/crates/$name/out/$name" "crates/$name/out"
    sources_of "$name" >"crates/$name/out/bin-$name.stamp"
  fi
done
archive=$1/crates/string_interner_c/out/libstring_interner_c.a
if [ -e "$archive" ]; then
  clients/build "$archive"
  by_hand='clients/build clients/c/build.c clients/c/shared.c clients/c/string_interner.h VERSION'
  sources_of string_interner_c $by_hand >clients/out/build.stamp
fi
"""
# What users run, each built as by its first command.
BUILD = """set -eu
bin/intern string </dev/null
bin/dictcol count </dev/null
clients/build
"""
BY_CARGO = "--by-cargo"
# The page whose steps prove.
PROVING_PAGE = "docs/use/rattle.md"
MARK = "\f"
UNSET = ("PYTHONPATH", "PKG_CONFIG_PATH", "LD_LIBRARY_PATH", "STRING_INTERNER_LIB")


def script_of(text: str) -> tuple[str, list[str | None]]:
    """The steps of a page as a script that prints a mark before each block of commands; and what each of these must print, or
    None. Behind the last step cargo runs each program again, because the page may have put another one into its package since."""
    script, blocks = ["set -eu"], []
    for file, language, step in STEP.findall(text):
        if file:
            script.append(f"mkdir -p {quote(os.path.dirname(file) or '.')}\nprintf %s {quote(step)} >{quote(file)}")
        elif language == "sh":
            script.append(f"printf '{MARK}'\n{step}")
            blocks.append((step, None))
        elif blocks:
            blocks[-1] = (blocks[-1][0], step)
    again = [(commands, told) for commands, told in blocks if commands.startswith("cargo run ")]
    script += [f"printf '{MARK}'\n{commands}" for commands, _ in again]
    return "\n".join(script), [told for _, told in blocks + again]


def copy_sources(folder: Path) -> None:
    for name in Repository().files:
        (folder / name).parent.mkdir(parents=True, exist_ok=True)
        shutil.copy2(TOP / name, folder / name)


def hide_rt(folder: Path) -> Path:
    """Makes a folder for the front of the path, with another program in the place of the toolchain's."""
    folder.mkdir()
    (folder / "rt").write_text("#!/bin/sh\nexit 1\n")
    (folder / "rt").chmod(0o755)
    return folder


def take_built(clone: Path, folder: Path) -> None:
    """Copies what is built in a clone."""
    for kept in clone.glob("crates/*/out"):
        (folder / kept.relative_to(clone)).mkdir()
        if (kept / "rlib").is_dir():
            shutil.copytree(kept / "rlib", folder / kept.relative_to(clone) / "rlib")
    subprocess.run(["bash", "-c", TAKE, "take", clone], cwd=folder, check=True, stdout=sys.stderr)


def environment_of(page: str, first: Iterable[Path] = ()) -> dict[str, str]:
    """The environment in which a page's steps are taken, whose path has these folders first."""
    environment = {name: value for name, value in os.environ.items() if name not in UNSET}
    modules = [name for need in NEEDS.get(page, ()) if need.startswith("python ") for name in need.split()[1:]]
    python = python_with(*modules) if modules else None
    environment["PATH"] = ":".join(map(str, [*first, *([Path(python).parent] if python else []), environment["PATH"]]))
    return environment


def take_steps(page: str, text: str, folder: Path, first: Iterable[Path] = ()) -> Iterator[str]:
    """Takes the steps of a page in this folder, with these folders first in the path, and yields what goes otherwise than it says."""
    script, printed = script_of(text)
    ran = subprocess.run(["bash", "-c", script], cwd=folder, env=environment_of(page, first), capture_output=True, text=True, check=False)
    shown = ran.stdout.split(MARK)[1:]
    if ran.returncode:
        yield f"{page}: block {len(shown)} of the commands ends with status {ran.returncode}\n{''.join(shown[-1:])}{ran.stderr}"
    for number, (one, other) in enumerate(zip(printed, shown), 1):
        if one not in (None, other):
            yield f"{page}: block {number} of the commands prints\n{other}and should print\n{one}"


def pages() -> list[str]:
    """The pages that have steps."""
    return [it for it in Repository().files if is_tried(it) and script_of(read(TOP / it))[1]]


def main(clone: str = "", *names: str) -> int:
    is_by_cargo = clone == BY_CARGO
    passed, failed, left_out = 0, 0, []
    with tempfile.TemporaryDirectory() as folder:
        clean, first = Path(folder, "clean"), []
        copy_sources(clean)
        if is_by_cargo:
            first = [hide_rt(Path(folder, "hiding"))]
            subprocess.run(["bash", "-c", BUILD], cwd=clean, env=environment_of("", first), check=True, stdout=sys.stderr)
        else:
            take_built(Path(clone or TOP).resolve(), clean)
        for page in names or [it for it in pages() if not is_by_cargo or it != PROVING_PAGE]:
            text = read(TOP / page)
            if lacking := missing(NEEDS.get(page, ())):
                print(*lacking, sep="\n")
                left_out += lacking
                continue
            # No step writes into a file of the repository, so links serve as copies.
            own = Path(folder, page.replace("/", "."), "clone")
            shutil.copytree(clean, own, symlinks=True, copy_function=os.link)
            found = list(take_steps(page, text, own, first))
            print(*found, sep="\n", end="\n" if found else "")
            passed, failed = passed + (not found), failed + bool(found)
    return tell_count(passed, failed, left_out)


if __name__ == "__main__":
    sys.exit(main(*sys.argv[1:]))
