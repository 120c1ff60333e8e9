#!/usr/bin/env python3
"""Builds what users run from the records of proofs in records/, and compares these records with other proofs.

    tools/records.py build CRATE         builds a program or the library for C, and proves nothing. Status 3 says that no record fits, so
                                         that the crate is to be proved
    tools/records.py compare TREE LOG [--committed]
                                         builds all of them in a copy in which `rt ci` passed, and compares code and verdicts with what
                                         `rt ci` built there and said in its log. A record of other sources is named and passed over, or
                                         fails if what is compared is a commit

records/README.md says what a record is. `rattle build --crate-checked` compares it with what it reads, and stops where anything
differs. tools/record-proofs writes the records.
"""

import hashlib
import os
import re
import shutil
import subprocess
import sys
import tempfile
from collections.abc import Iterable, Iterator, Mapping
from contextlib import contextmanager
from pathlib import Path
from typing import Any

from machine import ask_rt, tell_count, toolchain

TOP = Path(__file__).resolve().parent.parent
# What users run. The libraries below these have records, too.
BUILT = ("intern", "dictcol", "string_interner_c")
NO_RECORD_FITS = 3
# The words of a verdict that say what it took from an earlier run, and not what is proved.
TRUSTS = {"cache", "libraries-built", "logic-built", "statements", "crate-checked", "batches", "incremental"}


class Refused(Exception):
    """A tool of the toolchain refuses what it is given."""


def folder_of_records(top: Path = TOP) -> Path:
    return top / "records" / ask_rt("version").split()[0]


def crates_for(names: Iterable[str], top: Path = TOP) -> list[Any]:
    """What the toolchain knows of these crates and of the libraries below them, each below those that use it."""
    known: dict[str, Any] = {}
    found: list[Any] = []
    for name in names:
        crate = toolchain().Crate(f"{top}/crates/{name}", str(top), known)
        found += [it for it in (*crate.below(), crate) if it not in found]
    for it in found:
        # Beside the libraries that `rt` builds, which hold their proofs.
        it.rlib = f"{it.folder}/out/rlib/recorded/{it.name}.rlib"
    return found


@contextmanager
def no_other_run_in(crates: list[Any]) -> Iterator[None]:
    """Waits until no other run works in the folders of these crates, which it says, and lets none in."""
    held = toolchain().lock(crates)
    try:
        yield
    finally:
        for it in held:
            os.close(it)


def words_for(crate: Any) -> list[str]:
    """The words of `rt` for the prover, less those that say how a check goes."""
    words: list[str] = crate.words(["--jobs", "1"])
    for flag in ("--logic-built", "--jobs"):
        at = words.index(flag)
        del words[at:at + 2]
    return words


def run_tool(crate: Any, tool: str, *words: str) -> str:
    """Runs a tool of the toolchain in a crate's folder, and returns what it said. It ends when this process does."""
    whole = [*toolchain().guarded(), f"{toolchain().KIT}/bin/{tool}", *words]
    ran = subprocess.run(whole, cwd=crate.folder, stdin=subprocess.DEVNULL, stdout=subprocess.PIPE, stderr=subprocess.STDOUT,
                         encoding="utf-8", errors="replace", check=False)
    if ran.returncode:
        raise Refused(ran.stdout)
    return ran.stdout


def stale(crate: Any, record: Path) -> str | None:
    """Why a record is not of this crate's files and libraries, or nothing. What else it tells is for the prover to compare."""
    if not Path(record, "inputs").exists():
        return None if record.is_dir() else f"no proof of {crate.name} is recorded"
    inputs = Path(record, "inputs").read_text(encoding="utf-8")
    # `file` has a file as macros leave it, and then `written` has it as it was written.
    recorded = {path: sum_of for kind in ("file", "written") for path, sum_of in re.findall(rf'^{kind} "(.*)" (\w+)$', inputs, re.M)}
    recorded |= dict.fromkeys(re.findall(r"^library (\w+) --extern ", inputs, re.M), "library")
    paths = [os.path.relpath(it, crate.folder) for it in toolchain().files_of(crate.folder)]
    # A source that the record does not name is read only if one that it names has changed, or by tests.
    paths = [it for it in paths if it in recorded or it.endswith(".antt")]
    present = {it: hashlib.sha256(Path(crate.folder, it).read_bytes()).hexdigest() for it in paths}
    present |= dict.fromkeys([*crate.of_kit, *(it.name for it in crate.deps)], "library")
    changed = sorted(it for it in recorded | present if recorded.get(it) != present.get(it))
    more = f" and {len(changed) - 1} more" if changed[1:] else ""
    return f"{crate.name} is not as its proof was recorded: {changed[0]}{more}" if changed else None


def made_of(crate: Any) -> Path:
    """The program or the archive for C that is built of a crate."""
    return Path(crate.folder, "out", f"lib{crate.name}.a" if crate.is_static else crate.name)


def build(crate: Any, record: Path, made: Path | None = None) -> None:
    """Builds a library, a program or an archive for C from its record: the last two under another name if one is given."""
    made = made or made_of(crate)
    words = ["build", *words_for(crate), "--crate-checked", str(record)]
    by_llvm = ["--toolchain", f"{toolchain().KIT}/toolchain", "--backend", "llvm"]
    os.makedirs(f"{crate.folder}/out", exist_ok=True)
    if crate.makes_rlib():
        build_library(crate, record, words)
    elif crate.is_static:
        run_tool(crate, "rattle", *words, *by_llvm, "-o", str(made))
    else:
        run_tool(crate, "rattle", *words, *by_llvm, "-o", f"{made}.o")
        of_c = [f"{toolchain().KIT}/c/{it}" for it in ("libos_c.a", "liblibc_c.a")]
        run_tool(crate, "rattle-link", "--target", "x86_64-unknown-linux-gnu", *by_llvm[:2], "-o", str(made), f"{made}.o", *of_c)


def build_library(crate: Any, record: Path, words: list[str]) -> None:
    """Builds a library from its record, unless that has been done."""
    stamp, folder = b"".join(it.read_bytes() for it in sorted(record.iterdir())), Path(crate.rlib).parent
    kept = folder / "stamp"
    if not kept.exists() or kept.read_bytes() != stamp:
        shutil.rmtree(folder, ignore_errors=True)
        folder.mkdir(parents=True)
        run_tool(crate, "rattle", *words, "-o", crate.rlib)
        kept.write_bytes(stamp)


def build_libraries_below(name: str, tree: Path) -> None:
    """Builds what a crate of a copy stands on, from its records, as if `rt` had built it there. What no record fits is left to `rt`, and so
    are libraries above it."""
    known: dict[str, Any] = {}
    for it in toolchain().Crate(f"{tree}/crates/{name}", str(tree), known).below():
        record = folder_of_records() / it.name
        if it.is_built():
            continue
        if stale(it, record):
            return
        os.makedirs(Path(it.rlib).parent, exist_ok=True)
        run_tool(it, "rattle", "build", *words_for(it), "--crate-checked", str(record), "-o", it.rlib)
        Path(it.rlib).with_name("stamp").write_text(it.stamp(), encoding="utf-8")


def build_crate(name: str, top: Path = TOP) -> int:
    """Builds a crate and what it stands on from their records. Returns the status of this command."""
    if not (top / "records").is_dir() or not folder_of_records(top).is_dir():
        print(f"{name}: no proof is recorded for this toolchain", file=sys.stderr)
        return NO_RECORD_FITS
    crates = crates_for([name], top)
    records = {it.name: folder_of_records(top) / it.name for it in crates}
    with no_other_run_in(crates):
        if why := next(filter(None, (stale(it, records[it.name]) for it in crates)), None):
            print(f"{name}: {why}", file=sys.stderr)
            return NO_RECORD_FITS
        print(f"{name}: building from the recorded proof of these sources, in a minute; ./check proves them here", file=sys.stderr)
        for crate in crates:
            record = records[crate.name]
            try:
                build(crate, record)
            except (OSError, Refused) as error:
                where = record.relative_to(top)
                print(f"{error}\n{name}: not built: {where} is damaged, or no record of these sources. Restore it; or remove it, "
                      "and all is proved here", file=sys.stderr)
                return 1
    return 0


def verdicts_in(log: str) -> dict[str, str]:
    """The last verdict of each crate in what `rt ci` printed."""
    found = {}
    for name, said in re.findall(r"^== (\w+)$(.*?)(?=^== |\Z)", log, re.M | re.S):
        lines = re.findall(r"^logic=proved .*$", said, re.M)
        if lines:
            found[name] = lines[-1]
    return found


def facts(verdict: str) -> set[str]:
    """What a verdict says of a proof, whatever it took from an earlier run."""
    return {it for it in verdict.split() if it.partition("=")[0] not in TRUSTS}


def compare_crate(crate: Any, record: Path, verdict: str | None) -> str | None:
    """What of a crate's record is other than the proof made anew, whose program is in the crate's folder, or nothing. There is no
    verdict to compare if `rt ci` took the proof of an earlier run."""
    with tempfile.TemporaryDirectory() as folder:
        made, recorded = made_of(crate), Path(folder, made_of(crate).name)
        try:
            build(crate, record, recorded)
            said = Path(record, "verdict").read_text(encoding="utf-8").strip()
        except (OSError, Refused) as error:
            return f"the prover refuses it:\n{error}"
        if verdict is not None and facts(said) != facts(verdict):
            return f"it says {said}, and the proof made anew {verdict}"
        if not made.exists():
            # A library has no code of its own, and the clients' part builds the archive for C.
            return None if crate.makes_rlib() or crate.is_static else "no program was built of the proof made anew"
        is_other = made.read_bytes() != recorded.read_bytes()
        return "its code is other than that of the proof made anew" if is_other else None


def others_of_records() -> list[str]:
    """What stands in records/ beside the records of this build of the toolchain: nothing compares it."""
    return sorted(it.name for it in folder_of_records().parent.iterdir() if it.name not in ("README.md", folder_of_records().name))


def compare_crates(crates: list[Any], verdicts: Mapping[str, str | None]) -> Iterator[tuple[Path, str | None, bool]]:
    """Compares the records of crates, each below those that use it. Yields of each its record, what is wrong with it, or nothing, and
    whether that is only that it is of other sources."""
    left_out = set()
    for crate in crates:
        record = folder_of_records() / crate.name
        below = [it.name for it in crate.below() if it.name in left_out]
        why = stale(crate, record) or below and f"{crate.name} stands on {below[0]}"
        verdict = verdicts.get(crate.name, "")
        fault = why or compare_crate(crate, record, verdict)
        if fault and crate.makes_rlib():
            left_out.add(crate.name)
        yield record.relative_to(TOP), fault, bool(why)


def compare(tree: str, log: str, *words: str) -> int:
    """Compares each record that fits a copy of the sources with what `rt ci` proved and built there. Returns the status."""
    if not folder_of_records().is_dir():
        others = " and ".join(others_of_records()) or "none"
        left_out = [f"no record of these sources: none is by this build of the toolchain, but by {others}"]
        print(*left_out)
        tell_count(0, 0, left_out)
        return 0
    said = Path(log).read_text(encoding="utf-8", errors="replace")
    verdicts = dict.fromkeys(re.findall(r"^rt: (\w+) is kept: ", said, re.M)) | verdicts_in(said)
    crates, passed = crates_for(BUILT, Path(tree)), 0
    faults, left_out = [f"records/{it}: nothing compares this: remove it" for it in others_of_records()], []
    with no_other_run_in(crates):
        for record, fault, is_stale in compare_crates(crates, verdicts):
            if not is_stale and verdicts.get(record.name, "") is None:
                left_out.append(f"no verdict made anew: {record.name} was proved by an earlier run on this machine")
            if is_stale and "--committed" not in words:
                left_out.append(f"no record of these sources: {fault}")
            elif fault:
                faults.append(f"{record}: {fault}")
            else:
                passed += 1
    print(*(f"{it}\n" for it in [*left_out, *faults]), sep="", end="")
    tell_count(passed, len(faults), left_out)
    return 1 if faults else 0


if __name__ == "__main__":
    if len(sys.argv) == 3 and sys.argv[1] == "build":
        sys.exit(build_crate(sys.argv[2]))
    if sys.argv[1:2] == ["compare"] and (len(sys.argv) == 4 or sys.argv[4:] == ["--committed"]):
        sys.exit(compare(*sys.argv[2:]))
    print(__doc__, file=sys.stderr)
    sys.exit(2)
