"""Builds and tests the Rust crate, which is the proved source itself; builds the library for C, and builds and runs what calls it from C
and Python. If `rt` made the library, the one that cargo makes is tested, too, and beside it. All this runs beside each other. The last
line counts what passed and what failed. What is missing on the machine is named, with its packages (.ci/packages), and counts as failed.
The checks are the rows of the tables in tools/client_checks.

  --what-is-there      what is missing does not count
  --once               runs each test once: under no checker of memory or threads, on no other processor, by no further compiler or
                       Python, in no build for tests alone, and not over the library and the programs that cargo makes
  --archive ARCHIVE    builds the library from this (see clients/build)
  --original FOLDER    runs the tests of the original Rust crate, too (see clients/rust/original)
  --only LANGUAGE      c, rust or python: runs what is in this language; memcheck: Python under valgrind, which takes longest; cargo:
                       C and Python over the library that cargo makes; programs: `intern` and `dictcol` by cargo
"""

import argparse
import os
import sys
from concurrent.futures import ThreadPoolExecutor

from client_checks import c, python, rust
from client_checks.table import Language, Options, Told
from machine import tell_count

LANGUAGES = {
    "c": Language(c.CHECKS, needs=("cc",)),
    "rust": Language(rust.CHECKS, needs=("cc", "cargo"), wants_library=False, place=rust.place_of_crate),
    "python": Language(python.CHECKS, needs=("python3-config",), also=(python.HAS_MODULE,)),
    "memcheck": Language(python.MEMCHECK, needs=("python3-config",), also=(python.HAS_MODULE,), once=False),
    "cargo": Language(c.BY_CARGO, needs=("cc", "cargo"), once=False, place=c.place_by_cargo),
    "programs": Language(rust.PROGRAMS, needs=("cc", "cargo"), wants_library=False, once=False),
}


def run_languages(names: list[str], options: Options, told: Told) -> None:
    """Runs languages beside each other, once the library is built that some of them want."""
    if any(LANGUAGES[it].wants_library for it in names) and not told.try_all(Language([c.BUILT], needs=("cc",)), options):
        told.leave_out("all that wants the library", "left out: all that wants the library")
        names = [it for it in names if not LANGUAGES[it].wants_library]
    with ThreadPoolExecutor(len(LANGUAGES)) as pool:
        list(pool.map(lambda name: told.try_all(LANGUAGES[name], options), names))


def full_path(path: str) -> str:
    return path and os.path.abspath(path)


def main() -> int:
    parser = argparse.ArgumentParser(prog="check", description=__doc__, formatter_class=argparse.RawDescriptionHelpFormatter)
    parser.add_argument("--what-is-there", action="store_true")
    parser.add_argument("--once", action="store_true")
    parser.add_argument("--archive", type=full_path, default="")
    parser.add_argument("--original", type=full_path, default="", metavar="FOLDER")
    parser.add_argument("--only", choices=LANGUAGES, metavar="LANGUAGE")
    given = parser.parse_args()
    options = Options(given.what_is_there, given.once, given.archive, given.original)
    told = Told()
    run_languages([given.only] if given.only else [name for name, it in LANGUAGES.items() if it.once or not options.once], options, told)
    return tell_count(told.passed, told.failed, told.left_out)


if __name__ == "__main__":
    sys.exit(main())
