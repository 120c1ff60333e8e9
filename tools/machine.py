"""What the machine has, and commands that run on it."""

import json
import os
import re
import subprocess
import sys
from collections.abc import Iterable
from functools import cache
from pathlib import Path
from typing import Any

PROCESSORS = len(os.sched_getaffinity(0))
# The file by which the gate learns what a part of it counted. What the part starts has its own counts.
COUNTS = os.environ.pop("GATE_COUNTS", os.devnull)


def available_bytes() -> int:
    with open("/proc/meminfo", encoding="utf-8") as file:
        return int(re.findall(r"MemAvailable: +(\d+)", file.read())[0]) << 10


def run_in(folder: str | Path, *words: object) -> tuple[int, str]:
    """Runs a command in a folder, on no input. Returns its status, and what it printed on both outputs."""
    ran = subprocess.run(list(map(str, words)), cwd=folder, stdin=subprocess.DEVNULL, stdout=subprocess.PIPE,
                         stderr=subprocess.STDOUT, encoding="utf-8", errors="replace", check=False)
    return ran.returncode, ran.stdout


def tell_count(passed: int, failed: int, left_out: Iterable[str] = ()) -> int:
    """Prints what passed and what failed, and hands both to the gate, with what was left out. Returns the status: 1 if anything failed, or
    nothing was tried."""
    print(f"{passed} passed, {failed} failed", flush=True)
    Path(COUNTS).write_text(json.dumps([passed, failed, [*left_out]]), encoding="utf-8")
    return 1 if failed or not passed else 0


@cache
def ask_rt(verb: str) -> str:
    """The first line that the toolchain answers: to `doc` the path of its guide, and to `version` what it is."""
    ran = subprocess.run(["rt", verb], stdin=subprocess.DEVNULL, stdout=subprocess.PIPE, encoding="utf-8", check=True)
    return ran.stdout.partition("\n")[0]


def has_rt() -> bool:
    """Whether the machine has the toolchain. Other programs have the name of its command, too."""
    try:
        return " logic " in ask_rt("version")
    except (OSError, UnicodeDecodeError, subprocess.CalledProcessError):
        return False


def toolchain_folder() -> Path:
    return Path(ask_rt("doc")).parent


@cache
def toolchain() -> Any:
    """The toolchain's own module, which knows how `rt` calls the prover and of what text a library is."""
    sys.path.append(str(toolchain_folder() / "bin"))
    import rtlib

    return rtlib
