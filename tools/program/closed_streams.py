"""What is tried of `dictcol` in each form in which it reads and writes: each of its standard streams open or closed, and each read
interrupted."""

import errno
import os
import shutil
from collections.abc import Collection, Iterable, Iterator
from itertools import product
from pathlib import Path
from typing import Any

from built import Program
from program.columns import columns_of, files_in, write_files
from program.expected import ENCODED as LOOKS_ENCODED
from program.expected import Ended, answer, failed, misused, skip_invalid, told, unreadable, unwritable, warned
from program.shards import shards_of
from program.streams import run_interrupted
from tree import TOP
from trials import Seen, Trial, own_folder

TEXT, BROKEN, MORE = b"red\ngreen\nred", b"a\n\xff\nb\n\xc3\na\n", b"blue\nred\n"
ENCODED = answer([b"encode"], TEXT)[1]
GOOD, SKIPPED = skip_invalid(BROKEN)
FILES = {"text": TEXT, "broken": BROKEN, "encoded": ENCODED, "empty": b"", "list": b"text\0text\0", "bad list": b"text\0\0"}
# The files of a folder, by their names.
Files = dict[str, bytes]
# What the source of the program has between quotes.
HELP = (TOP / "crates/dictcol/src/help.rt").read_bytes().split(b'"\\\n')[1].split(b'";')[0]
SKIP = b"--invalid=skip"


def forms() -> Iterator[tuple[list[bytes], bytes | None, Ended, Files | None]]:
    """The arguments, standard input if it is read, how a run ends, and the files of the folder `new` if it makes that."""
    for word in b"encode", b"count":
        yield [word], TEXT, answer([word], TEXT), None
        yield [word, b"text"], None, answer([word], TEXT), None
        yield [word, b"text", b"-"], MORE, answer([word], TEXT + MORE), None
        yield [word, SKIP], BROKEN, answer([word, SKIP], BROKEN), None
        yield [word, SKIP, b"broken"], None, answer([word, SKIP], BROKEN), None
        ended = answer([word], ENCODED)
        yield [word, b"encoded"], None, (ended[0], ended[1], warned(ENCODED, b"encoded: ")), None
        yield [word, b"broken"], None, failed(2, b"broken: line 2 is not UTF-8 (see --invalid)"), None
        yield [word, b"missing"], None, failed(1, b"missing: cannot read input: " + told(errno.ENOENT)), None
        yield [word, b"empty"], None, answer([word], b""), None
        yield [word, b"--files0-from=list"], None, answer([word], TEXT + TEXT), None
        yield [word, b"--files0-from=-"], FILES["list"], answer([word], TEXT + TEXT), None
        yield [word, b"--files0-from=bad list"], None, failed(2, b"bad list:2: invalid zero-length file name"), None
    yield [b"count", b"-z", SKIP, b"broken"], None, answer([b"count", b"-z", SKIP], BROKEN), None
    yield [b"count", b"--sorted", b"--encoded"], ENCODED, answer([b"count", b"--sorted"], TEXT), None
    yield [b"count", b"--top=1", b"--at-least=2", b"--encoded"], ENCODED, answer([b"count", b"--top=1", b"--at-least=2"], TEXT), None
    yield [b"count", b"--encoded", b"encoded"], None, answer([b"count"], TEXT), None
    yield [b"decode"], ENCODED, (0, TEXT, b""), None
    yield [b"decode", b"encoded"], None, (0, TEXT, b""), None
    yield [b"decode", b"plain"], None, (0, TEXT, b""), None
    yield [b"decode", b"text"], None, failed(2, b"text: invalid JSON at line 1 column 1"), None
    yield [b"merge", b"-", b"encoded"], ENCODED, answer([b"encode"], TEXT + TEXT), None
    yield [b"merge", b"encoded", b"encoded"], None, answer([b"encode"], TEXT + TEXT), None
    plain = [b"encode", b"--plain", b"new"]
    yield plain, TEXT, (0, b"", b""), columns_of(TEXT)
    yield [*plain, SKIP, b"broken"], None, (0, b"", SKIPPED), columns_of(GOOD)
    yield [*plain, b"--onto", b"plain", SKIP], BROKEN, (0, b"", SKIPPED), columns_of(GOOD, [b"red", b"green"])
    yield [*plain, b"--onto-dictionary", b"plain"], MORE, (0, b"", b""), columns_of(MORE, [b"red", b"green"])
    yield [*plain, b"--onto-dictionary=text", b"text"], None, failed(1, b"text: cannot read dict.txt: " + told(errno.ENOTDIR)), None
    yield [*plain, b"--files0-from=list"], None, (0, b"", b""), columns_of(TEXT + TEXT)
    yield [*plain, b"encoded"], None, (0, b"", warned(ENCODED, b"encoded: ")), columns_of(ENCODED)
    yield [*plain, b"broken"], None, failed(2, b"broken: line 2 is not UTF-8 (see --invalid)"), None
    shard = [b"shard", b"3", b"new"]
    yield shard, TEXT, (0, b"", b""), shards_of(TEXT, 3)
    yield [*shard, SKIP], BROKEN, (0, b"", SKIPPED), shards_of(GOOD, 3)
    yield [*shard, SKIP, b"broken"], None, (0, b"", SKIPPED), shards_of(GOOD, 3)
    yield [*shard, b"--files0-from=-"], FILES["list"], (0, b"", b""), shards_of(TEXT + TEXT, 3)
    yield [*shard, b"encoded", b"text"], None, (0, b"", warned(ENCODED, b"encoded: ")), shards_of(ENCODED + TEXT, 3)
    yield [*shard, b"broken"], None, failed(2, b"broken: line 2 is not UTF-8 (see --invalid)"), None
    yield [b"--version"], None, (0, b"dictcol 0.1.0\n", b""), None
    yield [b"--help"], None, (0, HELP, b""), None
    yield [b"count", b"--sort"], None, misused(b"unknown option '--sort'"), None


def write_all() -> None:
    """Writes what the forms read."""
    for name, content in FILES.items():
        Path(name).write_bytes(content)
    write_files("plain", columns_of(TEXT))


def all_files() -> dict[str, Any]:
    return {it.name: files_in(it) if it.is_dir() else it.read_bytes() for it in Path().iterdir()}


def files_after(made: Files | None) -> dict[str, Any]:
    """All files behind a run that makes these."""
    return FILES | {"plain": columns_of(TEXT)} | ({"new": made} if made else {})


def close(numbers: Iterable[int]) -> None:
    for number in numbers:
        os.close(number)


def end_with(closed: Collection[int], given: bytes | None, end: Ended) -> Ended:
    """How a run ends with these streams closed: what is read or written there fails."""
    if 0 in closed and given is not None:
        end = 1, b"", unreadable(errno.EBADF)
    elif 1 in closed and end[1]:
        end = unwritable(errno.EBADF)[0], b"", unwritable(errno.EBADF)[1]
    return (end[0], end[1], b"") if 2 in closed else end


def try_closed(program: Program, words: list[bytes], given: bytes | None, end: Ended, made: Files | None) -> Seen:
    """The status is right, what was read stays as it was, and no file gets a message."""
    for closed in ([it for it, is_closed in enumerate(them) if is_closed] for them in product((False, True), repeat=3)):
        with own_folder():
            write_all()
            name, wanted = f"{words} without {closed}", end_with(closed, given, end)
            yield name, program.run(words, given or b"", before=lambda: close(closed)), wanted
            yield f"{name}, files", all_files(), files_after(made if wanted[0] == 0 else None)


def try_interrupted(program: Program, words: list[bytes], given: bytes | None, end: Ended, made: Files | None) -> Seen:
    """A signal during a read changes nothing, whatever file is read. A warning is of what the first read gives."""
    size = max(5, len(LOOKS_ENCODED) * (b"warning" in end[2]))
    write_all()
    for name, ended in run_interrupted(program, words, given or b"", size):
        yield name, ended, end
        yield f"{name}, files", all_files(), files_after(made)
        shutil.rmtree("new", ignore_errors=True)


def trials() -> list[Trial]:
    return [(trial, *given) for trial in (try_closed, try_interrupted) for given in forms()]
