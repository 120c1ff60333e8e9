"""The scenarios and their files, which crates/suite/README.md describes. Bytes are those of files and outputs, cut at newlines."""

import hashlib
import re
from collections import Counter
from collections.abc import Iterable, Iterator
from dataclasses import dataclass, replace
from functools import cache
from itertools import product
from pathlib import Path

from tree import TOP

CRATE = TOP / "crates/suite"
# The scenarios whose requests for memory are refused, and those that are run once each.
SMALL, LARGE = "scenarios", "large"
# The levels that have an index of either kind, and their words with a tagged index.
WITH_INDEX = {b"interner": b"tagged", b"scopes": b"tagged_scopes", b"run": b"tagged_run"}
# Those whose calls are blocks of commands.
RUNS = (b"run", b"tagged_run")
# Backends and hashers of scenarios that are run again with a tagged index: those that count what is asked for or hashed would
# print other counts.
COUNT_NOTHING = set(product((b"string", b"bucket", b"buffer"), (b"default", b"constant", b"length", b"salted", b"fold", b"sip")))
# What the suite's source says that it does for a first line.
ARM = re.compile(r'^        "(\w+ \w+ \w+ \w+)" => ((?:.+\n(?=        [ )>}]))*.+\n)', re.M)
# A scenario of a file: its name, comments, and blocks.
SCENARIO = re.compile(rb"^scenario (\w+)\n((?:#.*\n)*)((?:(?!scenario ).*\n)*)", re.M)
# A block: its first lines, and what stands below them. There, what is printed for a call.
BLOCK = re.compile(rb"^((?:on .*\n)+)((?:.+\n)*)", re.M)
PRINTED = rb"((?:(?!> ).+\n)*)"
# What stands in the place of an output that is too long to keep.
DIGEST = re.compile(rb"\d+ lines, SHA-256 \w+")


def cut(text: bytes) -> list[bytes]:
    """The lines of a file or an output, without their newlines."""
    return text.split(b"\n")[:-1]


def join(lines: Iterable[bytes]) -> bytes:
    return b"".join(line + b"\n" for line in lines)


@cache
def built_firsts() -> set[bytes]:
    """The first lines for which the suite is built."""
    return {first.encode() for first, _ in ARM.findall((CRATE / "src/scenario.rt").read_text(encoding="utf-8"))}


def word_of(line: bytes) -> bytes:
    return line.split(b" ")[0]


def without_asks(lines: Iterable[bytes]) -> list[bytes]:
    return [line for line in lines if word_of(line) != b"asks"]


def digest_of(output: bytes) -> bytes:
    return f"{len(cut(output))} lines, SHA-256 {hashlib.sha256(output).hexdigest()}\n".encode()


@dataclass
class Part:
    """A call, or a block of commands, and what is printed for it. `word` is the name of the call, or `run`."""

    word: bytes
    lines: list[bytes]
    printed: list[bytes]

    @property
    def is_bad(self) -> bool:
        """Whether a line of it is bad, of which the message is printed last."""
        return word_of(b"".join(self.printed[-1:])) == b"line"

    @property
    def unseen(self) -> int:
        """How many of its requests may be refused unseen. Shrinking alone may keep the larger block and say nothing."""
        return 2 * sum(line in (b"shrink_to_fit", b"Shrink") for line in self.lines)


# A block as it is read: its first lines, and the parts below them.
Block = tuple[list[bytes], list[Part]]


@dataclass(frozen=True)
class Scenario:
    """The calls of a name on what a first line names. A large one is run once, and the answers of a given one were asked for."""

    name: str
    first: bytes
    parts: list[Part]
    is_large: bool = False
    is_given: bool = False

    def __str__(self) -> str:
        return f"{self.name} on {self.first.decode()}"

    @property
    def input(self) -> bytes:
        """What the program reads. An empty line divides the blocks of a run."""
        between = b"\n" if word_of(self.first) in RUNS else b""
        return self.first + b"\n" + between.join(join(part.lines) for part in self.parts)

    @property
    def printed(self) -> list[bytes]:
        return [line for part in self.parts for line in part.printed]

    @property
    def has_sizes(self) -> bool:
        """Whether it has the sizes of the allocations."""
        return without_asks(self.printed) != self.printed

    def end(self) -> tuple[int, bytes, bytes]:
        """The status, standard output and the message of a bad line."""
        lines = without_asks(self.printed)
        message = [lines.pop()] if any(part.is_bad for part in self.parts) else []
        return 2 if message else 0, join(lines), join(message)

    def on(self, first: bytes) -> "Scenario":
        """The same calls on something else, where they may ask for other sizes."""
        return replace(self, first=first, parts=[replace(part, printed=without_asks(part.printed)) for part in self.parts])

    def again(self) -> Iterator["Scenario"]:
        """The same with a tagged index, and on a fast type, which has one and hashes by `fold`, where the suite is built for these."""
        yield from (self.on(first) for first in self.firsts_again() if first in built_firsts())

    def firsts_again(self) -> Iterator[bytes]:
        """The first lines on which the calls print the same, with a tagged index in the place of the other."""
        level, *types = self.first.split(b" ", 3)
        if level in WITH_INDEX and tuple(types[::2]) in COUNT_NOTHING:
            tagged = WITH_INDEX[level] + self.first.removeprefix(level)
            yield tagged
            if tagged.endswith(b" SymbolU32 default"):
                yield tagged.removesuffix(b"default") + b"fold"


def read_blocks(text: bytes) -> Iterator[Block]:
    """The blocks of a scenario."""
    for head, below in BLOCK.findall(text):
        firsts = [line.removeprefix(b"on ") for line in cut(head)]
        is_run = word_of(firsts[0]) in RUNS
        found = re.findall((rb"((?:> .*\n)*)" if is_run else rb"((?:> .*\n)?)") + PRINTED, below)
        units = (([line.removeprefix(b"> ") for line in cut(calls)], cut(printed)) for calls, printed in found)
        yield firsts, [Part(b"run" if is_run else word_of(b"".join(lines)), lines, printed) for lines, printed in units
                       if lines or printed]


def write_block(firsts: list[bytes], parts: list[Part]) -> bytes:
    calls = (join(b"> " + line for line in part.lines) + join(part.printed) for part in parts)
    return join(b"on " + first for first in firsts) + b"".join(calls)


def read_file(text: bytes) -> Iterator[tuple[str, bytes, list[Block]]]:
    """The scenarios of a file: their names, comments and blocks."""
    yield from ((name.decode(), comments, list(read_blocks(blocks))) for name, comments, blocks in SCENARIO.findall(text))


def write_file(scenarios: Iterable[tuple[str, bytes, list[Block]]]) -> bytes:
    written = (b"scenario %s\n%s%s" % (name.encode(), comments, b"\n".join(write_block(*block) for block in blocks))
               for name, comments, blocks in scenarios)
    return b"\n".join(written)


def find_files(crate: Path = CRATE) -> list[Path]:
    """The files of scenarios, large ones first, which take long."""
    return [path for folder in (LARGE, SMALL) for path in sorted((crate / folder).rglob("*.scenario"))]


def find_scenarios(name: str = "", *words: str) -> Iterator[Scenario]:
    """All scenarios, or those of a name whose first lines have these words."""
    for path in find_files():
        is_large = path.parent.parent.name == LARGE
        for named, comments, blocks in read_file(path.read_bytes()):
            is_given = b"# Given:" in comments
            if name in ("", named):
                for firsts, parts in blocks:
                    chosen = (it for it in firsts if {*words} <= {*it.decode().split(" ")})
                    yield from (Scenario(named, first, parts, is_large, is_given) for first in chosen)


def file_faults(crate: Path = CRATE) -> Iterator[str]:
    """What is wrong with the files: one has no scenario, or what nothing reads; or two scenarios have one name, or one says what it
    must not."""
    files = [path for folder in (SMALL, LARGE) for path in sorted((crate / folder).rglob("*")) if path.is_file()]
    yield from (f"{path.name} is no scenario" for path in files if path.suffix not in (".scenario", ".py"))
    names = Counter[str]()
    for path in find_files(crate):
        text = path.read_bytes()
        found = list(read_file(text))
        if not text or text != write_file(found):
            yield f"{path.parent.name}/{path.name} is not as it would be written"
        names.update(name for name, _, _ in found)
        yield from (f"{name} {fault}" for name, _, blocks in found for fault in faults_of(blocks, path.parent.name))
    yield from (f"{count} scenarios have the name {name}" for name, count in names.items() if count > 1)


def faults_of(blocks: list[Block], level: str) -> Iterator[str]:
    """What a scenario says that it must not: nothing, another list of calls, a level that is not the folder's, or the answer of a
    call below another one."""
    if not blocks:
        yield "has no block"
    for firsts, parts in blocks:
        if [part.lines for part in parts if part.lines] != [part.lines for part in blocks[0][1] if part.lines]:
            yield "has more than one list of calls"
        if {word_of(first).decode() for first in firsts} != {level} and not parts[0].is_bad:
            yield f"is of another level than its folder, {level}"
        # A call prints one line that is not indented, at its end.
        yield from (f"has two answers of {part.word.decode()}" for part in parts if part.word != b"run"
                    and not all(line.startswith(b"  ") for line in without_asks(part.printed)[:-1]))
