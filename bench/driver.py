"""The driver bench/beside: what it reads, and what it tells of each kind of interner, in a process of its own."""
import contextlib
import itertools
import os
import pathlib
import random
import string
import subprocess
import sys
import tempfile
from typing import NamedTuple

from results import HERE, IN_PLACE_OF, KINDS, PHASES, summary

from asks import make_texts
from built import Program
from scenarios import find_scenarios

DRIVER = HERE / "out/beside/target/release/beside"
WORD_LISTS = [f"/usr/share/dict/american-english{size}" for size in ("-insane", "-huge", "-large", "")]
LETTERS = string.ascii_lowercase + "_" + string.digits
# How the driver writes that a phase is not made.
NO_TIME = 2**64 - 1
# So many pairs of words make the chosen texts, which are 84 bytes long.
PAIRS = 14


class Input(NamedTuple):
    """A file that the driver reads: how many texts it has, and how many bytes each, in the mean."""

    path: pathlib.Path
    name: str
    count: int
    bytes: float

    def lines_of(self, kind, values):
        """Lines of results: values of a kind over all texts, by the name of what was measured."""
        head = (*kind.split("/"), self.name, self.count, f"{self.bytes:.1f}")
        return ["\t".join(map(str, (*head, measure, f"{value / self.count:.2f}"))) for measure, value in values.items()]

    def kinds(self):
        """The kinds that are measured on it. Chosen texts take long where they find their victim, so one backend is enough."""
        return ["/".join(kind) for kind in KINDS if self.name != "chosen" or kind[1] == "string"]


def word_list():
    return next((path for path in WORD_LISTS if os.path.exists(path)), None)


def identifier(chooser):
    """An identifier of 5 to 15 bytes, 10 in the mean."""
    return chooser.choice(string.ascii_lowercase) + "".join(chooser.choices(LETTERS, k=chooser.randrange(4, 15)))


def words_of_list(count, chooser):
    """Words of the list in any order; one that is not known is a known one with a letter more."""
    every = {*pathlib.Path(word_list()).read_text(encoding="utf-8", errors="replace").split("\n")} - {""}
    new = chooser.sample(sorted(every), min(count, len(every)))
    longer = ((word + "q" * more for more in itertools.count(1)) for word in new)
    return new, [next(other for other in others if other not in every) for others in longer]


def texts_of(name, count):
    """Distinct texts, or fewer where the list of words has fewer; the same in another order; and as many others."""
    chooser = random.Random(count)
    if name == "chosen":  # They are filled alone. Their FNV-1a codes agree in the low 32 bits, as the suite's README tells.
        [scenario] = find_scenarios("chosen_texts_string")
        words = scenario.parts[0].lines[0].split(b" ")[2].split(b",")[: 2 * PAIRS]
        return [text.decode() for text in make_texts("choices", b"%d %s" % (min(count, 2**PAIRS), b",".join(words)))], [], []
    if name == "words":
        new, unknown = words_of_list(count, chooser)
    else:
        pool = [identifier(chooser) for _ in range(100_000)] if name == "long" else []
        found = {}
        while len(found) < 2 * count:
            # A text of 200 bytes: identifiers with a space after each. The shortest take 34.
            found[" ".join(chooser.choices(pool, k=34))[:200] if pool else identifier(chooser)] = None
        new, unknown = list(found)[:count], list(found)[count:]
    return new, chooser.sample(new, len(new)), unknown


@contextlib.contextmanager
def input_of(name, count):
    """An input in its file."""
    lists = texts_of(name, count)
    with tempfile.TemporaryDirectory() as folder:
        path = pathlib.Path(folder, "texts")
        path.write_text("\n\n".join(map("\n".join, lists)), encoding="utf-8")
        yield Input(path, name, len(lists[0]), sum(len(text.encode()) for text in lists[0]) / len(lists[0]))


def told(words):
    result = subprocess.run([DRIVER, *map(str, words)], text=True, capture_output=True)
    if result.returncode:
        sys.exit(f"{result.stderr}bench: the driver failed")
    return result.stdout.splitlines()


def compare(sums):
    """Ends where two kinds that number alike gave different sums in a phase that both made, or one of them in phases that have
    the same one. Kinds over buffers count bytes, all others texts."""
    for kind, own in sums.items():
        model = next(it for it in sums if ("/buffer/" in it) == ("/buffer/" in kind))
        if faults := [phase for phase in own.keys() & sums[model].keys() if own[phase] != sums[model][phase]]:
            sys.exit(f"bench: {kind} and {model} differ in {faults[0]}")
        if faults := [phase for phase, same in IN_PLACE_OF.items() if phase in own and own[phase] != own[same]]:
            sys.exit(f"bench: {kind} differs in {faults[0]} and {IN_PLACE_OF[faults[0]]}")


def time_kinds(given, seconds, passes):
    """Lines of the times of all kinds. Each is measured for a share of its time, again and again, so that a slow spell of the
    machine falls on all."""
    rounds, sums = {kind: [] for kind in given.kinds()}, {}
    for _, kind in itertools.product(range(passes), rounds):
        lines = told([kind, given.path, 1, seconds / passes])
        first, *times = ([int(number) for number in line.split()] for line in lines)
        rounds[kind] += times
        sums[kind] = {phase: of for phase, of, time in zip(PHASES, first, times[0]) if time != NO_TIME}
    compare(sums)
    for kind, rows in rounds.items():
        for phase, times in zip(PHASES, zip(*rows)):
            if phase in sums[kind]:
                yield from given.lines_of(kind, summary(phase, times))


def count_memory(given):
    """Lines of what all kinds hold once they are filled, and of the most that they held."""
    with tempfile.TemporaryDirectory() as folder:
        program = Program(DRIVER, folder)
        for kind in given.kinds():
            status, _, message = program.run([kind, given.path], seconds=None, TELL_BYTES=1)
            if status:
                sys.exit(f"{message.decode()}bench: the driver failed")
            yield from given.lines_of(kind, dict(zip(("live", "peak"), map(int, message.split()[1:]))))
