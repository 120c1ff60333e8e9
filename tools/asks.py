"""Which requests for memory the calls of a scenario make, by the model of an interner's memory (`rooms.py`), and those of the
program itself before it makes a call."""

import json
from collections.abc import Iterable, Iterator
from itertools import takewhile
from typing import Any

from rooms import ROOMS, WIDTHS, Interner, Memory, NoMemory, NoSymbol, Room, Slots
from scenarios import Part, Scenario, cut, without_asks

# What `texts_asked` interns and drops again.
QUESTION = b"how many texts were you asked for?"
# In bytes: a number or a text in a list of the program, a command, a reply, and a JSON value.
NUMBER, TEXT, COMMAND, REPLY, VALUE = 8, 16, 24, 32, 32


def make_texts(name: str, text: bytes) -> Iterator[bytes]:
    """The texts that the program makes for a call: numbers, choices of words by them, or numbers by the distances to each."""
    count, _, letters = text.partition(b" ")
    words, far = letters.split(b","), 0
    for number in range(int(count)):
        match name:
            case "choices":
                yield b"".join(words[at + (number >> at // 2 & 1)] for at in range(0, len(words), 2))
            case "distances":
                high, low = letters[2 * number:2 * number + 2]
                far += 94 * (high - 33) + low - 33
                yield b"%d" % far
            case _:
                yield b"%d" % number


class Calls:
    """The calls of a scenario, made on the model. `first` is the scenario's first line."""

    def __init__(self, first: bytes) -> None:
        self.level, self.backend, self.symbol, _ = first.decode().split(" ", 3)
        self.memory = Memory()
        self.one, self.other = self.new(), self.new()
        self.starts, self.counts = Room(self.memory, 8), list[int]()

    def new(self, capacity: int = 0) -> Interner:
        """A new interner with room for so many texts, or a backend, or an index over a backend without room."""
        slots = Slots(self.memory, self.symbol, self.level.split("_")[0]).with_capacity(capacity)
        return Interner(slots, ROOMS[self.backend](self.memory, 0 if self.level == "index" else capacity))

    def asks_of(self, part: Part) -> list[int]:
        """What a call asks for, or a block of commands."""
        self.memory.asks = []
        if part.word == b"run":
            self.run(part.lines, without_asks(part.printed)[:-1])
        else:
            self.call(*part.lines)
        return self.memory.asks

    def call(self, line: bytes) -> None:
        """Makes a call. One that finds no memory is made again."""
        name, has_texts, text = line.partition(b" ")
        try:
            self.make(name.decode(), text, text.split(b",") if has_texts else [])
        except NoSymbol:
            pass
        except NoMemory:
            self.memory.asks *= 2

    def run(self, lines: list[bytes], replies: list[bytes]) -> None:
        commands = [line.partition(b" ") for line in lines]
        self.join_numbers(max((int(text) for name, _, text in commands if name == b"InternNumbers"), default=0))
        self.memory.ask(TEXT * sum(text.count(b",") + len(space) for name, space, text in commands if name == b"Extend"))
        self.memory.ask(COMMAND * len(replies))
        self.memory.ask(REPLY * len(replies))
        for line, (name, _, text) in zip(lines, commands):
            self.command(line, replies[0])
            replies = replies[int(text) if name == b"InternNumbers" else 1:]

    def command(self, line: bytes, reply: bytes) -> None:
        """Makes a command of a run, whose reply may be a text that it copies."""
        if line.startswith((b"Resolve", b"Number")) and reply.startswith(b"text "):
            self.memory.ask(len(reply) - len(b"text "))
        self.call(line)

    def make(self, name: str, text: bytes, texts: list[bytes]) -> None:
        """Makes a call, which has a text, or texts between commas."""
        match name:
            case "get_or_intern" | "resolve_unchecked" | "declare" | "insert" | "intern" | "Intern":
                self.one.intern(text)
            case "get_or_intern_static" | "intern_static" | "InternStatic":
                self.one.intern(text, is_static=True)
            case "letters":
                self.memory.ask(int(text))
                self.one.intern(b"a" * int(text))
            case "extend" | "Extend":
                self.one.extend(texts)
            case "numbers" | "choices" | "distances" | "InternNumbers":
                self.intern_many(make_texts(name, text))
            case "empties":
                self.intern_many([b""] * int(text))
            case "intern_all":
                self.intern_all(texts)
            case "intern_slice":
                self.memory.ask(TEXT * len(texts))
                self.memory.ask(NUMBER * len(texts))
                self.one.extend(texts)
            case "extend_numbers" | "intern_all_numbers" | "from_iter_numbers":
                self.make(name.removesuffix("_numbers"), text, self.join_numbers(int(text)))
            case "truncate" | "Truncate":
                self.one.truncate(int(text))
            case "texts_asked" if self.level not in ("backend", "index"):
                count = len(self.one.texts)
                self.one.extend([QUESTION]).truncate(count)
            case "shrink_to_fit" | "Shrink":
                self.one.room.shrink()
            case "enter":
                self.starts.add()
                self.counts.append(len(self.one.texts))
            case "leave" if self.counts:
                self.starts.length -= 1
                self.one.truncate(self.counts.pop())
            case _:
                self.replace(name, text, texts)

    def join_numbers(self, count: int) -> list[bytes]:
        """The decimal numbers below a count, which the program joins."""
        self.memory.ask(count * (len(str(count)) + 1))
        return [b"%d" % number for number in range(count)]

    def intern_all(self, texts: list[bytes]) -> None:
        symbols = Room(self.memory, WIDTHS[self.symbol])
        for text in texts:
            symbols.add()
            self.one.intern(text)

    def intern_many(self, texts: Iterable[bytes]) -> None:
        """Interns texts that the program makes, and goes on where one has no symbol left."""
        for text in texts:
            try:
                self.one.intern(text)
            except NoSymbol:
                pass

    def replace(self, name: str, text: bytes, texts: list[bytes]) -> None:
        """Makes a call that makes an interner, or puts one in the place of another."""
        match name:
            case "new" | "with_hasher" | "into_backend":
                self.one = self.new()
            case "with_capacity" | "with_capacity_and_hasher":
                self.one = self.new(int(text))
            case "from_iter":
                self.one = self.new().extend(texts)
            case "clone":
                self.other = self.one.copy(self.one.slots.with_capacity(len(self.one.texts)))
            case "try_copy":
                self.other = self.one.copy(self.one.slots.with_count(self.one.slots.count))
            case "swap":
                self.one, self.other = self.other, self.one
            case "to_json" | "json_again" | "json_exact_again":
                for size in [VALUE * len(self.one.texts), *map(len, self.one.texts)]:
                    self.memory.ask(size)
                if name != "to_json":
                    self.other = self.new().extend(self.one.texts)
            case "from_json" | "from_json_exact" | "symbol_from_json":
                self.memory.ask(max(8, len(text)))
                value = self.read_value(json.loads(text))
                if name != "symbol_from_json" and isinstance(value, list):
                    self.read_texts(value, name == "from_json_exact")

    def read_value(self, value: Any) -> Any:
        """A value of JSON that is read: the bytes of each string, and a list that grows as it is read."""
        if isinstance(value, str):
            self.memory.ask(len(value.encode()))
        elif isinstance(value, list):
            values = Room(self.memory, VALUE)
            for element in value:
                self.read_value(element)
                values.add()
        return value

    def read_texts(self, value: list[Any], is_exact: bool) -> None:
        """Reads an interner, up to the first element that is refused; where there is none, it takes the place of `one`."""
        made = self.new()
        for element in value:
            if not isinstance(element, str) or is_exact and element.encode() in made.known:
                return
            made.intern(element.encode())
        self.one = made


def reckon(scenario: Scenario) -> list[list[int]]:
    """For each part, how many bytes each of its requests for memory is for. From a bad line on, none is made."""
    made = list(takewhile(lambda part: not part.is_bad, scenario.parts))
    asked = list(map(Calls(scenario.first).asks_of, made)) if made else []
    return asked + [[] for _ in scenario.parts[len(made):]]


def split_asks(parts: list[Part], output: bytes) -> list[list[int]]:
    """For each part, how many bytes each of its requests for memory is for, as a run told them."""
    asked: list[list[int]] = [[] for _ in parts]
    printed = at = 0
    for line in cut(output):
        while at < len(parts) - 1 and printed == len(without_asks(parts[at].printed)):
            at, printed = at + 1, 0
        if line.startswith(b"asks "):
            asked[at].append(int(line[5:]))
        else:
            printed += 1
    return asked
