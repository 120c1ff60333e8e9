"""A model of the memory that an interner has and asks for, by the rules that crates/suite/README.md tells. It knows a list of texts
and nothing that was run. `asks.py` makes the calls of scenarios on it.
"""

from collections.abc import Callable, Iterable
from typing import Self

WIDTHS = {"SymbolU16": 2, "SymbolU32": 4, "SymbolUsize": 8, "usize": 8, "Even": 2, "Bit": 1}
# The symbol types that say that no number from 2^32 - 1 on has a symbol.
NARROW = {"SymbolU16", "SymbolU32"}
# Which numbers have a symbol.
HAS_SYMBOL: dict[str, Callable[[int], bool]] = {
    "SymbolU16": lambda number: number < 2 ** 16 - 1,
    "SymbolU32": lambda number: number < 2 ** 32 - 1,
    "SymbolUsize": lambda number: number < 2 ** 64 - 1,
    "usize": lambda number: number < 2 ** 64,
    "Even": lambda number: number % 2 == 0 and number < 2 ** 17,
    "Bit": lambda number: number < 2,
}


class NoMemory(Exception):
    """A size that is no `usize`, for which nothing is asked."""


class NoSymbol(Exception):
    """A text that has no symbol left."""


class Memory:
    """What was asked for since this was last cleared."""

    def __init__(self) -> None:
        self.asks: list[int] = []

    def ask(self, size: int) -> None:
        if size >= 2 ** 63:
            raise NoMemory
        if size:
            self.asks.append(size)


class Room:
    """A list whose items take a number of bytes: how many there are, and how many it has room for."""

    def __init__(self, memory: Memory, width: int, capacity: int = 0, length: int = 0) -> None:
        self.memory, self.width, self.capacity, self.length = memory, width, capacity, length
        memory.ask(capacity * width)

    def add(self, count: int = 1) -> None:
        if self.length + count > self.capacity:
            self.capacity = self.grown_by(count)
            self.memory.ask(self.capacity * self.width)
        self.length += count

    def grown_by(self, count: int) -> int:
        return max(self.length + count, 2 * self.capacity, 8 if self.width == 1 else 4)

    def shrink(self) -> None:
        if self.length < self.capacity:
            self.capacity = self.length
            self.memory.ask(self.capacity * self.width)

    def copy(self) -> Self:
        return type(self)(self.memory, self.width, self.length, self.length)


class BackendRoom(Room):
    """A list of a backend or of codes, which grows by a quarter once it takes 1 MiB."""

    def grown_by(self, count: int) -> int:
        if self.length * self.width < 2 ** 20:
            return super().grown_by(count)
        return self.length + max(count, self.length // 4)


class StringRoom:
    """The memory of a `StringBackend`."""

    def __init__(self, memory: Memory, capacity: int = 0) -> None:
        self.joined = BackendRoom(memory, 1, 5 * capacity)
        # No scenario has 4 GiB of texts, so ends are wide only while there is a capacity that was for as many.
        self.ends = BackendRoom(memory, 4 if 5 * capacity < 2 ** 32 else 8, capacity)

    def add(self, text: bytes, is_static: bool) -> None:
        self.joined.add(len(text))
        if not self.ends.capacity:
            self.ends.width = 4
        self.ends.add()

    def keep(self, texts: list[bytes]) -> None:
        self.joined.length, self.ends.length = sum(map(len, texts)), len(texts)

    def shrink(self) -> None:
        self.joined.shrink()
        self.ends.shrink()

    def copy(self, memory: Memory) -> "StringRoom":
        made = StringRoom(memory)
        made.joined, made.ends = self.joined.copy(), self.ends.copy()
        return made

    def next_number(self) -> int:
        return self.ends.length


class BucketRoom:
    """The memory of a `BucketBackend`, and of each entry how many bytes it has in a bucket: None, where it is static."""

    def __init__(self, memory: Memory, capacity: int = 0) -> None:
        self.entries = BackendRoom(memory, 16, capacity)
        self.older = Room(memory, 32)
        self.head = Room(memory, 1, capacity)
        self.older_bytes = 0
        self.lengths: list[int | None] = []

    def add(self, text: bytes, is_static: bool) -> None:
        self.entries.add()
        self.lengths.append(None if is_static else len(text))
        if is_static:
            return
        if self.head.length + len(text) > self.head.capacity:
            self.older.add()
            self.older_bytes += self.head.length
            least = max(self.head.capacity, len(text)) + 1
            self.head = Room(self.head.memory, 1, 1 << (least - 1).bit_length())
        self.head.length += len(text)

    def keep(self, texts: list[bytes]) -> None:
        del self.lengths[len(texts):]
        self.entries.length = len(texts)

    def shrink(self) -> None:
        self.entries.shrink()
        self.older.shrink()

    def copy(self, memory: Memory) -> "BucketRoom":
        made = BucketRoom(memory)
        made.entries, made.lengths = self.entries.copy(), list(self.lengths)
        made.head = Room(memory, 1, self.head.capacity + self.older_bytes, sum(filter(None, self.lengths)))
        return made

    def next_number(self) -> int:
        return self.entries.length


class BufferRoom:
    """The memory of a `BufferBackend`."""

    def __init__(self, memory: Memory, capacity: int = 0) -> None:
        self.bytes = BackendRoom(memory, 1, 13 * capacity)

    @staticmethod
    def size(text: bytes) -> int:
        """How many bytes a text takes behind its length, which has seven bits in each byte."""
        return max(len(text).bit_length() + 6, 7) // 7 + len(text)

    def add(self, text: bytes, is_static: bool) -> None:
        self.bytes.add(self.size(text))

    def keep(self, texts: list[bytes]) -> None:
        self.bytes.length = sum(map(self.size, texts))

    def shrink(self) -> None:
        self.bytes.shrink()

    def copy(self, memory: Memory) -> "BufferRoom":
        made = BufferRoom(memory)
        made.bytes = self.bytes.copy()
        return made

    def next_number(self) -> int:
        return self.bytes.length


BackendMemory = StringRoom | BucketRoom | BufferRoom
# Calls on symbols use no backend, so it does not matter which one they have.
ROOMS: dict[str, Callable[[Memory, int], BackendMemory]] = {
    "string": StringRoom, "counting": StringRoom, "bucket": BucketRoom, "buffer": BufferRoom, "none": StringRoom}


# How many slots may be filled of how many, where it is not three of four: a linear index grows by one slot, and a backend alone
# has none and needs none.
SHARES = {"tagged": (7, 8), "linear": (1, 1), "backend": (1, 0)}


class Slots:
    """The slots of an index of a kind."""

    def __init__(self, memory: Memory, symbol: str, kind: str, count: int = 0) -> None:
        self.memory, self.symbol, self.kind, self.count = memory, symbol, kind, count
        for size in self.sizes() if count else ():
            memory.ask(size)

    def sizes(self) -> tuple[int, ...]:
        width = WIDTHS[self.symbol]
        match self.kind:
            case "backend":
                return ()
            case "linear":
                return width * self.count,
            case "tagged":
                # A symbol and a code of 4 bytes take a multiple of what the wider one takes.
                widest = max(width, 4)
                return -(-(width + 4) // widest) * widest * self.count, self.count + 16
        # A number in four bytes, unless 2^32 - 1 is a symbol's; and an `Option` of a symbol, unless the numbers are narrow.
        return (4 * self.count * (not HAS_SYMBOL[self.symbol](2 ** 32 - 1)),
                2 * width * self.count * (self.symbol not in NARROW))

    def holds(self, texts: int, count: int) -> bool:
        """Whether so many slots hold so many texts."""
        filled, of = SHARES.get(self.kind, (3, 4))
        return of * texts <= filled * count

    def with_capacity(self, capacity: int) -> "Slots":
        """New slots, the least that hold so many texts."""
        count = capacity if self.kind == "linear" else 8 if capacity else 0
        while not self.holds(capacity, count):
            count *= 2
        return self.with_count(count)

    def with_count(self, count: int) -> "Slots":
        return Slots(self.memory, self.symbol, self.kind, count)

    def reserved(self, texts: int) -> "Slots":
        return self if self.holds(texts, self.count) else self.with_capacity(texts)


class Interner:
    """A list of distinct texts, and the memory that an interner has for it. A backend alone may have a text twice."""

    def __init__(self, slots: Slots, room: BackendMemory, texts: Iterable[bytes] = ()) -> None:
        self.slots, self.room = slots, room
        self.texts, self.known = list(texts), set(texts)

    def intern(self, text: bytes, is_static: bool = False) -> None:
        if text in self.known and self.slots.kind != "backend":
            return
        if not HAS_SYMBOL[self.slots.symbol](self.room.next_number()):
            raise NoSymbol
        self.slots = self.slots.reserved(len(self.texts) + 1)
        self.room.add(text, is_static)
        self.texts.append(text)
        self.known.add(text)

    def extend(self, texts: Iterable[bytes]) -> Self:
        for text in texts:
            self.intern(text)
        return self

    def truncate(self, count: int) -> None:
        del self.texts[count:]
        self.known = set(self.texts)
        self.room.keep(self.texts)

    def copy(self, slots: Slots) -> "Interner":
        return Interner(slots, self.room.copy(self.slots.memory), self.texts)
