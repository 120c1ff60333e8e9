"""What memory `dictcol` asks for to encode or count lines: a model, over that of an interner's memory (`rooms.py`)."""

from collections import Counter
from collections.abc import Sequence

from program.expected import is_sorted, number_of
from rooms import ROOMS, BackendRoom, Interner, Memory, Room, Slots

# In bytes: the buffer of standard output, and the block that an input is read to; what `encode` holds before it writes; of `count` a
# number, and of sorted lines a row, which has a number and a text.
OUTPUT_BUFFER, BLOCK, HELD, COUNT, ROW = 1 << 16, 1 << 18, 1 << 17, 8, 24
# From so many distinct lines on `count` takes lines by so many, and has a code for each of these.
FEWEST_FOR_BLOCKS, BLOCK_LEN = 1 << 16, 256


class Lines:
    """The distinct lines of an input over a backend, with a code for each line or a count for each distinct one, and what was asked
    for to put them there."""

    def __init__(self, data: bytes, backend: bytes, has_codes: bool) -> None:
        self.memory = Memory()
        self.texts = data.removesuffix(b"\n").split(b"\n") if data else []
        self.grow_block()
        codes, counts, symbols = BackendRoom(self.memory, 4), Room(self.memory, COUNT), Room(self.memory, 4)
        self.interner = Interner(Slots(self.memory, "SymbolU32", "tagged"), ROOMS[backend.decode()](self.memory, 0))
        for text in self.texts:
            if has_codes or len(self.interner.texts) >= FEWEST_FOR_BLOCKS:
                codes.add()
            if not has_codes:
                # The codes of a block leave their room to those of the next.
                codes.length %= BLOCK_LEN
                counts.add(text not in self.interner.known)
            self.intern_indexed(text, symbols)

    def intern_indexed(self, text: bytes, symbols: Room) -> None:
        """Interns a text, and lists the symbol of a new one, from the first on whose number is not its index."""
        index, number = len(self.interner.texts), self.interner.room.next_number()
        is_new = text not in self.interner.known
        self.interner.intern(text)
        if is_new and (symbols.length or number != index):
            symbols.add()

    def grow_block(self) -> None:
        """Doubles the block until it is longer than the longest line, since only whole lines leave it."""
        size = BLOCK
        while size <= max(map(len, self.texts), default=0):
            size *= 2
            self.memory.ask(size)

    def write_file(self) -> None:
        """Writes the file of the lines, in room that no line and no number of lines makes larger."""
        self.memory.ask(HELD)

    def list_rows(self, at_least: int) -> None:
        """Lists the distinct lines that occur so often with their counts."""
        self.memory.ask(ROW * sum(count >= at_least for count in Counter(self.texts).values()))


def asks_of_lines(words: Sequence[bytes], data: bytes, backend: bytes) -> tuple[list[int], list[int], list[int]]:
    """For the buffer and the first block, the lines, and what is written: the sizes of the requests of a run that ends well."""
    is_encoded = words[0] == b"encode"
    lines = Lines(data, backend, is_encoded)
    asks, lines.memory.asks = lines.memory.asks, []
    if is_encoded:
        lines.write_file()
    elif is_sorted(words):
        lines.list_rows(number_of(words, b"--at-least") or 0)
    return [OUTPUT_BUFFER, BLOCK], asks, lines.memory.asks
