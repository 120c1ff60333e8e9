"""What the program `intern` answers, reckoned from a list of distinct texts."""

from collections.abc import Iterable, Sequence
from typing import Any

from program.expected import is_utf8

BACKENDS = (b"string", b"bucket", b"buffer")
GREATEST_SYMBOL = 2**32 - 2

USAGE = (2, b"", b"usage: intern string|bucket|buffer\n")
UNREADABLE = (1, b"", b"cannot read input\n")
OUT_OF_MEMORY = (1, b"", b"out of memory\n")
UNWRITABLE = b"cannot write output\n"

# The status, standard output and standard error.
Ended = tuple[int, bytes, bytes]
# A word, and a text or a number.
Command = tuple[bytes, bytes | int | None]


def bad_line(number: int) -> Ended:
    return 2, b"", b"bad line %d\n" % number


def lines_of(data: bytes) -> list[bytes]:
    """The lines. A newline at the very end begins no further one."""
    lines = data.split(b"\n")
    return lines[:-1] if lines[-1] == b"" else lines


def command_of(line: bytes) -> Command | None:
    """The word and the argument of a command, or nothing for a bad line."""
    word, space, rest = line.partition(b" ")
    if not space:
        return (word, None) if word in (b"len", b"shrink") else None
    if word in (b"i", b"g"):
        return word, rest
    digits = rest.lstrip(b"0")
    if word in (b"r", b"n") and rest.isdigit() and len(digits) <= 20 and int(digits or b"0") < 2**64:
        return word, int(digits or b"0")
    return None


def spelled(length: int) -> bytes:
    """A length in base 128, its lowest digit first, with bit 7 set on all digits but the last."""
    digits = bytearray()
    while length >= 128:
        digits.append(128 + length % 128)
        length //= 128
    return bytes([*digits, length])


def read_at(entries: bytes | bytearray, number: int) -> bytes | None:
    """The text that is read in a byte buffer at any number: a length of at most ten digits, then its bytes."""
    length = 0
    for count, digit in enumerate(entries[number:number + 10]):
        length += digit % 128 * 128**count
        if digit < 128:
            text = bytes(entries[number + count + 1:number + count + 1 + length])
            return text if len(text) == length < 2**64 and is_utf8(text) else None
    return None


class Run:
    """Commands on an empty list of distinct texts over a backend, where the memory that one line asks for is refused.

    Of each line it has the reply, and the number that the reply tells.
    """

    def __init__(self, backend: bytes, commands: Iterable[Command], refused: int | None = None) -> None:
        self.is_buffer = backend == b"buffer"
        self.known: dict[bytes, int] = {}
        self.texts: list[bytes] = []
        self.entries = bytearray()
        self.replies: list[bytes] = []
        self.numbers: list[int | None] = []
        for line, (word, argument) in enumerate(commands, 1):
            number, reply = self.step(word, argument, line == refused)
            if reply is None:
                reply = b"none" if number is None else b"symbol %d" % number
            self.replies.append(reply)
            self.numbers.append(number)

    def step(self, word: bytes, argument: Any, is_refused: bool) -> tuple[int | None, bytes | None]:
        """The number that a command tells, and its reply where it is of another kind."""
        match word:
            case b"i" if argument not in self.known:
                return (None, b"no memory") if is_refused else (self.intern(argument), None)
            case b"i" | b"g":
                return self.known.get(argument), None
            case b"r":
                number = self.numbers[argument] if argument < len(self.numbers) else None
                return (None, b"no reply") if number is None else self.read(number, is_refused)
            case b"n":
                return self.read(argument, is_refused)
            case b"len":
                return None, b"len %d" % len(self.texts)
        return None, b"ok"

    def intern(self, text: bytes) -> int:
        self.known[text] = len(self.entries) if self.is_buffer else len(self.texts)
        self.texts.append(text)
        self.entries += spelled(len(text)) + text
        return self.known[text]

    def read(self, number: int, is_refused: bool) -> tuple[None, bytes]:
        text = None
        if number <= GREATEST_SYMBOL:
            text = read_at(self.entries, number) if self.is_buffer else [*self.texts[number:number + 1], None][0]
        if not text:
            return None, b"none" if text is None else b"text "
        return None, b"no memory" if is_refused else b"text " + text


def answer(words: Sequence[bytes], data: bytes, refused: int | None = None) -> Ended:
    """The status, standard output and standard error. The memory that the line `refused` asks for is refused."""
    if len(words) != 1 or words[0] not in BACKENDS:
        return USAGE
    if not is_utf8(data):
        return UNREADABLE
    commands = []
    for number, line in enumerate(lines_of(data), 1):
        command = command_of(line)
        if not command:
            return bad_line(number)
        commands.append(command)
    replies = Run(words[0], commands, refused).replies
    return 0, b"".join(reply + b"\n" for reply in replies), b""
