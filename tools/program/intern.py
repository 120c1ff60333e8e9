"""What is tried of the program `intern`."""

import random
from collections.abc import Iterable, Iterator
from typing import Any

from asks import COMMAND, REPLY, Calls
from built import Program
from program.cases import MANY, MEBIBYTE, Case, cases, rooms_of_input, rows
from program.streams import Streams
from program.texts import BACKENDS, OUT_OF_MEMORY, UNREADABLE, UNWRITABLE, USAGE, Ended, answer, bad_line, lines_of
from tree import TOP
from trials import Seen, Trial

CASES = "crates/intern/cases"
VERSION = (TOP / "VERSION").read_bytes().strip()
# In bytes: the buffer of standard output, and a reply where rustc compiled it, which has no word of its own for the tag.
OUTPUT_BUFFER, REPLY_BY_RUSTC = 8192, 24
# The words of lines, as a run of scenarios calls them.
CALLS = {b"i": b"Intern", b"g": b"Get", b"r": b"Resolve", b"n": b"Number", b"len": b"Len", b"shrink": b"Shrink"}

# What a request is for: a word, or the number of a line.
Purpose = Any


def asks_of_lines(case: Case) -> Iterator[tuple[int, int]]:
    """The number of a line, and the size of a request that it makes by the model, for each such request in order."""
    model = Calls(b"run %s SymbolU32 default" % case.words[0])
    for number, (line, reply) in enumerate(zip(lines_of(case.data), lines_of(case.end[1])), 1):
        word, space, rest = line.partition(b" ")
        model.memory.asks = []
        model.command(CALLS[word] + space + rest, reply)
        yield from ((number, size) for size in model.memory.asks)


def size_of_reply(program: Program) -> int:
    return REPLY_BY_RUSTC if program.is_by_cargo else REPLY


def requests(case: Case, reply: int) -> Iterator[tuple[Purpose, int]]:
    """The requests after those for the words: the number of a line, or a word for what it is for, and its size."""
    yield "output", OUTPUT_BUFFER
    if case.end == USAGE:
        return
    yield from (("input", room) for room in rooms_of_input(case.data))
    count = len(lines_of(case.data))
    if case.end == UNREADABLE or count == 0:
        return
    yield "commands", COMMAND * count
    if case.end[0] == 0:
        yield "replies", reply * count
        yield from asks_of_lines(case)


def end_when_refused(case: Case, purpose: Purpose, is_last_of_words: bool) -> Ended:
    """How the run must end with a request refused."""
    match purpose:
        case "words" if not is_last_of_words:
            return USAGE
        case "commands" if case.end[0] != 0:
            # A bad line is reported whatever memory is refused for the commands.
            return case.end
        case "input" | "commands" | "replies":
            return OUT_OF_MEMORY
        case "words" | "output":
            # Room for the list of words is asked for ahead, and again as it fills; unbuffered output needs none.
            return case.end
    return answer(case.words, case.data, refused=purpose)


def asked_again(program: Program, case: Case, number: int, purpose: Purpose, asks: list[int]) -> list[int]:
    """What was asked for after a refused request, by the call that was refused."""
    if purpose in ("input", "commands", "replies"):
        return asks[number:]
    if purpose == "output":
        return [] if asks[number:] == [size for _, size in requests(case, size_of_reply(program))][1:] else asks[number:]
    lines = lines_of(case.data)
    if purpose == "words" or lines[purpose - 1] == b"shrink":
        return []
    # No line comes after the refused one, so that each further request is its own.
    data = b"\n".join(lines[:purpose])
    number -= len(rooms_of_input(case.data)) - len(rooms_of_input(data))
    return program.run_with_asks(case.words, data, number)[1][number:]


def try_case(program: Program, case: Case) -> Seen:
    """A case, and again with each of its requests for memory refused."""
    name = case.name
    yield f"{name}, the case by the rules", answer(case.words, case.data), case.end
    yield name, program.run(case.words, case.data), case.end
    ended, asks = program.run_with_asks(case.words, case.data)
    yield f"{name}, its requests told", ended, case.end
    words = asks.index(OUTPUT_BUFFER) if OUTPUT_BUFFER in asks else len(asks)
    wanted = list(requests(case, size_of_reply(program)))
    yield f"{name}, what it asks for after the words, by {wanted}", asks[words:], [size for _, size in wanted]
    purposes = ["words"] * words + [purpose for purpose, _ in wanted]
    for number, (purpose, size) in enumerate(zip(purposes, asks), 1):
        refused = f"{name}, request {number} for {purpose} ({size} bytes) refused"
        ended, after = program.run_with_asks(case.words, case.data, number)
        yield refused, ended, end_when_refused(case, purpose, number == words)
        yield f"{refused}: asked again", asked_again(program, case, number, purpose, after), []


def try_bad_line(program: Program, row: bytes) -> Seen:
    for word in BACKENDS:
        for data, number in ((row + b"\n", 1), (row, 1), (b"i a\n" + row + b"\nx\n", 2)):
            # Without a newline the empty line is no line.
            if data:
                yield f"bad line {row!r}", program.run([word], data), bad_line(number)


def try_unknown_word(program: Program, row: bytes) -> Seen:
    # Told before input that is not UTF-8, and before a bad line.
    for data in (b"i a\n", b"\xff", b"x\n", b""):
        yield f"word {row!r}", program.run([row], data), USAGE
        yield f"second word {row!r}", program.run([b"string", row], data), USAGE


# The words that ask for a text of the program, and with what that begins.
TOLD = {b"--help": USAGE[2] + b"       intern --help | --version\n\n", b"--version": b"intern " + VERSION + b"\n"}


def try_told(program: Program, word: bytes) -> Seen:
    """Each asks for its text alone, whatever the input is, and is a wrong argument beside another word."""
    ended = program.run([word], b"i a\n")
    yield f"{word}", ended._replace(output=ended.output[:len(TOLD[word])]), (0, TOLD[word], b"")
    for data in b"", b"\xff", b"x\n":
        yield f"{word} over {data}", program.run([word], data), ended
        for other in b"string", *TOLD:
            for words in [word, other], [other, word]:
                yield f"{words} over {data}", program.run(words, data), USAGE
    with open("/dev/full", "wb") as full:
        yield f"{word}, a full disk", program.run([word], b"", full), (1, b"", UNWRITABLE)
    yield f"{word} and a buffer", program.run_with_asks([word], b"")[0], ended


def try_no_text(program: Program, row: bytes) -> Seen:
    for word in BACKENDS:
        # At the start, in a text, at the end, and after a bad line.
        for data in (row + b"\n", b"i " + row + b"\n", b"i a\ni a" + row, b"x\ni a" + row):
            yield f"bytes {row!r}", program.run([word], data), UNREADABLE


TABLES = {"bad_lines": try_bad_line, "unknown_words": try_unknown_word, "bytes_that_are_not_utf8": try_no_text}

TEXTS = [b"", b"a", b"b", b" ", b"a ", b"\r", b"\0", b"len", "é".encode(), "\U0001f418".encode(), b"Tiger", b"Horse"]
PIECES = [b"i ", b"g ", b"r ", b"n ", b"i a", b"g a", b"len", b"shrink", b"\n", b"\n", b"\n", b"a", b"0", b"1", b" ", b"\r",
          b"+", "é".encode()]


def random_command(source: random.Random, line: int) -> bytes:
    """A command of a line of this number, whose text may be long."""
    text = source.choice([*TEXTS, b"%d" % source.randrange(400) + source.choice([b"", b"x", b"\x7f" * 130, "é".encode() * 3])])
    number = source.choice([source.randrange(line + 2), source.randrange(8000), 2**32 - 2, 2**64 - 1])
    return source.choice([b"i " + text, b"i " + text, b"g " + text, b"r %d" % source.randrange(line + 2), b"n %d" % number, b"len",
                          b"shrink"])


def try_random(program: Program, seed: int, word: bytes) -> Seen:
    """Commands, short inputs of pieces of lines and a byte of any value, and bytes of any value or of ASCII; and the commands again
    with the memory of one of their lines refused."""
    source = random.Random(seed)
    lines = [random_command(source, line) for line in range(2000)]
    pieces = [b"".join(source.choices([*PIECES, bytes([source.randrange(256)])], k=source.randrange(9))) for _ in range(50)]
    hostile = bytes(source.choices(range(source.choice([128, 256])), k=source.randrange(5000)))
    for data in (b"\n".join(lines), *pieces, hostile):
        yield f"random input {seed} over {word}, {data[:60]!r}", program.run([word], data), answer([word], data)
    data = b"\n".join(lines)
    asks = program.run_with_asks([word], data)[1]
    # Behind the request for the commands, which may be for as many bytes as that for the replies.
    at = asks.index(size_of_reply(program) * len(lines), asks.index(COMMAND * len(lines)) + 1)
    refused = source.randrange(at + 2, len(asks) + 1)
    ended, _ = program.run_with_asks([word], data, refused)
    replies = ended.output.split(b"\n")
    line = replies.index(b"no memory") + 1 if b"no memory" in replies else None
    yield f"random input {seed} over {word}, request {refused} refused", ended, answer([word], data, refused=line)


def large_inputs() -> Iterator[tuple[str, bytes, int]]:
    """The name of each, the input, and how many requests its lines may make: none that grows with known texts."""
    texts, known, few = b"".join(b"i %d\n" % number for number in range(MANY)), b"i Tiger\n", 200
    yield "new texts", texts, few
    yield "one text", known * MANY, 3
    yield "look-ups", known + b"g Tiger\n" * MANY, 3
    yield "look-ups of unknown texts", texts.replace(b"i", b"g"), 0
    yield "earlier replies", known + b"r 0\n" * MANY, 3 + MANY
    yield "no replies", known + b"r %d\n" % MANY * MANY, 3
    yield "numbers", texts + b"".join(b"n %d\n" % number for number in range(0, MANY, 7)), few + MANY
    yield "numbers without a text", b"n 4294967295\n" * MANY, 0
    yield "lengths", b"len\n" * MANY, 0
    yield "shrinking", (b"i a\nshrink\n" + b"i b\nshrink\n") * (MANY // 4), 4 * 5
    yield "a text of a mebibyte", b"i " + b"a" * MEBIBYTE + b"\nr 0\nlen\ng " + b"a" * MEBIBYTE + b"\n", 4
    yield "a number with a million zeros before it", b"i a\ni b\nn " + b"0" * 1000000 + b"1\n", 2 * 3 + 1
    yield "a number of a million digits", b"i a\nn " + b"1" * 1000000, 0
    yield "a bad line of a mebibyte", b"i a\n" + b"a" * MEBIBYTE + b"\n", 0
    yield "a million empty lines", b"i a\n" + b"\n" * 1000000, 0
    yield "a bad line after a mebibyte", b"i a\ni " + b"a" * MEBIBYTE + b"\nx\nlen", 0
    yield "bad lines", b"x\n" * MANY, 0
    yield "a bad line at the end", known * (MANY - 1) + b"x\n", 0


def try_large(program: Program, name: str, data: bytes, allowed: int, word: bytes) -> Seen:
    name, wanted = f"{name} over {word}", answer([word], data)
    yield name, program.run([word], data), wanted
    ended, asks = program.run_with_asks([word], data)
    yield f"{name}, its requests told", ended, wanted
    # Beside those of the lines: the words, the output, the commands and replies, and an input that doubles.
    allowed += 8 + 2 + len(data).bit_length()
    yield f"{name}: more than {allowed} requests for memory", asks[allowed:], []
    most = 2 * (REPLY * (data.count(b"\n") + 1) + len(data)) + OUTPUT_BUFFER
    yield f"{name}: requests for more than {most} bytes", [size for size in asks if size > most], []


def unreadable(_: int) -> bytes:
    return UNREADABLE[2]


def unwritable(_: int) -> tuple[int, bytes]:
    return 1, UNWRITABLE


COMMANDS = b"i Tiger\ng Bear\nr 0\nlen\nshrink\nr 9\n"
LONG = COMMANDS + b"r 0\n" * 30000
STREAMS = Streams(
    answered=(
        ([b"string"], COMMANDS, b"symbol 0\nnone\ntext Tiger\nlen 1\nok\nno reply\n"),
        ([b"buffer"], b"i Tiger\nn 1\nn 6\nr 5\nr 1\nr 0\nlen\nshrink\n",
         b"symbol 0\nnone\nnone\nno reply\nno reply\ntext Tiger\nlen 1\nok\n"),
        ([b"buffer"], "i é\ni a\nr 0\nlen".encode(), "symbol 0\nsymbol 3\ntext é\nlen 2\n".encode()),
        ([b"bucket"], b"i \nr 0\n", b"symbol 0\ntext \n"),
        ([b"string"], b"", b""),
    ),
    failing=(([b"string"], b"x\n", bad_line(1)), ([b"string"], b"i a\nx\ni \xc3\xa9\nlen\n\xff\n", UNREADABLE)),
    long=([b"string"], LONG, answer([b"string"], LONG)[1]),
    unreadable=unreadable,
    unwritable=unwritable,
    buffer=OUTPUT_BUFFER,
)


def parts() -> dict[str, Iterable[Trial]]:
    return {
        "cases": cases(CASES, try_case),
        "tables": rows(CASES, TABLES),
        "streams": [*STREAMS.trials(), *((try_told, word) for word in TOLD)],
        "random": ((try_random, seed, word) for seed in range(60) for word in BACKENDS),
        "scale": ((try_large, *given, word) for given in large_inputs() for word in BACKENDS),
    }
