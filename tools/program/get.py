"""What is tried of `dictcol get`, which finds the numbers of texts in plain columns, and reads some of their rows."""

import errno
import os
import random
import re
import resource
import struct
from pathlib import Path

from built import Program
from program.columns import DAMAGED, NOT_A_PAIR, OF_ANOTHER_END, OF_TWO_RUNS, columns_of, npy, pair_before, pair_of, write_files
from program.expected import Ended, end_of_get, failed, told, unwritten
from program.pairs import options_of
from trials import Seen, Trial, alone

TEXTS = (b"", b"\n", b"\n\n", b"a", b"a\n", b"\na", b"a\n\na", b"red\ngreen\nred", b"-\n--\n--check\n-h\n", "é\n日本\né".encode(),
         b"a \n a\na", b"x" * 70000 + b"\ny\n", b"".join(b"%d\n" % (number % 300) for number in range(3000)))
GET, CHECK = b"get it --".split(), b"get --check it --".split()


# Ranges, and where they begin and end in Python.
RANGES: tuple[tuple[bytes, int, int | None], ...] = (
    (b"..", 0, None), (b"0..", 0, None), (b"1..", 1, None), (b"3..", 3, None), (b"100..", 100, None), (b"..0", 0, 0), (b"..1", 0, 1),
    (b"0..2", 0, 2), (b"1..2", 1, 2), (b"1..3", 1, 3), (b"2..3", 2, 3), (b"2..2", 2, 2), (b"1..100", 1, 100),
    (b"2990..3001", 2990, 3001), (b"007..9", 7, 9), (b"0..18446744073709551615", 0, 2**64 - 1),
    (b"18446744073709551615..18446744073709551615", 2**64 - 1, 2**64 - 1), (b"1..99999999999999999999999", 1, None),
    (b"99999999999999999999999..", 2**64, None),
)


def lines_in(data: bytes) -> list[bytes]:
    """The lines of a text, each with its newline if it has one."""
    return re.findall(rb"[^\n]*\n|[^\n]+", data)


def rows_in(files: dict[str, bytes]) -> list[bytes]:
    """The rows that files hold, if each number is that of a line, each with its newline if it has one."""
    lines = lines_in(files["dict.txt"])
    rows = [lines[number] for (number,) in struct.iter_unpack("<I", files["codes.npy"][128:])]
    return [*rows[:-1], rows[-1].removesuffix(b"\n")] if rows and "no_final_newline" in files else rows


def ways_to_get(rows: bytes) -> list[list[bytes]]:
    """The words that ask for some rows, the last two with all numbers checked."""
    return [[b"get", b"it", b"--rows", rows], [b"get", b"--rows=" + rows, b"--", b"it"],
            [b"get", b"--check", b"it", b"--rows", rows], [b"get", b"--rows", b"0..0", b"--rows", rows, b"it", b"--check"]]


def try_rows(program: Program, data: bytes) -> Seen:
    """Some rows are those lines of the text, as they stand there."""
    write_files("it", columns_of(data))
    for rows, start, end in RANGES:
        for words in ways_to_get(rows):
            yield f"{words} of {data[:40]!r}", program.run(words), (0, b"".join(lines_in(data)[start:end]), b"")


def try_random_rows(program: Program, seed: int) -> Seen:
    """Random rows of columns of any version, whose lines may have been changed, so that some are there twice."""
    chance = random.Random(seed)
    letters = ["", "a", "b", "é", "日", " "]
    texts = ["".join(chance.choices(letters, k=chance.randrange(6))).encode() for _ in range(chance.randrange(1, 30))]
    data = b"\n".join(chance.choices(texts, k=chance.randrange(40))) + b"\n" * chance.randrange(2)
    files = columns_of(data)
    if chance.randrange(2):
        files["dict.txt"] = b"".join(chance.choice(texts) + b"\n" for _ in lines_in(files["dict.txt"]))
    if version := chance.randrange(3):
        files["pair.txt"] = pair_before(files["pair.txt"])
    if version == 2:
        del files["pair.txt"]
    write_files("it", files)
    for _ in range(4):
        first, last = sorted(chance.choices(range(45), k=2))
        start, end = chance.choice([(first, last), (None, last), (first, None), (None, None)])
        rows = b"..".join(b"" if it is None else b"%d" % it for it in (start, end))
        words = chance.choice(ways_to_get(rows))
        yield f"{seed}: {words}", program.run(words), (0, b"".join(rows_in(files)[start:end]), b"")


def try_text(program: Program, data: bytes) -> Seen:
    """Each line is found, alone and beside others, and nothing else is."""
    files = columns_of(data)
    write_files("it", files)
    known = files["dict.txt"].split(b"\n")[:-1]
    others = [b"none", b"", b"a", b"red\ngreen".replace(b"\n", b" "), b"y" * 2000]
    for texts in (known or others, known[::-1] + others, others + known[:3] * 2, known[:1] or others):
        for words in GET, CHECK:
            yield f"{texts[:5]} in {data[:40]}, {words}", program.run([*words, *texts]), end_of_get(b"it", files["dict.txt"], texts)


def try_random(program: Program, seed: int) -> Seen:
    """Random texts in columns of random lines, of any version, some of which are there twice. The option may be anywhere."""
    chance = random.Random(seed)
    letters = ["", "a", "b", "é", "日", "-", " "]
    texts = ["".join(chance.choices(letters, k=chance.randrange(4))).encode() for _ in range(12)]
    files = columns_of(b"".join(text + b"\n" for text in chance.choices(texts, k=chance.randrange(20))))
    if chance.randrange(2):
        # As if lines were masked.
        files["dict.txt"] = b"".join(chance.choice(texts[:3]) + b"\n" for _ in files["dict.txt"].split(b"\n")[:-1])
    if version := chance.randrange(3):
        files["pair.txt"] = pair_before(files["pair.txt"])
    if version == 2:
        del files["pair.txt"]
    write_files("it", files)
    asked = chance.choices(texts, k=chance.randrange(1, 30))
    words = [b"get", b"it", b"--"]
    for _ in range(chance.randrange(3)):
        words.insert(chance.randrange(3), b"--check")
    yield f"{seed}: {asked}", program.run([*words, *asked]), end_of_get(b"it", files["dict.txt"], asked)


def try_damaged(program: Program, lines: bytes, numbers: bytes, message: bytes) -> Seen:
    """Nothing is written of damaged files. Whether the numbers are those of lines is seen only if they are checked."""
    write_files("it", {"dict.txt": lines, "codes.npy": numbers})
    wanted = failed(2, b"it: " + message)
    for words in GET, CHECK:
        is_seen = words == CHECK or not message.startswith(b"codes[")
        yield f"{message!r}, {words}", program.run([*words, b"red"]), wanted if is_seen else end_of_get(b"it", lines, [b"red"])


def has_counts(files: dict[str, bytes]) -> bool:
    """Returns whether pair.txt is of as many lines and numbers as the files have, and of the end of the text."""
    lines, count = files["dict.txt"].count(b"\n"), (len(files["codes.npy"]) - 128) // 4
    front, end = b"lines %d\nnumbers %d\nchecksum " % (lines, count), b"no_final_newline %d\n" % ("no_final_newline" in files)
    return files["pair.txt"].startswith(front) and files["pair.txt"][len(front):].partition(b"\n")[1:] in ((b"\n", b""), (b"\n", end))


def end_of_rows(files: dict[str, bytes], asked: slice, message: bytes, is_checked: bool) -> Ended:
    """How a run ends that reads some rows of files, which are damaged as the message tells. Of the asked ones is told first that one
    is no line."""
    if not message.startswith(b"codes["):
        return failed(2, b"it: " + message)
    numbers = [number for (number,) in struct.iter_unpack("<I", files["codes.npy"][128:])]
    rows = [*range(len(numbers))]
    lines = lines_in(files["dict.txt"])
    for row in rows[asked] + rows * is_checked:
        if numbers[row] >= len(lines):
            return failed(2, b"it: codes[%d] is not the number of a line of dict.txt" % row)
    return 0, b"".join(lines[number] for number in numbers[asked]), b""


def try_damaged_rows(program: Program, lines: bytes, numbers: bytes, message: bytes) -> Seen:
    """Nothing is written of damaged files. Whether the numbers of other rows are those of lines is seen only if they are checked."""
    files = {"dict.txt": lines, "codes.npy": numbers}
    write_files("it", files)
    for rows, start, end in (b"..", 0, None), (b"0..1", 0, 1), (b"..0", 0, 0), (b"1..", 1, None), (b"1..2", 1, 2):
        for words in ways_to_get(rows):
            yield f"{message!r}, {words}", program.run(words), end_of_rows(files, slice(start, end), message, b"--check" in words)


def try_pair_of_rows(program: Program, text: bytes, changed: dict[str, bytes], decoded: bytes | None) -> Seen:
    """Files of two runs are refused: by their counts, or if all numbers are checked by these."""
    files = columns_of(text) | changed
    write_files("it", files)
    for rows, last in (b"0..0", 0), (b"..", None):
        for words in ways_to_get(rows):
            is_right = has_counts(files) if b"--check" not in words else decoded is not None
            wanted = (0, b"".join(rows_in(files)[:last]), b"") if is_right else failed(2, NOT_A_PAIR)
            yield f"{text!r} with {changed}, {words}", program.run(words), wanted


def try_pair(program: Program, text: bytes, changed: dict[str, bytes], decoded: bytes | None) -> Seen:
    """Files of two runs are refused: by their counts, or if all numbers are checked by these."""
    files = columns_of(text) | changed
    write_files("it", files)
    found = end_of_get(b"it", files["dict.txt"], [b"b"])
    yield f"{text!r} with {changed}", program.run([*GET, b"b"]), found if has_counts(files) else failed(2, NOT_A_PAIR)
    yield f"{text!r} with {changed}, checked", program.run([*CHECK, b"b"]), failed(2, NOT_A_PAIR) if decoded is None else found


def try_end(program: Program, text: bytes, is_cut: bool, message: bytes) -> Seen:
    """Whether the last line has a newline is of one run with the other files."""
    files = {it: content for it, content in columns_of(text).items() if it != "no_final_newline"}
    write_files("it", files | ({"no_final_newline": b""} if is_cut else {}))
    for words in GET, CHECK:
        yield f"{text!r}, {words}", program.run([*words, b"a"]), failed(2, b"it: " + message)
    for words in ways_to_get(b"0..1"):
        yield f"{text!r}, {words}", program.run(words), failed(2, b"it: " + message)


def try_table(_: Program) -> Seen:
    """No option is left out."""
    yield "options of get", options_of(b"get"), {b"--check", b"--rows"}


def try_missing(program: Program) -> Seen:
    """Files that are not there, or are no files, and what is no folder."""
    files = columns_of(b"red\ngreen\nred")
    for name in "dict.txt", "codes.npy":
        write_files(f"without {name}", {it: content for it, content in files.items() if it != name})
        message = b"without %s: cannot read %s: %s" % (name.encode(), name.encode(), told(errno.ENOENT))
        yield f"without {name}", program.run([b"get", b"without " + name.encode(), b"red"]), failed(1, message)
        Path(f"without {name}", name).mkdir()
        message = b"without %s: cannot read %s: %s" % (name.encode(), name.encode(), told(errno.EISDIR))
        yield f"a folder for {name}", program.run([b"get", b"without " + name.encode(), b"red"]), failed(1, message)
    Path("file").write_bytes(b"red\n")
    for folder, error in (b"none", errno.ENOENT), (b"file", errno.ENOTDIR), (b"-", errno.ENOENT):
        yield f"{folder!r}", program.run([b"get", folder, b"red"], b"red\n"), failed(1, folder + b": cannot read dict.txt: " + told(error))


def try_output(program: Program) -> Seen:
    """Numbers on a full disk, and where nobody reads them or nothing takes them. Texts that are missing are not told then."""
    write_files("it", columns_of(b"red\ngreen\nred"))
    for texts, is_written in ([b"red", b"none"], True), ([b"none"], False):
        wanted = end_of_get(b"it", b"red\ngreen\n", texts)
        with open("/dev/full", "wb") as full:
            ended = program.run([*GET, *texts], b"", full)
        yield f"{texts} on a full disk", ended, unwritten(errno.ENOSPC) if is_written else wanted
        ended = program.run([*GET, *texts], b"", None, before=lambda: os.close(1))
        yield f"{texts}, a closed output", ended, unwritten(errno.EBADF) if is_written else wanted
        ended = program.run([*GET, *texts], BROKEN_WRITE=1, ERROR=errno.EPIPE)
        yield f"{texts}, a reader that left", ended, unwritten(errno.EPIPE) if is_written else wanted
    for rows, is_written in (b"..", True), (b"1..1", False):
        words = [b"get", b"it", b"--rows", rows]
        with open("/dev/full", "wb") as full:
            ended = program.run(words, b"", full)
        yield f"{rows} on a full disk", ended, unwritten(errno.ENOSPC) if is_written else (0, b"", b"")
        ended = program.run(words, b"", None, before=lambda: os.close(1))
        yield f"{rows}, a closed output", ended, unwritten(errno.EBADF) if is_written else (0, b"", b"")
        ended = program.run(words, BROKEN_WRITE=1, ERROR=errno.EPIPE)
        yield f"{rows}, a reader that left", ended, unwritten(errno.EPIPE) if is_written else (0, b"", b"")


# More than the memory that the run gets.
LINES, MOST = 3_000_000, 1 << 24


def try_in_little_memory(program: Program) -> Seen:
    """Neither dict.txt nor codes.npy is held."""
    write_files("it", {})
    with open("it/dict.txt", "wb") as lines:
        lines.writelines(b"%015d\n" % number for number in range(LINES))
    Path("it/codes.npy").write_bytes(npy(range(LINES)))
    limit = lambda: resource.setrlimit(resource.RLIMIT_AS, (MOST, MOST))  # noqa: E731
    texts = [b"%015d" % number for number in (LINES - 1, 0, 12345)]
    yield "many lines in little memory", program.run([*GET, *texts], before=limit), (0, b"%d\n0\n12345\n" % (LINES - 1), b"")
    for start, end in (0, 3), (1234567, 1235567), (LINES - 2, LINES + 2):
        ended = program.run([b"get", b"it", b"--rows", b"%d..%d" % (start, end)], before=limit)
        wanted = b"".join(b"%015d\n" % row for row in range(start, min(end, LINES)))
        yield f"rows {start} to {end} in little memory", ended, (0, wanted, b"")


def try_long_row(program: Program) -> Seen:
    """A line is held once, and not for each of its rows."""
    write_files("it", columns_of((b"x" * 100_000 + b"\ny\n") * 300))
    limit = lambda: resource.setrlimit(resource.RLIMIT_AS, (MOST, MOST))  # noqa: E731
    with open("out", "wb") as output:
        ended = program.run(b"get it --rows 1..".split(), b"", output, before=limit)
    yield "a long row in little memory", (ended.status, Path("out").read_bytes()), (0, ((b"x" * 100_000 + b"\ny\n") * 300)[100_001:])


def try_many_texts(program: Program) -> Seen:
    """As many texts as a command may have."""
    numbers = random.Random(0).sample(range(200_000), 60_000)
    texts = [b"%d" % number for number in numbers]
    dictionary = b"".join(b"%d\n" % number for number in range(0, 200_000, 2))
    write_files("it", {"dict.txt": dictionary, "codes.npy": npy([]), "pair.txt": pair_of(100_000, [])})
    yield "many texts", program.run([*GET, *texts]), end_of_get(b"it", dictionary, texts)


def trials() -> list[Trial]:
    return [
        *((try_text, data) for data in TEXTS),
        *((try_rows, data) for data in TEXTS),
        *((try_random_rows, seed) for seed in range(200)),
        *((try_damaged, *given) for given in DAMAGED),
        *((try_damaged_rows, *given) for given in DAMAGED),
        *((try_pair_of_rows, *given) for given in OF_TWO_RUNS),
        *((try_pair, *given) for given in OF_TWO_RUNS),
        *((try_end, *given) for given in OF_ANOTHER_END),
        *((try_random, seed) for seed in range(200)),
        *alone(globals()),
    ]
