"""What is tried of folders of plain columns in the place of files: each stands for the text that it holds."""

import errno
import random
import re
import resource
import shutil
from itertools import chain
from pathlib import Path

from built import Program
from program.cases import MEBIBYTE
from program.columns import (
    DAMAGED, NOT_A_PAIR, OF_ANOTHER_END, OF_TWO_RUNS, REPEATED, TEXTS, columns_of, files_in, npy, pair_before, rows_behind, write_files,
)
from program.expected import Ended, answer, failed, told
from program.pairs import COMMANDS, KNOWN_TEXT, end_with, place
from program.shards import limit_open_files, shards_of
from trials import Seen, Trial, own_folder

OK = 0, b"", b""
# The commands that read lines, without the options by which zero bytes end them.
READING = {command: tuple(it for it in choices if [b"-z"] not in it) for command, choices in COMMANDS.items()
           if command not in (b"merge", b"count --encoded")}
NOT_ZERO_ENDED = b"newlines end the lines of a folder: leave out -z"


def write_folder(chance: random.Random, name: str, text: bytes) -> bytes:
    """Writes a folder of any version with a text, or with one whose lines are masked. Returns what it holds."""
    files = columns_of(text)
    if chance.randrange(3) == 0:
        lines = files["dict.txt"].split(b"\n")[:-1]
        masked = {line: chance.choice((line, b"x", b"")) for line in lines}
        files["dict.txt"] = b"".join(masked[line] + b"\n" for line in lines)
        rows = text.removesuffix(b"\n").split(b"\n") if text else []
        text = b"\n".join(masked[line] for line in rows) + b"\n" * text.endswith(b"\n")
    if version := chance.randrange(3):
        files["pair.txt"] = pair_before(files["pair.txt"])
    if version == 2:
        del files["pair.txt"]
    write_files(name, files)
    return text


def random_text(chance: random.Random) -> bytes:
    """A text of lines with few letters, of which no newline need end the last."""
    lines = ["".join(chance.choices("ab\té日", k=chance.randrange(4))) for _ in range(chance.randrange(8))]
    return "".join(line + "\n" for line in lines).encode().removesuffix(b"\n" * chance.randrange(2))


def try_random(program: Program, seed: int) -> Seen:
    """Folders beside files and standard input, in any order, with any options of each command, as operands or in a list."""
    chance = random.Random(seed)
    names = [b"%d" % number for number in range(chance.randrange(1, 5))]
    texts, given = [], b"\xff"
    for at, name in enumerate(names):
        text, kind = random_text(chance), chance.randrange(4)
        if kind == 0:
            text += chance.choice((b"", b"\xff", b"\xff\nb"))
            Path(name.decode()).write_bytes(text)
        elif kind == 1 and b"-" not in names:
            names[at], given = b"-", text
        else:
            text = write_folder(chance, name.decode(), text)
        texts.append(text)
    Path("list").write_bytes(b"".join(name + b"\0" for name in names))
    write_files("old", columns_of(KNOWN_TEXT))
    for command, choices in READING.items():
        options = [*chain.from_iterable(chance.choice(choice) for choice in choices)]
        ways: list[tuple[list[bytes], list[bytes]]] = [(names, []), ([], [b"--files0-from=list"])]
        operands, listed = chance.choice(ways)
        if b"--append" in options:
            write_files("new", columns_of(KNOWN_TEXT))
        words = place([*command.split(), *operands], [*options, *listed], chance)
        wanted, made = end_with(command, options, names, texts)
        yield f"{seed}: {words} of {texts}", program.run(words, given), wanted
        if b"--append" in options:
            made = made or columns_of(KNOWN_TEXT)
        yield f"{seed}: {words} of {texts}, files", files_in("new") if Path("new").exists() else None, made
        shutil.rmtree("new", ignore_errors=True)


MOST_HASHED = 200000
# Rows that fill a block of 64 KiB but for some bytes, and one more; as many as a read of 256 KiB takes, and more; a line of a mebibyte.
LONG_TEXTS = (
    *(b"a" * length + b"\nb\n" * 3 + b"a" * length for length in range(65533, 65539)),
    *(b"abc\n" * count + b"abc" for count in (16383, 16384, 16385)),
    b"".join(b"%d\n" % (number * 7919 % 30011) for number in range(100000)),
    b"a\n" * 1000 + b"b" * MEBIBYTE + b"\n" + b"c\n" * 1000 + b"b" * MEBIBYTE,
)


def try_text(program: Program, text: bytes) -> Seen:
    """A folder alone, between files, and twice."""
    write_files("it", columns_of(text))
    Path("one").write_bytes(b"a\nre")
    for given, whole in ([b"it"], text), ([b"one", b"it", b"one"], b"a\nre" + text + b"a\nre"), ([b"it", b"./it/"], text + text):
        for words in [b"count"], [b"count", b"--top=3"], [b"distinct"], [b"encode"], [b"count", b"-f2", b"-te"]:
            yield f"{words} of {text[:40]} by {given}", program.run([*words, *given]), answer(words, whole)
        # Of longer texts Python reckons the hash codes too long.
        if len(whole) < MOST_HASHED:
            yield f"shards of {text[:40]} by {given}", program.run([b"shard", b"3", b"new", *given]), OK
            yield f"shards of {text[:40]} by {given}, files", files_in("new"), shards_of(whole, 3)
            shutil.rmtree("new")
    yield f"{text[:40]}, decoded", program.run([b"decode", b"it"]), (0, text, b"")


def try_in_place(program: Program, text: bytes) -> Seen:
    """A folder that is read and written. One that is not there before has no files to read."""
    write_files("it", columns_of(text))
    for words in b"encode --plain it it", b"encode --plain it --onto it it":
        yield f"{words} of {text[:40]}", program.run(words.split()), OK
        yield f"{words} of {text[:40]}, files", files_in("it"), columns_of(text)
    yield f"{text[:40]} behind itself", program.run(b"encode --plain it --append it".split()), OK
    yield f"{text[:40]} behind itself, files", files_in("it"), columns_of(rows_behind(text, text))
    yield "a folder that is not there", program.run(b"encode --plain new new".split())[:2], (1, b"")
    yield "a folder that is not there, afterwards", Path("new").exists(), False


def ends_of_faults(program: Program, name: bytes, wanted: Ended) -> Seen:
    """A run ends so over this folder, alone and behind others, and writes nothing, but for the lines before it of `distinct`."""
    write_files("good", columns_of(b"a\nb\na\n"))
    Path("file").write_bytes(b"c\n")
    Path("list").write_bytes(b"file\0good\0" + name)
    for words in b"count", b"count --sorted", b"encode", b"encode --plain new", b"shard 2 new", b"count -f1", b"count --invalid=skip":
        for given in [name], [b"file", b"good", name, b"file"], [b"--files0-from=list"]:
            yield f"{words} of {given}, {wanted}", program.run([*words.split(), *given]), wanted
            yield f"{words} of {given}, {wanted}, what was written", Path("new").exists(), False
    for given, written in ([name], b""), ([b"file", b"good", name, b"file"], b"c\na\nb\n"):
        yield f"distinct of {given}, {wanted}", program.run([b"distinct", *given]), (wanted[0], written, wanted[2])


def try_damaged(program: Program, lines: bytes, numbers: bytes, message: bytes) -> Seen:
    """What is damaged is told as `decode` tells it."""
    write_files("it", {"dict.txt": lines, "codes.npy": numbers})
    wanted = failed(2, b"it: " + message)
    yield f"{message!r}, decoded", program.run([b"decode", b"it"]), wanted
    yield from ends_of_faults(program, b"it", wanted)


def try_repeated(program: Program, lines: bytes, numbers: bytes, text: bytes, _: int) -> Seen:
    """Lines may be there twice."""
    write_files("it", {"dict.txt": lines, "codes.npy": numbers})
    for words in [b"count"], [b"distinct"], [b"encode"]:
        yield f"{words} of {lines[:40]}", program.run([*words, b"it"]), answer(words, text)


def try_pair(program: Program, text: bytes, changed: dict[str, bytes], decoded: bytes | None) -> Seen:
    """Files of two runs are refused."""
    write_files("it", columns_of(text) | changed)
    if decoded is None:
        yield from ends_of_faults(program, b"it", failed(2, NOT_A_PAIR))
    else:
        yield f"{text!r} with {changed}", program.run([b"count", b"it"]), answer([b"count"], decoded)


def try_end(program: Program, text: bytes, is_cut: bool, message: bytes) -> Seen:
    """Whether the last line has a newline is of one run with the other files."""
    files = {it: content for it, content in columns_of(text).items() if it != "no_final_newline"}
    write_files("it", files | ({"no_final_newline": b""} if is_cut else {}))
    yield from ends_of_faults(program, b"it", failed(2, b"it: " + message))


def try_missing(program: Program) -> Seen:
    """Folders without a file, or without any, and those whose lines are to end in zero bytes."""
    files = columns_of(b"red\ngreen\nred")
    for name in "dict.txt", "codes.npy":
        with own_folder():
            where = f"without {name}"
            write_files(where, {it: content for it, content in files.items() if it != name})
            message = b"%s: cannot read %s: %s" % (where.encode(), name.encode(), told(errno.ENOENT))
            yield from ends_of_faults(program, where.encode(), failed(1, message))
    with own_folder():
        Path("it").mkdir()
        yield from ends_of_faults(program, b"it", failed(1, b"it: cannot read input: " + told(errno.EISDIR)))
    write_files("it", files)
    for words in b"count -z", b"distinct --zero-terminated", b"shard -z 2 new", b"count -z --invalid=skip -f2":
        yield f"{words}", program.run([*words.split(), b"it"]), failed(2, b"it: " + NOT_ZERO_ENDED)
        yield f"{words}, what was written", Path("new").exists(), False
    # What no folder of columns is told of.
    for words in b"merge it", b"count --encoded it", b"count --files0-from=it":
        ended = program.run(words.split())
        yield f"{words}", ended, failed(1, b"it: a folder that encode --plain wrote; decode writes its text")


def try_bad_line(program: Program) -> Seen:
    """A line that is not UTF-8 is told by its file, also behind and between folders, and goes on from them."""
    write_files("it", columns_of(b"a\nb\nc"))
    for text, line in ((b"\xff", 3), (b"\n\xff", 2), (b"\nd\n\xff\n", 3)):
        Path("bad").write_bytes(text)
        name, number = (b"it", 3) if line == 3 and text == b"\xff" else (b"bad", line)
        for given in [b"it", b"bad"], [b"it", b"bad", b"it"]:
            wanted = failed(2, b"%s: line %d is not UTF-8 (see --invalid)" % (name, number))
            yield f"{text!r} behind a folder", program.run([b"count", *given]), wanted


def try_refused(program: Program) -> Seen:
    """Each request for memory is refused in turn, and what is being read is named."""
    write_files("it", columns_of(b"a\nb\na"))
    write_files("other", columns_of(b"d"))
    Path("file").write_bytes(b"c\nb\n")
    for word in b"count", b"encode":
        words = [word, b"it", b"file", b"other"]
        wanted, (_, asks) = answer([word], b"a\nb\nac\nb\nd"), program.run_with_asks(words, b"")
        named = set()
        for number, size in enumerate(asks, 1):
            ended, _ = program.run_with_asks(words, b"", number)
            told_of = re.fullmatch(rb"dictcol: (?:(\w+): )?out of memory\n", ended.error)
            named |= {told_of[1]} if told_of else set()
            is_told = ended[:2] == (1, b"") and bool(told_of)
            yield f"{words}, request {number} of {size} bytes refused, {ended}", ended == wanted or is_told, True
        yield f"{words}, what is named", {b"it", b"other"} <= named, True


def try_in_little_memory(program: Program) -> Seen:
    """The text is not held: 200 MB of it in 64 MiB."""
    line, count = b"a" * 100000, 2000
    write_files("it", {"dict.txt": line + b"\n", "codes.npy": npy([0] * count)})
    limit = lambda: resource.setrlimit(resource.RLIMIT_AS, (1 << 26, 1 << 26))  # noqa: E731
    yield "a large text", program.run([b"count", b"it"], before=limit), (0, b"%d %s\n" % (count, line), b"")


def try_open_files(program: Program) -> Seen:
    """As many shards as may be open beside the three files of a folder are written, and more are told before anything is made."""
    write_files("columns", columns_of(b"red\ngreen\nred"))
    for most in 8, 9, 30:
        allowed = most - 8
        for count in allowed + 1, 1000:
            ended = program.run([b"shard", b"%d" % count, b"it", b"columns"], before=limit_open_files(most))
            message = b"it: cannot write files: the limit of open files allows %d shards (see ulimit -n)" % allowed
            yield f"{count} shards, {most} open files", ended, failed(1, message)
            yield f"{count} shards, {most} open files, what is there", Path("it").exists(), False
        if allowed:
            ended = program.run([b"shard", b"%d" % allowed, b"it", b"columns"], before=limit_open_files(most))
            yield f"{allowed} shards, {most} open files", ended, OK
            yield f"{allowed} shards, {most} open files, files", files_in("it"), shards_of(b"red\ngreen\nred", allowed)
            shutil.rmtree("it")


def trials() -> list[Trial]:
    few = [it for it in DAMAGED if len(it[0]) + len(it[1]) < 1000]
    return [
        *((try_text, text) for text in (*TEXTS, *LONG_TEXTS)),
        *((try_in_place, text) for text in TEXTS),
        *((try_damaged, *given) for given in few),
        *((try_repeated, *given) for given in REPEATED),
        *((try_pair, *given) for given in OF_TWO_RUNS),
        *((try_end, *given) for given in OF_ANOTHER_END),
        *((try_random, seed) for seed in range(300)),
        *((it,) for it in (try_missing, try_bad_line, try_refused, try_in_little_memory, try_open_files)),
    ]
