"""What is tried of the program `dictcol` as a shell uses it: files by their names, options, terminals."""

import bz2
import errno
import gzip
import lzma
import os
import pty
import random
import re
import signal
import subprocess
import tempfile
import tty
from collections import Counter
from itertools import product
from pathlib import Path

from built import end_of, holding
from program.columns import OK, columns_of, files_in
from program.expected import ENCODED, MEMORY, answer, failed, is_utf8, misused, told, unreadable, unwritten, warned
from program.requests import asks_of_lines
from program.streams import limit_files
from tree import TOP
from trials import alone, own_folder

VERSION = (TOP / "VERSION").read_bytes().strip()


# Arguments behind which LINES, the name of a file or `-`, is read.
COUNTING = ("count LINES", "--sorted count LINES", "count LINES --sorted", "--backend bucket count --sorted LINES",
            "count --backend=buffer LINES", "count --backend=buffer --backend string -- LINES", "-- count LINES")
LINES, COUNTS = b"red\ngreen\nred\n", (0, b"2 red\n1 green\n", b"")
NAMES = (b"lines", b"--sorted", b"-", "é\n".encode())


def try_operands(program):
    """Arguments that name a file, which standard input does not matter to, or `-`."""
    for name in NAMES:
        Path(os.fsdecode(name)).write_bytes(LINES)
    wanted = {**dict.fromkeys(COUNTING, COUNTS), "encode LINES": answer([b"encode"], LINES),
              "count --backend=tree --help": misused(b"unknown backend 'tree'")}
    for words, name in product(wanted, (b"lines", os.path.abspath(b"lines"), b"./-", NAMES[-1], b"-")):
        given = [name if word == "LINES" else word for word in words.split()]
        yield f"{given}", program.run(given, LINES if name == b"-" else b"\xff"), wanted[words]
    Path("encoded").write_bytes(program.run([b"encode"], LINES).output)
    Path("bytes").write_bytes(b"a\n\xff")
    for words, end in ((b"count -- --sorted", COUNTS), (b"decode encoded", (0, LINES, b"")),
                       (b"decode lines", failed(2, b"lines: invalid JSON at line 1 column 1")),
                       (b"count bytes", failed(2, b"bytes: line 2 is not UTF-8 (see --invalid)"))):
        yield f"{words}", program.run(words.split()), end
    for name, error in ((b"missing", errno.ENOENT), (os.getcwdb(), errno.EISDIR), (b"lines/a", errno.ENOTDIR), (b"", errno.ENOENT),
                        (b"a" * 256, errno.ENAMETOOLONG)):
        yield f"the file {name!r}", program.run([b"count", name]), (1, b"", unreadable(error, name + b": "))
    no_keys = failed(1, b"cannot draw random keys: " + told(errno.ENOSYS))
    yield "no random bytes for a file", program.run([b"count", b"lines"], NO_RANDOM=1), no_keys
    with open("/dev/full", "wb") as full:
        ended = program.run([b"count", b"lines"], b"", full)
    yield "a file on a full disk", ended, unwritten(errno.ENOSPC)
    for words, number in (([b"count", b"\xff"], 2), ([b"\xff", b"\xff"], 1),
                          ([b"count", "é".encode(), b"a\xc3", b"a" * 9999], 3), ([b"count", *[b"a"] * 200, b"\xff"], 202)):
        wanted = failed(2, b"argument %d is not UTF-8 (a file with such a name can be standard input)" % number)
        yield f"an argument that is not UTF-8: {words[-9:]}", program.run(words), wanted
    for words in [b"count", b"\xff" * 5000], [b"count", b"a" * 5000, b"\xff" * 5000]:
        yield "a long argument that is not UTF-8", program.run(words), failed(2, b"an argument is not UTF-8")


def write_files(files):
    names = [b"%d.json" % number for number in range(len(files))]
    for name, file in zip(names, files):
        Path(os.fsdecode(name)).write_bytes(file)
    return names


# So many files are named, of which each comes again and again.
MANY_NAMES = 5000


def try_many_files(program):
    """A hundred files, of which some end in the midst of a line, one of them that is named twice, 5,000 names of them in no order that
    comes again, also before one that is damaged, and a line of 110 kB in two files."""
    parts = [b"%d\nline\n%s" % (number % 7, b"half" * (number % 3)) for number in range(100)]
    orders = [range(100), [1] * 2, random.Random(0).choices(range(100), k=MANY_NAMES)]
    texts = [b"".join(parts[it] for it in order) for order in orders]
    with own_folder():
        names = write_files(parts)
        for word, order, text in ((word, *it) for word in (b"encode", b"count") for it in zip(orders, texts)):
            yield f"{word} of {len(order)} files", program.run([word, *[names[it] for it in order]]), answer([word], text)
    with own_folder():
        names = write_files([answer([b"encode"], part)[1] for part in parts])
        Path("bad").write_bytes(b"{}")
        for words, order, text in ((words, *it) for words in (b"merge", b"count --encoded") for it in zip(orders, texts)):
            named = [*words.split(), *[names[it] for it in order]]
            wanted = answer([b"encode" if words == b"merge" else b"count"], text)
            yield f"{words} of {len(order)} files", program.run(named), wanted
            ended = program.run([*named, b"bad"])
            yield f"{words} of {len(order)} files and a bad one", ended, failed(2, b'bad: no array "dictionary"')
        for backend in b"string", b"bucket", b"buffer":
            yield from try_refused_files(program, [b"merge", b"--backend", backend, *names[:12]])
    halves = b"a\n" + b"b" * 70000, b"b" * 40000 + b"\nb\n"
    with own_folder():
        names = write_files(halves)
        for word in b"encode", b"count":
            yield f"{word} of a line in two files", program.run([word, *names]), answer([word], b"".join(halves))
    with own_folder():
        names = write_files([answer([b"encode"], half)[1] for half in halves])
        yield "a line in two files, merged", program.run([b"merge", *names]), answer([b"encode"], b"".join(halves))


# Lines are mended in blocks of a quarter of so many bytes.
BLOCK = 1 << 18


def try_blocks(program):
    """Lines and characters at the ends of blocks, a line of several blocks, one line without a newline, and a byte order mark."""
    inputs = [b"a" * (BLOCK * 3), b"a" * (BLOCK * 3) + b"\nb", b"line", "\ufeffa\na\n\ufeffa\n".encode(), b"a\r\na\n"]
    for block, shift in product((BLOCK >> 2, BLOCK >> 1, BLOCK), range(-4, 5)):
        front = b"a" * (block - 2 + shift)
        inputs += [front + b"\n" + b"b\n", front + b"\n" + front + b"\n", front[:-2] + "😀é\nb".encode(),
                   b"\n" * (block + shift) + b"b"]
    for data in inputs:
        for words in [b"encode"], [b"count"], [b"count", b"--invalid=replace"], [b"encode", b"--invalid=skip"]:
            yield f"{words} of {len(data)} bytes, {data[-8:]!r}", program.run(words, data), answer(words, data)
    for words in [b"encode"], [b"count"]:
        for block, shift in product((BLOCK >> 2, BLOCK >> 1, BLOCK), (-2, -1, 0, 1)):
            data = b"\n" * (block + shift) + b"\xff\nb"
            wanted = failed(2, b"line %d is not UTF-8 (see --invalid)" % (block + shift + 1))
            yield f"{words}, a bad line behind {block + shift} lines", program.run(words, data), wanted


def try_many_lines(program):
    """More than 2^22 lines, of which each second one is new, also behind others."""
    data = b"".join(b"%d\nx\n" % number for number in range((1 << 21) + 1))
    encoded = program.run([b"encode"], data)
    yield "2^22 lines, encoded", encoded, answer([b"encode"], data)
    yield "2^22 lines, decoded", program.run([b"decode"], encoded.output), (0, data, b"")
    yield "2^22 lines, counted", program.run([b"count", b"--sorted"], data), answer([b"count", b"--sorted"], data)
    names = write_files([answer([b"encode"], b"7\ny")[1], encoded.output])
    yield "2^22 lines, merged", program.run([b"merge", *names]), answer([b"encode"], b"7\ny" + data)
    for words, before in (b"encode --plain new", ()), (b"encode --plain new --onto new", (b"0", b"x")):
        yield f"2^22 lines, {words}", program.run(words.split(), data), OK
        yield f"2^22 lines, {words}, files", files_in("new"), columns_of(data, before)
    yield "2^22 lines, decoded from plain columns", program.run([b"decode", b"new"]), (0, data, b"")


def try_long_lines(program):
    """Lines of 5 MiB, of which no newline ends the last one, also mended."""
    long = b"a" * (5 << 20)
    for data, words in product((long, long + b"\n" + long, long + b"\xff\n" + long), ([b"encode"], [b"count"])):
        for how in b"--invalid=replace", b"--invalid=skip":
            name = f"{words}, {how!r} of {len(data)} bytes"
            yield name, program.run([*words, how], data), answer([*words, how], data)


def read_terminal(program, words, given, **streams):
    """What a run writes to a terminal, which one or both of its outputs are, and how it ends."""
    ours, theirs = pty.openpty()
    tty.setraw(theirs)
    outputs = {name: theirs if is_terminal else subprocess.DEVNULL for name, is_terminal in streams.items()}
    with subprocess.Popen([program.path, *words], stdin=given, env={}, **outputs) as started:
        os.close(theirs)
        shown = b""
        try:
            while piece := os.read(ours, 1 << 16):
                shown += piece
        except OSError:  # Nobody has the other end any more.
            pass
        os.close(ours)
    return started.returncode, shown


# From this length on progress is told: that the input was read, and by these, except those that merge files, that all is done.
TOLD_FROM = 1 << 24
PROGRESS = {"decode": True, "encode --plain DIR": True, "shard 2 DIR": True, "merge -": False, "count --encoded": False}


def try_terminal(program):
    """Progress is told on a terminal that is standard error, of a long input alone; output to a terminal is as elsewhere."""
    for length, words in product((TOLD_FROM, TOLD_FROM - 1), ([b"encode"], [b"count"], [b"count", b"--invalid=skip"])):
        data = ((b"a" * 63 + b"\n") * (TOLD_FROM >> 6))[:length]
        with tempfile.TemporaryFile() as given:
            given.write(data)
            given.seek(0)
            status, shown = read_terminal(program, words, given, stdout=False, stderr=True)
            progress = b"dictcol: 16 MiB read\ndictcol: 16 MiB done\n" if length == TOLD_FROM else b""
            yield f"{words}, progress of {length} bytes", (status, shown), (0, progress)
            given.seek(0)
            found = read_terminal(program, words, given, stdout=True, stderr=False)
            yield f"{words} of {length} bytes to a terminal", found, answer(words, data)[:2]
            with own_folder():
                halves = data[:TOLD_FROM // 2], data[TOLD_FROM // 2:]
                paths = write_files(halves)
                shown = read_terminal(program, [*words, *paths], given, stdout=False, stderr=True)
            yield f"{words}, progress of {length} bytes in two files", shown, (0, progress)
    broken = b"a\n" * (TOLD_FROM // 2 - 1) + b"\xff\n"
    for files, wanted in (
            ([], (0, b"dictcol: 16 MiB read\ndictcol: lines left out that are not UTF-8: 1\ndictcol: 16 MiB done\n")),
            ([b"-", b"/missing/it"], (1, unreadable(errno.ENOENT, b"/missing/it: ")))):
        with holding(broken) as given:
            shown = read_terminal(program, [b"count", b"--invalid=skip", *files], given, stdout=False, stderr=True)
        yield f"progress of a long input and {files}", shown, wanted
    for length, (words, is_done) in product((TOLD_FROM, TOLD_FROM - 1), PROGRESS.items()):
        # With blanks before it, a file does not look like one to what reads lines.
        data = answer([b"encode"], b"a\n")[1].rjust(length, b" ")
        with own_folder(), holding(data) as given:
            given_words = words.replace("DIR", "new").split()
            shown = read_terminal(program, given_words, given, stdout=False, stderr=True)
        progress = b"dictcol: 16 MiB read\n" + b"dictcol: 16 MiB done\n" * is_done if length == TOLD_FROM else b""
        yield f"{words}, progress of {length} bytes", shown, (0, progress)
    for words, data in ([b"encode"], b"a\nb\n"), ([b"count"], b"a\na"), ([b"decode"], answer([b"encode"], b"a\n\nb")[1]):
        with tempfile.TemporaryFile() as given:
            given.write(data)
            given.seek(0)
            wanted = (0, b"a\n\nb") if words == [b"decode"] else answer(words, data)[:2]
            yield f"{words} to a terminal", read_terminal(program, words, given, stdout=True, stderr=True), wanted


def try_terminal_share(program):
    """On a terminal is told how much was read of files with known sizes: each tenth, but not more often than each 256 MiB."""
    piece = (b"a" * (2**16 - 1) + b"\n") * 2**8
    with own_folder():
        for name, count in ("long", 32), ("short", 4):
            with open(name, "wb") as file:
                file.writelines([piece] * count)
        told_of = b"dictcol: 256 MiB read, 44%\ndictcol: 512 MiB read, 88%\n"
        for words, shares in ([b"long", b"short"], told_of), ([b"short", b"short"], b""):
            total = sum(os.path.getsize(it) for it in words) >> 20
            shown = read_terminal(program, [b"count", *words], subprocess.DEVNULL, stdout=False, stderr=True)
            yield f"{words}", shown, (0, shares + b"dictcol: %d MiB read\ndictcol: %d MiB done\n" % (total, total))
        with open("long", "rb") as given:
            shown = read_terminal(program, [b"count"], given, stdout=False, stderr=True)
        yield "standard input has no size", shown, (0, b"dictcol: 512 MiB read\ndictcol: 512 MiB done\n")
        ended = program.run([b"count", b"long"])
        yield "nothing is told on no terminal", (ended.status, ended.error), (0, b"")


def try_terminal_as_a_file(program):
    """A terminal that is a file is read, and does not become that of the run: what stops a run of a terminal ends none of others."""
    ours, theirs = pty.openpty()
    words = [b"count", os.ttyname(theirs).encode()]
    with subprocess.Popen([program.path, *words], stdin=subprocess.DEVNULL, stdout=subprocess.PIPE, stderr=subprocess.PIPE, env={},
                          start_new_session=True) as started:
        # Control C, and at the beginning of a line control D, which ends the input.
        os.write(ours, b"\x03red\n\x04")
        ended = end_of(started)
    os.close(theirs)
    os.close(ours)
    yield f"{words[0]} of a terminal", ended, (0, b"1 red\n", b"")


def try_merges(program):
    """Some files in their order: what is joined, what is empty, and what is wrong with one of them."""
    parts = b"red\ngreen", b"", b"ish\n\n", b"\n", b"x", b"y", b"red\n"
    files = [answer([b"encode"], part)[1] for part in parts]
    wanted = answer([b"encode"], b"".join(parts))
    names = write_files(files)
    for words in ([b"merge", *names], [b"merge", b"--backend", b"bucket", *names], [*b"-- merge".split(), *names],
                  [b"merge", *names[:3], b"--backend=buffer", *names[3:]]):
        yield f"{words}", program.run(words, b"\xff"), wanted
    for taken in range(1, len(names)):
        words = [b"merge", *names[:taken]]
        yield f"{words}", program.run(words), answer([b"encode"], b"".join(parts[:taken]))
    for place in range(len(names)):
        words = [b"merge", *names[:place], b"-", *names[place + 1:]]
        yield f"{words}", program.run(words, files[place]), wanted
    yield from try_refused_files(program, [b"merge", *names[:3]])
    for name, file in (("bad", b"{}"), ("cut", files[0][:9]), ("bytes", b"\xff")):
        Path(name).write_bytes(file)
    for name, end in ((b"bad", failed(2, b'bad: no array "dictionary"')),
                      (b"cut", failed(2, b"cut: JSON ends too early, at line 1 column 10")),
                      (b"bytes", failed(2, b"bytes: line 1 is not UTF-8")),
                      (b"missing", (1, b"", unreadable(errno.ENOENT, b"missing: "))),
                      (b".", (1, b"", unreadable(errno.EISDIR, b".: ")))):
        for place in range(3):
            words = [b"merge", *names[:place], name, *names[place:]]
            yield f"{words}", program.run(words), end
    with open("/dev/full", "wb") as full:
        ended = program.run([b"merge", *names], b"", full)
    yield "files merged to a full disk", ended, unwritten(errno.ENOSPC)
    no_keys = failed(1, b"cannot draw random keys: " + told(errno.ENOSYS))
    yield "no random bytes for files", program.run([b"merge", *names], NO_RANDOM=1), no_keys


def try_encoded(program):
    """Lines that look like what `encode` writes are taken as lines, with a warning."""
    plain, encoded = b"a\n", answer([b"encode"], b"a\n")[1]
    names = write_files((plain, encoded, encoded, ENCODED[:-1]))
    for word, given in product((b"encode", b"count"), ((1,), (0, 1), (2, 0, 1), (1, 3), (3,), (3, 0))):
        words = [word, *(names[it] for it in given)]
        joined = b"".join((plain, encoded, encoded, ENCODED[:-1])[it] for it in given)
        looking = [names[it] for it in given if it in (1, 2)]
        wanted = *answer(words, joined)[:2], warned(encoded, looking[0] + b": ") if looking else b""
        yield f"{words}", program.run(words), wanted
    for words in ([b"count"], [b"count", b"--invalid=replace"], [b"encode", b"-"]):
        yield f"{words}", program.run(words, encoded), answer(words, encoded)
    yield "no warning behind a fault", program.run([b"count"], encoded + b"\xff"), failed(2, b"line 2 is not UTF-8 (see --invalid)")
    both = encoded + b"\xff\n"
    Path("both").write_bytes(both)
    wanted = 1, b"", unreadable(errno.ENOENT, b"missing: ")
    for words in [b"encode"], [b"count"], [b"encode", b"--plain", b"it"], [b"shard", b"2", b"it"]:
        words = [*words, b"--invalid=skip"]
        yield f"{words}, a fault alone", program.run([*words, b"both", b"missing"]), wanted
        if b"it" not in words:
            yield f"{words}, a line left out before the warning", program.run(words, both), answer(words, both)


# Lines that newlines end become lines that zero bytes end.
EXCHANGED = bytes.maketrans(b"\n\0", b"\0\n")
# Longer than a block of the input, and more newlines than a number of 16 bits counts.
MANY_LINES = b"a\n" * 200000
# Some files, and the one that is named for a line that is not UTF-8, with the number of the line there: that in which it begins.
BAD_LINES = (
    ((b"a\n\xff\n", b"b"), 0, 2), ((b"a", b"\xff\n"), 0, 1), ((b"a\nb\n", b"", b"c\n\xff", b""), 2, 2),
    ((b"a\n", b"\n\n\xff\n\n"), 1, 3),
    ((b"\xff", b""), 0, 1), ((b"", b"\xff"), 1, 1), ((b"a\n", b"\xc3", b"x\n"), 1, 1), ((b"a\n", b"\xc3\n", b"\xa9\n"), 1, 1),
    ((b"a\nb", b"\n\xff\n"), 1, 2), ((b"a\nb", b"", b"\xff"), 0, 2), ((b"a\nb", b"c", b"d\xff\n"), 0, 2),
    ((b"a\nb", b"c", b"d\n\xff"), 2, 2),
    ((b"a\nb", b"c", b"d\n", b"\xff"), 3, 1), ((b"", b"a", b"", b"\xff\n"), 1, 1), ((b"a\n", b"", b"\xff\n"), 2, 1),
    ((MANY_LINES + b"a", b"b" * 300000 + b"\xff\n"), 0, 200001), ((MANY_LINES + b"a", b"b" * 300000 + b"\n\xff\n"), 1, 2),
    ((b"a\n" * 300, b"b\n" * 200 + b"\xff"), 1, 201),
    ((b"a\n", MANY_LINES + b"\xff\n"), 1, 200001), ((MANY_LINES, b"a\n\xff\n"), 1, 2), ((b"\n" * 200000, b"\xff"), 1, 1),
    ((MANY_LINES + b"\xff\n", b"a\n"), 0, 200001), ((b"\n" * 70000, MANY_LINES, b"\n" * 70000 + b"\xff"), 2, 70001),
)


def try_files(program):
    """Some files are read as one, in which a line, and a character too, may be in two of them."""
    parts = b"red\ngreen", b"", b"ish\n\n", b"\n", b"x\xc3", b"\xa9", b"y", b"red\n", b"red"
    with own_folder():
        names = write_files(parts)
        for words in ([b"encode"], [b"count"], [b"count", b"--sorted"], [b"encode", b"--backend=buffer"]):
            for taken in range(1, len(names) + 1):
                ended = program.run([*words, *names[:taken]])
                whole = b"".join(parts[:taken])
                bad = failed(2, names[taken - 1] + b": line 1 is not UTF-8 (see --invalid)")
                wanted = answer(words, whole) if is_utf8(whole) else bad
                yield f"{words} of {taken}", ended, wanted
        for place in range(len(names)):
            words = [b"count", *names[:place], b"-", *names[place + 1:]]
            yield f"{words}", program.run(words, parts[place]), answer(words, b"".join(parts))
        yield from try_refused_files(program, [b"encode", *names[:3]])
        for name, error in ((b"missing", errno.ENOENT), (b".", errno.EISDIR)):
            words = [b"count", names[0], name, names[2]]
            yield f"{words}", program.run(words), (1, b"", unreadable(error, name + b": "))
    for files, place, line in BAD_LINES:
        shown = [(file[:20], len(file)) for file in files]
        with own_folder():
            names = write_files(files)
            for word in b"encode", b"count":
                wanted = failed(2, b"%s: line %d is not UTF-8 (see --invalid)" % (names[place], line))
                yield f"{word} of {shown}", program.run([word, *names]), wanted
            for words in [b"encode", b"--invalid=replace"], [b"count", b"--invalid=skip"]:
                yield f"{words} of {shown}", program.run([*words, *names]), answer(words, b"".join(files))
            zero_ended = write_files([it.translate(EXCHANGED) for it in files])
            wanted = failed(2, b"%s: line %d is not UTF-8 (see --invalid)" % (zero_ended[place], line))
            yield f"count -z of {shown}", program.run([b"count", b"-z", *zero_ended]), wanted


def try_counts_of_encoded(program):
    """The lines of files that `encode` wrote are counted as those of the decoded files are, one after another."""
    parts = b"red\ngreen", b"", b"ish\n\nred\n", b"\n", b"x", b"y", b"red\n", b"red"
    names = write_files([answer([b"encode"], part)[1] for part in parts])
    for words in ([b"count", b"--encoded"], [b"count", b"--encoded", b"--sorted"],
                  [b"count", b"--backend=bucket", b"--encoded"]):
        for taken in range(1, len(names) + 1):
            yield f"{words} of {taken}", program.run([*words, *names[:taken]]), answer(words, b"".join(parts[:taken]))
        for given in [], [b"-"]:
            ended = program.run([*words, *given], answer([b"encode"], parts[2])[1])
            yield f"{words} of standard input", ended, answer(words, parts[2])
    # The dictionary is in another order than the lines, and has a text that is no line.
    Path("order").write_bytes(b'{"dictionary":["c","b","a"],"final_newline":true,"lines":[2,0,2,0,2]}')
    yield "texts out of order", program.run(b"count --encoded order".split()), (0, b"3 a\n2 c\n", b"")
    Path("bad").write_bytes(b"{}")
    for place in range(2):
        words = [b"count", b"--encoded", *names[:place], b"bad", *names[place:]]
        yield f"{words}", program.run(words), failed(2, b'bad: no array "dictionary"')
    yield from try_refused_files(program, [b"count", b"--encoded", b"--sorted", *names[:3]])


# What is compressed, what reads it, and the first line that is not UTF-8, also if a zero byte ends each.
PACKED = (
    (gzip.compress(LINES, mtime=0), b"zcat", 1, 1), (b"\x28\xb5\x2f\xfd\x04\x00", b"zstdcat", 1, 1), (lzma.compress(LINES), b"xzcat", 1, 1),
    (bz2.compress(LINES), b"bzcat", 1, 1), (b"BZh11AY&SY\nred\n\xff", b"bzcat", 3, 1), (b"\x1f\x8b", b"zcat", 1, 1),
)
# What is not, as it looks.
NOT_PACKED = (b"\x1f\xff", b"\x1f\x8a\x8b", b"\x8b\x1f", b"\x28\xb5\x2f\xfe", b"\xfd7zXY", b"BZh9\xff", b"BZh91AY&SX\xff",
              b"BZi91AY&SY\xff", b"a\n\x1f\x8b\n", b"\x1f", b"")


def try_packed(program):
    """A line that is not UTF-8 in compressed input is told with what reads that, by each command, also in a second file."""
    told_of = b"%sline %d is not UTF-8: it looks compressed (%s FILE | dictcol ..)"
    Path("lines").write_bytes(LINES)
    Path("half").write_bytes(b"red")
    Path("encoded").write_bytes(answer([b"encode"], LINES)[1])
    for data, reader, line, zero_ended in PACKED:
        Path("packed").write_bytes(data)
        for words in (b"encode", b"count", b"count -z", b"encode --plain new", b"shard 2 new", b"decode", b"count --encoded"):
            number = zero_ended if b"-z" in words else line
            wanted = failed(2, told_of % (b"packed: ", number, reader))
            yield f"{words} of {data[:10]}", program.run([*words.split(), b"packed"]), wanted
            yield f"{words} of {data[:10]} as input", program.run(words.split(), data), failed(2, told_of % (b"", number, reader))
        for words in b"encode lines packed", b"merge packed", b"merge encoded packed encoded", b"count --encoded encoded packed":
            yield f"{words} of {data[:10]}", program.run(words.split()), failed(2, told_of % (b"packed: ", line, reader))
        # The first line of the second file goes on with the last one of the first, and is one of that.
        ended = program.run(b"count half packed".split())
        wanted = failed(2, (b"half" if line == 1 else b"packed") + b": line %d is not UTF-8 (see --invalid)" % line)
        yield f"a line that goes on with {data[:10]}", ended, wanted
        words = [b"count", b"--invalid=replace"]
        yield f"mended, {data[:10]}", program.run(words, data), answer(words, data)
        words = [b"distinct", b"--field=99"]
        warning = b"dictcol: packed: warning: fields were read from what looks compressed\n"
        yield f"a field of {data[:10]}", program.run([*words, b"packed"]), (*answer(words, data)[:2], warning)
    for data in NOT_PACKED:
        Path("other").write_bytes(data)
        bad = b"other: line %d is not UTF-8 (see --invalid)" % (data.count(b"\n", 0, 3) + 1)
        wanted = answer([b"count"], data) if is_utf8(data) else failed(2, bad)
        yield f"{data} looks compressed", program.run([b"count", b"other"]), wanted
    yield "nothing is left", sorted(os.listdir()), ["encoded", "half", "lines", "other", "packed"]


def try_file_limit(program):
    """At the limit of a file's length the system's signal ends a run. One that gets no signal says what failed."""
    data = b"".join(b"%d\n" % number for number in range(9999))
    for words in [b"encode"], [b"count"]:
        for is_left_out in False, True:
            def limit(is_left_out=is_left_out):
                limit_files(1000)
                signal.signal(signal.SIGXFSZ, signal.SIG_IGN if is_left_out else signal.SIG_DFL)
            with tempfile.TemporaryFile() as output:
                ended = program.run(words, data, output, before=limit)
            wanted = unwritten(errno.EFBIG) if is_left_out else (-signal.SIGXFSZ, b"", b"")
            yield f"{words} at the limit of a file, the signal left out: {is_left_out}", ended, wanted


def try_far_json(program):
    """Members that are not used are read as deep, and with numbers as great, as the page says, and no further."""
    page = (TOP / "crates/dictcol/dictcol.1").read_text(encoding="utf-8")
    depth, = re.findall(r"^Arrays and objects may nest (\d+) deep,", page, re.M)
    greatest, = re.findall(r"about ([\d.]+e\d+);", page)
    text = b'{"dictionary":["red"],"final_newline":true,"lines":[0],"more":%s}'
    # The object itself is one.
    for nested in int(depth) - 1, int(depth):
        for begin, end in ((b"[", b"]"), (b'{"a":', b"}")):
            ended = program.run([b"decode"], text % (begin * nested + b"0" + end * nested))
            is_read = nested < int(depth)
            yield f"{nested} of {begin} in a member, {ended}", ended == (0, b"red\n", b""), is_read
            yield f"{nested} of {begin} in a member: told", ended.status == 2 and b" at line 1 column " in ended.error, not is_read
    for number, is_read in ((b"1.79e308", True), (b"-1.79e308", True), (b"%d" % 10**308, True), (b"1.8e308", False),
                            (b"%d" % 10**309, False)):
        ended = program.run([b"decode"], text % number)
        yield f"{number[:9]} in a member, {ended}", ended == (0, b"red\n", b""), is_read
        yield f"{number[:9]} in a member: told", b"number out of range" in ended.error, not is_read
        yield f"{number[:9]} is below {greatest}", abs(float(number)) < float(greatest), is_read


def ended_names(names):
    return b"".join(name + b"\0" for name in names)


# Of so many lines of six letters each backend asks for other sizes.
STORED = b"".join(b"%06d\n" % number for number in range(40))


def try_backends(program):
    """The lines are stored in the backend that is named: without what it asks for them, a run asks for the same over each."""
    write_files([answer([b"encode"], STORED)[1]])
    Path("list").write_bytes(b"-\0")
    for words in (b"encode", b"encode --plain new", b"encode --files0-from=list", b"encode --invalid=skip", b"merge 0.json",
                  b"count --encoded 0.json"):
        others = []
        for backend in b"string", b"bucket", b"buffer":
            asks = program.run_with_asks([*words.split(), b"--backend", backend], STORED)[1]
            lines = Counter(asks_of_lines([b"encode"], STORED, backend)[1])
            yield f"{words} over {backend}, what it does not ask for", lines - Counter(asks), Counter()
            others.append(Counter(asks) - lines)
        yield f"{words}, what else it asks for over each backend", others, others[:1] * 3


# What is said behind a fault of a file whose name may be a whole list.
UNENDED = b" (no zero byte ends a name in the list: see --files0-from)"
# Lists of names: the list and what is told of it.
BAD_LISTS = (
    (b"\0", b"1: invalid zero-length file name"),
    (b"one\0\0one\0", b"2: invalid zero-length file name"),
    (b"one\0one\0\0", b"3: invalid zero-length file name"),
    (b"one\0\xff\0", b"2: the file name is not UTF-8 (a file with such a name can be standard input)"),
    (b"one\0o\n\xc3", b"2: the file name is not UTF-8 (a file with such a name can be standard input)"),
)


def try_lists(program):
    """Files that a list names are read as those that the arguments name."""
    files = {b"one": b"red\ngreen", b"two lines\n\n": b"ish\nred\n", b"--sorted": b"blue", b"./-": b"\n\nblue\n"}
    whole = b"".join(files.values())
    for name, data in files.items():
        Path(os.fsdecode(name)).write_bytes(data)
    for listed in ended_names(files), ended_names(files)[:-1]:
        Path("list").write_bytes(listed)
        for words in [b"encode"], [b"count"], [b"count", b"--sorted", b"--backend=buffer"], [b"encode", b"--invalid=skip"]:
            for option in [b"--files0-from=list"], [b"--files0-from", b"./list"], [b"--files0-from=one", b"--files0-from=list"]:
                yield f"{words} {option}", program.run([*option, *words], b"\xff"), answer(words, whole)
            yield f"{words} of a list in standard input", program.run([*words, b"--files0-from=-"], listed), answer(words, whole)
        yield "shards", program.run(b"shard 1 it --files0-from=list".split()), (0, b"", b"")
        yield "shards of a list", Path("it", "0").read_bytes(), whole
        Path("it", "0").unlink()
        Path("it", "order").unlink()
        Path("it").rmdir()
        yield "columns", program.run(b"encode --plain columns --files0-from=list".split()), (0, b"", b"")
        yield "columns of a list", program.run([b"decode", b"columns"]), (0, whole, b"")
    Path("list").write_bytes(b"one\0-\0two lines\n\n")
    ended = program.run(b"count --files0-from=list".split(), files[b"--sorted"])
    yield "a list with standard input", ended, answer([b"count"], b"".join([*files.values()][:1]) + b"blueish\nred\n")
    Path("none").write_bytes(b"")
    for words, given in ([b"--files0-from=none"], b"red\n"), ([b"--files0-from=-"], b""):
        for word in [b"count"], [b"encode"], [b"count", b"--encoded"]:
            wanted = answer([b"encode"], b"") if word == [b"encode"] else (0, b"", b"")
            yield f"{word} of no file", program.run([*word, *words], given), wanted
    names = write_files([answer([b"encode"], part)[1] for part in (b"red\ngreen", b"ish\nred\n")])
    Path("7.json").write_bytes(ended_names(names))
    words = [b"count", b"--encoded", b"--files0-from=7.json"]
    yield "encoded files of a list", program.run(words), answer([b"count"], b"red\ngreenish\nred\n")
    yield from try_refused_files(program, words)
    yield from try_refused_files(program, [b"count", b"--files0-from=7.json", b"--invalid=replace"])


def try_bad_lists(program):
    """A list that names no file, files that are not there, and standard input where it is the list."""
    Path("one").write_bytes(b"red\n")
    Path("bytes").write_bytes(b"red\n\xff\n")
    Path("none").write_bytes(b"")
    input_twice = b"2: standard input is named twice"
    list_is_input = b"%d: no file name may be '-' if the names come from standard input"
    for word in b"count", b"encode", b"shard 2 it", b"encode --plain it", b"count --encoded":
        for data, message in (*BAD_LISTS, (b"-\0-\0", input_twice)):
            Path("list").write_bytes(data)
            words = [*word.split(), b"--files0-from=list"]
            yield f"{words} of {data}", program.run(words, b"a\n"), failed(2, b"list:" + message)
        for data, message in (*BAD_LISTS, (b"-", list_is_input % 1), (b"one\0-\0one", list_is_input % 2)):
            words = [*word.split(), b"--files0-from", b"-"]
            yield f"{words} of {data}", program.run(words, data), failed(2, b"-:" + message)
        for name, error in (b"missing", errno.ENOENT), (b".", errno.EISDIR), (b"one/", errno.ENOTDIR):
            wanted = 1, b"", unreadable(error, name + b": ")
            words = [*word.split(), b"--files0-from=-"]
            front = b"" if b"--encoded" in words else b"none\0"
            yield f"{words} of {name}", program.run(words, front + name), wanted
            words = [*word.split(), b"--files0-from", name]
            yield f"{words}", program.run(words, b"one\0"), wanted
    wanted = failed(2, b"bytes: line 2 is not UTF-8 (see --invalid)")
    yield "a bad line in a list", program.run(b"count --files0-from=-".split(), b"one\0bytes\0one"), wanted
    yield "nothing is left", sorted(os.listdir()), ["bytes", "list", "none", "one"]


def try_unended_lists(program):
    """A list whose names newlines end is one name, and told as such a list if there is no such file."""
    for name in "one", "bytes", "none":
        Path(name).write_bytes(b"red\n")
    for data in b"one\nbytes\n", b"missing\n", b"missing\nnone", b"missing\none\n" + b"a" * 300:
        Path("list").write_bytes(data)
        shown = b'"%s"' % data.replace(b"\n", b"\\n")
        error = errno.ENAMETOOLONG if len(data) > 255 else errno.ENOENT
        wanted = 1, b"", unreadable(error, shown + b": ").removesuffix(b"\n") + UNENDED + b"\n"
        for words in b"count", b"encode", b"encode --plain it", b"shard 2 it", b"count --encoded":
            words = [*words.split(), b"--files0-from=list"]
            yield f"{words} of {data[:20]}", program.run(words), wanted
    # With a zero byte the newline is a part of the name, and so it is if there is such a file.
    wanted = 1, b"", unreadable(errno.ENOENT, b'"one\\n": ')
    yield "a name with a newline", program.run(b"count --files0-from=-".split(), b"one\n\0"), wanted
    Path("one\n").write_bytes(b"red\n")
    yield "a file with a newline in its name", program.run(b"count --files0-from=-".split(), b"one\n"), (0, b"1 red\n", b"")
    Path("one\n").unlink()
    yield "nothing is left", sorted(os.listdir()), ["bytes", "list", "none", "one"]


# More names than arguments may be, which take two megabytes.
LISTED = 300000


def try_long_list(program):
    Path("a line").write_bytes(b"red\n")
    ended = program.run(b"count --files0-from=-".split(), b"a line\0" * LISTED)
    yield f"a list of {LISTED} names", ended, (0, b"%d red\n" % LISTED, b"")


# Words with control characters, and how Rust's `{:?}` writes them.
CONTROLS = (
    ("no\x1b[31msuch\nfile", r'"no\u{1b}[31msuch\nfile"'), ("\t", r'"\t"'), ("a\r", r'"a\r"'), ("\x7f", r'"\u{7f}"'),
    ("\x9b31m", r'"\u{9b}31m"'), ("é\n", r'"é\n"'), ('"\\\x01', r'"\"\\\u{1}"'), ("'\n\n", r'''"'\n\n"'''),
)


def try_controls(program):
    """No control character of a word or of the name of a file comes to the terminal. Other words are told as they are."""
    encoded = answer([b"encode"], b"a\n")[1]
    plain = (("a b", "a b"), ('"', '"'), ("é\\n'", "é\\n'"))
    for word, shown in (*CONTROLS, *plain):
        name, told_name = word.encode(), shown.encode()
        between = told_name if (word, shown) in CONTROLS else b"'%s'" % told_name
        missing = 1, b"", unreadable(errno.ENOENT, told_name + b": ")
        for words in ([b"count", name], [b"merge", name], [b"decode", name], [b"encode", b"--files0-from", name]):
            yield f"{words}", program.run(words), missing
        unended = UNENDED if "\n" in word else b""
        wanted = 1, b"", missing[2].removesuffix(b"\n") + unended + b"\n"
        yield f"{word!r} in a list", program.run(b"count --files0-from=-".split(), name), wanted
        for words, message in (
            ([name], b"unknown command %s" % between),
            ([b"decode", b"a", name], b"extra operand %s" % between),
            ([b"count", b"--backend=" + name], b"unknown backend %s" % between),
            ([b"count", b"--invalid", name], b"option '--invalid' takes error, replace or skip, and not %s" % between),
            ([b"shard", name, b"it"], b"shard takes a number of files, and not %s" % between),
            ([b"count", b"--files0-from=a", name], b"extra operand %s: files are named by option '--files0-from'" % between),
        ):
            yield f"{words}", program.run(words), misused(message)
        Path(word).write_bytes(b"\0")
        wanted = failed(2, told_name + b":1: invalid zero-length file name")
        yield f"the list {word!r}", program.run([b"count", b"--files0-from", name]), wanted
        Path(word).write_bytes(encoded)
        wanted = *answer([b"count"], encoded)[:2], warned(encoded, told_name + b": ")
        yield f"a warning of {word!r}", program.run([b"count", name]), wanted
        wanted = failed(1, b"%s: cannot write files: %s" % (told_name, told(errno.EEXIST)))
        yield f"the folder {word!r}", program.run([b"shard", b"2", name]), wanted
    for words in [b"--a\nb"], [b"count", b"-\x1b"]:
        shown = words[-1].replace(b"\n", b"\\n").replace(b"\x1b", b"\\u{1b}")
        yield f"{words}", program.run(words), misused(b'unknown option "%s"' % shown)


# So many bytes of a name or a word are shown, less those of a letter that does not end there.
SHOWN = 1024


def try_long_names(program):
    """Of a long name the letters are shown that are whole within its first bytes, and two dots."""
    for unit, around in ("a", 2), ("é", 3), ("x\n", 4), ("日", 3), ("😀", 4), ("a😀", 6):
        for length in range(SHOWN - around, SHOWN + around):
            name = (unit * SHOWN).encode()[:length].decode(errors="ignore") + "b" * (length % 2)
            shown = name if len(name.encode()) <= SHOWN else name.encode()[:SHOWN].decode(errors="ignore")
            dots = b".." if shown != name else b""
            is_escaped = "\n" in shown
            written = shown.replace("\n", "\\n").encode()
            path = b'"%s"%s' % (written, dots) if is_escaped else written + dots
            word = path if is_escaped else b"'%s'%s" % (written, dots)
            ended = program.run([b"merge", name.encode()])
            yield f"{len(name.encode())} bytes of {unit!r}", ended, (1, b"", unreadable(errno.ENAMETOOLONG, path + b": "))
            ended = program.run([name.encode()])
            yield f"a command of {len(name.encode())} bytes of {unit!r}", ended, misused(b"unknown command " + word)
    for length in 5000, 3 << 20:
        ended = program.run(b"count --files0-from=-".split(), b"a" * length + b"\0")
        yield f"a name of {length} bytes in a list", ended, (1, b"", unreadable(errno.ENAMETOOLONG, b"a" * SHOWN + b"..: "))


def try_folders(program):
    """Where no lines are read, a folder that encode --plain wrote is told as one."""
    yield "a folder", program.run(b"encode --plain it".split(), b"red\n"), (0, b"", b"")
    wanted = failed(1, b"it: a folder that encode --plain wrote; decode writes its text")
    for words in b"merge it", b"merge - it", b"count --encoded it", b"count --files0-from=it":
        yield f"{words}", program.run(words.split(), answer([b"encode"], b"a\n")[1]), wanted
    yield "decoded", program.run(b"decode it".split()), (0, b"red\n", b"")


def try_refused_files(program, words):
    """Each request for memory is refused, also those that a second file needs. The file is named, if one is being read."""
    wanted = program.run(words)
    asks = program.run_with_asks(words, b"")[1]
    for number, size in enumerate(asks, 1):
        ended, after = program.run_with_asks(words, b"", number)
        is_told = ended[:2] == (1, b"") and re.fullmatch(rb"dictcol: (\d+\.json: )?out of memory\n", ended.error)
        yield f"files, request {number} of {size} bytes refused, {ended}", ended == wanted or bool(is_told), True
        yield f"files, request {number} of {size} bytes refused: it was only made ahead", ended == wanted, bool(after[number:])


def try_help(program):
    """What is asked for is told whatever the input is."""
    ended, folder = program.run([b"--help"], b"\xff"), os.open("/", os.O_RDONLY)
    begin = b"usage: dictcol encode "
    yield "--help", ended._replace(output=ended.output[:len(begin)]), (0, begin, b"")
    for words in b"-h", b"count --help", b"encode a -h b c", b"--sorted --backend=string --help", b"--help":
        yield f"{words}", program.run(words.split(), folder), ended
    for words in b"--version", b"count --version --sort":
        yield f"{words}", program.run(words.split(), folder), (0, b"dictcol %s\n" % VERSION, b"")
    os.close(folder)


# Lines that are not UTF-8: in a part, cut off, too long, above U+10FFFF, a surrogate, and with a good character among them.
BROKEN = (b"\xff", b"a\xc3", b"\xc3\xa9\xc3b", b"\xe2\x82", b"\xe2\x82\xff", b"\xf0\x9f\x98",
          b"\xf0\x9f\x98\xf0\x9f\x98\x80", b"\xc0\xaf", b"\xed\xa0\x80", b"\xf4\x90\x80\x80", b"\x80\x80", b"\xe0\x9f\xbf")


def try_invalid(program):
    """Lines that are not UTF-8 as a file has them, alone and among others, at its end and across blocks."""
    long = b"a" * 100000
    inputs = [b"", b"\n", b"a\nb", *BROKEN, *(line + b"\n" for line in BROKEN), b"\n".join(BROKEN), b"\na\n".join([*BROKEN, b""]),
              b"\n".join([long, long + b"\xff", long, b"\xff" + long, b""]), b"\xc3\n" * 70000, b"\xe2" * 200000]
    for data, words in product(inputs, ([b"encode"], [b"count"], [b"count", b"-z"])):
        for how, given in product((b"--invalid=replace", b"--invalid=skip"), (data, data.translate(EXCHANGED))):
            name = f"{words}, {how!r} of {len(given)} bytes, {given[:40]!r}"
            yield name, program.run([*words, how], given), answer([*words, how], given)
    for words, wanted in (([b"--invalid", b"skip"], (0, b"1 a\n", b"dictcol: lines left out that are not UTF-8: 1\n")),
                          ([b"--invalid=skip", b"--invalid=error"], failed(2, b"line 1 is not UTF-8 (see --invalid)"))):
        yield f"{words}", program.run([b"count", *words], b"\xff\na\n"), wanted
    words, data = [b"encode", b"--invalid=skip"], b"a\n\xff\nb\n"
    asks = program.run_with_asks(words, data)[1]
    for number, size in enumerate(asks, 1):
        ended, after = program.run_with_asks(words, data, number)
        yield f"{words}, request {number} of {size} bytes refused", ended == MEMORY or bool(after[number:]), True


def try_random_bytes(program, seed):
    """Random bytes in pieces, of which few are UTF-8, mended."""
    chance = random.Random(seed)
    data = b"".join(chance.choices([b"a", b"\n", b"\0", *BROKEN, "é".encode(), "😀".encode()], k=chance.randrange(200)))
    for words in product((b"encode", b"count"), (b"--invalid=replace", b"--invalid=skip")):
        yield f"{words} of {data!r}", program.run(words, data), answer(words, data)


def try_drawing(program):
    """Two keys of eight random bytes each are drawn by what hashes lines under keys, and none by anything else."""
    encoded = answer([b"encode"], LINES)[1]
    names = write_files([encoded, encoded])
    for words, given, count in (
            (b"encode", LINES, 16), (b"count", LINES, 16), (b"count --sorted -z", LINES, 16), (b"decode", encoded, 16),
            (b"encode --invalid=skip", LINES, 16), (b"merge 0.json 1.json", b"", 16), (b"count --encoded", encoded, 16),
            (b"encode --plain new", LINES, 16), (b"encode --plain new --onto new", LINES, 16), (b"decode new", b"", 0),
            (b"shard 2 shards", LINES, 0), (b"--help", b"", 0)):
        ended = program.run(words.split(), given, TELL_DRAWN=1)
        yield f"{words}, the random bytes of {len(names)} files", (ended.status, ended.error), (0, b"draws %d\n" % count)


def try_telling_to_a_full_disk(program):
    for word in b"--help", b"--version":
        with open("/dev/full", "wb") as full:
            yield f"{word}, a full disk", program.run([word], b"", full), unwritten(errno.ENOSPC)


def trials():
    return [it for it in alone(globals()) if it not in long_trials()]


def long_trials():
    return [(try_many_lines,), (try_long_lines,), (try_terminal,), (try_terminal_share,), (try_long_list,)]
