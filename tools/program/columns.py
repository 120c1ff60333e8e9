"""What is tried of plain columns: of the files that `dictcol encode --plain` writes and `dictcol decode` reads."""

import errno
import fcntl
import itertools
import os
import random
import shutil
import signal
import struct
import subprocess
import sys
import tempfile
import termios
import threading
import time
from contextlib import suppress
from pathlib import Path

from built import ENDING, SECONDS, end_of, holding
from needs import python_with
from program.cases import MANY
from program.expected import answer, end_of_get, failed, misused, skip_invalid, told, unwritten, warned
from program.streams import limit_files
from trials import alone, own_folder

BACKENDS = (b"string", b"bucket", b"buffer")
OK = 0, b"", b""


def array(kind, order, shape):
    """What the start of an array says, in the words of NumPy's documentation of its format."""
    return b"{'descr': '%s', 'fortran_order': %s, 'shape': %s, }" % (kind, order, shape)


def npy(codes, said=None):
    """A file in NumPy's format 1.0: the header ends in a newline, and what is behind it is aligned to 64 bytes."""
    said = said or array(b"<u4", b"False", b"(%d,)" % len(codes))
    said += b" " * (-(len(said) + 11) % 64) + b"\n"
    return b"\x93NUMPY\1\0" + struct.pack("<H", len(said)) + said + struct.pack(f"<{len(codes)}I", *codes)


def pair_of(lines, codes, is_cut=False):
    """What the third file says of so many lines, these codes and the last line: the checksum is FNV-1a's, over codes in the place of
    bytes."""
    checksum = 0xCBF29CE484222325
    for code in codes:
        checksum = (checksum ^ code) * (2**40 + 2**8 + 0xB3) % 2**64
    return b"lines %d\nnumbers %d\nchecksum %d\nno_final_newline %d\n" % (lines, len(codes), checksum, is_cut)


def pair_before(pair):
    """The third file as earlier versions wrote it."""
    return b"".join(pair.splitlines(keepends=True)[:3])


def columns_of(data, before=()):
    """The files of a text, by name, onto the lines of a dictionary from before."""
    lines = data.removesuffix(b"\n").split(b"\n") if data else []
    index = {line: number for number, line in enumerate(dict.fromkeys([*before, *lines]))}
    codes = [index[line] for line in lines]
    is_cut = bool(data) and not data.endswith(b"\n")
    files = {"dict.txt": b"".join(line + b"\n" for line in index), "codes.npy": npy(codes), "pair.txt": pair_of(len(index), codes, is_cut)}
    return files | ({"no_final_newline": b""} if is_cut else {})


def files_in(folder):
    return {path.name: path.read_bytes() for path in Path(folder).iterdir()}


def write_files(folder, files):
    Path(folder).mkdir()
    for name, content in files.items():
        Path(folder, name).write_bytes(content)


TEXTS = (b"", b"\n", b"\n\n", b"a", b"a\n", b"\na", b"a\n\n", b"a\n\na", b"red\ngreen\nred", b"red\ngreen\nred\n", b"a\r\n\0\n",
         "é\n日本\né".encode(), b"x" * 70000 + b"\ny\n", b"".join(b"%d\n" % (number % 300) for number in range(3000)))


def try_text(program, data):
    """A text becomes its files over each backend, and comes back. The file is the input or named."""
    for backend in BACKENDS:
        words = [b"encode", b"--plain", b"new/" + backend, b"--backend", backend]
        yield f"{data[:40]} over {backend}", program.run(words, data), OK
        yield f"{data[:40]}, files of {backend}", files_in(f"new/{backend.decode()}"), columns_of(data)
    yield f"{data[:40]}, decoded", program.run([b"decode", b"new/string"]), (0, data, b"")
    Path("text").write_bytes(data)
    yield f"{data[:40]}, again", program.run(b"encode --plain=new/string text".split(), b"\xff"), OK
    yield f"{data[:40]}, files again", files_in("new/string"), columns_of(data)


# More lines than a number of 20 bits counts, of which no newline ends the last.
LONG_TEXT = b"x\n" * (1 << 20) + b"x"


def try_long_text(program):
    yield "a long text", program.run(b"encode --plain it".split(), LONG_TEXT), OK
    yield "a long text, decoded", program.run(b"decode it".split()), (0, LONG_TEXT, b"")


def try_texts_in_turn(program):
    """A folder has the files of the text that was written last, and no file of one before."""
    for data in (*TEXTS, *reversed(TEXTS)):
        yield f"{data[:40]}, in turn", program.run([b"encode", b"--plain", b"it"], data), OK
        yield f"{data[:40]}, files in turn", files_in("it"), columns_of(data)


def try_onto(program, first, second):
    """Lines keep their codes, what is new comes behind, and the files from before stay as they are."""
    before = columns_of(first)
    write_files("old", before)
    known = before["dict.txt"].split(b"\n")[:-1]
    name = f"{second[:40]} onto {first[:40]}"
    for backend in BACKENDS:
        words = [b"encode", b"--onto", b"old", b"--plain=" + backend, b"--backend", backend]
        yield f"{name} over {backend}", program.run(words, second), OK
        yield f"{name}, files of {backend}", files_in(backend.decode()), columns_of(second, known)
    yield f"{name}, decoded", program.run([b"decode", b"string"]), (0, second, b"")
    yield f"{name}, files from before", files_in("old"), before
    words = b"encode --onto old --plain old".split()
    yield f"{name}, in place", program.run(words, second), OK
    yield f"{name}, files in place", files_in("old"), columns_of(second, known)


def rows_behind(first, second):
    """The text of the rows of two: if there is a second one, it begins a line."""
    return first + b"\n" * (bool(first and second) and not first.endswith(b"\n")) + second


def try_append(program, first, second):
    """Rows come behind those of a folder, also of one that is not there, and each text begins a line."""
    name = f"{second[:40]} behind {first[:40]}"
    write_files("columns", columns_of(first))
    for backend in BACKENDS:
        words = [b"encode", b"--append", b"--plain", b"new/" + backend, b"--backend", backend]
        yield f"{name} over {backend}, the first", program.run(words, first), OK
        yield f"{name} over {backend}", program.run(words, second), OK
        yield f"{name}, files of {backend}", files_in(f"new/{backend.decode()}"), columns_of(rows_behind(first, second))
    words = b"encode --plain columns --append".split()
    yield f"{name}, of a folder", program.run(words, second), OK
    yield f"{name}, files of a folder", files_in("columns"), columns_of(rows_behind(first, second))
    # A dictionary with a line that no row has, which keeps its code.
    known = [b"before", *dict.fromkeys(first.removesuffix(b"\n").split(b"\n") if first else [])]
    write_files("unused", columns_of(first, known))
    yield f"{name}, with a line without a row", program.run(b"encode --plain unused --append".split(), second), OK
    lines = first.removesuffix(b"\n").split(b"\n") if first else []
    more = second.removesuffix(b"\n").split(b"\n") if second else []
    index = {line: number for number, line in enumerate(dict.fromkeys([*known, *lines, *more]))}
    codes = [index[line] for line in (*lines, *more)]
    yield f"{name}, dictionary with a line without a row", files_in("unused")["dict.txt"], b"".join(line + b"\n" for line in index)
    yield f"{name}, numbers with a line without a row", files_in("unused")["codes.npy"], npy(codes)


def try_append_refused(program):
    """Nothing is appended to damaged columns, nor where another option says what the columns begin with."""
    for name in "dict.txt", "codes.npy":
        files = columns_of(LINES)
        del files[name]
        write_files(f"without {name}", files)
        ended = program.run([b"encode", b"--append", b"--plain", b"without " + name.encode()], b"a\n")
        advice = b" (see --onto-dictionary)" if name == "codes.npy" else b""
        yield f"appended without {name}", ended, failed(1, f"without {name}: cannot read {name}: ".encode() + told(errno.ENOENT) + advice)
        yield f"appended without {name}, files", files_in(f"without {name}"), files
    files = columns_of(LINES) | {"dict.txt": b"red\n"}
    write_files("damaged", files)
    ended = program.run(b"encode --append --plain damaged".split(), b"a\n")
    yield "appended to damaged columns", ended[0], 2
    yield "appended to damaged columns, files", files_in("damaged"), files


def try_output(program):
    """A text on a full disk, in a file that may grow to so many bytes, and where nobody reads it or nothing takes it."""
    for number, data in enumerate(TEXTS):
        words = [b"decode", b"%d" % number]
        write_files(f"{number}", columns_of(data))
        with open("/dev/full", "wb") as full:
            ended = program.run(words, b"", full)
        yield f"{data[:40]}, a full disk", ended, unwritten(errno.ENOSPC) if data else OK
        ended = program.run(words, b"", None, before=lambda: os.close(1))
        yield f"{data[:40]}, a closed output", ended, unwritten(errno.EBADF) if data else OK
        ended = program.run(words, BROKEN_WRITE=1, ERROR=errno.EPIPE)
        yield f"{data[:40]}, a reader that left", ended, unwritten(errno.EPIPE) if data else OK
        for count in {0, 1, len(data) // 2, len(data) - 1} & {*range(len(data))}:
            with tempfile.TemporaryFile() as output:
                status, _, message = program.run(words, b"", output, before=lambda: limit_files(count))
                output.seek(0)
                found = status, output.read(), message
            yield f"{data[:40]}, a disk with {count} bytes", found, unwritten(errno.EFBIG, data[:count])


def try_reading(program):
    """What is told of an input whose lines are written, also onto others: which are left out, and that `encode` wrote it."""
    broken, encoded = b"a\n\xff\nb\0\nc\xc3\xa9\n\xe2\x82", answer([b"encode"], LINES)[1]
    write_files("old", columns_of(LINES))
    known = LINES.split(b"\n")[:-1]
    for name, data in ("broken", broken), ("encoded", encoded), ("both", encoded + broken):
        Path(name).write_bytes(data)
        good, skipped = skip_invalid(data)
        replaced = data.decode(errors="replace").encode()
        hows = [([], data, b"")] if data == encoded else [([b"--invalid=skip"], good, skipped), ([b"--invalid=replace"], replaced, b"")]
        for (how, text, told_of), onto, given in itertools.product(hows, (b"", b"old"), ([], [name.encode()])):
            words = [b"encode", b"--plain", b"new", *how, *([b"--onto", onto] if onto else []), *given]
            wanted = 0, b"", told_of + warned(data, given[0] + b": " if given else b"")
            yield f"{words} of {data[:40]}", program.run(words, data), wanted
            yield f"{words} of {data[:40]}, files", files_in("new"), columns_of(text, known if onto else ())
    words = b"encode --plain bad --onto old encoded broken".split()
    yield f"{words}", program.run(words), failed(2, b"broken: line 2 is not UTF-8 (see --invalid)")


def try_several(program):
    """A second folder to write, or to write onto, is refused, and nothing is written: no lines are left out in silence."""
    twice = b"option '--%s' is given twice"
    write_files("old", columns_of(b"old\n"))
    for words, message in (
            (b"--plain new --onto old --plain other", twice % b"plain"), (b"--plain=new --plain=new", twice % b"plain"),
            (b"--plain new --plain new --onto old --onto old", twice % b"plain"),
            (b"--plain new --onto old --onto=old", twice % b"onto"), (b"--onto old --plain new --onto=other", twice % b"onto"),
            (b"--onto-dictionary old --onto-dictionary old --plain new", twice % b"onto-dictionary"),
            (b"--plain new --onto old --onto-dictionary old", b"option '--onto' excludes option '--onto-dictionary'"),
            (b"--onto-dictionary=old --onto=old --plain=new", b"option '--onto' excludes option '--onto-dictionary'")):
        for given in (b"encode " + words, words + b" encode", b"encode --backend=bucket - " + words):
            yield f"{given}", program.run(given.split(), LINES), misused(message)
        yield f"{words}, folders", os.listdir(), ["old"]


LINES = b"red\ngreen\n"
# Distinct lines, more than a number of 16 bits counts.
MANY_LINES = b"".join(b"%d\n" % number for number in range(MANY))
# Files that are damaged, and the message.
DAMAGED = (
    (b"red\ngreen", npy([0]), b"dict.txt does not end in a newline"),
    (b"a\n\xff\n", npy([0]), b"dict.txt: line 2 is not UTF-8"),
    (LINES, npy([0, 1, 2]), b"codes[2] is not the number of a line of dict.txt"),
    (LINES, npy([2**32 - 1, 5]), b"codes[0] is not the number of a line of dict.txt"),
    (b"", npy([0]), b"codes[0] is not the number of a line of dict.txt"),
    (LINES, b"", b"codes.npy is not in NumPy's format 1.0"),
    (LINES, npy([0, 1])[:127], b"codes.npy is not in NumPy's format 1.0"),
    (LINES, b"\x93NUMPY\2" + npy([0, 1])[7:], b"codes.npy is not in NumPy's format 1.0"),
    (LINES, b" " + npy([0, 1])[1:], b"codes.npy is not in NumPy's format 1.0"),
    (LINES, npy([0, 1], array(b"<i4", b"False", b"(2,)")), b"codes.npy has another type than '<u4'"),
    (LINES, npy([0, 0], array(b"<i8", b"False", b"(1,)")), b"codes.npy has another type than '<u4'"),
    (LINES, npy([0, 1], array(b">u4", b"False", b"(2,)")), b"codes.npy has another type than '<u4'"),
    (LINES, npy([0, 1], array(b"<u4", b"True", b"(2,)")), b"codes.npy is in Fortran's order"),
    (LINES, npy([0, 1], array(b"<u4", b"False", b"(2, 1)")), b"codes.npy has another shape than a list"),
    (LINES, npy([0], array(b"<u4", b"False", b"()")), b"codes.npy has another shape than a list"),
    (LINES, npy([0, 1], array(b"<u4", b"False", b"(3,)")), b"codes.npy has another length than its header says"),
    (LINES, npy([0, 1])[:-1], b"codes.npy has another length than its header says"),
    (LINES, npy([0, 1])[:-4], b"codes.npy has another length than its header says"),
    (LINES, npy([0, 1]) + b"\0" * 4, b"codes.npy has another length than its header says"),
    # Far behind the first line and number.
    (MANY_LINES + b"\xff\n", npy([0]), b"dict.txt: line %d is not UTF-8" % (MANY + 1)),
    (LINES, npy([1] * MANY + [2]), b"codes[%d] is not the number of a line of dict.txt" % MANY),
    (MANY_LINES, npy([*range(MANY), MANY, 0]), b"codes[%d] is not the number of a line of dict.txt" % MANY),
)


def try_damaged(program, lines, numbers, message):
    """Nothing is written of damaged files, and nothing onto them, unless the dictionary alone is to be taken. What is damaged is
    told also where it is not what the third file says."""
    files = {"dict.txt": lines, "codes.npy": numbers}
    write_files("it", files)
    write_files("pair", files | {"pair.txt": pair_of(2, [0, 1, 1])})
    for name in b"it", b"pair":
        wanted = failed(2, name + b": " + message)
        yield f"{message!r} of {name}", program.run([b"decode", name]), wanted
        yield f"{message!r} of {name}, written onto", program.run([*b"encode --plain new --onto".split(), name], b"a\n"), wanted
        yield f"{message!r} of {name}, what was written", Path("new").exists(), False
    ended = program.run(b"encode --onto-dictionary it --plain new".split(), b"a\n")
    is_of_lines = message.startswith(b"dict.txt")
    yield f"{message!r}, written onto the dictionary", ended, failed(2, b"it: " + message) if is_of_lines else OK
    yield f"{message!r}, what was written onto the dictionary", Path("new").exists(), not is_of_lines


# Files whose lines are there twice, the text, and the first line that is there already.
REPEATED = (
    (b"red\nred\n", npy([0]), b"red\n", 2),
    (b"a\nb\nc\nb\na\n", npy([4, 3, 2, 0, 1, 1]), b"a\nb\nc\na\nb\nb\n", 4),
    (b"\n\n", npy([1, 0]), b"\n\n", 2),
    (b"\n\n", npy([]), b"", 2),
    (MANY_LINES + b"7\n", npy([MANY, 0]), b"7\n0\n", MANY + 1),
    (MANY_LINES + MANY_LINES, npy([]), b"", MANY + 1),
)


def try_repeated(program, lines, numbers, text, line):
    """Lines may be there twice, as if they were masked, unless lines of a text are to get their codes."""
    write_files("it", {"dict.txt": lines, "codes.npy": numbers})
    yield f"{lines[:40]}", program.run([b"decode", b"it"]), (0, text, b"")
    ended = program.run(b"encode --onto it --plain new".split(), b"a\n")
    yield f"{lines[:40]}, written onto", ended, failed(2, b"it: dict.txt: line %d repeats an earlier line" % line)
    yield f"{lines[:40]}, what was written", Path("new").exists(), False


def try_missing(program):
    """Files that are not there, and folders that cannot be written."""
    files = columns_of(LINES)
    for name in files:
        write_files(f"without {name}", {it: content for it, content in files.items() if it != name})
    for name in "dict.txt", "codes.npy":
        where = f"without {name}".encode()
        message = b"%s: cannot read %s: %s" % (where, name.encode(), told(errno.ENOENT))
        yield f"without {name}", program.run([b"decode", where]), failed(1, message)
        advice = b" (see --onto-dictionary)" if name == "codes.npy" else b""
        for new in b"new", where:
            ended = program.run([b"encode", b"--plain", new, b"--onto", where], LINES)
            yield f"{new} onto one without {name}", ended, failed(1, message + advice)
    # Only a file that is not there can be done without.
    write_files("unread", files)
    Path("unread/codes.npy").unlink()
    Path("unread/codes.npy").mkdir()
    ended = program.run(b"encode --plain new --onto unread".split(), LINES)
    yield "onto one whose codes cannot be read", ended, failed(1, b"unread: cannot read codes.npy: " + told(errno.EISDIR))
    # As earlier versions wrote it.
    yield "without pair.txt", program.run([b"decode", b"without pair.txt"]), (0, LINES, b"")
    alone = b"without codes.npy"
    for onto in [b"--onto", b"without pair.txt"], [b"--onto-dictionary", alone], [b"--onto-dictionary=" + alone]:
        yield f"{onto}", program.run([b"encode", *onto, b"--plain", b"written"], b"blue\nred\n"), OK
        yield f"{onto}, files", files_in("written"), columns_of(b"blue\nred\n", LINES.split(b"\n")[:-1])
        shutil.rmtree("written")
    ended = program.run(b"encode --onto nowhere --plain new".split(), LINES)
    yield "onto nothing", ended, failed(1, b"nowhere: cannot read dict.txt: " + told(errno.ENOENT))
    Path("file").write_bytes(b"")
    for words, error in ((b"encode --plain file", errno.EEXIST), (b"encode --plain file/new", errno.ENOTDIR)):
        message = b"%s: cannot write files: %s" % (words.split()[-1], told(error))
        yield f"{words}", program.run(words.split(), LINES), failed(1, message)
    long = b"new/a/" + b"x" * 300
    message = b"%s: cannot write files: %s" % (long, told(errno.ENAMETOOLONG))
    yield "a name that is too long", program.run([b"encode", b"--plain", long], LINES), failed(1, message)
    yield "what is made before it", Path("new").exists(), False
    ended = program.run(b"encode --plain bytes".split(), b"a\n\xff")
    yield "bytes that are not UTF-8", ended, failed(2, b"line 2 is not UTF-8 (see --invalid)")
    yield "no folder of them", Path("bytes").exists(), False
    Path("there").mkdir()
    for name in b"new/a/b", b"./new//a/", b"there", b"there/a/../b", b"new/../there", os.path.abspath(b"new"):
        ended = program.run([b"encode", b"--plain", name], b"a\n\xff")
        yield f"bytes that are not UTF-8 in {name}", ended, failed(2, b"line 2 is not UTF-8 (see --invalid)")
        found = Path("new").exists(), os.listdir("there")
        yield f"bytes that are not UTF-8 in {name}, what is left", found, (False, [])


def try_unreadable(program):
    """What cannot be read is told by its name, and not as the input or as a folder in the place of a file."""
    Path("lines").write_bytes(b"a\n")
    for name in "pair.txt", "no_final_newline":
        files = columns_of(b"red\ngreen")
        write_files(f"{name}", files)
        Path(name, name).unlink()
        Path(name, name).symlink_to(name)
        message = b"%b: cannot read %b: %b" % (name.encode(), name.encode(), told(errno.ELOOP))
        yield f"{name}, decoded", program.run([b"decode", name.encode()]), failed(1, message)
        for given in [], [b"lines"]:
            words = [b"encode", b"--plain", b"new", b"--onto", name.encode(), *given]
            yield f"{words}", program.run(words, b"a\n"), failed(1, message)


# So many bytes are asked for by no run but for a line that is as long.
LONG = 1 << 24


def try_memory_told(program):
    """The file is named for whose lines memory is missing."""
    for name, length in ("none", 0), ("short", 1), ("long", LONG):
        Path(name).write_bytes(b"a" * length + b"\n" * bool(length))
        write_files(f"columns of {name}", columns_of(b"a" * length + b"\n"))
    for onto, given, wanted in (b"long", b"none", b"columns of long"), (b"short", b"long", b"long"):
        words = [b"encode", b"--plain", b"new", b"--onto", b"columns of " + onto, given]
        asks = program.run_with_asks(words, b"")[1]
        large = [number for number, size in enumerate(asks, 1) if size >= LONG]
        yield f"{words}, large requests", len(large) > 1, True
        for number in large:
            shutil.rmtree("new", ignore_errors=True)
            ended, asked = program.run_with_asks(words, b"", number)
            yield f"{words}, request {number} of {asked[-1]} bytes refused", ended, failed(1, wanted + b": out of memory")


NOT_LEFT = b"cannot write files: DIR%b is not what a killed run leaves: move it away"
NOT_A_PAIR = b"it: dict.txt and codes.npy are not of one run (see pair.txt)"
# A text, and files that come into the place of its own, with what is decoded then, or nothing where they are no pair.
OF_TWO_RUNS = (
    (b"a\nb\na\n", {"dict.txt": b"x\nb\n"}, b"x\nb\nx\n"),
    (b"a\nb\na\n", {"dict.txt": b"x\nx\n"}, b"x\nx\nx\n"),
    (b"a\nb\na", {"dict.txt": b"x\nlonger\n"}, b"x\nlonger\nx"),
    (b"a\nb\na\n", {"dict.txt": b"a\nb\nc\n"}, None),
    (b"a\nb\nc\na\n", {"dict.txt": b"a\nb\n", "codes.npy": npy([0, 1, 1, 0])}, None),
    (b"a\nb\na\n", {"codes.npy": npy([0, 1, 1])}, None),
    (b"a\nb\na\n", {"codes.npy": npy([1, 0, 0])}, None),
    (b"a\nb\na\n", {"codes.npy": npy([0, 1])}, None),
    (b"a\nb\na\n", {"codes.npy": npy([0, 1, 0, 0])}, None),
    (b"a\na\n", {"codes.npy": npy([])}, None),
    (b"a\nb\na\n", {"pair.txt": b""}, None),
    (b"a\nb\na\n", {"pair.txt": pair_of(2, [0, 1, 0]) + b"\n"}, None),
    (b"a\nb\na\n", {"pair.txt": pair_of(2, [0, 1, 1])}, None),
    (b"a\nb\na\n", {"pair.txt": pair_of(3, [0, 1, 0])}, None),
    (b"", {"dict.txt": b"a\n"}, None),
    (b"a\nb\na\n", {"pair.txt": pair_before(pair_of(2, [0, 1, 0]))}, b"a\nb\na\n"),
    (b"a\nb\na", {"pair.txt": pair_before(pair_of(2, [0, 1, 0]))}, b"a\nb\na"),
    (b"a\nb\na\n", {"pair.txt": pair_before(pair_of(2, [0, 1, 1]))}, None),
    (b"a\nb\na\n", {"pair.txt": pair_of(2, [0, 1, 0])[:-1]}, None),
    (b"a\nb\na\n", {"pair.txt": pair_before(pair_of(2, [0, 1, 0])) + b"no_final_newline 2\n"}, None),
    (b"a\nb\na\n", {"pair.txt": pair_before(pair_of(2, [0, 1, 0])) + b"no_final_newline\n"}, None),
)


def try_pair(program, text, changed, decoded):
    """Files of two runs are refused. Lines of the dictionary may be changed."""
    files = columns_of(text) | changed
    write_files("it", files)
    wanted = failed(2, NOT_A_PAIR) if decoded is None else (0, decoded, b"")
    yield f"{text!r} with {changed}", program.run([b"decode", b"it"]), wanted
    lines = files["dict.txt"].split(b"\n")[:-1]
    is_taken = decoded is not None and len({*lines}) == len(lines)
    repeated = failed(2, b"it: dict.txt: line 2 repeats an earlier line")
    wanted = OK if is_taken else failed(2, NOT_A_PAIR) if decoded is None else repeated
    yield f"{text!r} with {changed}, written onto", program.run(b"encode --onto it --plain new".split(), b"b\nc\n"), wanted
    found = files_in("new") if Path("new").exists() else None
    yield f"{text!r} with {changed}, what was written onto it", found, columns_of(b"b\nc\n", lines) if is_taken else None


# A text, and the end of another one, with what is told.
OF_ANOTHER_END = (
    (b"a\nb\na", False, b"no_final_newline is missing (see pair.txt)"),
    (b"a\nb\na\n", True, b"no_final_newline is of another run (see pair.txt)"),
    (b"\n", True, b"no_final_newline is of another run (see pair.txt)"),
    (b"", True, b"no_final_newline is of another run (see pair.txt)"),
)


def try_end(program, text, is_cut, message):
    """Whether the last line has a newline is of one run with the other files. What is damaged is told first."""
    files = {it: content for it, content in columns_of(text).items() if it != "no_final_newline"}
    write_files("it", files | ({"no_final_newline": b""} if is_cut else {}))
    yield f"{text!r}, decoded", program.run([b"decode", b"it"]), failed(2, b"it: " + message)
    yield f"{text!r}, written onto", program.run(b"encode --onto it --plain new".split(), b"b\nc\n"), failed(2, b"it: " + message)
    yield f"{text!r}, what was written", Path("new").exists(), False
    yield f"{text!r}, written onto the dictionary", program.run(b"encode --onto-dictionary it --plain new".split(), b"b\nc\n"), OK
    Path("it/pair.txt").write_bytes(pair_before(files["pair.txt"]))
    written = text.removesuffix(b"\n") if is_cut else text + b"\n" * bool(text)
    yield f"{text!r} of an earlier version", program.run([b"decode", b"it"]), (0, written, b"")


def try_exchange(program):
    """Files that cannot be replaced: the files from before are there, and nothing unfinished."""
    for name in "dict.txt", "pair.txt", "no_final_newline", "codes.npy":
        for data, old in itertools.product((b"blue\ngreen", b"blue\ngreen\n"), (LINES, LINES.removesuffix(b"\n"))):
            for missing in None, "pair.txt":
                with own_folder():
                    before = {it: content for it, content in columns_of(old).items() if it not in (name, missing)}
                    write_files("it", before)
                    Path("it", name).mkdir(exist_ok=True)
                    Path("it", name, "kept").write_bytes(b"kept")
                    ended = program.run(b"encode --plain it".split(), data)
                    case = f"{name} is a folder, {data} onto {old} without {missing}"
                    yield case, ended, failed(1, b"it: cannot write files: " + told(errno.EISDIR))
                    yield f"{case}, what it has", files_in(f"it/{name}"), {"kept": b"kept"}
                    shutil.rmtree(f"it/{name}")
                    yield f"{case}, files", files_in("it"), before


# Who may use old files, and what a mask leaves of a new one.
MODES, MASK = (0o600, 0o640, 0o664, 0o444, 0o666), 0o022


def mode_of(path):
    return path.stat().st_mode & 0o7777


def modes_in(folder):
    return {path.name: mode_of(path) for path in Path(folder).iterdir()}


def try_modes(program):
    """New files have the modes of the old ones, and are open to nobody else before; where all may choose owners, theirs, too."""
    for mode, (name, other) in itertools.product(MODES, (("dict.txt", 0o600), ("codes.npy", 0o640), ("pair.txt", 0o644))):
        with own_folder():
            before = columns_of(b"red\ngreen\n")
            write_files("it", before)
            for path in Path("it").iterdir():
                path.chmod(other if path.name == name else mode)
                if os.geteuid() == 0:
                    os.chown(path, 1, 2)
            yield f"{mode:o}, {name} {other:o}", program.run(WRITE, b"blue\ngreen", before=lambda: os.umask(MASK)), OK
            wanted = {it: other if it == name else mode for it in before}
            # A file that was not there is as open as the numbers.
            yield f"{mode:o}, {name} {other:o}, modes", modes_in("it"), wanted | {"no_final_newline": wanted["codes.npy"]}
            owners = {(path.stat().st_uid, path.stat().st_gid) for path in Path("it").iterdir()}
            yield f"{mode:o}, owners", owners, {(1, 2) if os.geteuid() == 0 else (os.geteuid(), os.getegid())}
    with own_folder():
        yield "new files", program.run(WRITE, b"a", before=lambda: os.umask(MASK)), OK
        yield "new files, modes", {*modes_in("it").values()}, {0o666 & ~MASK}
        Path("private").write_bytes(b"kept")
        Path("private").chmod(0o600)
        Path("it/dict.txt").unlink()
        Path("it/dict.txt").symlink_to("../private")
        yield "a link", program.run(WRITE, b"b"), OK
        yield "a link, its mode", modes_in("it")["dict.txt"], 0o600
    for call in itertools.count(1):
        with own_folder():
            write_files("it", columns_of(FIRST))
            for path in Path("it").iterdir():
                path.chmod(0o600)
            with program.stopped(WRITE, SECOND, call) as run:
                files = [path for path in Path("it").rglob("*") if path.is_file()]
                yield f"call {call}, modes", {mode_of(path) for path in files} <= {0o600}, True
                if not run.is_stopped:
                    break
                run.end()


def try_links(program):
    """What a link leads to is not written: its name gets a file, or the run fails."""
    Path("precious").write_bytes(b"kept\n")
    Path("files").mkdir()
    Path("files/precious").write_bytes(b"kept\n")
    for name in (*columns_of(b"a"), "dict.txt.new", "codes.npy.new"):
        Path("it").mkdir()
        Path("it", name).symlink_to("../precious")
        yield f"{name} is a link", program.run(b"encode --plain it".split(), b"a"), OK
        found = {path: content for path, content in files_in("it").items() if not path.endswith(".new")}
        yield f"{name} is a link, files", found, columns_of(b"a")
        shutil.rmtree("it")
    for target in "files", "precious", "nowhere", UNFINISHED:
        Path("it").mkdir()
        Path("it", UNFINISHED).symlink_to(f"../{target}")
        ended = program.run(b"encode --plain it".split(), b"a")
        yield f"a link to {target}", ended, failed(1, b"it: " + NOT_LEFT % (b"/" + UNFINISHED.encode()))
        Path("it", UNFINISHED).unlink()
        Path("it").rmdir()
    yield "what links led to", files_in("files") | {"": Path("precious").read_bytes()}, {
        "precious": b"kept\n", "": b"kept\n"}


def make_unlike(place):
    """What no killed run leaves, each in turn in this place, with a name."""
    os.mkfifo(place)
    yield "a pipe"
    place.unlink()
    place.write_bytes(b"kept\n")
    yield "a file"
    place.unlink()
    for name in "precious", b"\xff", "dict.txt.new", "dict.txt\n", "1.5", "00", "-1":
        for others in [], ["dict.txt", "codes.npy"], ["order", "0", "1"]:
            place.mkdir()
            for other in [*others, name]:
                Path(place, os.fsdecode(other)).write_bytes(b"kept\n")
            yield f"a folder with {[*others, name]}"
            shutil.rmtree(place)
    for name in "dict.txt", "order", "0":
        Path(place, name).mkdir(parents=True)
        yield f"a folder with a folder {name}"
        Path(place, name).rmdir()
        Path(place, name).symlink_to("precious")
        yield f"a folder with a link {name}"
        shutil.rmtree(place)


def all_in():
    """The paths of all that a folder has, with what they are and have."""
    return {path: path.read_bytes() if path.is_file() else path.lstat().st_mode for path in Path().rglob("*")}


def try_unlike(program):
    """What has the name of an unfinished folder and no killed run left stays as it is."""
    Path("it").mkdir()
    for name in make_unlike(Path("it", UNFINISHED)):
        before = all_in()
        yield name, program.run(b"encode --plain it".split(), b"a"), failed(1, b"it: " + NOT_LEFT % (b"/" + UNFINISHED.encode()))
        yield f"{name}, what is there", all_in(), before


def try_folders_stored(program):
    """Each step is stored before the next, so that also a power cut leaves the files from before, or no numbers, or the new ones."""
    Path("it").mkdir()
    old = {}
    for data in b"red\ngreen\n", b"red\ngreen", b"red\ngreen\n":
        new = columns_of(data)
        for name, made in (b"it", 0), (b"it/in/%d" % len(old), 1 if old else 2):
            # What was there is moved away: the numbers before all else, and a dictionary never.
            kept = {} if made else old
            names = [*[it for it in ("pair.txt", "no_final_newline") for files in (kept, new) if it in files], "dict.txt"]
            wanted = [*("codes.npy" in kept) * ["renamed"], "stored", *["renamed"] * len(names), "stored", "renamed", "stored"]
            ended = program.run([b"encode", b"--plain", name], data, TELL_FOLDERS=1)
            told_of = "".join(f"{it}\n" for it in ["stored"] * made + wanted)
            yield f"{data} in {name}", ended, (0, b"", told_of.encode())
        old = new


def try_stored(program):
    """All files are stored before the first of them gets its place, and the first old one loses it."""
    old = {}
    for data in b"red\ngreen\n", b"red\ngreen", b"a\n":
        new = columns_of(data)
        ended = program.run(b"encode --plain it".split(), data, TELL_UNSTORED=1)
        yield f"{data}", ended, (0, b"", b"unstored 0\n" * (len(new) + len({*old} - {"dict.txt"})))
        old = new


# Where a run puts files before all are written.
UNFINISHED = "dictcol-unfinished"
# Texts with equally many lines, of which equally many are distinct: no other text has the dictionary of one and the codes of another.
FIRST, SECOND, THIRD = b"red\ngreen\nred", b"green\nblue\nblue\n", b"red\nblue\nred\n"
WRITE = b"encode --plain it".split()


def read_folder():
    """What a folder has, or nothing if there is none. What is in an unfinished folder does not count."""
    path = Path("it")
    return {it.name: it.read_bytes() for it in path.iterdir() if it.name != UNFINISHED} if path.exists() else None


def each_stop(program, words, data, old, ignored=()):
    """A run over a folder with the files of this text, or without any, stopped before each of its calls in turn."""
    for call in itertools.count(1):
        with own_folder():
            if old is not None:
                write_files("it", columns_of(old))
            with program.stopped(words, data, call, ignored) as run:
                yield f"call {call} onto {old}", run
                if not run.is_stopped:
                    return


def try_killed_writers(program, old):
    """Wherever a run is killed, the folder has the files from before, or those of the run, or no numbers. The next run is as any
    other, and nothing unfinished stays."""
    for name, run in each_stop(program, WRITE, FIRST, old):
        if run.is_stopped:
            run.end(signal.SIGKILL)
        found, before = read_folder() or {}, {} if old is None else columns_of(old)
        yield f"{name}, killed", found in (before, columns_of(FIRST)) or "codes.npy" not in found, True
        if old is not None:
            yield f"{name}, the dictionary", found.get("dict.txt") in (before["dict.txt"], columns_of(FIRST)["dict.txt"]), True
            read = program.run(b"decode it".split())
            lost = failed(1, b"it: cannot read codes.npy: " + told(errno.ENOENT))
            yield f"{name}, read", read in [(0, it, b"") for it in (old, FIRST)] if "codes.npy" in found else read == lost, True
        yield f"{name}, the next", program.run(WRITE, SECOND), OK
        yield f"{name}, files of the next", files_in("it"), columns_of(SECOND)


APPEND = b"encode --append --plain it".split()


def try_killed_appenders(program, old):
    """Wherever a run is killed that appends rows, the next one that does finds the rows from before, or those of the run, too."""
    before = b"" if old is None else old
    for name, run in each_stop(program, APPEND, FIRST, old):
        if run.is_stopped:
            run.end(signal.SIGKILL)
        yield f"{name}, the next append", program.run(APPEND, THIRD), OK
        behind = [rows_behind(before, THIRD), rows_behind(rows_behind(before, FIRST), THIRD)]
        yield f"{name}, rows", files_in("it") in map(columns_of, behind), True


def try_left_numbers(program):
    """Numbers that a run left are no rows unless they are of the columns in place: a first run may be killed while it removes its files,
    and the dictionary may be one of somebody's own."""
    numbers, others = columns_of(FIRST)["codes.npy"], columns_of(SECOND)
    missing = failed(1, b"it: cannot read codes.npy: " + told(errno.ENOENT) + b" (see --onto-dictionary)")
    for names, left in itertools.product(([], ["dict.txt"], ["dict.txt", "pair.txt"]), (numbers, numbers[:-2])):
        files = {name: others[name] for name in names}
        with own_folder():
            write_files("it", files)
            write_files(f"it/{UNFINISHED}", {"codes.npy": left})
            yield f"an append to {names}", program.run(APPEND, THIRD), missing if names else OK
            yield f"files of an append to {names}", read_folder(), files or columns_of(THIRD)


def end_early(run, number):
    """How a run ends by one of these signals, and how it must."""
    by = ENDING[number % len(ENDING)]
    return run.end(by), (-by if run.is_stopped else 0, b"", b"")


def try_ended_writers(program, old):
    """Wherever a signal ends a run, the folder has the files from before, or those of the run. The next run is as any other."""
    for number, (name, run) in enumerate(each_stop(program, WRITE, FIRST, old)):
        ended, wanted = end_early(run, number)
        yield f"{name}, ended", ended, wanted
        # No proved program can take a signal.
        if program.is_by_cargo:
            found = files_in("it") if Path("it").exists() else None
            before = None if old is None else columns_of(old)
            yield f"{name}, files", found == columns_of(FIRST) or ended.status != 0 and found == before, True
        yield f"{name}, the next", program.run(WRITE, SECOND), OK
        yield f"{name}, files of the next", files_in("it"), columns_of(SECOND)


def try_ignored(program):
    """A signal that is left out, as by nohup, does not end a run."""
    for name, run in each_stop(program, WRITE, FIRST, SECOND, ENDING):
        for by in ENDING if run.is_stopped else ():
            os.kill(run.started.pid, by)
        yield f"{name}, ignored", run.end(), OK
        yield f"{name}, files", files_in("it"), columns_of(FIRST)


def is_begun(folder):
    """Whether a run has made a file in the unfinished folder that it has there."""
    return Path(folder).exists() and bool(os.listdir(folder))


def try_writers(program, old):
    """Wherever a second run writes beside a first one, one of them ends well, and the folder has its files. It is the first one as
    soon as that has begun."""
    for name, run in each_stop(program, WRITE, FIRST, old):
        is_first = is_begun(f"it/{UNFINISHED}")
        second = program.run(WRITE, SECOND)
        busy = failed(1, b"it: cannot write files: resource busy")
        yield f"{name}, the second", not is_first or second == busy, True
        first = run.end()
        ends = first, second
        yield f"{name}, {ends}", OK in ends and all(it == OK or it[:2] == (1, b"") and it[2].count(b"\n") == 1 for it in ends), True
        # The first one is the last to end if it was stopped.
        last = FIRST if run.is_stopped and first == OK else SECOND
        yield f"{name}, files", files_in("it"), columns_of(last)


READ, READ_ONTO, GET = b"decode it".split(), b"encode --onto it --plain new".split(), b"get it red green blue".split()
# A text with the codes of FIRST, and with another end: beside its third file, codes of FIRST are no others.
ALIKE = b"blue\nwhite\nblue\n"


def is_read(words, ended, after):
    """Whether a run has read the first text, or the one after it."""
    if words == READ:
        return ended in ((0, FIRST, b""), (0, after, b""))
    if words == GET:
        return ended in [end_of_get(b"it", columns_of(it)["dict.txt"], words[2:]) for it in (FIRST, after)]
    wanted = [columns_of(b"red\n", [*dict.fromkeys(it.removesuffix(b"\n").split(b"\n"))]) for it in (FIRST, after)]
    return ended == OK and files_in("new") in wanted


def try_readers(program, after):
    """Wherever files are replaced by those of another text beside a run that reads them, it gets those of one run."""
    for words in READ, READ_ONTO, GET:
        for name, run in each_stop(program, words, b"red\n", FIRST):
            yield f"{name}, the writer", program.run(WRITE, after), OK
            ended = run.end()
            yield f"{name}, {words}, {ended}", is_read(words, ended, after), True


def try_readers_beside(program):
    """Wherever a run reads files beside one that replaces them, it gets those of one run. It waits for them if it must."""
    for words in READ, READ_ONTO, GET:
        for name, run in each_stop(program, WRITE, SECOND, FIRST):
            with holding(b"red\n") as given, subprocess.Popen([program.path, *words], stdin=given, stdout=subprocess.PIPE,
                                                              stderr=subprocess.PIPE) as reader:
                # It may wait until the other one goes on.
                with suppress(subprocess.TimeoutExpired):
                    reader.wait(timeout=0.1)
                yield f"{name}, the writer", run.end(), OK
                ended = end_of(reader)
            yield f"{name}, {words}, {ended}", is_read(words, ended, SECOND), True


def lock_shortly(path):
    """Locks a folder, if there is one that nobody has, for a moment and beside others, as a run does that looks whether it is taken."""
    with suppress(OSError):
        folder = os.open(path, os.O_RDONLY)
        try:
            fcntl.flock(folder, fcntl.LOCK_SH | fcntl.LOCK_NB)
        finally:
            # The moment begins once the lock is there, and is long enough for a run on a busy machine to come to it.
            threading.Timer(0.2, os.close, [folder]).start()


def try_looks_beside(program):
    """Wherever another run looks whether one writes, that one goes on."""
    for name, run in each_stop(program, WRITE, SECOND, FIRST):
        lock_shortly(f"it/{UNFINISHED}")
        yield f"{name}, looked for", run.end(), OK


EXTEND = b"encode --onto it --plain it".split()


def try_extenders(program):
    """Wherever a second run extends a folder beside a first one that does, no line of a run that ended well is lost, and no code."""
    for name, run in each_stop(program, EXTEND, b"blue\n", LINES):
        second = program.run(EXTEND, b"white\n")
        ends = run.end(), second
        yield f"{name}, {ends}", OK in ends and all(it == OK or it[:2] == (1, b"") and it[2].count(b"\n") == 1 for it in ends), True
        # The first one is the last to end if it was stopped.
        order = [(ends[1], b"white"), (ends[0], b"blue")] if run.is_stopped else [(ends[0], b"blue"), (ends[1], b"white")]
        lines = [b"red", b"green", *(line for ended, line in order if ended == OK)]
        yield f"{name}, files", files_in("it"), columns_of(lines[-1] + b"\n", lines[:-1])


def is_locked(path):
    """Whether a run has a folder alone. Looks as a run does that reads."""
    with suppress(FileNotFoundError):
        folder = os.open(path, os.O_RDONLY)
        try:
            fcntl.flock(folder, fcntl.LOCK_SH | fcntl.LOCK_NB)
        except BlockingIOError:
            return True
        finally:
            os.close(folder)
    return False


def wait_for(is_there):
    # By the clock, so for much longer than a busy machine takes.
    end = time.monotonic() + 10 * SECONDS
    while not is_there() and time.monotonic() < end:
        time.sleep(0.001)
    return is_there()


def try_writer_that_reads(program, words, before):
    """From before it reads until it has written, a run has the folder alone. A second one fails at once, and changes nothing."""
    if before:
        write_files("it", columns_of(LINES))
    pipe = subprocess.PIPE
    with subprocess.Popen([program.path, *words], stdin=pipe, stdout=pipe, stderr=pipe) as first:
        # One that came before the first one had locked the folder would win.
        yield f"{words}, begun", wait_for(lambda: is_locked(f"it/{UNFINISHED}")), True
        first.stdin.write(b"blue\n")
        first.stdin.flush()
        busy = failed(1, b"it: cannot write files: resource busy")
        yield f"{words}, the second", program.run(words, b"white\n"), busy
        unread = failed(1, b"it: cannot read codes.npy: another run is writing")
        for reading in READ, READ_ONTO:
            read = program.run(reading, b"")
            yield f"{words}, {reading}", read.status == 0 if before else read == unread, True
        ended = end_of(first)
    yield f"{words}, the first", ended, OK
    yield f"{words}, files", files_in("it"), columns_of(b"blue\n", before)


def unread(pipe):
    """How many bytes of a pipe were not read."""
    return int.from_bytes(fcntl.ioctl(pipe.fileno(), termios.FIONREAD, bytes(4)), sys.byteorder)


def is_read_by(run, data):
    """Whether a run reads what it is given, rather than ends before."""
    try:
        os.write(run.stdin.fileno(), data)
    except BrokenPipeError:
        # The run is ending. For a moment more, it may look as if it went on.
        return False
    wait_for(lambda: not unread(run.stdin) or run.poll() is not None)
    return not unread(run.stdin)


def try_late_writers(program):
    """Wherever a run is stopped, one that begins then and reads has the folder, unless the first one has it: whoever does not, fails
    at once."""
    for name, first in each_stop(program, WRITE, FIRST, THIRD):
        pipe = subprocess.PIPE
        with subprocess.Popen([program.path, *WRITE], stdin=pipe, stdout=pipe, stderr=pipe) as second:
            is_second = is_read_by(second, SECOND)
            ends = [first.end(), end_of(second)]
        busy = failed(1, b"it: cannot write files: resource busy")
        # Without a stop the first one has ended before.
        wanted = [busy, OK] if is_second and first.is_stopped else [OK, OK] if is_second else [OK, busy]
        yield f"{name}, both", ends, wanted
        yield f"{name}, files", files_in("it"), columns_of(SECOND if is_second else FIRST)


# A run asks less often than so what a file is.
QUESTIONS = 20


def try_devices(program):
    """Files with one number are others if they are on other devices: a run that finds one of them in the place of the other reads
    again, or finds the folder busy to write."""
    write_files("it", columns_of(FIRST))
    ends = [program.run(b"decode it".split(), OTHER_DEVICE=number) for number in range(1, QUESTIONS)]
    yield "decoded", {*ends}, {(0, FIRST, b"")}
    ends = [program.run(WRITE, FIRST, OTHER_DEVICE=number) for number in range(1, QUESTIONS)]
    yield "written", {*ends}, {OK, failed(1, b"it: cannot write files: resource busy")}
    yield "files", {it: content for it, content in columns_of(FIRST).items() if Path("it", it).read_bytes() != content}, {}


# So many times two runs write at once, and a third one reads.
RACES = 60


def try_race(program):
    """Two runs that start at once, and one that reads meanwhile."""
    texts = [text * 3000 for text in (SECOND, THIRD)]
    texts[0] += b"\n"
    whole = [columns_of(text) for text in texts]
    write_files("it", whole[0])
    for number in range(RACES):
        runs = []
        for text in texts:
            with holding(text) as given:
                runs.append(subprocess.Popen([program.path, *WRITE], stdin=given, stderr=subprocess.DEVNULL))
        read = program.run(b"decode it".split())
        yield f"race {number}, read {read.status}", read in [(0, text, b"") for text in texts], True
        statuses = [run.wait() for run in runs]
        wins = [files for files, status in zip(whole, statuses) if status == 0]
        yield f"race {number}, {statuses}", (len(wins) > 0, {*statuses} <= {0, 1}, files_in("it") in wins), (True,) * 3


def try_refused(program):
    """Each request for memory is refused in turn: the folder has the files from before, those of the run, or no numbers."""
    old, new = columns_of(LINES), columns_of(b"blue\ngreen")
    for words in (b"encode --plain it".split(), b"encode --onto it --plain it".split(), b"decode it".split(),
                  b"get it red green".split(), b"get --check it green".split(), b"get it --rows ..".split()):
        wanted = new if b"--onto" not in words else columns_of(b"blue\ngreen", LINES.split(b"\n")[:-1])
        for number in itertools.count(1):
            for path in Path().glob("it/*"):
                path.unlink()
            Path("it").mkdir(exist_ok=True)
            for name, content in old.items():
                Path("it", name).write_bytes(content)
            ended, asks = program.run_with_asks(words, b"blue\ngreen", number)
            if len(asks) < number:
                break
            found = files_in("it")
            name = f"{words}, request {number} of {asks[number - 1]} bytes refused"
            if ended.status:
                yield name, (ended.status, ended.output), (1, b"")
                yield f"{name}, files", found, old
            else:
                yield f"{name}, files", found, old if words[0] != b"encode" else wanted


# What NumPy says of the codes, mapped, and that it saves them as they are.
BY_NUMPY = """
import pathlib, sys, numpy
folder = pathlib.Path(sys.argv[1])
codes = numpy.load(folder / "codes.npy", mmap_mode="r")
lines = folder.joinpath("dict.txt").read_bytes().split(b"\\n")[:-1]
numpy.save(folder / "again.npy", codes)
print(codes.dtype.str, codes.shape, folder.joinpath("again.npy").read_bytes() == folder.joinpath("codes.npy").read_bytes())
sys.stdout.flush()
sys.stdout.buffer.write(b"".join(lines[code] + b"\\n" for code in codes))
"""


def try_numpy(program):
    """NumPy maps what was written, and writes the same file. Left out if no Python has it."""
    python = python_with("numpy")
    for data in TEXTS if python else ():
        with own_folder():
            yield f"{data[:40]}", program.run([b"encode", b"--plain", b"it"], data), OK
            read = subprocess.run([python, "-c", BY_NUMPY, "it"], capture_output=True, check=False)
            count = len(data.removesuffix(b"\n").split(b"\n")) if data else 0
            ended = data + b"\n" * (bool(data) and not data.endswith(b"\n"))
            yield f"{data[:40]}, read by NumPy", (read.stdout, read.stderr), (b"<u4 (%d,) True\n" % count + ended, b"")


def try_random(program, seed):
    """Random lines onto others; and files with one byte changed give a text that the files hold, or are called damaged."""
    chance = random.Random(seed)
    words = ["".join(chance.choices("ab\r é", k=chance.randrange(3))) for _ in range(8)]
    first, second = ("\n".join(chance.choices(words, k=chance.randrange(20))).encode() + chance.choice([b"", b"\n"]) for _ in "ab")
    yield from try_onto(program, first, second)
    yield from try_append(program, first, second)
    files = columns_of(first)
    name = chance.choice([it for it in ("dict.txt", "codes.npy") if files[it]])
    damaged = bytearray(files[name])
    damaged[chance.randrange(len(damaged))] = chance.randrange(256)
    write_files("it", files | {name: bytes(damaged)})
    ended = program.run([b"decode", b"it"])
    if ended.status == 0:
        yield f"files {seed}, written again", program.run(b"encode --plain new".split(), ended.output), OK
        yield f"files {seed}, decoded again", program.run([b"decode", b"new"]), (0, ended.output, b"")
    else:
        yield f"damaged files {seed}, {ended}", (ended.status, ended.output, ended.error.count(b"\n")), (2, b"", 1)


def trials():
    return [
        *((try_text, data) for data in TEXTS),
        *((try_onto, *both) for both in itertools.product(TEXTS[:-2], repeat=2)),
        *((try_append, *both) for both in itertools.product(TEXTS[:-2], repeat=2)),
        *((try_damaged, *given) for given in DAMAGED),
        *((try_repeated, *given) for given in REPEATED),
        *((try_pair, *given) for given in OF_TWO_RUNS),
        *((try_end, *given) for given in OF_ANOTHER_END),
        *((trial, old) for trial in (try_killed_writers, try_killed_appenders, try_ended_writers, try_writers)
          for old in (None, SECOND, THIRD)),
        *((try_writer_that_reads, *given) for given in ((WRITE, ()), (EXTEND, (b"red", b"green")))),
        *((try_readers, after) for after in (SECOND, ALIKE)),
        *((try_random, seed) for seed in range(100)),
        *alone(globals()),
    ]
