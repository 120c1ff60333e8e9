"""What is tried of `dictcol distinct`: it writes while it reads."""

import errno
import os
import random
import select
import subprocess

from built import SECONDS, Program
from program.expected import answer, unreadable
from trials import Seen, Trial

# What is written to the input at once, and what comes of it while the input is open.
PARTS = (b"a\nb\na\n", b"a\nb\n"), (b"b\nc", b""), (b"\nc\n", b"c\n"), (b"\n", b"\n")


def read_soon(output: int, length: int) -> bytes:
    """So many bytes of a pipe, or those that come while nobody waits too long."""
    found = b""
    while len(found) < length and select.select([output], [], [], SECONDS)[0]:
        part = os.read(output, length - len(found))
        if not part:
            break
        found += part
    return found


def try_while_reading(program: Program) -> Seen:
    """A new line is written when it was read, and the input goes on."""
    with subprocess.Popen([program.path, b"distinct"], stdin=subprocess.PIPE, stdout=subprocess.PIPE, bufsize=0) as started:
        assert started.stdin and started.stdout
        for given, wanted in PARTS:
            started.stdin.write(given)
            yield f"{given!r} is read", read_soon(started.stdout.fileno(), len(wanted)), wanted
        started.stdin.close()
        yield "the end", started.stdout.read(), b""
    yield "the status", started.returncode, 0


def try_failing(program: Program) -> Seen:
    """If a read fails, the lines that ended before it are written. Reads may give a byte each."""
    words, data = [b"distinct"], "red\né\nred\n\ngreen".encode()
    for count in range(len(data) + 1):
        ended = data[:data.rfind(b"\n", 0, count) + 1]
        wanted = 1, answer(words, ended)[1], unreadable(errno.ECONNRESET)
        yield f"an input that breaks off after {count} bytes", program.run(words, data, READ_BYTES=count), wanted
    for size in range(1, len(data) + 1):
        yield f"at most {size} bytes read at once", program.run(words, data, READ_AT_ONCE=size), answer(words, data)


def try_broken(program: Program) -> Seen:
    """The lines of the reads before one with a line that is not UTF-8 are written, and no line is cut."""
    lines = b"".join(b"%d\n" % number for number in range(100000))
    for end in b"\xff\n", b"\xff":
        status, output, error = program.run([b"distinct"], lines + end)
        yield "a broken line", (status, error), (2, b"dictcol: line 100001 is not UTF-8 (see --invalid)\n")
        yield "lines before it", bool(output) and lines.startswith(output) and output.endswith(b"\n"), True


def try_many(program: Program, backend: bytes) -> Seen:
    """So many distinct lines that blocks of them are looked up together, of which some are equal."""
    chance = random.Random(0)
    data = b"".join(b"%d\n" % chance.choice((chance.randrange(1000), chance.randrange(1 << 18))) for _ in range(400000))
    words = [b"distinct", b"--backend", backend]
    yield f"{words} of many lines", program.run(words, data), answer(words, data)


def trials() -> list[Trial]:
    return [(try_while_reading,), (try_failing,), (try_broken,), *((try_many, backend) for backend in (b"string", b"bucket", b"buffer"))]
