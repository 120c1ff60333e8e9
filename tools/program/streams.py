"""Inputs and outputs of either program that fail, close, or come in pieces."""

import errno
import fcntl
import os
import resource
import signal
import subprocess
import tempfile
from collections.abc import Callable, Iterator
from dataclasses import dataclass
from itertools import product
from typing import Any

from built import End, Program, end_of, holding
from trials import Seen, Trial

# A writer that takes nothing is an error too.
ERRORS = (errno.EPIPE, errno.ENOMEM, 0)


def packets() -> tuple[int, int]:
    """The two ends of a pipe that hands on each write by itself. Each takes a page of it."""
    reading, writing = os.pipe2(os.O_DIRECT | os.O_CLOEXEC)
    fcntl.fcntl(writing, fcntl.F_SETPIPE_SZ, 1 << 20)
    return reading, writing


def limit_files(count: int) -> None:
    """Lets no file of this process grow beyond so many bytes."""
    signal.signal(signal.SIGXFSZ, signal.SIG_IGN)
    resource.setrlimit(resource.RLIMIT_FSIZE, (count, count))


@dataclass(frozen=True)
class Streams:
    """Arguments and inputs of a program, and how it tells of an error by its number: of a failed write by a status and a message.

    `answered` has short inputs with what is written for them, and `long` one with more than a buffer or a pipe takes. `failing`
    has inputs that are wrong, with how a run over them ends. If the program writes on where the buffer of its output is refused,
    `buffer` is its size.
    """

    answered: tuple[Any, ...]
    failing: tuple[Any, ...]
    long: tuple[Any, ...]
    unreadable: Callable[[int], bytes]
    unwritable: Callable[[int], tuple[int, bytes]]
    buffer: int | None = None

    def trials(self) -> list[Trial]:
        return [(trial, self) for trial in (
            failing_input, interrupted_input, failing_output, output_of_any_length, output_that_breaks_off, reader_that_leaves,
            input_in_pieces, output_in_pieces, output_in_few_writes, closed_error)]

    def inputs(self) -> list[Any]:
        """The arguments and inputs, each with how a run over it ends."""
        return [*((words, data, (0, whole, b"")) for words, data, whole in self.answered), *self.failing]

    def buffers(self, program: Program, words: list[bytes], data: bytes) -> Iterator[dict[str, Any]]:
        """Settings under which the output has its buffer, and those under which it has none."""
        yield {}
        if self.buffer:
            yield {"REFUSE": program.run_with_asks(words, data)[1].index(self.buffer) + 1}

    def unwritten(self, error: int, front: bytes = b"") -> tuple[int, bytes, bytes]:
        """How a run ends whose output breaks off by an error behind these bytes."""
        status, message = self.unwritable(error)
        return status, front, message


def failing_input(program: Program, streams: Streams) -> Seen:
    """A folder, a closed input, and inputs that break off after each byte, and so in characters and behind a bad line."""
    words, folder = streams.inputs()[0][0], os.open("/", os.O_RDONLY)
    yield "a folder as input", program.run(words, folder), (1, b"", streams.unreadable(errno.EISDIR))
    os.close(folder)
    yield "a closed input", program.run(words, None, before=lambda: os.close(0)), (1, b"", streams.unreadable(errno.EBADF))
    for words, data, _ in streams.inputs():
        for count in range(len(data) + 1):
            name = f"{words}, input {data!r} that breaks off after {count} bytes"
            yield name, program.run(words, data, READ_BYTES=count), (1, b"", streams.unreadable(errno.ECONNRESET))


def run_interrupted(program: Program, words: list[bytes], data: bytes, size: int, **settings: Any) -> Iterator[tuple[str, End]]:
    """How a run ends whose reads take at most so many bytes: with none of them interrupted, and with each in turn."""
    ended = program.run(words, data, READ_AT_ONCE=size, TELL_READS=1, **settings)
    told, _, count = ended.error.rpartition(b"reads ")
    yield f"{words}, at most {size} bytes read at once", ended._replace(error=told)
    for number in range(1, int(count) + 1):
        yield f"{words}, read {number} interrupted", program.run(words, data, READ_AT_ONCE=size, INTERRUPT=number, **settings)


def interrupted_input(program: Program, streams: Streams) -> Seen:
    """A signal during a read changes nothing. Lines and characters may be held by halves then."""
    for (words, data, wanted), size in product(streams.inputs(), (1, 4, 1 << 20)):
        for name, ended in run_interrupted(program, words, data, size):
            yield f"{name}, of {data!r}", ended, wanted


def failing_output(program: Program, streams: Streams) -> Seen:
    """A full disk and a closed output, which matter only where there is something to write."""
    for words, data, plain in streams.inputs():
        with open("/dev/full", "wb") as full:
            found = program.run(words, data, full)
        yield f"{words}, a full disk after {data!r}", found, streams.unwritten(errno.ENOSPC) if plain[1] else plain
        found = program.run(words, data, None, before=lambda: os.close(1))
        yield f"{words}, a closed output after {data!r}", found, streams.unwritten(errno.EBADF) if plain[1] else plain


def output_of_any_length(program: Program, streams: Streams) -> Seen:
    """A file that may grow to so many bytes: it holds the front of what is to be written."""
    for words, data, whole in (*streams.answered, streams.long):
        for count in {*range(60), 8191, 8192, 8193, len(whole) - 1} & {*range(len(whole))}:
            with tempfile.TemporaryFile() as output:
                status, _, message = program.run(words, data, output, before=lambda: limit_files(count))
                output.seek(0)
                found = status, output.read(), message
            yield f"{words} {data[:60]!r}, a disk with {count} bytes", found, streams.unwritten(errno.EFBIG, whole[:count])


def output_that_breaks_off(program: Program, streams: Streams) -> Seen:
    """After each byte, with the buffer and without it, or after each three."""
    for words, data, whole in streams.answered:
        every: list[dict[str, Any]] = [{"WRITE_BYTES": 3}, *({"WRITE_BYTES": 1, **it} for it in streams.buffers(program, words, data))]
        for settings in every:
            size = settings["WRITE_BYTES"]
            for error, count in ((error, count) for error in ERRORS for count in range(0, len(whole), size)):
                found = program.run(words, data, BROKEN_WRITE=count // size + 1, ERROR=error, **settings)
                name = f"{words} {data!r}, output that breaks off by {error} after {count} bytes under {settings}"
                yield name, found, streams.unwritten(error, whole[:count])


def reader_that_leaves(program: Program, streams: Streams) -> Seen:
    """Its reader closes the output after the first line."""
    words, data, whole = streams.long
    pipe = subprocess.PIPE
    with holding(data) as given, subprocess.Popen([program.path, *words], stdin=given, stdout=pipe, stderr=pipe) as started:
        assert started.stdout
        line = started.stdout.readline()
        started.stdout.close()
        found = end_of(started)._replace(output=line)
    yield "a reader that leaves", found, streams.unwritten(errno.EPIPE, whole[:whole.index(b"\n") + 1])


def input_in_pieces(program: Program, streams: Streams) -> Seen:
    """A character may come in halves."""
    for words, data, whole in streams.answered:
        for size in range(1, len(data) + 1):
            reading, writing = packets()
            for start in range(0, len(data), size):
                os.write(writing, data[start:start + size])
            os.close(writing)
            with os.fdopen(reading) as given:
                yield f"{words}, input {data!r} of {size} bytes at a time", program.run(words, given), (0, whole, b"")


def output_in_pieces(program: Program, streams: Streams) -> Seen:
    """Each write takes a few bytes. Without the buffer none has bytes of two lines."""
    for words, data, whole in streams.answered:
        for size, without in product((1, 3, 5, 8192), streams.buffers(program, words, data)):
            settings = {"WRITE_BYTES": size, **without}
            reading, writing = packets()
            status, _, message = program.run(words, data, writing, **settings)
            os.close(writing)
            with os.fdopen(reading, "rb", buffering=0) as pipe:
                writes = list(iter(lambda: pipe.read(8192), b""))
            name = f"{words}, output of {data!r} under {settings}"
            yield name, (status, b"".join(writes), message), (0, whole, b"")
            if "REFUSE" in settings:
                yield f"{name}: writes with bytes of two lines", [it for it in writes if b"\n" in it[:-1]], []


def output_in_few_writes(program: Program, streams: Streams) -> Seen:
    """A write takes all lines that the buffer has room for. One more write would fail."""
    for words, data, whole in (*streams.answered, streams.long):
        most = len(whole) // (8192 - max(map(len, whole.split(b"\n")))) + 1
        found = program.run(words, data, BROKEN_WRITE=most + 1, ERROR=errno.EPIPE)
        yield f"{words}, output of {len(whole)} bytes in at most {most} writes", found, (0, whole, b"")


def closed_error(program: Program, streams: Streams) -> Seen:
    """The status and the output stay."""
    for words, data, (status, whole, _) in streams.inputs():
        found = program.run(words, data, before=lambda: os.close(2))
        yield f"{words}, a closed standard error after {data!r}", found, (status, whole, b"")
