"""Runs a built program, also with requests for memory, reading or writing that fail."""

import os
import signal
import subprocess
import tempfile
from collections.abc import Callable, Collection, Iterator, Sequence
from contextlib import AbstractContextManager, closing, contextmanager, nullcontext
from pathlib import Path
from typing import IO, Any, NamedTuple

from machine import toolchain_folder
from needs import is_there
from tree import TOP

# A run hangs that takes so much processor time, or waits for so long and takes none: on a busy machine, others take longer by the clock.
SECONDS = 60
# What the library says at the end of a run that gave back all memory, and what stands for that line where it is missing.
HELD_NOTHING, HELD = b"holds 0\n", b"not all memory was given back\n"

# The signals by which a user ends a run early.
ENDING = signal.SIGINT, signal.SIGTERM, signal.SIGHUP

# What the library says when it refuses a request for memory.
REFUSED = b"request refused\n"

Words = Sequence[str | bytes | Path]
# A file, by itself or its number, or none.
Stream = IO[Any] | int | None


class End(NamedTuple):
    """How a run ended: its status, and what it wrote on both outputs."""

    status: int | None
    output: bytes
    error: bytes


def processor_seconds(process: int) -> float:
    """The processor time that a process has taken."""
    # The name in parentheses may have spaces. User and system time are the 14th and 15th words, in ticks.
    words = Path(f"/proc/{process}/stat").read_bytes().rpartition(b")")[2].split()
    return (int(words[11]) + int(words[12])) / os.sysconf("SC_CLK_TCK")


def is_held_up(process: int) -> bool:
    """Whether a process waits for a processor or a disk, and so goes on by itself."""
    return Path(f"/proc/{process}/stat").read_bytes().rpartition(b")")[2].split()[0] in (b"R", b"D")


def end_of(started: subprocess.Popen[bytes], seconds: float | None = SECONDS) -> End:
    """How a process ends. One that hangs is killed, and has no status."""
    used = -1.0
    while True:
        try:
            printed, told = started.communicate(timeout=seconds)
            return End(started.returncode, printed or b"", told or b"")
        except subprocess.TimeoutExpired:
            before, used = used, processor_seconds(started.pid)
        if seconds is None or used >= seconds or used == before and not is_held_up(started.pid):
            started.kill()
            return End(None, b"", b"hangs after %g seconds of processor time\n" % used)


def holding(data: bytes) -> IO[bytes]:
    file = tempfile.TemporaryFile()
    file.write(data)
    file.seek(0)
    return file


class Program:
    """A built program, and .ci/failures.c, compiled into a folder, whose settings the runs get."""

    def __init__(self, path: str | Path, folder: str | Path, is_by_cargo: bool = False) -> None:
        self.is_by_cargo = is_by_cargo
        self.path = str(Path(path).resolve())
        self.library = f"{folder}/failures.so"
        clang = toolchain_folder() / "toolchain/bin/clang" if is_there("rt") else None
        words: list[str | Path] = [clang, "-fuse-ld=lld"] if clang and clang.exists() else ["cc"]
        subprocess.run([*words, "-O2", "-shared", "-fPIC", "-nostdlib", "-o", self.library, TOP / ".ci/failures.c"], check=True)

    def run(self, words: Words, given: bytes | Stream = b"", output: Stream = subprocess.PIPE, is_joined: bool = False,
            seconds: float | None = SECONDS, before: Callable[[], object] | None = None, **settings: Any) -> End:
        """How a run over these bytes, or over this file, ends, where standard error may be joined to standard output."""
        environment = {"LD_PRELOAD": self.library, **{name: str(value) for name, value in settings.items()}} if settings else {}
        source: AbstractContextManager[Any] = nullcontext(given) if not isinstance(given, bytes) else closing(holding(given))
        with source as stdin:
            # Without closing files first, the process starts several times as fast.
            with subprocess.Popen([self.path, *words], stdin=stdin, stdout=output, env=environment,
                                  stderr=subprocess.STDOUT if is_joined else subprocess.PIPE,
                                  preexec_fn=before, close_fds=False) as started:
                ended = end_of(started, seconds)
        if ended.status is None:
            return ended
        printed, told = ended.output, ended.error
        if "REFUSE" in settings:
            told = b"".join(line for line in told.splitlines(keepends=True) if line != REFUSED)
        if "TELL_HELD" in settings:
            printed, told = (without_held(printed), told) if is_joined else (printed, without_held(told))
        return ended._replace(output=printed, error=told)

    def run_with_asks(self, words: Words, data: bytes, refused: int = 0, **settings: Any) -> tuple[End, list[int]]:
        """How a run ends with the request of this number refused, counted from 1, and the sizes of its requests for memory."""
        ended = self.run(words, data, REFUSE=refused, TELL_ASKS=1, TELL_HELD=1, **settings)
        lines = ended.error.splitlines(keepends=True)
        asks = [int(line[5:]) for line in lines if line.startswith(b"asks ")]
        return ended._replace(error=b"".join(line for line in lines if not line.startswith(b"asks "))), asks

    def run_with_peak(self, words: Words, given: IO[bytes], output: IO[bytes]) -> tuple[End, int]:
        """How a run from one file to another ends, and the most memory that was resident at once, in KiB. What this process
        holds is resident, too, until the run begins."""
        with tempfile.TemporaryFile() as told:
            nothing: dict[str, str] = {}
            process = subprocess.Popen([self.path, *words], stdin=given, stdout=output, stderr=told, env=nothing, close_fds=False)
            _, status, used = os.wait4(process.pid, 0)
            process.returncode = os.waitstatus_to_exitcode(status)
            told.seek(0)
            return End(process.returncode, b"", told.read()), used.ru_maxrss

    @contextmanager
    def stopped(self, words: Words, data: bytes, call: int, ignored: Collection[signal.Signals] = ()) -> Iterator["Stopped"]:
        """A run that stops before its call of this number that looks for, opens, makes, links, locks, renames or removes a file or
        folder, without these signals. It goes on or is killed by `end`; without such a call it has ended."""
        environment = {"LD_PRELOAD": self.library, "STOP_AT": str(call)}

        def choose_signals() -> None:
            # A shell has what it starts behind its back ignore SIGINT.
            for it in ENDING:
                signal.signal(it, signal.SIG_IGN if it in ignored else signal.SIG_DFL)

        with holding(data) as given, subprocess.Popen([self.path, *words], stdin=given, stdout=subprocess.PIPE, preexec_fn=choose_signals,
                                                      stderr=subprocess.PIPE, env=environment) as started:
            try:
                yield Stopped(started)
            finally:
                # A stopped one would be waited for without end.
                started.kill()


class Stopped:
    """A run that may have stopped."""

    def __init__(self, started: subprocess.Popen[bytes]) -> None:
        self.started = started
        # `wait` of the process itself would not return where it stops.
        _, status = os.waitpid(started.pid, os.WUNTRACED)
        self.is_stopped = os.WIFSTOPPED(status)
        if not self.is_stopped:
            started.returncode = os.waitstatus_to_exitcode(status)

    def end(self, by: int = signal.SIGCONT) -> End:
        """How it ends after this signal."""
        if self.is_stopped:
            os.kill(self.started.pid, by)
            # What stopped goes on before it takes another signal than this one and SIGKILL.
            os.kill(self.started.pid, signal.SIGCONT)
        return end_of(self.started)


def without_held(told: bytes) -> bytes:
    """What a run told, without the line that it holds nothing at its end. Without that line, more than it told."""
    return told.removesuffix(HELD_NOTHING) if told.endswith(HELD_NOTHING) else told + HELD
