"""Folders of plain columns, as `dictcol encode --plain` writes them. `man dictcol` says what is in the files."""

from __future__ import annotations

import errno
import fcntl
import os
import shutil
import stat
from array import array
from contextlib import contextmanager, suppress

from . import _native, _types

TYPE_CHECKING = False
if TYPE_CHECKING:
    from collections.abc import Iterator
    from typing import TypeVar

    from _typeshed import ReadableBuffer

    from ._column import Column

    Columns = TypeVar("Columns", bound=Column)

DICTIONARY, CODES, PAIR, CUT = "dict.txt", "codes.npy", "pair.txt", "no_final_newline"
UNFINISHED = "dictcol-unfinished"
# Behind the name of an old file that a run of `dictcol` would have put back.
KEPT = ".old"
HEADER = 128


def busy(folder: str) -> BlockingIOError:
    return BlockingIOError(errno.EBUSY, "another run writes there", folder)


def format_header(rows: int) -> bytes:
    """What NumPy's format 1.0 has before so many numbers of 4 bytes."""
    words = f"{{'descr': '<u4', 'fortran_order': False, 'shape': ({rows},), }}".encode()
    return b"\x93NUMPY\x01\x00v\x00" + words.ljust(HEADER - 11) + b"\n"


def read_codes(content: bytes) -> memoryview:
    """The numbers of a file in NumPy's format."""
    rows, rest = divmod(len(content) - HEADER, 4)
    if rest or content[:HEADER] != format_header(rows):
        raise ValueError(f"{CODES} is no array of '<u4' in NumPy's format 1.0")
    return memoryview(content)[HEADER:].cast("I")


def read_lines(descriptor: int, hasher: _types.Hasher) -> _native.Column:
    """The lines of a dictionary."""
    size = os.fstat(descriptor).st_size
    if size and os.pread(descriptor, 1, size - 1) != b"\n":
        raise ValueError(f"{DICTIONARY} does not end in a newline")
    return _native.Column.from_file(descriptor, hasher=hasher)


def format_pair(lines: int, codes: memoryview) -> bytes:
    """What a dictionary and codes of one run have."""
    return f"lines {lines}\nnumbers {len(codes)}\nchecksum {_native.Column._checksum(codes)}\n".encode()


def format_end(is_cut: bool) -> bytes:
    """What `pair.txt` says behind that: whether a file says that the last line has no newline."""
    return f"{CUT} {is_cut:d}\n".encode()


def check_pair(pair: bytes | None, lines: int, codes: memoryview, is_cut: bool) -> None:
    """Refuses files of two runs. Earlier versions wrote no pair, or one without its last line."""
    if pair is None:
        return
    front = format_pair(lines, codes)
    end = pair.removeprefix(front)
    if not pair.startswith(front) or end not in (b"", format_end(True), format_end(False)):
        raise ValueError(f"{DICTIONARY} and {CODES} are of two runs")
    if end and end != format_end(is_cut):
        raise ValueError(f"{CUT} {'is of another run' if is_cut else 'is missing'}")


def read_pair(folder: str) -> bytes | None:
    """What `pair.txt` says."""
    try:
        with open(os.path.join(folder, PAIR), "rb") as file:
            return file.read()
    except FileNotFoundError:
        return None


def make_column(cls: type[Columns], lines: _native.Column, codes: memoryview) -> Columns:
    if lines.distinct == len(lines):
        return cls._with_dictionary(lines, codes)
    # Lines that were changed may be equal: then both are the first of them.
    try:
        return cls._with_dictionary(lines, lines.take(codes).codes)
    except IndexError as error:
        raise ValueError(f"{CODES} has a number that is no line of {DICTIONARY}: {error}") from None


def read(cls: type[Columns], folder: str, hasher: _types.Hasher) -> Columns:
    path = os.path.join(folder, CODES)
    with open(path, "rb") as codes_file, open(os.path.join(folder, DICTIONARY), "rb") as dictionary:
        pair, is_cut = read_pair(folder), os.path.exists(os.path.join(folder, CUT))
        # While it is there, the other files are of its run. So all are of one run if it still is in its place.
        if not os.path.samestat(os.fstat(codes_file.fileno()), os.stat(path)):
            raise busy(folder)
        codes, lines = read_codes(codes_file.read()), read_lines(dictionary.fileno(), hasher)
    column = make_column(cls, lines, codes)
    check_pair(pair, len(lines), codes, is_cut)
    return column


def lock(folder: str) -> int:
    """Locks a folder for this run, until the descriptor is closed or the process ends."""
    descriptor = os.open(folder, os.O_RDONLY | os.O_DIRECTORY | os.O_NOFOLLOW | os.O_CLOEXEC)
    try:
        fcntl.flock(descriptor, fcntl.LOCK_EX | fcntl.LOCK_NB)
        if not os.path.samestat(os.fstat(descriptor), os.lstat(folder)):
            raise busy(folder)
    except BaseException as error:
        os.close(descriptor)
        raise busy(folder) if isinstance(error, BlockingIOError) else error
    return descriptor


def check_left(folder: str) -> None:
    """Refuses a folder that has anything but files of a run."""
    with os.scandir(folder) as entries:
        for entry in entries:
            if entry.name.removesuffix(KEPT) not in (DICTIONARY, CODES, PAIR, CUT) or not entry.is_file(follow_symlinks=False):
                raise FileExistsError(errno.EEXIST, "not what a killed run leaves: move it away", folder)


def remove(folder: str, descriptor: int) -> None:
    """Removes a folder that this run has locked."""
    try:
        shutil.rmtree(folder)
    finally:
        os.close(descriptor)


@contextmanager
def unfinished(folder: str) -> Iterator[str]:
    """A folder in this one that this run alone writes into. What a killed run left has no lock, and is removed."""
    path = os.path.join(folder, UNFINISHED)
    try:
        left = lock(path)
    except FileNotFoundError:
        pass
    else:
        try:
            check_left(path)
        except BaseException:
            os.close(left)
            raise
        remove(path, left)
    try:
        os.mkdir(path)
        descriptor = lock(path)
    except (FileExistsError, FileNotFoundError):
        raise busy(path) from None
    try:
        yield path
    finally:
        remove(path, descriptor)


def look(path: str) -> os.stat_result | None:
    """What the system says of a file, if there is one."""
    with suppress(OSError):
        found = os.stat(path)
        return found if stat.S_ISREG(found.st_mode) else None
    return None


def make_like(descriptor: int, other: os.stat_result) -> None:
    """Gives a file the owner, the group and the mode of another one, as far as the system allows it."""
    mode = stat.S_IMODE(other.st_mode)
    try:
        os.fchown(descriptor, other.st_uid, other.st_gid)
    except OSError:
        try:
            os.fchown(descriptor, -1, other.st_gid)
        except OSError:
            # Its group is another one, which may do what all may.
            mode = mode & ~0o070 | (mode & 0o007) << 3
    with suppress(OSError):
        os.fchmod(descriptor, mode)


def write_file(path: str, place: str, *parts: ReadableBuffer) -> None:
    """Writes a new file for the place of an old one, and waits until it is stored. Whoever could not open the old one cannot open the
    new one. Where none was, it is like the codes, if these were there."""
    other = look(place) or look(os.path.join(os.path.dirname(place), CODES))
    flags = os.O_WRONLY | os.O_CREAT | os.O_EXCL | os.O_CLOEXEC
    with open(os.open(path, flags, 0o600 if other else 0o666), "wb") as file:
        if other:
            make_like(file.fileno(), other)
        for part in parts:
            file.write(part)
        file.flush()
        os.fsync(file.fileno())


def store(folder: str) -> None:
    """Waits until the names in a folder are stored."""
    descriptor = os.open(folder, os.O_RDONLY | os.O_DIRECTORY | os.O_CLOEXEC)
    try:
        os.fsync(descriptor)
    except OSError as error:
        # The file system stores them in its own time.
        if error.errno != errno.EINVAL:
            raise
    finally:
        os.close(descriptor)


def write(column: Column, folder: str) -> None:
    # As it is now, whatever others add.
    column = column[:]
    if None in column:
        raise ValueError(f"row {column.index(None)} is None, which no line of {DICTIONARY} is")
    lines, codes = column._lines()
    if codes.itemsize != 4:
        codes = memoryview(array("I", codes))
    os.makedirs(folder, exist_ok=True)
    contents: dict[str, tuple[ReadableBuffer, ...]] = {
        DICTIONARY: (lines,),
        CODES: (format_header(len(codes)), codes),
        PAIR: (format_pair(column.distinct, codes), format_end(False)),
    }
    with unfinished(folder) as new:
        for name, parts in contents.items():
            write_file(os.path.join(new, name), os.path.join(folder, name), *parts)
        # There is no codes.npy while the other files are not those of the new one.
        for name in (CODES, CUT):
            try:
                os.remove(os.path.join(folder, name))
            except FileNotFoundError:
                pass
            store(folder)
        for name in (PAIR, DICTIONARY, CODES):
            os.rename(os.path.join(new, name), os.path.join(folder, name))
            store(folder)
