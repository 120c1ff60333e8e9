"""How runs of the program `dictcol` must end, as Python's `json` and `Counter` reckon it."""

import errno
import json
import os
import re
from collections import Counter
from collections.abc import Sequence

USAGE = b"usage: dictcol encode|decode|get|count|distinct|merge|shard [OPTION ..] [FILE ..] (try dictcol --help)\n"

# Of a long word so many bytes are shown.
SHOWN = 1024
# The status, standard output and standard error.
Ended = tuple[int, bytes, bytes]


def failed(status: int, message: bytes) -> Ended:
    return status, b"", b"dictcol: %s\n" % message


MEMORY = failed(1, b"out of memory")


def misused(message: bytes) -> Ended:
    return 2, b"", b"dictcol: %s\n%s" % (message, USAGE)


def end_of_get(folder: bytes, dictionary: bytes, texts: Sequence[bytes]) -> Ended:
    """How a run ends that looks for texts among the lines of a dictionary, none of which has a control character."""
    lines = dictionary.split(b"\n")[:-1]
    # The first of equal lines counts.
    numbers = {line: number for number, line in reversed([*enumerate(lines)])}
    missing = [text for text in texts if text not in numbers]
    shown = [b"'%b'%b" % (text[:SHOWN], b".." * (len(text) > SHOWN)) for text in missing]
    output = b"".join(b"%d\n" % numbers[text] for text in texts if text in numbers)
    return int(bool(missing)), output, b"".join(b"dictcol: %b: dict.txt has no line %b\n" % (folder, text) for text in shown)


def told(error: int) -> bytes:
    return b"%s (os error %d)" % (os.strerror(error).encode(), error)


def unreadable(error: int, name: bytes = b"") -> bytes:
    return b"dictcol: %scannot read input: %s\n" % (name, told(error))


def unwritable(error: int) -> tuple[int, bytes]:
    """If its reader has left it ends silently, with the status that a shell tells of a program that SIGPIPE ended. A writer that
    takes nothing has no error number."""
    if error == errno.EPIPE:
        return 128 + 13, b""
    return 1, b"dictcol: cannot write output: %s\n" % (told(error) if error else b"failed to write the buffered data")


def unwritten(error: int, front: bytes = b"") -> Ended:
    """How a run ends whose output breaks off by an error behind these bytes."""
    status, message = unwritable(error)
    return status, front, message


def is_utf8(line: bytes) -> bool:
    try:
        return isinstance(line.decode(), str)
    except UnicodeDecodeError:
        return False


def skip_invalid(data: bytes, end: bytes = b"\n") -> tuple[bytes, bytes]:
    """The lines that are UTF-8, and how a run tells of the others."""
    lines = re.findall(rb"[^%b]*%b|[^%b]+" % (end, end, end), data)
    good = [line for line in lines if is_utf8(line)]
    left_out = len(lines) - len(good)
    return b"".join(good), b"dictcol: lines left out that are not UTF-8: %d\n" % left_out if left_out else b""


ENCODED = b'{"dictionary":['


def warned(data: bytes, name: bytes = b"") -> bytes:
    """What is told of an input that looks like what `encode` writes."""
    if not data.startswith(ENCODED):
        return b""
    return b"dictcol: %swarning: lines were read from what encode wrote (see decode, count --encoded)\n" % name


def value_of(words: Sequence[bytes], *names: bytes) -> bytes | None:
    """The value of the last of the options with these names, in a word of its own or in theirs."""
    found = None
    for word, behind in zip(words, [*words[1:], b""]):
        if name := next((it for it in names if word == it or word.startswith(it + b"=" if it[:2] == b"--" else it)), None):
            found = behind if word == name else word[len(name):].removeprefix(b"=" if name[:2] == b"--" else b"")
    return found


def field_of(words: Sequence[bytes], line: bytes) -> bytes:
    """What stands for a line: a field of it, if the words say so."""
    if not (number := value_of(words, b"--field", b"-f")):
        return line
    return dict(enumerate(line.split(value_of(words, b"--separator", b"-t") or b"\t"), 1)).get(int(number), b"")


def pick(words: Sequence[bytes], data: bytes) -> bytes:
    """The text of the fields of all lines. If the last one is empty, a newline ends it."""
    end = line_end(words)
    *lines, last = (field_of(words, line) for line in data.split(end))
    return b"".join(line + end for line in lines) + (last or (b"" if data.endswith(end) or not data else end))


def line_end(words: Sequence[bytes]) -> bytes:
    """The byte that ends a line."""
    return b"\0" if {b"-z", b"--zero-terminated"} & {*words} else b"\n"


def mend(words: Sequence[bytes], data: bytes) -> tuple[bytes, bytes]:
    """What `--invalid` makes of an input, and how a run tells of it."""
    if b"--invalid=replace" in words:
        return data.decode(errors="replace").encode(), b""
    return skip_invalid(data, line_end(words)) if b"--invalid=skip" in words else (data, b"")


def number_of(words: Sequence[bytes], option: bytes) -> int | None:
    """The number that the last of these options has, if there is one."""
    found = re.findall(rb"%b[= ](\d+)" % option, b" ".join(words))
    return int(found[-1]) if found else None


def is_sorted(words: Sequence[bytes]) -> bool:
    """Whether `count` writes the most frequent line first."""
    return b"--sorted" in words or number_of(words, b"--top") is not None


def rows_of(words: Sequence[bytes], counts: Counter[bytes]) -> list[tuple[bytes, int]]:
    """The lines that `count` writes."""
    rows = counts.most_common() if is_sorted(words) else counts.items()
    return [row for row in rows if row[1] >= (number_of(words, b"--at-least") or 0)][:number_of(words, b"--top")]


def find_invalid(texts: Sequence[bytes], words: Sequence[bytes]) -> tuple[int, int] | None:
    """The place of the text, and the number of the line there, in which the first line that is not UTF-8 begins, if there is one."""
    start, end = 0, line_end(words)
    for line in b"".join(texts).split(end):
        if not is_utf8(field_of(words, line)):
            break
        start += len(line) + 1
    for place, text in enumerate(texts):
        if start < len(text):
            return place, text.count(end, 0, start) + 1
        start -= len(text)
    return None


def answer(words: Sequence[bytes], data: bytes) -> Ended:
    """How a run of `encode`, `count` or `distinct` on UTF-8 must end, as Python reckons it. With `--invalid` it need not be UTF-8."""
    warning, end = warned(data), line_end(words)
    data, told = mend(words, pick(words, data))
    lines = data.removesuffix(end).split(end) if data else []
    counts = Counter(lines)
    if words[0] == b"encode":
        index = {line: number for number, line in enumerate(counts)}
        file = {"dictionary": [line.decode() for line in counts], "final_newline": data.endswith(b"\n"),
                "lines": [index[line] for line in lines]}
        return 0, json.dumps(file, ensure_ascii=False, separators=(",", ":")).encode() + b"\n", told + warning
    if words[0] == b"distinct":
        return 0, b"".join(line + end for line in counts), told + warning
    return 0, b"".join(b"%d %s%s" % (number, line, end) for line, number in rows_of(words, counts)), told + warning
