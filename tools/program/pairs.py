"""What is tried of `dictcol` with all options that a command takes together, in each way to name files."""

import random
import re
import shutil
from collections.abc import Iterable, Iterator
from itertools import chain, product
from pathlib import Path

from built import Program
from program.columns import columns_of, files_in, write_files
from program.expected import Ended, answer, find_invalid, is_utf8, line_end, mend, pick
from program.shards import shards_of
from tree import TOP
from trials import Seen, Trial

# Parts of a text in which newlines or zero bytes end lines. Lines go on in the next part, and the most frequent is not the first.
Parts = tuple[bytes, ...]
GOOD = b"a\nb\nb", b"\n\0a\0b\0b", "\0é\nc".encode()
BAD = b"a\nb\nb", b"\n\0a\0b\0b\xff\0\nb\xff\n\xc3", b"\n\xff\0c\n"
SHARDS, KNOWN = 3, [b"old", b"b"]
KNOWN_TEXT = b"".join(line + b"\n" for line in KNOWN)
SOURCE = (TOP / "crates/dictcol/src/arguments/options.rt").read_bytes()

# The words of each choice of an option, also of none.
Choices = tuple[list[bytes], ...]
BACKEND: Choices = [], [b"--backend=string"], [b"--backend=bucket"], [b"--backend=buffer"]
INVALID: Choices = [], [b"--invalid=error"], [b"--invalid=replace"], [b"--invalid=skip"]
ENDED: Choices = [], [b"-z"], [b"--zero-terminated"]
ROWS: Choices = [], [b"--sorted"], [b"--top=2"], [b"--at-least=2"], [b"--top=3", b"--at-least=2"]
FIELD: Choices = [], [b"--field=1", b"-tb"], [b"-f2", b"--separator=b"], [b"-f1"]
PLAIN: Choices = (
    [], [b"--plain=new"], [b"--plain=new", b"--onto=old"], [b"--plain=new", b"--onto-dictionary=old"], [b"--plain=new", b"--append"],
)
MENDING, ONTO = {b"--invalid=replace", b"--invalid=skip"}, {b"--onto=old", b"--onto-dictionary=old"}
# The choices that a command has, of which each is made beside each of the others.
COMMANDS = {
    b"encode": (PLAIN, FIELD, INVALID, BACKEND),
    b"count": (ROWS, ENDED, FIELD, INVALID, BACKEND),
    b"count --encoded": (ROWS, BACKEND),
    b"distinct": (ENDED, FIELD, INVALID, BACKEND),
    b"merge": (BACKEND,),
    b"shard %d new" % SHARDS: (ENDED, FIELD, INVALID),
}
# Ways to name files: the operands, an option, and the names of what is read.
FILES, BESIDE_INPUT = [b"0", b"1", b"2"], [b"0", b"-", b"2"]
Way = tuple[list[bytes], list[bytes], list[bytes]]
WAYS: tuple[Way, ...] = (
    ([], [], [b"-"]),
    ([b"whole"], [], [b"whole"]),
    (FILES, [], FILES),
    (BESIDE_INPUT, [], BESIDE_INPUT),
    ([], [b"--files0-from=list"], FILES),
    ([], [b"--files0-from=list"], BESIDE_INPUT),
    ([], [b"--files0-from=-"], FILES),
)


def place(operands: list[bytes], options: Iterable[bytes], chance: random.Random) -> list[bytes]:
    """The words of a run, whose options may be anywhere, and their values behind `=` or in a word of their own."""
    words = [[word] for word in operands]
    for option in options:
        name, _, value = option.partition(b"=")
        words.insert(chance.randrange(len(words) + 1), [name, value] if value and chance.randrange(2) else [option])
    return [*chain(*words)]


def texts_before(texts: list[bytes], options: list[bytes]) -> bytes:
    """The lines that are whole once texts are read, each by one read, before that of a line that is not UTF-8."""
    read, before, end = b"", b"", line_end(options)
    for text in texts:
        read += text
        whole = read[:read.rfind(end) + 1]
        if not is_utf8(pick(options, whole)):
            break
        before = whole
    return before


def end_with(command: bytes, options: list[bytes], names: list[bytes], texts: list[bytes]) -> tuple[Ended, dict[str, bytes] | None]:
    """How a run over these texts ends, and the files of the folder `new`, if it makes one."""
    end, whole = line_end(options), b"".join(texts)
    if not MENDING & {*options} and (found := find_invalid(texts, options)):
        at, line = found
        name = b"" if names[at] == b"-" else names[at] + b": "
        written = answer([command, *options], texts_before(texts, options))[1] if command == b"distinct" else b""
        return (2, written, b"dictcol: %bline %d is not UTF-8 (see --invalid)\n" % (name, line)), None
    text, told = mend(options, pick(options, whole))
    if command.startswith(b"shard"):
        exchange = bytes.maketrans(b"\n" + end, end + b"\n")
        shards = shards_of(text.translate(exchange), SHARDS)
        return (0, b"", told), {name: lines if name == "order" else lines.translate(exchange) for name, lines in shards.items()}
    if b"--append" in options:
        return (0, b"", told), columns_of(KNOWN_TEXT + text)
    if b"--plain=new" in options:
        return (0, b"", told), columns_of(text, KNOWN if ONTO & {*options} else ())
    word = command.partition(b" ")[0]
    return answer([b"encode" if word == b"merge" else word, *options], whole), None


def write_all(command: bytes, option: list[bytes], names: list[bytes], parts: Parts) -> tuple[list[bytes], bytes]:
    """Writes the parts and the whole text, as `encode` does if the command reads that, with a list of names. Returns what is read by each
    name, and standard input, which no run reads whose files are others."""
    whole = b"".join(parts)
    texts = {**dict(zip(FILES, parts)), b"whole": whole, b"-": whole if names == [b"-"] else parts[1]}
    is_encoded = command in (b"merge", b"count --encoded")
    contents = {name: answer([b"encode"], text)[1] if is_encoded else text for name, text in texts.items()}
    listed = b"".join(name + b"\0" for name in names)
    for name, content in {**contents, b"list": listed}.items():
        Path(name.decode()).write_bytes(content)
    given = listed if option == [b"--files0-from=-"] else contents[b"-"] if b"-" in names else b"\xff"
    return [texts[name] for name in names], given


def try_together(program: Program, command: bytes, way: Way, parts: Parts) -> Seen:
    """Each option does what it does alone, beside whatever others."""
    operands, option, names = way
    chance = random.Random(0)
    before = columns_of(KNOWN_TEXT)
    write_files("old", before)
    texts, given = write_all(command, option, names, parts)
    for options in (sum(chosen, option) for chosen in product(*COMMANDS[command])):
        words = place([*command.split(), *operands], options, chance)
        wanted, made = end_with(command, options, names, texts)
        if b"--append" in options:
            write_files("new", before)
            made = made or before
        yield f"{words} of {parts}", program.run(words, given), wanted
        new = Path("new")
        yield f"{words} of {parts}, files", files_in(new) if new.exists() else None, made
        shutil.rmtree(new, ignore_errors=True)


def options_of(command: bytes) -> set[bytes]:
    """The options that a command takes, by the table of the program."""
    found = re.findall(rb"const (\w+): &\[CommandName\] = &\[(.*?)\];", SOURCE)
    lists = {name: commands.split(b", ") for name, commands in found}
    rows = re.findall(rb'\("(-[\w-]+)", Setting::\w+, \w+, (\w+)\)', SOURCE)
    return {option for option, of in rows if command.title() in lists[of]}


def tried_options(command: bytes) -> Iterator[bytes]:
    """The options that are tried of a command, or of each one."""
    for words in (it for it in COMMANDS if it.startswith(command)):
        yield from words.split()
        yield from chain(*chain(*COMMANDS[words]))
    yield from chain(*(option for _, option, _ in WAYS))


def try_table(_: Program) -> Seen:
    """No option is left out."""
    for command in b"encode", b"count", b"distinct", b"merge", b"shard":
        tried = {it.partition(b"=")[0] if it[:2] == b"--" else it[:2] for it in tried_options(command)}
        wanted = options_of(command)
        yield f"{command} has options", wanted != set(), True
        yield f"options of {command} that are not tried", wanted - tried, set()


def trials() -> list[Trial]:
    """Encoded texts are UTF-8, and `merge` has no list and needs a file."""
    tried = [(command, way, parts) for command, way, parts in product(COMMANDS, WAYS, (GOOD, BAD))
             if (command not in (b"merge", b"count --encoded") or parts == GOOD) and (command != b"merge" or way[0])]
    return [(try_table,), *((try_together, *it) for it in tried)]
