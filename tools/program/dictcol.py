"""What is tried of the program `dictcol`, whose answers Python's `json` and `Counter` reckon."""

import filecmp
import json
import operator
import os
import random
import re
import resource
import subprocess
from itertools import chain, count, product

from program import closed_streams, columns, distinct, folders, get, pairs, shards, shell
from program.cases import MANY, MEBIBYTE, cases, rows
from program.expected import MEMORY, answer, failed, is_sorted, misused, unreadable, unwritable, value_of, warned
from program.requests import OUTPUT_BUFFER, asks_of_lines
from program.shards import MULTIPLIER, START, mixed
from program.streams import Streams

CASES = "crates/dictcol/cases"
BACKENDS = (b"string", b"bucket", b"buffer")


def file_of(texts, numbers):
    """A file of some texts and numbers of lines, as they are written in JSON."""
    return b'{"dictionary":[%s],"final_newline":true,"lines":[%s]}' % (b",".join(texts), b",".join(numbers))


VALUED = b"--backend", b"--invalid", b"--plain", b"--onto", b"--onto-dictionary", b"--files0-from", b"--top", b"--at-least",\
    b"--field", b"-f", b"--separator", b"-t", b"--rows"


def operands(words):
    """The command and the files among some words."""
    found, left = [], iter(words)
    for word in left:
        if word == b"--":
            return [*found, *left]
        if word in VALUED:
            next(left, None)
        elif word == b"-" or not word.startswith(b"-"):
            found.append(word)
    return found


def lists_files(words):
    """Whether a run asks for a list of files, or of texts: it does once it reads the first of them, behind the operands of its command."""
    found = operands(words)
    return len(found) > {b"shard": 3, b"get": 2}.get(*found[:1] or [b""], 1)


def lists_inputs(words, asks):
    """Whether a run asked for a list of inputs: one that merges files did before it read the first."""
    return (operands(words)[:1] == [b"merge"] or b"--encoded" in words) and OUTPUT_BUFFER in asks


def count_asks_of_words(asks):
    """How many requests come before that for the buffer of standard output."""
    return next((number for number, size in enumerate(asks) if size == OUTPUT_BUFFER), len(asks))


def try_refused(program, name, words, data, wanted):
    """A run, and again with each of its requests for memory refused, after which it asks for nothing."""
    yield name, program.run(words, data), wanted
    ended, asks = program.run_with_asks(words, data)
    yield f"{name}, its requests told", ended, wanted
    # The room of the list of words is asked for ahead, and again as it fills. The lists of files and inputs come behind it.
    ahead = count_asks_of_words(asks) - lists_files(words) - lists_inputs(words, asks) if words else None
    for number, size in enumerate(asks, 1):
        ended, after = program.run_with_asks(words, data, number)
        refused = f"{name}, request {number} of {size} bytes refused"
        yield refused, ended, wanted if number == ahead else MEMORY
        yield f"{refused}: asked again", after[number:] if number != ahead else [], []


# So many rows are sorted without memory. What more of them ask for, the library does not say.
SORTED_IN_PLACE = 20


def try_asks(program, name, words, data):
    """What a run of `encode` or `count` that ends well asks for after the words. In which order it asks for lines is its own."""
    backend = (re.findall(rb"--backend[= ](\w+)", b" ".join(words)) or [b"string"])[-1]
    is_unmodelled = words[0] == b"distinct" or {b"-z", b"--invalid=replace"} & {*words} or value_of(words, b"--field", b"-f")
    if is_unmodelled or is_sorted(words) and len(set(data.split(b"\n"))) > SORTED_IN_PLACE:
        return
    ended, asks = program.run_with_asks(words, data)
    before, lines, behind = asks_of_lines(words, data, backend)
    asks = asks[count_asks_of_words(asks):]
    begin, end = len(before), len(before) + len(lines)
    yield f"{name}, what it asks for the buffer and the first block", asks[:begin], before
    yield f"{name}, what it asks for the lines", sorted(asks[begin:end]), sorted(lines)
    yield f"{name}, what it asks for to write", asks[end:], behind


def try_case(program, case):
    if case.words[0] in (b"encode", b"count", b"distinct") and case.end[0] == 0 and b"--encoded" not in case.words:
        case.end = *case.end[:2], warned(case.data)
    if case.end[0] == 0 and case.words[0] == b"merge":
        yield f"{case.name}, the case by the rules", answer([b"encode"], text_of(case.data)), case.end
    elif b"--encoded" in case.words:
        yield f"{case.name}, the case by the rules", answer(case.words, text_of(case.data)), case.end
    elif case.end[0] == 0 and case.words[0] != b"decode":
        yield f"{case.name}, the case by the rules", answer(case.words, case.data), case.end
        yield from try_asks(program, case.name, case.words, case.data)
    yield from try_refused(program, case.name, case.words, case.data, case.end)


def try_damaged(program, row):
    file, message = row.split(b"\t")
    yield from try_refused(program, f"damaged {row!r}", [b"decode"], file, failed(2, message))


# How a file that is no JSON is called, with a place, counted from 1.
NO_JSON = re.compile(rb"dictcol: (invalid JSON at|number out of range at|recursion limit exceeded at|JSON ends too early, at)"
                     rb" line 1 column [1-9]\d*\n")


def try_no_json(program, row):
    ended = program.run([b"decode"], row)
    place = NO_JSON.fullmatch(ended.error)
    yield f"no JSON {row[:60]!r}, {ended}", ended[:2] == (2, b"") and bool(place), True
    yield f"out of range {row[:60]!r}", place and place[1] == b"number out of range at", b"1e400" in row


def try_words(program, row):
    """Told before the input is read."""
    words, message = row.split(b"\t")
    yield from try_refused(program, f"words {words!r}", words.split(), b"a\n", misused(message))
    folder = os.open("/", os.O_RDONLY)
    yield f"words {words!r} over a folder", program.run(words.split(), folder), misused(message)
    os.close(folder)


TABLES = {"damaged_files": try_damaged, "files_that_are_no_json": try_no_json, "wrong_arguments": try_words}


# The second field of each line.
SECOND = [b"distinct", b"-f", b"2", b"--separator", b" "]
# Lines that are counted, without those that occur once.
RARE = [b"count", b"--top", b"2", b"--at-least=2"]


def try_both_ways(program, name, data):
    for backend, words in product(BACKENDS, ([b"encode"], [b"count"], [b"count", b"--sorted"], RARE, SECOND)):
        words = [*words, b"--backend", backend]
        yield f"{name}, {words}", program.run(words, data), answer(words, data)
        yield from try_asks(program, f"{name}, {words}", words, data)
    yield f"{name}, decoded", program.run([b"decode"], answer([b"encode"], data)[1]), (0, data, b"")


def text_of(file):
    """What a file says, as Python reckons it."""
    value = json.loads(file.decode())
    lines = [value["dictionary"][number] for number in value["lines"]]
    return ("\n".join(lines) + "\n" * value["final_newline"]).encode()


def try_random_lines(program, seed):
    """Random lines both ways; and a file with one byte changed gives the lines that it says or is called damaged, never both."""
    chance = random.Random(seed)
    letters = ["", "a", "b", "é", "😀", '"', "\\", "\x00", "\r", "\t", " "]
    words = ["".join(chance.choices(letters, k=chance.randrange(4))) for _ in range(chance.randrange(1, 20))]
    text = "\n".join(chance.choices(words, k=chance.randrange(1, 60))) + chance.choice(["", "\n", "\n\n"])
    yield from try_both_ways(program, f"lines {seed}", text.encode())
    file = bytearray(answer([b"encode"], text.encode())[1])
    file[chance.randrange(len(file))] = chance.choice(b'0123456789"[]{},:-ntf\\ a\xff')
    ended = program.run([b"decode"], bytes(file))
    if ended.status == 0:
        yield f"file {seed}", ended, (0, text_of(file), b"")
    else:
        yield f"damaged file {seed}, {ended}", (ended.status, ended.output, ended.error.count(b"\n")), (2, b"", 1)


def large_inputs():
    yield "numbers", b"".join(b"%d\n" % number for number in range(MANY))
    yield "one line", b"Tiger\n" * MANY
    yield "a hundred lines", b"".join(b"line %d\n" % (number * 7919 % 100) for number in range(MANY))
    yield "a line of a mebibyte", b"a" * MEBIBYTE + b"\nb\n" + b"a" * MEBIBYTE
    yield "a million newlines", b"\n" * 1000000


def distant_faults():
    """Faults far behind the first line, text or number: the command, an input, and what is told."""
    lines, texts, numbers = b"a\n" * MANY, [b'"%d"' % number for number in range(MANY)], [b"0"] * MANY
    yield b"encode", lines + b"\xff\n", b"line %d is not UTF-8 (see --invalid)" % (MANY + 1)
    yield b"count", lines + b"\xff", b"line %d is not UTF-8 (see --invalid)" % (MANY + 1)
    for text, fault in (b"0", b"is not a string"), (b'"0"', b"repeats an earlier text"), (b'"\\n"', b"contains a newline"):
        yield b"decode", file_of([*texts, text], numbers), b"dictionary[%d] %s" % (MANY, fault)
    for number in b"%d" % MANY, b'"0"':
        yield b"decode", file_of(texts, [*numbers, number]), b"lines[%d] is not the index of a text" % MANY
    yield b"decode", b"\n" * MANY + b"x", b"invalid JSON at line %d column 1" % (MANY + 1)
    yield b"decode", b" " * MANY + b"x", b"invalid JSON at line 1 column %d" % (MANY + 1)
    for file, line, column in ((b"", 1, 1), (b"\n" * MANY, MANY + 1, 1), (b"\n[" + b" " * MANY, 2, MANY + 2), (b"\ntru", 2, 4)):
        yield b"decode", file, b"JSON ends too early, at line %d column %d" % (line, column)


def try_distant_fault(program, word, data, message):
    yield f"{word}, {message!r}", program.run([word], data), failed(2, message)


def inputs_in_little_memory():
    """Inputs that take more memory if what is written is kept, if a code takes eight bytes, or if a file becomes a tree of its
    values: the command, the input, what is written if that is looked at, and so many bytes of memory."""
    # 140 KB that say two gigabytes.
    yield b"decode", file_of([b'"%s"' % (b"a" * 100000)], [b"0"] * 20000), None, 1 << 26
    # No more than a block of the input.
    yield b"count", b"\n" * 10000000, b"10000000 \n", 1 << 24
    yield b"distinct", b"\n" * 10000000, b"\n", 1 << 24
    yield b"decode", file_of([b'""'], [b"0"] * 1000000), b"\n" * 1000000, 1 << 25


def try_in_little_memory(program, word, data, written, most):
    output = subprocess.DEVNULL if written is None else subprocess.PIPE
    ended = program.run([word], data, output, before=lambda: resource.setrlimit(resource.RLIMIT_AS, (most, most)))
    yield f"{word} of {len(data)} bytes in {most} bytes of memory", ended, (0, written or b"", b"")


def newlines():
    for _ in range(10):
        yield b"\n" * 10**6


def log_lines():
    """100 MiB of distinct lines of a log, each of 100 bytes."""
    for number in range(100 * MEBIBYTE // 100):
        mixed = number * 2654435761 % 2**32
        yield (b"2026-11-26T%02d:%02d:%02d host%03d app[%05d]: request %08x took %5d us: %08x%08x" % (
            number // 3600 % 24, number // 60 % 60, number % 60, mixed % 997, mixed % 65521, number, mixed % 99991, mixed,
            mixed ^ number)).ljust(99, b".") + b"\n"


# The most memory in MiB of `encode`, `count`, `decode` and `merge`, with some room for other versions of the C library. This process
# has up to 64.
LARGE = {"10 MB of newlines": (newlines, (64, 64, 80, 100)), "100 MiB of lines of a log": (log_lines, (155, 155, 249, 440))}


def try_large(program, name):
    """A large input, which is written in pieces, since what this process holds counts for the programs that it starts."""
    pieces, most = LARGE[name]
    with open("lines", "wb") as lines:
        lines.writelines(pieces())
    sources = {"encode": "lines", "count": "lines", "decode": "encode", "merge -": "encode"}
    for (word, source), limit in zip(sources.items(), most):
        with open(source, "rb") as given, open(word, "wb") as output:
            ended, peak = program.run_with_peak(word.encode().split(), given, output)
        yield f"{name}, {word}", ended, (0, b"", b"")
        yield f"{name}, {word}: {peak >> 10} MiB, and not at most {limit}", peak <= limit << 10, True
    yield f"{name}, merged", filecmp.cmp("merge -", "encode", shallow=False), True
    yield f"{name}, decoded", filecmp.cmp("decode", "lines", shallow=False), True
    with open("count", "rb") as counts:
        wanted = [b"10000000 \n"] if pieces is newlines else (b"1 " + line for line in pieces())
        yield f"{name}, counted", all(map(operator.eq, counts, wanted)) and counts.read() == b"", True


def try_long_input(program, length, number):
    """So many lines of this many bytes, which are zero and take no room on the disk, in standard input and in a file that is named. No
    part of them is held here."""
    with open("given", "wb") as lines:
        for end in range(1, number + 1):
            lines.seek(end * (length + 1) - 1)
            lines.write(b"\n")
    with open("wanted", "wb") as counts:
        counts.write(b"%d " % number)
        counts.seek(length, os.SEEK_CUR)
        counts.write(b"\n")
    for words in [b"count"], [b"count", b"given"]:
        name = f"{words} of {number} lines of {length} bytes"
        with open("given" if len(words) == 1 else os.devnull, "rb") as lines, open("counts", "wb") as counts:
            yield name, program.run(words, lines, counts), (0, b"", b"")
        yield f"{name}, counted", filecmp.cmp("wanted", "counts", shallow=False), True


def chosen_lines(length, start, key):
    """Lines of 32 letters that all have one code under a hasher that multiplies 16 bytes at a time: the first eight with its
    state, and the others with a key. Where its state is eight letters and the next eight are these, the product is 0 whatever
    the last eight are. So a beginning is looked for after which its state is letters."""
    for number in count():
        front = b"%016d" % number
        held = mixed(int.from_bytes(front[:8], "little") ^ start, int.from_bytes(front[8:], "little") ^ key)
        letters = held.to_bytes(8, "little")
        if all(32 <= byte < 127 and byte not in b'"\\' for byte in letters):
            return [front + letters + b"%08d" % number for number in range(length)]


CHOSEN, FLOODED = 80000, 3
# From what the hashers start with a text of 32 bytes, and what they multiply by: FoldHasher, and SeededHasher under keys 0.
KNOWN = ((START + 32, MULTIPLIER), (0, 0))


# So many runs are compared, and more if a machine that is slow for a while may be why they differ.
RUNS, MOST_RUNS = 3, 9


def least_seconds(program, words, inputs, is_right, **settings):
    """The least processor time of some runs over each input, which take turns, and their statuses. Other work of the machine leaves
    it alone."""
    times, statuses = [float("inf")] * len(inputs), [set() for _ in inputs]
    for number in range(1, MOST_RUNS + 1):
        for place, data in enumerate(inputs):
            before = resource.getrusage(resource.RUSAGE_CHILDREN)
            statuses[place].add(program.run(words, data, **settings).status)
            after = resource.getrusage(resource.RUSAGE_CHILDREN)
            times[place] = min(times[place], after.ru_utime - before.ru_utime + after.ru_stime - before.ru_stime)
        if number >= RUNS and is_right(times):
            break
    return times, statuses


def are_alike(times):
    return max(times[1:]) <= FLOODED * times[0]


def try_chosen_lines(program):
    """Lines that were chosen against a hasher whose keys are known take no longer than others: at most three times as long, in
    the best of some runs."""
    every = [[b"%032d" % number for number in range(CHOSEN)], *(chosen_lines(CHOSEN, *known) for known in KNOWN)]
    for word in b"encode", b"count", b"decode":
        inputs = [file_of([b'"%s"' % line for line in lines], [b"0"]) if word == b"decode" else b"\n".join(lines) for lines in every]
        times, every_status = least_seconds(program, [word], inputs, are_alike)
        for statuses in every_status:
            yield f"{word} of {CHOSEN} lines", statuses, {0}
        yield f"chosen lines do not slow {word}: {times}", are_alike(times), True


# The keys if random bytes are 1, 2, 3 and so on. Over so many lines that have one code a run takes at least so many times as long.
DRAWN = tuple(int.from_bytes(range(first, first + 8), "little") for first in (1, 9))
FEW, SLOWED = 10000, 10


def are_slowed(times):
    return times[1] > SLOWED * times[0]


def try_drawn_keys(program):
    """Both keys that are drawn are those of the hasher, each in its place: lines that are chosen under them slow a run down."""
    one, other = DRAWN
    start = one ^ (other << 32 | other >> 32) % 2**64
    inputs = [b"\n".join(it) for it in ([b"%032d" % number for number in range(FEW)], chosen_lines(FEW, start, other))]
    for words in [b"encode"], [b"count"]:
        (usually, slowly), (_, statuses) = least_seconds(program, words, inputs, are_slowed, COUNT_RANDOM=1)
        yield f"{words} of {FEW} lines", statuses, {0}
        yield f"lines chosen under the keys slow {words}: {usually}, {slowly}", are_slowed((usually, slowly)), True


def try_lines_and_keys(program):
    """One after another, since both compare times."""
    yield from try_chosen_lines(program)
    yield from try_drawn_keys(program)


LONG = b"".join(b"%d\n" % number for number in range(30000))
STREAMS = Streams(
    answered=(
        ([b"count", b"--sorted"], "red\né\né\n".encode(), "2 é\n1 red\n".encode()),
        ([b"encode"], b"red\ngreen\nred", b'{"dictionary":["red","green"],"final_newline":false,"lines":[0,1,0]}\n'),
        ([b"decode"], '{"dictionary":["é",""],"final_newline":true,"lines":[1,0,0]}'.encode(), "\né\né\n".encode()),
        ([b"count", b"-z", b"--invalid=replace"], b"a\n\xff\0b\0b", "1 a\n\ufffd\x002 b\x00".encode()),
        ([b"count", b"--encoded"], b'{"dictionary":["red","green"],"final_newline":true,"lines":[1,0,1]}', b"2 green\n1 red\n"),
    ),
    failing=(
        ([b"count"], b"\xff", failed(2, b"line 1 is not UTF-8 (see --invalid)")),
        ([b"decode"], b"{}", failed(2, b'no array "dictionary"')),
    ),
    long=([b"count"], LONG, answer([b"count"], LONG)[1]),
    unreadable=unreadable,
    unwritable=unwritable,
)


def parts():
    """The trials, by the name of their part."""
    return {
        "cases": cases(CASES, try_case),
        "tables": rows(CASES, TABLES),
        "streams": [*STREAMS.trials(), *shell.trials(), *closed_streams.trials(), *distinct.trials(), *pairs.trials()],
        "columns": [*columns.trials(), *get.trials(), *folders.trials()],
        "shards": shards.trials(),
        "random": [(trial, seed) for trial in (try_random_lines, shell.try_random_bytes) for seed in range(200)],
        # Made as they are run: what this process holds counts for the programs that it starts.
        "scale": chain(
            ((try_both_ways, *given) for given in large_inputs()),
            ((try_distant_fault, *given) for given in distant_faults()),
            ((try_in_little_memory, *given) for given in inputs_in_little_memory()),
            shell.long_trials(),
        ),
        # Alone, since it compares times.
        "chosen": [(try_lines_and_keys,)],
        # The second is longer than a number of 32 bits counts.
        "large": [*((try_large, name) for name in LARGE), (try_long_input, 130 * MEBIBYTE, 2), (try_long_input, MEBIBYTE, 4100)],
    }
