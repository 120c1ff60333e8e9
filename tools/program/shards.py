"""What is tried of `dictcol shard`: its files have the lines that Python groups by their codes under FoldHasher."""

import errno
import itertools
import os
import random
import resource
import shutil
import signal
import subprocess
from collections import Counter
from contextlib import suppress
from pathlib import Path

from program.columns import (NOT_LEFT, OK, UNFINISHED, all_in, columns_of, each_stop, end_early, files_in, is_begun, make_unlike,
                             npy)
from program.expected import failed, misused, skip_invalid, told, warned
from tree import TOP
from trials import alone, own_folder

MULTIPLIER, START = 0x9E3779B97F4A7C15, 0x243F6A8885A308D3


def mixed(one, other):
    """The product of two numbers of 64 bits, its halves put together by exclusive or: how these hashers mix."""
    product = one * other
    return (product ^ product >> 64) & (1 << 64) - 1


def number_at(line, start):
    return int.from_bytes(line[start:start + 8], "little")


def code_of(line):
    """The code of a line under FoldHasher, which mixes 16 bytes at a time."""
    length = len(line)
    if length <= 8:
        short = bytes([line[0], line[length // 2], line[-1]]) if 0 < length < 4 else line[:4] + line[-4:]
        return mixed(START ^ int.from_bytes(short, "little"), MULTIPLIER ^ 2 * length)
    state = START + length
    for start in range(0, length - 16, 16):
        state = mixed(number_at(line, start) ^ state, number_at(line, start + 8) ^ MULTIPLIER)
    return mixed(number_at(line, max(length - 16, 0)) ^ state, number_at(line, length - 8) ^ MULTIPLIER)


def lines_of(data):
    return data.removesuffix(b"\n").split(b"\n") if data else []


def shards_of(data, count):
    """The files of a text, by name."""
    files = {str(shard): b"" for shard in range(count)} | {"order": b""}
    for line in lines_of(data):
        shard = code_of(line) % count
        files[str(shard)] += line + b"\n"
        files["order"] += b"%d\n" % shard
    return files


LONG = b"".join(b"%d\n" % (number * 7919 % 30011) for number in range(60000))
TEXTS = (b"", b"\n", b"\n\n", b"a", b"a\n", b"\na", b"red\ngreen\nred", b"red\ngreen\nred\n", b"a\r\n\0\n", "é\n日本\né".encode(),
         b"x" * 600000 + b"\ny\n", b"\n".join(b"abcdefghijklmnopqrstuvwxyz"[:length] * 2 for length in range(27)), LONG)


def try_text(program, data, count):
    """Each line is in one file, equal ones in the same, and `order` tells in which."""
    name = f"{data[:40]} in {count} shards"
    yield name, program.run([b"shard", b"%d" % count, b"it"], data), OK
    files = files_in("it")
    yield f"{name}, files", files, shards_of(data, count)
    counts = b"".join(program.run([b"count", f"it/{shard}".encode()]).output for shard in range(count))
    wanted = [b"%d %s" % (number, line) for line, number in Counter(lines_of(data)).items()]
    yield f"{name}, counted", sorted(lines_of(counts)), sorted(wanted)
    words = b"encode --plain %d it/%d"
    ends = [program.run((words % (shard, shard)).split()) for shard in range(count)]
    yield f"{name}, encoded", ends, [OK] * count
    # The first line with a code of its shard has the next code of the whole.
    codes, whole = [columns_codes(f"{shard}/codes.npy") for shard in range(count)], {}
    found = [whole.setdefault((shard, next(codes[shard])), len(whole)) for shard in map(int, files["order"].split())]
    yield f"{name}, the codes of the whole", npy(found), columns_of(data)["codes.npy"]


def columns_codes(path):
    return iter(memoryview(Path(path).read_bytes()[128:]).cast("I"))


def try_reading(program):
    """Several files, lines that zero bytes end, and lines that are not UTF-8."""
    broken, exchanged = b"a\n\xff\nb\0\nc\xc3\xa9\n", bytes.maketrans(b"\n\0", b"\0\n")
    names = []
    for part in b"red\ngreen", b"", b"ish\nred\n", b"red":
        names.append(b"%d" % len(names))
        Path(names[-1].decode()).write_bytes(part)
    yield "several files", program.run([b"shard", b"--", b"3", b"files", *names], b"\xff"), OK
    yield "several files, shards", files_in("files"), shards_of(b"red\ngreenish\nred\nred", 3)
    encoded = program.run([b"encode"], b"a\n").output
    yield "what encode wrote", program.run([b"shard", b"2", b"encoded", b"-"], encoded), (0, b"", warned(encoded))
    given = b"a\nb\0c\0a\nb\0"
    yield "zero bytes", program.run(b"shard 2 -z zero".split(), given), OK
    files = shards_of(given.translate(exchanged), 2)
    wanted = {it: lines if it == "order" else lines.translate(exchanged) for it, lines in files.items()}
    yield "zero bytes, shards", files_in("zero"), wanted
    yield "replaced", program.run(b"shard --invalid=replace 2 replaced".split(), broken), OK
    yield "replaced, shards", files_in("replaced"), shards_of(broken.decode(errors="replace").encode(), 2)
    good, message = skip_invalid(broken)
    yield "skipped", program.run(b"shard 2 skipped --invalid skip".split(), broken), (0, b"", message)
    yield "skipped, shards", files_in("skipped"), shards_of(good, 2)


def recipe():
    """The commands of the man page that make the codes of one process."""
    page = (TOP / "crates/dictcol/dictcol.1").read_text(encoding="utf-8")
    begin = page.index(".Dl dictcol shard 2 parts")
    lines = page[begin:page.index("\n.Pp", begin)].replace("\\(dq", '"').replace("\\ ", " ").split("\n")
    return "\n".join(line.removeprefix(".Dl ") for line in lines)


def try_recipe(program):
    for data in TEXTS:
        with own_folder():
            Path("dictcol").symlink_to(program.path)
            Path("app.log").write_bytes(data)
            path = {"PATH": f"{os.getcwd()}:{os.defpath}"}
            ended = subprocess.run(["sh", "-euc", recipe()], env=path, capture_output=True, check=False)
            found = npy([int(code) for code in ended.stdout.split()])
            yield f"{data[:40]}, the man page's codes", (ended.returncode, ended.stderr, found), (0, b"", columns_of(data)["codes.npy"])


def limit(kind, most):
    def set_limit():
        signal.signal(signal.SIGXFSZ, signal.SIG_IGN)
        resource.setrlimit(kind, (most, most))
    return set_limit


def try_failing(program):
    """A folder that is there stays as it is, and a run that fails leaves none."""
    Path("file").write_bytes(b"red\n")
    Path("bytes").write_bytes(b"a\n" * 300000 + b"\xff\n")
    Path("there").mkdir()
    for words, error in ((b"shard 2 file", errno.EEXIST), (b"shard 2 there", errno.EEXIST), (b"shard 2 file/new", errno.ENOTDIR),
                         (b"shard 2 new/new", errno.ENOENT)):
        message = b"%s: cannot write files: %s" % (words.split()[-1], told(error))
        yield f"{words}", program.run(words.split(), b"a\n"), failed(1, message)
    ended = program.run(b"shard 20 new".split(), b"a\n" * 300000, before=limit(resource.RLIMIT_FSIZE, 100000))
    yield "files of 100,000 bytes", ended, failed(1, b"new: cannot write files: " + told(errno.EFBIG))
    for name, end in ((b"bytes", failed(2, b"bytes: line 300001 is not UTF-8 (see --invalid)")),
                      (b"missing", failed(1, b"missing: cannot read input: " + told(errno.ENOENT)))):
        yield f"{name}", program.run([b"shard", b"2", b"new", name]), end
    found = {path.name: path.is_dir() and [*path.iterdir()] for path in Path().iterdir()}
    yield "what is there", found, {"file": False, "bytes": False, "there": []}


def limit_open_files(most):
    """Lets a run have so many files open, and gives it none of this process but the standard streams."""
    def set_limit():
        for file in map(int, os.listdir("/proc/self/fd")):
            # The folder itself is closed by now.
            with suppress(OSError):
                os.set_inheritable(file, file <= 2)
        limit(resource.RLIMIT_NOFILE, most)()
    return set_limit


def try_open_files(program):
    """More shards than a run may have files open are told before anything is made. The limit counts the three standard streams, the
    numbers of the lines, the folder, and a file that is read."""
    Path("colors").write_bytes(COLORS)
    for most, files in itertools.product((5, 6, 7, 30), ([], [b"colors"], [b"-"], [b"-", b"colors"])):
        allowed = max(most - 5 - (b"colors" in files), 0)
        for count in {allowed + 1, allowed + 2, 1000, 1 << 40}:
            words = [b"shard", b"%d" % count, b"it", *files]
            ended = program.run(words, COLORS, before=limit_open_files(most), TELL_FOLDERS=1)
            message = b"it: cannot write files: the limit of open files allows %d shards (see ulimit -n)" % allowed
            yield f"{words}, {most} open files", ended, failed(1, message)
            yield f"{words}, {most} open files, what is there", os.listdir(), ["colors"]
        if allowed:
            words = [b"shard", b"%d" % allowed, b"it", *files]
            yield f"{words}, {most} open files", program.run(words, COLORS, before=limit_open_files(most)), OK
            shutil.rmtree("it")


# A shard is written once so many bytes wait for it.
WRITTEN = 1 << 16


def try_few_writes(program):
    """A shard is written when it has enough, and at the end."""
    for count in 1, 20, 300:
        ended = program.run([b"shard", b"%d" % count, b"it"], LONG * 10, TELL_WRITES=1)
        most = sum(len(file) // WRITTEN + 1 for file in files_in("it").values())
        word, _, writes = ended.error.partition(b" ")
        yield f"{count} shards", (ended.status, ended.output, word), (0, b"", b"writes")
        yield f"{count} shards, {int(writes)} writes of at most {most}", int(writes) <= most, True
        shutil.rmtree("it")


def try_stored(program):
    """All files are stored before their folder gets its name."""
    for words, data in ((b"shard 3 plain", LONG), (b"shard -z 2 exchanged", b"a\nb\0c\0"), (b"shard 2 mended --invalid=skip", b"a\nb")):
        yield f"{words}", program.run(words.split(), data, TELL_UNSTORED=1), (0, b"", b"unstored 0\n")


SHARD = b"shard 2 it".split()
COLORS, MORE_COLORS = b"red\ngreen\nblue\nred", b"blue\nwhite\n"


def try_killed(program):
    """Wherever a run is killed there is no folder, or a whole one. The next run is as any other, and nothing unfinished stays."""
    for name, run in each_stop(program, SHARD, COLORS, None):
        if run.is_stopped:
            run.end(signal.SIGKILL)
        wanted, made = shards_of(COLORS, 2), Path("it")
        if made.exists():
            yield f"{name}, killed", files_in(made), wanted
        else:
            wanted = shards_of(MORE_COLORS, 3)
            yield f"{name}, the next", program.run(b"shard 3 it".split(), MORE_COLORS), OK
        yield f"{name}, files", files_in(made), wanted
        if not run.is_stopped or wanted != shards_of(COLORS, 2):
            yield f"{name}, folders", os.listdir(), ["it"]


def try_ended(program):
    """Wherever a signal ends a run, there is no folder, or a whole one. The next run is as any other."""
    for number, (name, run) in enumerate(each_stop(program, SHARD, COLORS, None)):
        ended, wanted = end_early(run, number)
        yield f"{name}, ended", ended, wanted
        made = Path("it")
        if program.is_by_cargo:
            yield f"{name}, folders", os.listdir(), ["it"] * made.exists()
        if made.exists():
            yield f"{name}, files", files_in(made), shards_of(COLORS, 2)
        else:
            yield f"{name}, the next", program.run(b"shard 3 it".split(), MORE_COLORS), OK
            yield f"{name}, folders of the next", os.listdir(), ["it"]


def try_beside(program):
    """Wherever a second run writes beside a first one, one of them fails, and the folder has the files of the other. It is the
    second that fails as soon as the first one has begun."""
    for name, run in each_stop(program, SHARD, COLORS, None):
        is_first = is_begun(f"it.{UNFINISHED}")
        second = program.run(b"shard 3 it".split(), MORE_COLORS)
        ends = run.end(), second
        yield f"{name}, {ends}", sorted(it.status for it in ends), [0, 1]
        busy = failed(1, b"it: cannot write files: resource busy")
        yield f"{name}, the second", not is_first or second == busy, True
        files = shards_of(COLORS, 2) if ends[0] == OK else shards_of(MORE_COLORS, 3)
        yield f"{name}, files", files_in("it"), files
        yield f"{name}, folders", os.listdir(), ["it"]


def try_links(program):
    """What has the name of an unfinished folder and is none stays as it is."""
    for target in "files", "files/precious", "nowhere", f"it.{UNFINISHED}":
        with own_folder():
            Path("files").mkdir()
            Path("files/precious").write_bytes(b"kept\n")
            Path(f"it.{UNFINISHED}").symlink_to(target)
            yield f"a link to {target}", program.run(SHARD, COLORS), failed(1, b"it: " + NOT_LEFT % (b"." + UNFINISHED.encode()))
            yield f"a link to {target}, files", files_in("files"), {"precious": b"kept\n"}
            yield f"a link to {target}, folders", sorted(os.listdir()), ["files", f"it.{UNFINISHED}"]


def try_unlike(program):
    """What has the name of an unfinished folder and no killed run left stays as it is."""
    for name in make_unlike(Path(f"it.{UNFINISHED}")):
        before = all_in()
        yield name, program.run(SHARD, COLORS), failed(1, b"it: " + NOT_LEFT % (b"." + UNFINISHED.encode()))
        yield f"{name}, what is there", all_in(), before


def try_folders_stored(program):
    """The folder is stored before it gets its name, and the name before the run ends."""
    for name in b"it", b"it/in/", os.path.abspath(b"other"):
        yield f"{name}", program.run([b"shard", b"2", name], COLORS, TELL_FOLDERS=1), (0, b"", b"stored\nrenamed\nstored\n")


def try_no_name(program):
    """The folder has a name."""
    for words in [b"shard", b"2", b""], [b"shard", b"2", b"", b"lines"], [b"shard", b"2", b"--", b""]:
        yield f"{words}", program.run(words), misused(b"the DIR of shard is empty")


def try_names(program):
    """The folder may be named with a slash behind it, and lie elsewhere."""
    Path("in").mkdir()
    for name in b"one/", b"two//", b"in/three", b"./four", b"in/../five", os.path.abspath(b"six"):
        yield f"{name}", program.run([b"shard", b"2", name], COLORS), OK
        yield f"{name}, files", files_in(Path(name.decode())), shards_of(COLORS, 2)
    found = sorted(os.listdir()), os.listdir("in")
    yield "folders", found, (["five", "four", "in", "one", "six", "two"], ["three"])


def try_refused(program):
    """Each request for memory is refused in turn: all files are written, or there is no folder."""
    for number in itertools.count(1):
        with own_folder():
            words, data = b"shard 3 it --invalid=skip".split(), b"red\ngreen\n\xff\nblue"
            ended, asks = program.run_with_asks(words, data, number)
            if len(asks) < number:
                break
            name = f"{words}, request {number} of {asks[number - 1]} bytes refused"
            found = files_in("it") if Path("it").exists() else None
            yield name, (ended.status, found), (0, shards_of(b"red\ngreen\nblue", 3)) if ended.status == 0 else (1, None)


# What is read is not held: so much of it, and so many bytes of memory.
HELD, MOST = 1 << 26, 1 << 24


def try_in_little_memory(program):
    """Equal lines, and as many of one shard after another as a block has, so that each shard is once the longest."""
    of_shards = {code_of(b"%99d" % number) % 64: b"%99d\n" % number for number in range(1000)}
    turns = b"".join(of_shards[shard] * ((1 << 20) // 100) for shard in range(64))
    for count, name, data in (4, "equal lines", (b"a" * 99 + b"\n") * (HELD // 100)), (64, "shards in turn", turns):
        with own_folder():
            ended = program.run([b"shard", b"%d" % count, b"it"], data, before=limit(resource.RLIMIT_AS, MOST))
            yield f"{name}, {len(data)} bytes in {MOST} bytes of memory", ended, OK


def try_random(program, seed):
    chance = random.Random(seed)
    words = ["".join(chance.choices("ab\r é", k=chance.randrange(40))) for _ in range(30)]
    data = "\n".join(chance.choices(words, k=chance.randrange(100))).encode() + chance.choice([b"", b"\n"])
    yield from try_text(program, data, chance.randrange(1, 9))


def trials():
    return [
        *((try_text, data, count) for data in TEXTS for count in (1, 2, 3, 20)),
        # More than a byte numbers.
        (try_text, LONG, 300),
        *alone(globals()),
        *((try_random, seed) for seed in range(30)),
    ]
