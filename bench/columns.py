"""The program dictcol beside sort and other programs that count lines, over lines that are made here: times by hyperfine, memory,
and estimated cycles."""
import json
import os
import pathlib
import random
import shlex
import shutil
import subprocess
import sys
import tempfile

from cycles import count, cycles_in
from results import HERE, summary

RUNS = 5
# Each command, and the lines that it reads. `encoded` is what dictcol made of those in order.
COMMANDS = [
    ("dictcol encode", "in order"),
    ("sort -u", "in order"),
    ("dictcol encode", "shuffled"),
    ("sort -u", "shuffled"),
    ("dictcol count", "in order"),
    ("dictcol shard, four counts", "in order"),
    ("mawk", "in order"),
    ("dictcol distinct", "in order"),
    ("mawk, distinct", "in order"),
    ("Rust", "in order"),
    ("dictcol decode", "encoded"),
    ("dictcol merge -", "encoded"),
    ("dictcol count --encoded", "encoded"),
    ("dictcol distinct", "repeated"),
    ("mawk, distinct", "repeated"),
    ("dictcol count", "repeated"),
    ("sort | uniq -c", "repeated"),
    ("mawk", "repeated"),
    ("Rust", "repeated"),
    ("Python", "repeated"),
]
# The commands that have another name above: each counts lines by a hash table, or writes each once.
IN_PYTHON = """from collections import Counter
import sys
sys.stdout.buffer.writelines(b"%d %b" % (count, line) for line, count in Counter(sys.stdin.buffer).items())
"""
PEERS = {
    "mawk": "mawk '{ counts[$0]++ } END { for (line in counts) print counts[line], line }'",
    "mawk, distinct": "mawk '!seen[$0]++'",
    "Rust": shlex.quote(str(HERE / "out/peer/target/release/peer")),
    "Python": f"{sys.executable} -c {shlex.quote(IN_PYTHON)}",
}
# The lines in four parts, and each part counted by a process of its own.
IN_FOUR = """rm -rf {parts}; {program} shard 4 {parts} && printf '%s\\0' {parts}/[0-3] |
xargs -0 -P4 -I@ sh -c '{program} count --sorted @ >@.counts' && sort -m -s -k1,1nr {parts}/*.counts
"""
# Runs a command, and prints its peak in KiB. Linux counts what the parent of a process holds when it starts, too, so the parent
# is a small one.
PEAK = """import resource, subprocess, sys
subprocess.run(sys.argv[1], shell=True, check=True, stdout=subprocess.DEVNULL)
print(resource.getrusage(resource.RUSAGE_CHILDREN).ru_maxrss)
"""
# By bytes, for which sort is fastest.
ENVIRONMENT = {**os.environ, "LC_ALL": "C"}


def lines_of(name, number):
    """So many lines: of a log, in the order of their times or not, nearly all distinct; or repeats of 600 lines."""
    chooser = random.Random(number)
    if name == "repeated":
        return [f"user{chooser.randrange(600)}@example.org signed in\n" for _ in range(number)]
    lines = [
        f"{1_700_000_000 + at} host{chooser.randrange(32)} request {chooser.randrange(1 << 32)} took {at % 997} ms\n"
        for at in range(number)
    ]
    if name == "shuffled":
        chooser.shuffle(lines)
    return lines


def words_of(command, program, folder):
    """What a shell runs for a command."""
    if command in PEERS:
        return PEERS[command]
    program = shlex.quote(str(program))
    if "shard" in command:
        return f"sh -c {shlex.quote(IN_FOUR.format(program=program, parts=shlex.quote(f'{folder}/parts')))}"
    return command.replace("dictcol", program)


def time_runs(command, given):
    """The nanoseconds of some runs, by hyperfine, and the most memory of a process of one."""
    with open(given) as lines:
        words = [sys.executable, "-c", PEAK, command]
        peak = subprocess.run(words, check=True, stdin=lines, stdout=subprocess.PIPE, env=ENVIRONMENT).stdout
    measured = {"memory": int(peak) * 1024}
    if shutil.which("hyperfine"):
        told = given.with_suffix(".json")
        tool = ["hyperfine", "--warmup", "1", "--runs", str(RUNS), "--export-json", told, f"< '{given}' {command}"]
        subprocess.run(tool, check=True, capture_output=True, env=ENVIRONMENT)
        measured |= summary("run", [1e9 * time for time in json.loads(told.read_text())["results"][0]["times"]])
    return measured


def count_cycles(command, given):
    """The estimated cycles of all processes of a run."""
    with open(given) as lines:
        parts = count(["sh", "-c", command], "--trace-children=yes", stdin=lines, env=ENVIRONMENT)
    return {"run cycles": sum(map(cycles_in, parts))}


def measure_columns(program, number, measure):
    """Yields a line of results for each value that `measure` gives for a command over so many lines."""
    with tempfile.TemporaryDirectory() as folder:
        files = {given: pathlib.Path(folder, given) for _, given in COMMANDS}
        for name in files.keys() - {"encoded"}:
            files[name].write_text("".join(lines_of(name, number)))
        with open(files["in order"]) as lines, open(files["encoded"], "w") as encoded:
            subprocess.run([program, "encode"], check=True, stdin=lines, stdout=encoded)
        for command, given in COMMANDS:
            size = files["in order" if given == "encoded" else given].stat().st_size / number
            for what, value in measure(words_of(command, program, folder), files[given]).items():
                row = (command, "-", "-", "-", given, number, f"{size:.1f}", what, f"{value / number:.2f}")
                yield "\t".join(map(str, row))
