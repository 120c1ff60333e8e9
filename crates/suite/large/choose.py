#!/usr/bin/env python3
"""Chooses the texts of the scenarios `chosen_..` below this folder, reckons their answers, and writes both to files of a folder.

usage: choose.py FOLDER

There are three kinds of texts. Words: joined, their FNV-1a codes agree in the low 32 bits. Blocks: joined, their codes under
`fold` are 0. Numbers: their codes under the keys of `keyed` lead into 512 of the 131,072 slots of an index. How often an index
of that many slots asks for a text while it interns them, a model of such an index reckons.

Python's own `hash` of bytes is SipHash-1-3, far faster than one that is written in Python. It takes its keys from
PYTHONHASHSEED: both are 0 where that is 0, as under `sip`, and where it is 1, they are those of `keyed`.
"""

import os
import subprocess
import sys
from collections.abc import Callable, Iterator
from itertools import count, islice
from pathlib import Path
from typing import Any

# Level, backend, hasher, kind of texts, and how many. What is counted has room for all of them from its start.
SCENARIOS = {
    "chosen_texts_string": ("interner", "string", "default", "words", 16384),
    "chosen_texts_string_sip": ("interner", "string", "sip", "words", 50000),
    "chosen_texts_counting": ("interner", "counting", "default", "words", 1000),
    "chosen_texts_counting_keyed": ("interner", "counting", "keyed", "words", 50000),
    "chosen_blocks_string_sip": ("tagged", "string", "sip", "blocks", 262144),
    "chosen_blocks_counting_fold": ("interner", "counting", "fold", "blocks", 1000),
    "chosen_blocks_counting_keyed": ("interner", "counting", "keyed", "blocks", 50000),
    "chosen_numbers_under_their_keys": ("interner", "counting", "keyed", "numbers", 1000),
    "chosen_numbers_under_other_keys": ("interner", "counting", "sip", "numbers", 50000),
}
# Two words, of which a text has either.
Pair = tuple[bytes, bytes]
SEEDS = {"sip": "0", "keyed": "1"}
CAPACITY = 50000
SLOTS = 131072
# The bits of a number's code that are 0: of those which choose the slot, all but the lowest nine.
ZERO = SLOTS - 512
# The distance from number to number is written by two of these letters, as digits: it is below the square of their count.
LETTERS = bytes(range(ord("!"), ord("~") + 1))


def fnv_1a(text: bytes, code: int = 0xCBF29CE484222325, bits: int = 64) -> int:
    """So many low bits of the FNV-1a code of a text, or of what comes behind a text with this code. They depend on no other."""
    prime, above = 0x100000001B3 % 2 ** bits, 2 ** bits
    for byte in text:
        code = (code ^ byte) * prime % above
    return code


def spell(number: int) -> bytes:
    """A word of six letters, another one for each number below 26^6."""
    number = number * 1000003 % 26 ** 6
    return bytes(ord("a") + number // 26 ** at % 26 for at in range(6))


def find_pair(before: bytes, bits: int = 32) -> Pair:
    """Two words after which the codes agree in so many low bits, if they stand behind this text."""
    code = fnv_1a(before, bits=bits)
    words: dict[int, bytes] = {}
    for word in map(spell, count()):
        low = fnv_1a(word, code, bits)
        if low in words:
            return words[low], word
        words[low] = word
    raise AssertionError("the search has no end")


def find_pairs(wanted: int) -> list[Pair]:
    """So many pairs of words one after another: of each, a text has either word."""
    pairs: list[Pair] = []
    while len(pairs) < wanted:
        pairs.append(find_pair(choose(pairs, 0)))
    return pairs


def mix(state: int, block: bytes) -> int:
    """The state of `FoldHasher` after a block of 16 bytes: a product of its halves, whose own halves are joined by `^`."""
    first, second = (int.from_bytes(half, "little") for half in (block[:8], block[8:]))
    product = (first ^ state) * (second ^ 0x9E3779B97F4A7C15)
    return product % 2 ** 64 ^ product >> 64


def fold_code(text: bytes) -> int:
    """The code of a text of whole blocks under `fold`."""
    code = (0x243F6A8885A308D3 + len(text)) % 2 ** 64
    for at in range(0, len(text), 16):
        code = mix(code, text[at:at + 16])
    return code


def find_zero(state: int) -> bytes:
    """Sixteen letters that lead from a state to eight letters or digits, and these. A block that begins with them makes a
    product of 0."""
    for number in count():
        block = spell(number) + spell(number // 1000) + spell(number * 7)[:4]
        after = mix(state, block).to_bytes(8, "little")
        if after.isalnum():
            return block + after
    raise AssertionError("the search has no end")


def find_blocks(wanted: int) -> Iterator[Pair]:
    """So many blocks, each of which ends in eight letters that are either of two each."""
    state = 0x243F6A8885A308D3 + 32 * wanted
    for _ in range(wanted):
        front = find_zero(state)
        state = 0
        yield front + b"a", front + b"b"
        yield from ((b"%c" % letter, b"%c" % (letter + 1)) for letter in b"cegikmo")


def choose(pairs: list[Pair], number: int) -> bytes:
    """The text whose words are chosen by the bits of a number, from the low end on."""
    return b"".join(pair[number >> at & 1] for at, pair in enumerate(pairs))


def find_numbers() -> Iterator[bytes]:
    """The numbers in order whose codes have these bits 0, in decimal. The keys are those of this process."""
    return (digits for digits in map(b"%d".__mod__, count()) if not hash(digits) & ZERO)


def write_distances(numbers: list[bytes]) -> Iterator[int]:
    """The distances from 0 to the first number, and on to each next one."""
    values = [0, *map(int, numbers)]
    for one, next_one in zip(values, values[1:]):
        high, low = divmod(next_one - one, len(LETTERS))
        yield from (LETTERS[high], LETTERS[low])


def count_asked(texts: list[bytes], code: Callable[[bytes], int]) -> int:
    """How many texts an index asks for while it interns these, under a hasher with these codes."""
    slots = [False] * SLOTS
    asked = 0
    for text in texts:
        slot = code(text) % SLOTS
        while slots[slot]:
            slot = (slot + 1) % SLOTS
            asked += 1
        slots[slot] = True
    return asked


def under_keys(hasher: str, word: str, given: bytes = b"") -> bytes:
    """What this script prints under the keys of a hasher."""
    environment = {**os.environ, "PYTHONHASHSEED": SEEDS[hasher]}
    ended = subprocess.run([sys.executable, __file__, word], env=environment, check=True, stdout=subprocess.PIPE, input=given)
    return ended.stdout


def count_under(hasher: str, texts: list[bytes]) -> int:
    """How many texts an index asks for under this hasher."""
    if hasher in SEEDS:
        return int(under_keys(hasher, "count", b"\n".join(texts)))
    return count_asked(texts, fold_code) if hasher == "fold" else count_asked(texts, fnv_1a)


def looks(backend: str, hasher: str, texts: list[bytes]) -> list[tuple[str, object]]:
    """Calls that look at what there is, once the texts are interned, and the answers."""
    last = len(texts) - 1
    if backend == "counting":
        return [("texts_asked", count_under(hasher, texts))]
    first_text, last_text = texts[0].decode(), texts[-1].decode()
    return [("len", last + 1), (f"get {first_text}", "symbol 0"), (f"get {last_text}", f"symbol {last}"),
            (f"resolve {last}", f"text {last_text}")]


def find_texts(kind: str, wanted: int, found: dict[str, Any]) -> tuple[list[bytes], str]:
    """So many texts of a kind, and the call that interns them. What was found before is not looked for again."""
    if kind not in found:
        match kind:
            case "words":
                found[kind] = find_pairs(16)
            case "blocks":
                found[kind] = list(find_blocks(3))
            case _:
                found[kind] = under_keys("keyed", "numbers").split(b"\n")
    if kind == "numbers":
        texts = found[kind][:wanted]
        return texts, f"distances {wanted} {bytes(write_distances(texts)).decode()}"
    words = b",".join(word for pair in found[kind] for word in pair).decode()
    return [choose(found[kind], number) for number in range(wanted)], f"choices {wanted} {words}"


def write_scenarios(folder: Path, found: dict[str, Any]) -> None:
    """Writes them into a file for each level, of the texts that were found before, by their kinds, and of those that are found now."""
    files: dict[str, list[str]] = {}
    for name, (level, backend, hasher, kind, wanted) in SCENARIOS.items():
        texts, interning = find_texts(kind, wanted, found)
        calls: list[tuple[str, object]] = [(f"with_capacity {CAPACITY}", "ok")] if backend == "counting" else []
        calls += [(interning, f"last symbol {wanted - 1}"), *looks(backend, hasher, texts)]
        lines = [f"scenario {name}", f"on {level} {backend} SymbolU32 {hasher}", *(f"> {call}\n{answer}" for call, answer in calls)]
        files.setdefault(level, []).append("".join(f"{line}\n" for line in lines))
    for level, scenarios in files.items():
        (folder / level).mkdir(exist_ok=True)
        (folder / level / "chosen.scenario").write_text("\n".join(scenarios))


def main() -> None:
    if sys.hash_info.algorithm != "siphash13":
        sys.exit(f"this Python hashes by {sys.hash_info.algorithm}, and not by SipHash-1-3")
    match sys.argv[1:]:
        case ["numbers"]:
            sys.stdout.buffer.write(b"\n".join(islice(find_numbers(), CAPACITY)))
        case ["count"]:
            print(count_asked(sys.stdin.buffer.read().split(b"\n"), hash))
        case [folder]:
            write_scenarios(Path(folder), {})
        case _:
            sys.exit(__doc__)


if __name__ == "__main__":
    main()
