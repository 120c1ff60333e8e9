#!/usr/bin/env python3
"""Prints what is wrong with the contracts and their quotes in docs/inside/CONTRACTS.md, and fails if anything is:

- a call that a user makes first and that the page does not quote;
- a quote, which is the fenced block behind a line like <!-- contract: interner::StringInterner::get -->, that is not the
  signature and the clauses of its call as they stand in the library;
- a line of a clause with more than 100 columns;
- more than 6 % of clause text that is repeated by a clause of more than 40 characters. A shorter one is a word with its
  arguments, which has to stand at each call that it speaks of.

    tools/contracts.py           also prints how much text is repeated, and what is repeated most
    tools/contracts.py --write   first writes the quotes anew
"""

import argparse
import re
import sys
from collections import Counter
from collections.abc import Iterator
from itertools import zip_longest
from pathlib import Path
from textwrap import dedent

from source import CLAUSE, Function, block_around, functions
from tree import TOP, read, write

PAGE = "docs/inside/CONTRACTS.md"
LIBRARY = "crates/string_interner/src"
METHODS = "new with_capacity len get get_or_intern resolve iter truncate extend intern_all"
CALLS = [*(f"interner::StringInterner::{name}" for name in METHODS.split()), "run::run"]
MOST_COLUMNS = 100
LENGTH_THAT_COUNTS = 40
MOST_REPEATED = 6
QUOTE = re.compile(r"^<!-- contract: (?P<call>\S+) -->$(?:\n```rattle\n(?P<text>.*?)^```$)?", re.M | re.S)


def sources(folder: str = "crates/*/src") -> list[Path]:
    return sorted(TOP.glob(f"{folder}/**/*.rt"))


def belongs_to(text: str, function: Function, owner: str) -> bool:
    """Whether a function is a method of this type, and of no trait; without a type, whether it is no method."""
    block = block_around(text, function)
    if not owner or not block:
        return not owner and not block
    return " for " not in block[0] and bool(re.match(rf"impl(?:<.*>)? {owner}\b", block[0], re.S))


def contract_of(call: str) -> str | None:
    """The signature and the clauses of a call, by its path in the library, or None."""
    module, *owner, name = call.split("::")
    for file in [*(TOP / LIBRARY).glob(f"{module}.rt"), *sources(f"{LIBRARY}/{module}")]:
        text = read(file)
        for function in functions(text):
            if function.name == name and belongs_to(text, function, "".join(owner)):
                return f"{dedent(function.contract).rstrip()}\n"
    return None


def written_anew(page: str) -> str:
    def quoted(quote: re.Match[str]) -> str:
        contract = contract_of(quote["call"])
        return quote[0] if contract is None else f"<!-- contract: {quote['call']} -->\n```rattle\n{contract}```"

    return QUOTE.sub(quoted, page)


def stale_quotes(page: str) -> Iterator[str]:
    """What is wrong with the quotes of the page."""
    quotes = list(QUOTE.finditer(page))
    if page.count("contract:") != len(quotes):
        yield "a mark of a contract that is not written `<!-- contract: CALL -->`"
    yield from (f"no quote of {call}" for call in CALLS if call not in [quote["call"] for quote in quotes])
    for quote in quotes:
        call, contract = quote["call"], contract_of(quote["call"])
        if contract is None:
            yield f"no {call} in the library"
        elif quote["text"] is None:
            yield f"no block of Rattle behind the mark of {call}"
        elif quote["text"] != contract:
            lines = zip_longest(quote["text"].splitlines(), contract.splitlines())
            old, new = next(pair for pair in lines if pair[0] != pair[1])
            yield f"the quote of {call} is stale: it has `{old or ''}` for `{new or ''}`"


def clauses(text: str) -> Iterator[tuple[int, list[str], str]]:
    """The clauses of a source, in order: the number of the first line, the lines, and the text."""
    for it in CLAUSE.finditer(text):
        said = " ".join(it[0].partition("{")[2].split()).removesuffix(";").removesuffix("}").rstrip()
        yield text.count("\n", 0, it.start()) + 1, it[0].splitlines(), said


def long_lines(file: Path) -> list[str]:
    long = ((number, len(line)) for first, lines, _ in clauses(read(file)) for number, line in enumerate(lines, first)
            if len(line) > MOST_COLUMNS and not line.lstrip().startswith("//"))
    return [f"{file.relative_to(TOP)}:{number}: {columns} columns in a clause" for number, columns in long]


def repeated() -> tuple[list[tuple[str, int]], float]:
    """The texts that clauses of the crates repeat, each with its count, most characters first; and their share of all text, in
    percent."""
    counts = Counter(text for file in sources() for _, _, text in clauses(read(file)))
    again = [(text, count) for text, count in counts.items() if count > 1 and len(text) > LENGTH_THAT_COUNTS]
    again.sort(key=lambda it: -len(it[0]) * (it[1] - 1))
    characters = sum(len(text) * (count - 1) for text, count in again)
    return again, 100 * characters / max(1, sum(len(text) * count for text, count in counts.items()))


def faults() -> Iterator[str]:
    yield from (f"{PAGE}: {it}" for it in stale_quotes(read(TOP / PAGE)))
    yield from (it for file in sources() for it in long_lines(file))
    share = repeated()[1]
    if share > MOST_REPEATED:
        yield f"{share:.1f} % of the clauses' text is repeated, and {MOST_REPEATED} % may be: tools/contracts.py lists it"


def main() -> int:
    parser = argparse.ArgumentParser(description=__doc__.partition("\n")[0])
    parser.add_argument("--write", action="store_true", help="write the quotes anew first")
    if parser.parse_args().write:
        write(TOP / PAGE, written_anew(read(TOP / PAGE)))
    again, share = repeated()
    found = list(faults())
    print(f"repeated clause text: {share:.1f} %", *(f"{count} times: {text}" for text, count in again[:10]), *found, sep="\n")
    return 1 if found else 0


if __name__ == "__main__":
    sys.exit(main())
