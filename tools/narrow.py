#!/usr/bin/env python3
"""Prints where docs/inside/NARROW.md and the library's source differ, and fails if they do.

That page says why no number of the library wraps if a `usize` has 32 bits. It has a row for each function with an operation that
could: a sum, a product, a shift, a cast to `usize`, a call of a method like `checked_add`, the size of a value, and the greatest
`usize`. What is found:

- an operation of a function, or of a constant, that no row has;
- an operation of a row that the source does not have;
- a row by a rule that the page does not state, a rule that no row cites, and a second row of a function;
- a row whose rules are neither one for all its operations nor one for each, in their order.

    tools/narrow.py          also prints how many operations and rows there are
    tools/narrow.py --list   prints the operations of the source as rows
"""

import argparse
import re
import runpy
import sys
from collections.abc import Iterator
from typing import Any, NamedTuple

from tree import TOP, read

PAGE = "docs/inside/NARROW.md"
SOURCES = "crates/string_interner/src"
ERASER = runpy.run_path(str(TOP / "tools/erase"))
# What ends no operand: the word in front of a `*` that reads behind a pointer, and of the type of a pointer.
KEYWORDS = {"as", "break", "const", "else", "if", "in", "let", "match", "move", "mut", "ref", "return", "while"}
OPENING = {"(": ")", "[": "]", "{": "}"}
CLOSING = {last: first for first, last in OPENING.items()}
METHOD = re.compile(r"(?:carrying|checked|overflowing|saturating|unchecked|widening|wrapping)_\w+|next_multiple_of|next_power_of_two"
                    r"|pow|product|sum|(?:leading|count)_(?:ones|zeros)|i?log\w*|rotate_\w+|reverse_bits|swap_bytes|to_[bln]e_bytes")
SIZE = re.compile(r"(?:size|align)_of(?:_val)?")
# A row of the page, a code span, and a rule, which is the first word of an item in bold letters.
ROW = re.compile(r"^\| `(?P<function>[\w:]+)` \| (?P<operations>`.*`) \| (?P<rules>[\w ,]+) \|$", re.M)
SPAN = re.compile(r"`([^`]+)`")
RULE = re.compile(r"^- \*\*(\w+)\*\*:", re.M)


class Piece(NamedTuple):
    """A token of code, and what space comes before it."""

    text: str
    kind: str
    space: str

    @property
    def is_apart(self) -> bool:
        return self.space != ""


class Code:
    """The code of a source file, without comments and what is ghost."""

    def __init__(self, text: str) -> None:
        self.pieces: list[Piece] = []
        end = 0
        for token in ERASER["tokens_of"](text):
            if token.kind not in ERASER["NO_CODE"] and not token.is_ghost:
                self.pieces.append(Piece(token.text, token.kind, text[end : token.start]))
                end = token.end
        self.pairs = dict(self.find_pairs())

    def __getitem__(self, at: int) -> Piece:
        return self.pieces[at] if 0 <= at < len(self.pieces) else Piece("", "end", " ")

    def find_pairs(self) -> Iterator[tuple[int, int]]:
        """The places of each two brackets that belong together, both ways."""
        stack: list[int] = []
        for at, piece in enumerate(self.pieces):
            if piece.kind == "sign" and piece.text in OPENING:
                stack.append(at)
            elif piece.kind == "sign" and piece.text in CLOSING:
                first = stack.pop()
                yield from ((first, at), (at, first))

    def stands(self, at: int, *texts: str) -> bool:
        """Whether these pieces stand at a place, with no space between them."""
        found = [self[at + step] for step in range(len(texts))]
        return [it.text for it in found] == [*texts] and not any(it.is_apart for it in found[1:])

    def is_operand_end(self, at: int) -> bool:
        piece = self[at]
        return piece.kind == "number" or piece.text in (")", "]", "?") or piece.kind == "word" and piece.text not in KEYWORDS

    def find(self, at: int, *texts: str) -> int:
        """The place of the first of these pieces from a place on, except in brackets that open behind it."""
        while at < len(self.pieces) and self[at].text not in texts:
            at = max(at, self.pairs.get(at, at)) + 1
        return at

    def first_of_operand(self, last: int) -> int:
        """The place where the operand begins that ends at a place."""
        at = self.pairs.get(last, last)
        while True:
            before = self[at - 1]
            is_behind = self[at].text in ("?", "(", "[") and not self[at].is_apart
            if is_behind and self.is_operand_end(at - 1):
                at = self.pairs.get(at - 1, at - 1)
            elif is_behind and before.text == ">":
                at = self.first_of_types(at - 1) - 3
            elif before.text in (".", "as"):
                at = self.pairs.get(at - 2, at - 2)
            elif self.stands(at - 2, ":", ":"):
                at = at - 3
            else:
                return at

    def first_of_types(self, last: int) -> int:
        """The place of the bracket that opens a list of types which ends at a place."""
        at, depth = last, 1
        while depth and at:
            at -= 1
            depth += {">": 1, "<": -1}.get(self[at].text, 0)
        return at

    def last_of_types(self, first: int) -> int:
        """The place of the bracket that ends a list of types which begins at a place."""
        at, depth = first, 1
        while depth and at < len(self.pieces):
            at += 1
            depth += {"<": 1, ">": -1}.get(self[at].text, 0)
        return at

    def last_of_operand(self, first: int) -> int:
        """The place where the operand ends that begins at a place."""
        at = first
        while self[at].text in ("*", "&", "!", "-"):
            at += 1
        at = self.pairs.get(at, at)
        while True:
            if self[at + 1].text in ("(", "[") and not self[at + 1].is_apart:
                at = self.pairs[at + 1]
            elif self[at + 1].text in (".", "as") and not self.stands(at + 1, ".", "."):
                at += 2
            elif self.stands(at + 1, ":", ":", "<"):
                at = self.last_of_types(at + 3)
            elif self.stands(at + 1, ":", ":"):
                at += 3
            elif self[at + 1].text == "?":
                at += 1
            else:
                return at

    def text_of(self, first: int, last: int) -> str:
        """The pieces from one place to another, on one line."""
        words = []
        for at in range(first, last + 1):
            is_apart = self[at].is_apart and self[at].text not in (".", ")", "]") and self[at - 1].text not in ("(", "[")
            words.append(" " * (is_apart and at > first) + self[at].text)
        return "".join(words).replace(",)", ")")

    def operation_at(self, at: int) -> str | None:
        """The operation whose sign or name stands at a place."""
        return self.operation_by_name(at) if self[at].kind == "word" else self.operation_by_sign(at)

    def operation_by_name(self, at: int) -> str | None:
        piece = self[at]
        is_method = METHOD.fullmatch(piece.text) and self[at - 1].text in (".", ":")
        if (is_method or SIZE.fullmatch(piece.text)) and self[at + 1].text in ("(", ":"):
            return self.text_of(self.first_of_operand(at), self.pairs[self.find(at, "(")])
        if piece.text in ("BITS", "MAX") and self[at - 3].text in ("usize", "isize"):
            return self.text_of(at - 3, at)
        if piece.text == "as" and self[at + 1].text == "usize":
            return self.text_of(self.first_of_operand(at - 1), at + 1)
        return None

    def operation_by_sign(self, at: int) -> str | None:
        """A sum or a product, or a shift, which has spaces around it."""
        is_shift = self[at].is_apart and (self.stands(at, "<", "<") or self.stands(at, ">", ">"))
        last = at + is_shift + (self[at + is_shift + 1].text == "=")
        if is_shift and self[last + 1].is_apart or self[at].text == "+" or self[at].text == "*" and self.is_product(at):
            return self.text_of(self.first_of_operand(at - 1), self.last_of_operand(last + 1))
        return None

    def is_product(self, at: int) -> bool:
        """Whether a star multiplies. Behind a block it does so on the block's line."""
        return self.is_operand_end(at - 1) or self[at - 1].text == "}" and "\n" not in self[at].space

    def names(self) -> dict[int, str]:
        """By place the name of the function or constant in whose body it is. In the head of a function a plus divides bounds, and a
        constant without a name is for the proof."""
        found: dict[int, str] = {}
        for at, piece in enumerate(self.pieces):
            if piece.text == "fn" and self[at + 1].kind == "word":
                first = self.find(at, "{", ";")
                found |= dict.fromkeys(range(at, first), "")
            elif piece.text == "const" and self[at + 2].text == ":" and self[at + 1].text != "_":
                first = self.find(at, "=")
            else:
                continue
            last = self.pairs.get(first) or self.find(first, ";")
            found |= dict.fromkeys(range(first, last), self[at + 1].text)
        return found

    def operations(self) -> Iterator[tuple[str, str]]:
        """Each operation, behind the name of the function or constant that has it."""
        for at, name in sorted(self.names().items()):
            if name and (operation := self.operation_at(at)):
                yield name, operation


def operations_of_source() -> dict[str, list[str]]:
    """By function the operations of the modules that the Rust crate has without its feature for other packages."""
    found: dict[str, list[str]] = {}
    for file in sorted((TOP / SOURCES).rglob("*.rt")):
        path = file.relative_to(TOP / SOURCES).with_suffix("").parts
        if path[0] in ERASER["FOR_OTHERS"]:
            continue
        for name, operation in Code(read(file)).operations():
            of_function = found.setdefault("::".join([*path, name]), [])
            if operation not in of_function:
                of_function.append(operation)
    return found


def row_of(function: str, operations: list[str], rules: str) -> str:
    return f"| `{function}` | {', '.join(f'`{it}`' for it in operations)} | {rules} |"


def differences(page: str, source: dict[str, list[str]]) -> Iterator[str]:
    """How a page differs from the operations of a source."""
    rows: list[dict[str, Any]] = [it.groupdict() for it in ROW.finditer(page)]
    listed = {row["function"]: SPAN.findall(row["operations"]) for row in rows}
    rules, cited = set(RULE.findall(page)), {rule for row in rows for rule in row["rules"].split(", ")}
    for function in sorted({*source, *listed}):
        has, says = source.get(function, []), listed.get(function, [])
        yield from (f"no row of {function} has `{it}`" for it in has if it not in says)
        yield from (f"{function} has no `{it}`" for it in says if it not in has)
    yield from (f"{row['function']} has {count} rules for {len(listed[row['function']])} operations" for row in rows
                if (count := len(row["rules"].split(", "))) not in (1, len(listed[row["function"]])))
    yield from (f"no rule {it}" for it in sorted(cited - rules))
    yield from (f"no row is by the rule {it}" for it in sorted(rules - cited))
    yield from (f"{len(rows) - len(listed)} rows are of a function that has another" for _ in rows[:1] if len(rows) > len(listed))


def faults() -> Iterator[str]:
    yield from (f"{PAGE}: {it}" for it in differences(read(TOP / PAGE), operations_of_source()))


def main() -> int:
    parser = argparse.ArgumentParser(description=__doc__.partition("\n")[0])
    parser.add_argument("--list", action="store_true", help="print the operations of the source as rows")
    source = operations_of_source()
    if parser.parse_args().list:
        print(*(row_of(function, operations, "") for function, operations in source.items()), sep="\n")
        return 0
    found = list(faults())
    print(f"{sum(map(len, source.values()))} operations in {len(source)} functions", *found, sep="\n")
    return 1 if found else 0


if __name__ == "__main__":
    sys.exit(main())
