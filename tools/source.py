"""Reads Rattle's sources as `rt fmt` lays them out: where functions begin and end, and what stands around them."""

import re
from dataclasses import dataclass

FUNCTION = re.compile(r'^(?P<indent> *)(?:pub(?:\(\w+\))? |final |unsafe |extern "C" )*fn (?P<name>\w+)\b', re.M)
# What ends the head of a function: its body, an empty body, or the semicolon of a declaration.
HEAD_END = re.compile(r";$|\{\}$|\{$", re.M)
# A clause or a ghost member: its line, those that are indented more, and what closes it.
CLAUSE = re.compile(r"^(?P<margin> *)(?:pub )?(?:ensures|requires|ghost (?!use\b)\w+)\b.*\n"
                    r"(?:(?P=margin) +.*\n|(?P=margin)[)}].*\n|\n)*", re.M)
GHOST_USE = re.compile(r"^ *(?:pub )?ghost use [^;]*;\n+", re.M)
# What paths call a reference and a slice.
NAMES = {"&": "Ref", "[": "Slice"}
BLOCK = re.compile(r"^(?:pub )?(?P<kind>impl|trait)\b.*?\{$", re.M | re.S)


@dataclass(frozen=True)
class Function:
    """A function of a source text, by the offsets where it begins, where its name ends, and where it ends."""

    name: str
    start: int
    name_end: int
    end: int
    text: str

    @property
    def contract(self) -> str:
        """The signature and the clauses."""
        indent = len(self.text) - len(self.text.lstrip(" "))
        return re.split(rf"^ {{{indent}}}\{{$", self.text, maxsplit=1, flags=re.M)[0]

    @property
    def is_method(self) -> bool:
        return self.text.startswith(" ")


def functions(text: str) -> list[Function]:
    found = []
    for start in FUNCTION.finditer(text):
        head = HEAD_END.search(text, start.end())
        last = re.compile(rf"^{start['indent']}\}}$", re.M).search(text, head.end()) if head and head[0] == "{" else head
        end = last.end() if last else len(text)
        found.append(Function(start["name"], start.start(), start.end(), end, text[start.start() : end]))
    return found


def start_of(text: str, function: Function) -> int:
    """The offset where a function begins, with its attributes."""
    attributes = re.search(r"(?:^ *#\[.*\]\n)*\Z", text[: function.start], re.M)
    return attributes.start() if attributes else function.start


def block_around(text: str, function: Function) -> re.Match[str] | None:
    """The line that opens the `impl` or `trait` of a method, as a match with `kind`, or None."""
    return [None, *BLOCK.finditer(text[: function.start])][-1] if function.is_method else None


def block_name(text: str, function: Function) -> str:
    """What paths call the block of a method: its trait, or the type and the trait that is implemented for it, each with what it is
    applied to. Nothing for a function of no block."""
    block = block_around(text, function)
    if not block:
        return ""
    end = end_of_generics(text, block.end("kind"))
    head, own = text[end : block.end()], re.findall(r"[<,]\s*(\w+)", text[block.end("kind") : end])
    if block["kind"] == "trait":
        return "".join(re.findall(r"\w+", head)[:1])
    of_trait, _, of_type = head.rpartition(" for ")
    words = re.findall(r"'\w+|&|\[|\w+(?:::\w+)*", f"{of_type} {of_trait}")
    names = (NAMES.get(it) or it.rpartition("::")[2] for it in words if it[0] != "'" and it.partition("::")[0] not in own)
    return "".join(it[0].upper() + it[1:] for it in names)


def find_functions(text: str, path: str) -> list[Function]:
    """The functions of a source text that have this path, whatever the module."""
    block, _, name = path.rpartition("::")
    block = block.rpartition("::")[2]
    wanted = block if block[:1].isupper() else ""
    return [it for it in functions(text) if it.name == name and block_name(text, it) == wanted]


def end_of_generics(text: str, at: int) -> int:
    """The offset behind the generic parameters that stand at an offset, if any."""
    end, depth = at, 0
    while text[at] == "<" and (depth or end == at):
        depth += {"<": 1, ">": -(text[end - 1] != "-")}.get(text[end], 0)
        end += 1
    return end


def outside_functions(text: str) -> list[str]:
    """The lines of a source text outside functions, without comments, imports and modules."""
    for function in functions(text):
        text = text.replace(function.text, "")
    text = re.sub(r"^ *(?:pub )?(?:ghost )?use [^;]*;", "", text, flags=re.M)
    return [line for line in text.splitlines() if line.strip() and not re.match(r" *(?://|(?:pub )?mod \w+;)", line)]
