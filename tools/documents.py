#!/usr/bin/env python3
"""Prints what is wrong with the documents, and fails if anything is. CONTRIBUTING.md says under "Documents" what is looked for.

A name in a code span is looked for if it has a capital or two words, except what docs/use/PORTING.md names of the original. A block
of a language has to stand to the word in a crate or in an example, at the margin or indented as a body, so that it is proved or
run; but not if tools/try_guide.py takes it as a step.
"""

import re
import subprocess
import sys
from collections.abc import Iterator
from functools import cached_property
from pathlib import PurePosixPath
from textwrap import indent

from gate_log import TAKES
from tree import TOP, listed, read

# Where the blocks of each language stand as files that the gate proves or runs.
EXAMPLES = {
    "rattle": "crates/*/src/**/*.rt",
    "antt": "crates/examples/proofs/**/*.antt",
    "c": "clients/c/examples/*.c",
    "rust": "clients/rust/examples/*.rs",
    "python": "clients/python/examples/*.py",
    "sh": "clients/c/examples/*.sh",
}
FRONT_PAGE = "crates/string_interner/src/lib.rt"
NAMES_THE_ORIGINAL = "docs/use/PORTING.md"
# The page with a table of the toolchain's libraries that each crate uses, whose contracts are trusted, and a row of it.
NAMES_THE_TRUSTED = "docs/use/promises.md"
TRUSTED = re.compile(r"^\| `(\w+)` \| ((?:`\w+`(?:, )?)+) \|$", re.M)
# A line for the crates.txt of a reader's project.
LISTED = re.compile(r"^ *((\w+)(?: staticlib)?:(?: \w+)*)$", re.M)
# What names the version, and the line that does; of several such lines the first.
VERSIONS = {
    "CHANGELOG.md": r"^## \[(.*)\] - \d{4}-\d\d-\d\d$",
    "Cargo.toml": r'^version = "(.*)"$',
    "clients/python/string_interner/__init__.py": r'^__version__ = "(.*)"$',
    "clients/rust/Cargo.toml": r'^version = "0\.19\.\d+\+(.*)"$',
    "crates/dictcol/src/main.rt": r'^const VERSION: &str = "dictcol (.*)\\n";$',
    "crates/intern/src/help.rt": r'^pub const VERSION: &str = "intern (.*)\\n";$',
}
# Folders of what is built, as .gitignore has them.
BUILT = {"out", "target", "__pycache__"}
# How long a page may be: the front page fits on two screens, and a user's page is read at one sitting, unless its name in capitals
# says that one looks something up in it.
MOST_LINES = 120
USERS_PAGE = re.compile(r"docs/use/[a-z]+\.md")
MOST_WORDS = {"README.md": 900, "docs/use/promises.md": 1_800, "docs/inside/tests.md": 1_800}
MOST_WORDS_OF_USERS_PAGE, MOST_WORDS_OF_OTHERS = 1_250, 2_500
LINK = re.compile(r"\]\(([^)\s]+)\)")
SPAN = re.compile(r"(?<!`)`([^`\n]+)`(?!`)")
BLOCK = re.compile(r"^```(\w*)\n(.*?)^```$", re.M | re.S)
# A step that tools/try_guide.py takes: a block that is written into the file which the line before it names, commands, or what
# these print.
STEP = re.compile(r"^(?:[^\n]*`([^`\n]+)`:\n\n```(?!sh|text)\w+|```(sh|text))\n(.*?)^```$", re.M | re.S)
HEADING = re.compile(r"^#+ +(.*)$", re.M)
# A path, or a file by its name alone. One that ends in two dots is the beginning of several.
FILE = re.compile(r"(?=.*\w)(?!.*\.\.$)(?:[\w./-]*/[\w./-]*|[\w-]+\.(?:antt|bugs|c|h|md|py|rs|rt|txt))")
COMMAND = re.compile(r"(?<![\w./$-])(?:\.ci|bench|bin|clients|crates|docs|tools)/[\w./-]*\w")
# A word in small letters alone may be a command, or a word of a format.
IDENTIFIER = re.compile(r"(?=.*[A-Z_:])[A-Za-z_]\w*(?:::[A-Za-z_]\w*)*")
# A worked row or a law, as proofs name them, and where they define it.
ROW = re.compile(r"\b[a-z]\w*(?:-\w+)+")
DEFINED = re.compile(rf"^ *(?:pub )?({ROW.pattern})", re.M)


def anchor_of(heading: str) -> str:
    """The name under which a link finds a heading, as GitHub and others make it."""
    return re.sub(r"[^\w\- ]", "", heading.strip().lower()).replace(" ", "-")


class Repository:
    """The files of the repository, without what is built."""

    @cached_property
    def files(self) -> list[str]:
        if not (TOP / ".git").exists():  # An unpacked release.
            paths = [path.relative_to(TOP) for path in TOP.rglob("*") if path.is_file()]
            return [path.as_posix() for path in paths if not BUILT & {*path.parts}]
        words = ["git", "ls-files", "--cached", "--others", "--exclude-standard"]
        listed = subprocess.run(words, cwd=TOP, check=True, capture_output=True, encoding="utf-8").stdout.splitlines()
        return [it for it in listed if (TOP / it).is_file()]

    @cached_property
    def texts(self) -> dict[str, str]:
        named = (name for name in self.files if not name.endswith((".md", ".svg")))
        return {name: (TOP / name).read_text(encoding="utf-8", errors="replace") for name in named}

    @cached_property
    def words(self) -> set[str]:
        return {word for text in ("\n".join(self.files), *self.texts.values()) for word in re.findall(r"\w+", text)}

    @cached_property
    def rows(self) -> set[str]:
        """The names with hyphens that proofs define, and those that other files than specs and proofs have."""
        found = ((DEFINED if name.endswith(".antt") else ROW).findall(text) for name, text in self.texts.items())
        return {row for rows in found for row in rows}

    @cached_property
    def ends(self) -> set[str]:
        """The ends of the paths of all files, with and without suffixes, and of all folders."""
        paths = {it for path in map(PurePosixPath, self.files) for it in (path, path.with_suffix(""), *path.parents)}
        return {"/".join(path.parts[i:]) for path in paths for i in range(len(path.parts))}

    def has_file(self, name: str) -> bool:
        """Whether the path of a file or folder ends with these words, or whether they name what is built, or a
        place that a reader chooses, as PREFIX/bin."""
        parts = PurePosixPath(name.removeprefix("./")).parts
        return "out" in parts or parts[0].isupper() or "/".join(parts) in self.ends

    def has_name(self, name: str) -> bool:
        """Whether these words are those of some file, or the beginning of one's name."""
        return all(word in self.words or any(f"/{word}_" in file for file in self.files) for word in name.split("::"))

    @cached_property
    def examples(self) -> dict[str, list[str]]:
        return {language: [read(path) for path in TOP.glob(files)] for language, files in EXAMPLES.items()}


def broken_links(page: str, text: str) -> Iterator[str]:
    for target in LINK.findall(text):
        if "://" in target:
            continue
        name, _, anchor = target.partition("#")
        path = (TOP / page).parent / name if name else TOP / page
        if not path.exists():
            yield f"the link {target} leads to no file"
        elif anchor and anchor not in map(anchor_of, HEADING.findall(read(path))):
            yield f"the link {target} leads to no heading"


def missing_names(page: str, text: str, repository: Repository) -> Iterator[str]:
    for span in SPAN.findall(BLOCK.sub("", text)):
        if FILE.fullmatch(span):
            if not repository.has_file(span):
                yield f"no file `{span}`"
        elif ROW.fullmatch(span):
            if span not in repository.rows and not repository.has_file(span):
                yield f"no row or law `{span}`"
        elif page != NAMES_THE_ORIGINAL and IDENTIFIER.fullmatch(span) and not repository.has_name(span):
            yield f"no `{span}` in any file"
    for command in COMMAND.findall(LINK.sub("", text)):
        if not repository.has_file(command):
            yield f"no file {command}"


def is_tried(page: str) -> bool:
    """Whether tools/try_guide.py takes the steps of a page."""
    return re.fullmatch(r"README\.md|docs/use/\w+\.md", page) is not None


def comment_of(source: str) -> str:
    """What a source says of itself at its top."""
    return "".join(re.findall(r"^//! ?(.*\n)", source, re.M))


def untried_blocks(blocks: list[tuple[str, str]], repository: Repository) -> Iterator[str]:
    for language, block in blocks:
        written = [f"\n{indent(block, ' ' * width)}" for width in (0, 2, 4)]
        if language not in (*EXAMPLES, "text", "toml"):
            yield f"a block in no known language: {block.splitlines()[0]}"
        elif language in EXAMPLES and not any(it in f"\n{example}" for example in repository.examples[language] for it in written):
            yield f"in no {'crate' if language == 'rattle' else 'example'}: {block.splitlines()[0]}"


def long_pages(texts: dict[str, str]) -> Iterator[str]:
    if (lines := len(texts.get("README.md", "").splitlines())) > MOST_LINES:
        yield f"README.md: {lines} lines, and {MOST_LINES} may be"
    for page, text in texts.items():
        most = MOST_WORDS.get(page, MOST_WORDS_OF_USERS_PAGE if USERS_PAGE.fullmatch(page) else MOST_WORDS_OF_OTHERS)
        if (words := len(text.split())) > most:
            yield f"{page}: {words} words, and {most} may be"


def other_versions() -> Iterator[str]:
    version = read(TOP / "VERSION").strip()
    for name, pattern in VERSIONS.items():
        found = re.search(pattern, read(TOP / name), re.M)
        if not found or found[1] != version:
            yield f"{name}: names {found[1] if found else 'no version'}, and VERSION names {version}"


def used_libraries() -> set[tuple[str, str]]:
    """Each pair of a crate and a library of the toolchain that its line of crates.txt names."""
    lines = listed(TOP)
    return {(crate, it) for crate, line in lines.items() for it in line.partition(":")[2].split() if it not in lines}


def other_libraries(text: str) -> Iterator[str]:
    """How the libraries in the table of a page differ from those that the crates use."""
    named = {(crate, it) for crate, libraries in TRUSTED.findall(text) for it in SPAN.findall(libraries)}
    used = used_libraries()
    yield from (f"does not name {it}, which {crate} uses" for crate, it in sorted(used - named))
    yield from (f"names {it}, which {crate} does not use" for crate, it in sorted(named - used))


def other_lines(text: str) -> Iterator[str]:
    """The lines for a reader's crates.txt that name a crate of ours, and other libraries than our line of it. The record of its proof
    does not fit such a line."""
    lines = listed(TOP)
    yield from (f"has the line {line!r}, and crates.txt {lines[crate]!r}" for line, crate in LISTED.findall(text)
                if lines.get(crate, line) != line)


def other_times(text: str) -> Iterator[str]:
    """The commands of the gate of which the front page has another time or memory than they print."""
    rows = [line.partition(":")[::2] for line in text.splitlines()]
    for command, takes in TAKES.items():
        if not any(head == f"| `{command}`" and cells.endswith(" | {} | {} |".format(*takes)) for head, cells in rows):
            yield f"has no row of {command} with {' and '.join(takes)}"


def faults() -> Iterator[str]:
    """What is wrong with the documents."""
    repository = Repository()
    if "VERSION" in repository.files:
        yield from other_versions()
    texts = {page: read(TOP / page) for page in repository.files if page.endswith(".md")}
    yield from long_pages(texts)
    if FRONT_PAGE in repository.files:
        blocks = BLOCK.findall(comment_of(read(TOP / FRONT_PAGE)))
        named = [(name or "rattle", block) for name, block in blocks]
        yield from (f"{FRONT_PAGE}: {it}" for it in untried_blocks(named, repository))
    for page, text in texts.items():
        untried = STEP.sub("", text) if is_tried(page) else text
        found = [*broken_links(page, text), *missing_names(page, untried, repository), *other_lines(text)]
        found += untried_blocks(BLOCK.findall(untried), repository)
        found += other_libraries(text) if page == NAMES_THE_TRUSTED else ()
        found += other_times(text) if page == "README.md" and "check" in repository.files else ()
        yield from (f"{page}: {it}" for it in dict.fromkeys(found))


def main() -> int:
    found = list(faults())
    print(*found, sep="\n", end="\n" if found else "")
    return 1 if found else 0


if __name__ == "__main__":
    sys.exit(main())
