"""The checks of the library for C: from C and C++, also of the one that cargo makes."""

import re
from collections.abc import Callable
from dataclasses import dataclass
from pathlib import Path

from tree import read

from .python import HAS_MODULE, HYPOTHESIS, TESTS
from .table import CLIENTS, Check, Failed, Need, Options, Place

LIBRARY = CLIENTS / "out/libstring_interner"
WARNINGS = "-Wall -Wextra -Werror -pedantic"
COMPILE = f"cc -std=c11 {WARNINGS} -g -I$out -o $work/program $clients/c"
RACES = "Possible data race|Conflicting (load|store)"
# For each checker of valgrind what it says of a fault.
REPORTS = {"memcheck": "uninitialised value", "helgrind": RACES, "drd": RACES}


def wrap(names: str, prefix: str = "") -> str:
    """The flags by which a program stands before these functions."""
    return "".join(f" -Wl,--wrap={prefix}{it}" for it in names.split())


@dataclass(frozen=True)
class Program:
    """A program of clients/c, which is compiled with flags against the archive. It runs by itself, and under checkers of valgrind, which
    must report nothing, and must report what it does when it is given a word that makes it do wrong."""

    source: str
    flags: str = "-O1"
    checkers: str = ""
    wrong: str = ""

    def __call__(self, place: Place) -> str | None:
        place.run(f"{COMPILE}/{self.source}.c $out/libstring_interner.a {self.flags}")
        last = place.run("$work/program").splitlines()[-1:]
        checkers = self.checkers.split() if place.can_repeat("valgrind") else []
        for it in checkers:
            valgrind = f"valgrind -q --error-exitcode=9 --tool={it}"
            place.run(f"{valgrind} $work/program")
            if self.wrong:
                wrong = f"{valgrind} --log-file=$work/{it} $work/program {self.wrong}"
                if it == "memcheck":
                    place.run(wrong, "", 9)
                else:
                    # A race may end it by a signal, too.
                    place.run(f"sh -c '\"$$@\"; exit 0' - {wrong}")
                if not re.search(REPORTS[it], (place.work / it).read_text(encoding="utf-8", errors="replace")):
                    raise Failed(f"{it} does not report what the word {self.wrong} does")
        if not self.checkers:
            return None
        return f"{' '.join(last)}; checkers: {' '.join(checkers) or 'none (the package valgrind of Debian has them)'}"


def addresses(place: Place) -> str | None:
    """Over INTERNER_STRING, whose texts move, the program must find one at another address."""
    told = Program("addresses", "-O1" + wrap("malloc realloc"), "memcheck")(place)
    place.refused(r"\Aaddresses\.c:\d+:.*not so: text\.bytes == known\[i\]\.bytes\n\Z", "$work/program string", status=1)
    return told


SANITIZED = "-O1 -fsanitize=address,undefined -fno-sanitize-recover=all"
# What must hold of the library whoever made it.
OF_LIBRARY: dict[str, Callable[[Place], str | None]] = {
    "random commands beside a list": Program("agree", SANITIZED),
    "each request for memory refused": Program("refuse", SANITIZED + wrap("malloc realloc")),
    "chosen texts": Program("flood", "-O2"),
    "reads of read-only memory": Program("readonly", "-O1" + wrap("malloc realloc free")),
    "three readers of one handle": Program("readers", "-O1 -pthread", "helgrind drd", "intern"),
    "threads that share a handle": Program("sharers", "-O1 -pthread" + wrap("rdlock wrlock unlock", "pthread_rwlock_") + wrap(
        "len get get_or_intern bucket_resolve copy_text", "interner_"), "helgrind drd", "unlocked"),
    "memory that is not initialised": Program("outputs", "-O1", "memcheck", "read"),
    "addresses that stay": addresses,
    "sizes": Program("sizes"),
}


def standards(place: Place) -> str:
    """The header by each standard of both languages. With short enums it does not compile."""
    include = '#include "string_interner.h"\n'
    for standard in "c99 c11 c17 gnu2x c++98 c++11 c++17 c++20".split():
        compiler = "c++ -x c++" if standard.startswith("c++") else "cc -x c"
        compiler += f" -std={standard} -fsyntax-only -I$out -"
        place.run(f"{compiler} {WARNINGS}", f"{include}int main() {{ return 0; }}\n")
        place.refused("interner_enums_take_four_bytes", f"{compiler} -fshort-enums", given=include)
    return "no warning"


def demo(place: Place, step: str = "$work/program") -> str:
    place.printed(step, "Elephant is 0", "Tiger is 1", "Horse is 2", "Tiger is 1", "2 is Horse", "3 texts")
    return "prints what it should"


def demo_of_archive(place: Place) -> str:
    place.run(f"{COMPILE}/examples/demo.c $out/libstring_interner.a")
    return demo(place)


def demo_by_script(place: Place) -> str:
    """It runs at the top of a repository."""
    place.run("mkdir $work/top")
    place.run("ln -s $clients $work/top")
    return demo(place, "in $work/top clients/c/examples/demo.sh")


def installed(place: Place) -> str:
    """Installs all in a folder, and uses it from there. The shared library is found under the name that it was linked by."""
    place.run("$clients/build --install $work/prefix $archive")
    if "NOW" not in place.run("readelf -d $work/prefix/lib/libstring_interner.so"):
        raise Failed("the shared library does not bind at its start")
    flags = place.run("PKG_CONFIG_PATH=$work/prefix/lib/pkgconfig pkg-config --cflags --libs string_interner")
    place.run(f"{COMPILE}/examples/demo.c {flags}")
    demo(place, "LD_LIBRARY_PATH=$work/prefix/lib $work/program")
    if not re.search(r"NEEDED.*libstring_interner\.so\.\d", place.run("readelf -d $work/program")):
        raise Failed("the program names no version")
    return f"{sum(not it.is_dir() for it in (place.work / 'prefix').rglob('*'))} files, used from there"


def lines(place: Place) -> str:
    """The example with keys, a line that is not UTF-8, and a list of all texts."""
    place.run(f"{COMPILE}/examples/lines.c $out/libstring_interner.a -fsanitize=address")
    text = r"Tiger\nHorse\n\377\376\nTiger\n\303\204lg\n"
    place.printed(f"sh -c 'printf \"{text}\" | \"$$0\"' $work/program", "line 3 is not UTF-8", "0 Tiger", "6 Horse", "12 Älg")
    return "prints what it should"


BUILT = Check("the library", "$clients/build $archive")
CHECKS = [
    Check("C, 20 lines against the archive", demo_of_archive),
    *(Check(f"C, {name}", run) for name, run in OF_LIBRARY.items()),
    Check("C, two threads", Program("threads", "-O1 -fsanitize=thread -pthread")),
    Check("C, the first program", Program("examples/first", "-fsanitize=address"), "run"),
    Check("C, lines under keys", lines),
    Check("C, the script that compiles a program", demo_by_script, needs=("pkg-config",)),
    Check("C, installed", installed, needs=("pkg-config",)),
    # With the warnings that C++ programmers ask for.
    Check("C++ over the header", f"""
        c++ -std=c++17 {WARNINGS} -Wold-style-cast -Wzero-as-null-pointer-constant -g -I$out -fsanitize=address,undefined \
            $clients/c/guard.cpp $out/libstring_interner.a -o $work/program
        $work/program""", needs=("c++",)),
    Check("the header, by each standard", standards, needs=("c++",)),
]


def shown(place: Place) -> str:
    """The names that both forms of the library show are those of the calls that `alike` makes, and no others."""
    wanted = sorted(f"interner_{it}" for it in re.findall(r"CALL\(([a-z0-9_]+)\)", read(CLIENTS / "c/alike.c")))
    for kinds, words in ("A-Za-z", "-D $out/libstring_interner.so"), ("A-Z", "--extern-only $out/libstring_interner.a"):
        found = re.findall(rf"^\S+ [{kinds}] (\S+)$", place.run(f"nm --defined-only {words}"), re.M)
        if sorted(found) != wanted:
            raise Failed(f"{words} differs in {sorted({*found} ^ {*wanted})}")
    return f"{len(wanted)} names of the header, and no others"


def place_by_cargo(work: Path, options: Options) -> Place:
    """Where the library is the one that cargo makes, in a copy of what that needs."""
    return Place(work, options, work / "tree/clients/out", work / "tree/clients/python")


MADE = "by cargo, the library"
BY_RT = Need(lambda _: b"proved by rt" in LIBRARY.with_suffix(".a").read_bytes(),
             "the library by cargo beside the one by rt (there is no rt)")
BY_CARGO = [
    Check(MADE, """
        mkdir -p $work/tree/clients
        cp -rL $clients/build $clients/c $clients/programs $clients/python $clients/rust $work/tree/clients
        cp -r $top/Cargo.toml $top/VERSION $top/.ci $top/bin $top/tools $work/tree
        $work/tree/clients/build --cargo""", also=(BY_RT,), once=False),
    Check("by cargo, what the library shows", shown, after=MADE, once=False),
    Check("by cargo, the same calls in both libraries", f"""
        cc -std=c11 {WARNINGS} -g -O1 -I$clients/c $clients/c/alike.c -ldl -o $work/program
        $work/program $clients/out/libstring_interner.so $out/libstring_interner.so""", after=MADE, once=False),
    *(Check(f"by cargo, {name}", run, after=MADE, once=False) for name, run in OF_LIBRARY.items()),
    Check("by cargo, the tests for Python", TESTS, "Ran [1-9]-", (HYPOTHESIS,), (HAS_MODULE,), MADE, once=False),
]
