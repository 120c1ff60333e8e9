"""The man page of each program, its --help, what it takes as arguments and what completes them name the same options and commands."""

import re
import shutil
import signal
import subprocess
import tempfile
import unittest
from pathlib import Path

CRATES = Path(__file__).resolve().parents[2] / "crates"
CRATE = CRATES / "dictcol"
PROGRAMS = "dictcol", "intern"
SCREEN_LINES, SCREEN_COLUMNS = 24, 80


def manual(program: str = "dictcol") -> str:
    return (CRATES / program / f"{program}.1").read_text()


def help_text(program: str = "dictcol") -> str:
    text = (CRATES / program / "src/help.rt").read_text()
    return text.partition('pub const HELP: &str = "\\\n')[2].partition('";')[0]


def table() -> dict[str, bool]:
    """The options of the table in options.rt, and whether each has a value."""
    source = (CRATE / "src/arguments/options.rt").read_text()
    rows = re.findall(r'^    \("(--?[a-z][a-z0-9-]*)", Setting::\w+, (true|false), \w+\),$', source, re.M)
    return {name: has_value == "true" for name, has_value in rows}


def words_of(taker: str) -> list[str]:
    """The words that a function of given.rt takes, each in an arm of its match."""
    source = (CRATE / "src/arguments/given.rt").read_text()
    body = source.partition(f"fn {taker}(")[2].partition("\n    }\n")[0]
    return re.findall(r'^ +"([a-z]+)" => ', body, re.M)


def options_of(text: str) -> set[str]:
    return set(re.findall(r"(?<![\w-])--?[a-z][a-z0-9-]*\b", text))


def shown_manual(program: str = "dictcol") -> str:
    """The man page in lines so long that no usage line breaks."""
    shown = subprocess.run(["groff", "-ww", "-mdoc", "-Tascii", "-P-cbou", "-rLL=300n"], input=manual(program), check=True,
                           capture_output=True, encoding="ascii")
    return shown.stdout + shown.stderr


class ManualTest(unittest.TestCase):
    def test_the_help_fits_a_screen(self) -> None:
        for program in PROGRAMS:
            lines = help_text(program).splitlines()
            self.assertGreater(len(lines), 9)
            self.assertLessEqual(len(lines), SCREEN_LINES)
            self.assertEqual([line for line in lines if len(line) > SCREEN_COLUMNS], [])

    def test_options(self) -> None:
        """Each option that is taken is told twice, and no other."""
        taken = table()
        self.assertIn("--sorted", taken)
        self.assertEqual(options_of(help_text()), {*taken})
        defined = re.findall(r"^\.It Fl (.*?)( Ar .*)?$", manual(), re.M)
        names = {f"-{name}".replace("\\-", "-"): bool(value) for line, value in defined for name in line.split(" , ")}
        names.pop("--")
        self.assertEqual(names, taken)
        usage, _, body = help_text().partition("\n\n")
        # The usage alone tells the value of this one.
        self.assertIn("--rows A..B", usage)
        valued = {"--rows", *re.findall(r"(--?[a-z][a-z0-9-]*) [A-Z]+\b", body)}
        self.assertEqual(valued, {name for name, has_value in taken.items() if has_value})

    def test_usage(self) -> None:
        """The synopsis has the usage lines, and the description each command."""
        for program in PROGRAMS:
            usage = re.findall(rf"^(?:usage:|      ) ({program} .*)$", help_text(program), re.M)
            self.assertGreater(len(usage), 1)
            synopsis = shown_manual(program).partition("\nSYNOPSIS\n")[2].partition("\n\n")[0]
            lines = [line.strip() for line in synopsis.split("\n")]
            # The last line of that of dictcol asks for these texts.
            self.assertEqual(lines[:-1] if program == "dictcol" else lines, usage)
            words = [line.split()[1] for line in usage] if program == "dictcol" else []
            self.assertEqual([it for it in words if not re.search(rf"^\.It Cm {it}$", manual(program), re.M)], [])

    def test_the_words_of_intern(self) -> None:
        """The usage line is that of a fault, the two words are those that main.rt takes, and each line is told in the same order."""
        usage = re.findall(r'^    #\[error\("(usage: .*)"\)\]$', (CRATES / "intern/src/fault.rt").read_text(), re.M)
        self.assertEqual(help_text("intern").splitlines()[:1], usage)
        taken = set(re.findall(r'word\.as_str\(\) == "(-.*?)"', (CRATES / "intern/src/main.rt").read_text()))
        self.assertEqual(options_of(help_text("intern")), taken)
        told = re.findall(r"^\.It Fl (.*)$", manual("intern"), re.M)
        self.assertEqual({f"-{name}".replace("\\-", "-") for name in told}, taken)
        lines = re.findall(r"^((?:[ignr] [A-Z]+)|len|shrink)  ", help_text("intern"), re.M)
        self.assertEqual(len(lines), 6)
        self.assertEqual([it.replace(" Ar", "") for it in re.findall(r"^\.It Li (.*)$", manual("intern"), re.M)], lines)

    def test_the_help_says_where_the_page_is(self) -> None:
        for program in PROGRAMS:
            self.assertIn(f"crates/{program}/{program}.1", help_text(program))
            self.assertIn("bin/install", help_text(program))

    def test_the_status_at_a_limit_of_files(self) -> None:
        self.assertIn(f"status {128 + signal.SIGXFSZ}.", manual())

    def test_nothing_is_warned_of(self) -> None:
        for program in PROGRAMS:
            self.assertNotIn("warning", shown_manual(program))


# Prints, a word a line, what the function of the script offers for the last of some words.
OFFER = '. "$0"; COMP_WORDS=("$@"); COMP_CWORD=$(($# - 1)); _dictcol; printf "%s\\n" "${COMPREPLY[@]}"'


class CompletionsTest(unittest.TestCase):
    def setUp(self) -> None:
        self.folder = tempfile.TemporaryDirectory()
        self.addCleanup(self.folder.cleanup)
        program = Path(self.folder.name, "dictcol")
        program.write_text(f"#!/bin/sh\ncat <<'END'\n{help_text()}END\n")
        program.chmod(0o700)

    def offered(self, *words: str) -> list[str]:
        ran = subprocess.run(["bash", "-c", OFFER, CRATE / "completions/dictcol.bash", "dictcol", *words], check=True,
                             capture_output=True, encoding="ascii", env={"PATH": f"{self.folder.name}:/usr/bin:/bin"})
        self.assertEqual(ran.stderr, "")
        return sorted(set(ran.stdout.split()))

    def test_options(self) -> None:
        for before in ((), ("count",), ("count", "lines"), ("--sorted",)):
            self.assertEqual(self.offered(*before, "-"), sorted(table()))
            self.assertEqual(self.offered(*before, "--on"), ["--onto", "--onto-dictionary"])

    def test_commands(self) -> None:
        commands = sorted(words_of("take_command"))
        self.assertEqual(len(commands), 7)
        for before in ((), ("--sorted",), ("--backend", "string"), ("--backend", "=", "string")):
            self.assertEqual(self.offered(*before, ""), commands)
        self.assertEqual(self.offered("me"), ["merge"])
        # Behind one come files, which the shell completes itself.
        for before in (("count",), ("--sorted", "count"), ("encode", "--plain"), ("count", "--sorted", "lines")):
            self.assertEqual(self.offered(*before, ""), [])

    def test_values(self) -> None:
        for option, taker in (("--backend", "parse_backend"), ("--invalid", "parse_mending")):
            values = sorted(words_of(taker))
            self.assertEqual(len(values), 3)
            for words in ((option, ""), ("count", option, ""), ("count", option, "="), ("count", option, "=", "")):
                self.assertEqual(self.offered(*words), values)
            self.assertEqual(self.offered("count", option, "=", values[0][:3]), values[:1])

    def test_other_shells(self) -> None:
        """The scripts for zsh and fish take the same of the help as that for bash."""
        scripts = [(CRATE / "completions" / name).read_text() for name in ("dictcol.bash", "_dictcol", "dictcol.fish")]
        for pattern in r"sed -nE '.*?'", r"grep -oE '.*?' .*?\| tr -d '.*?'", r"awk -v .*?'.*?print }'":
            found = [re.findall(pattern, script) for script in scripts]
            self.assertEqual([len(it) for it in found], [1, 1, 1])
            # How each shell passes the help and the option before, and that fish wants lines.
            plain = {re.sub(r'option="?\$\w+"?|<<<"?\$help"? |gsub\(/ /, "\\n"\); ', "", it[0]) for it in found}
            self.assertEqual(len(plain), 1, plain)
        for shell, script in (("zsh", "_dictcol"), ("fish", "dictcol.fish")):
            if shutil.which(shell):
                subprocess.run([shell, "-n", CRATE / "completions" / script], check=True)


if __name__ == "__main__":
    unittest.main()
