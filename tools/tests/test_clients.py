"""How clients/build makes the library and the module for Python, how clients/check runs its checks, and that exports which lend change nothing."""

import contextlib
import io
import os
import re
import shutil
import subprocess
import tempfile
import unittest
from pathlib import Path
from string import Template
from unittest import mock

from small import link_commands
import check_clients
from client_checks import c
from check_clients import LANGUAGES
from client_checks.table import Check, Language, Need, Options, Steps, Told
from source import functions
from tree import TOP, read

# Stands for `rt lib`, `rt doc` and `rt version`: makes an archive of a crate in C, and says where and what the toolchain is.
RT = """#!/bin/sh
[ "$1" = version ] && {{ echo 'kit-1 logic 1f'; exit; }}
echo "$1" >> '{top}/calls'
[ "$1" = doc ] && {{ echo '{top}/rt/START'; exit; }}
echo 'proved: something'
[ "$(cat src/lib.rt)" = good ] || exit 1
mkdir -p out && rm -f out/*
echo 'void *rattle_alloc(void); unsigned interner_version(void) {{ return rattle_alloc() != 0; }}' > out/lib.c
cc -fPIC -c out/lib.c -o out/lib.o && ar rcs out/libstring_interner_c.a out/lib.o
"""

# Stands for cargo: says what machine this is, and makes an archive of what the header names and of something else, for a target.
CARGO = """#!/bin/sh
[ "$1" = -vV ] && {{ echo 'host: this-machine'; exit; }}
echo cargo >> '{top}/calls'
target=$CARGO_BUILD_TARGET
while [ "$1" != --target-dir ]; do
  [ "$1" != --target ] || target=$2
  shift
done
mkdir -p "$2/$target/release" && cd "$2/$target/release"
echo 'unsigned interner_version(void) {{ return 1; }} const char *interner_build(void) {{ return "proved source, compiled by rustc"; }}
unsigned rust_panic(void) {{ return 1; }}' > lib.c
echo 'unsigned rest_of_core(void) {{ return 1; }}' > core.c
cc -fPIC -c lib.c core.c && ar rcs libstring_interner.a lib.o core.o
"""

# Stands for the build of the module.
SETUP = """from pathlib import Path
Path("string_interner/_native.abi3.so").touch()
with open("{top}/calls", "a") as calls:
    calls.write("module\\n")
"""


class ClientsBuild(unittest.TestCase):
    commands: str

    @classmethod
    def setUpClass(cls):
        """The commands of this machine, but for cargo, which Debian has among them."""
        folder = tempfile.TemporaryDirectory()
        cls.addClassCleanup(folder.cleanup)
        cls.commands = folder.name
        link_commands(cls.commands, without="cargo")

    def setUp(self):
        folder = tempfile.TemporaryDirectory()
        self.addCleanup(folder.cleanup)
        self.top = Path(folder.name, "copy")
        shutil.copytree(TOP / "bin", self.top / "bin")
        (self.top / "clients/c").mkdir(parents=True)
        for name in ("tools", ".ci", "clients/python/native", "clients/python/string_interner"):
            (self.top / name).mkdir(parents=True)
        tools = ("tools/records.py", "tools/machine.py", "tools/needs.py")
        for name in ("clients/build", "clients/c/build.c", "clients/c/string_interner.h", "VERSION", *tools, ".ci/packages"):
            shutil.copy(TOP / name, self.top / name)
        # The archives below have no function that the source of shared handles calls.
        (self.top / "clients/c/shared.c").write_text("int interner_share(void) { return 0; }\n")
        self.out = self.top / "clients/out"
        self.made = self.top / "crates/string_interner_c/out/libstring_interner_c.a"
        self.source = self.top / "crates/string_interner_c/src/lib.rt"
        self.source.parent.mkdir(parents=True)
        self.source.write_text("good")
        (self.top / "crates.txt").write_text("string_interner_c staticlib: handles\n")
        (self.top / "clients/python/setup.py").write_text(SETUP.format(top=self.top))
        (self.top / "rt/c").mkdir(parents=True)
        for name, text in (("rt/rt", RT), ("cargo/cargo", CARGO)):
            command = self.top / name
            command.parent.mkdir(exist_ok=True)
            command.write_text(text.format(top=self.top))
            command.chmod(0o755)
        for name in ("Cargo.toml", "clients/c/Cargo.toml", "clients/c/src", "clients/rust/Cargo.toml", "clients/rust/src"):
            (self.top / name).mkdir(parents=True)
        (self.top / "clients/rust/src/unchecked.rs").write_text("unchecked")
        heap = self.top / "rt/c/heap"
        heap.with_suffix(".c").write_text("void *rattle_alloc(void) { return 0; }\n")
        subprocess.run(["cc", "-fPIC", "-c", heap.with_suffix(".c"), "-o", heap.with_suffix(".o")], check=True)
        subprocess.run(["ar", "rcs", heap.with_name("liblibc_c.a"), heap.with_suffix(".o")], check=True)

    def build(self, *words, has_rt=True, has_cargo=False, fails=False, **settings):
        path = (f"{self.top}/rt:" if has_rt else "") + (f"{self.top}/cargo:" if has_cargo else "") + self.commands
        ran = subprocess.run([self.top / "clients/build", *words], env={"PATH": path, **settings}, stdin=subprocess.DEVNULL, cwd=self.top,
                             capture_output=True, encoding="utf-8", check=False)
        self.assertEqual(ran.returncode, fails, ran)
        return ran

    @property
    def proofs(self):
        return (self.top / "calls").read_text().split().count("lib")

    @property
    def modules(self):
        return (self.top / "calls").read_text().split().count("module")

    def edit(self, path, text=None, stamp="build.stamp"):
        path.write_text(path.read_text() if text is None else text)
        future = os.stat(self.out / stamp).st_mtime + 10
        os.utime(path, (future, future))

    def test_proves_once_and_without_a_log(self):
        for _ in range(2):
            ran = self.build()
            self.assertEqual(ran.stdout, f"build: {self.out}: proved by rt\n")
            self.assertNotIn("something", ran.stderr)
        self.assertEqual((self.proofs, self.modules, ran.stderr), (1, 1, ""))
        self.build("--install", "there", has_rt=False)
        self.assertTrue((self.top / "there/lib/libstring_interner.so").exists())

    def test_says_that_cargo_is_at_work(self):
        # It says so each time that it has slept. Cargo ends once it sleeps again, also if cargo begins before it sleeps at all.
        (self.top / "slept").touch()
        sleeps = f"#!/bin/sh\necho sleeps >> '{self.top}/slept'\nexec /bin/sleep 0.1\n"
        waits = f"for turn in $(seq 6000); do [ $(grep -cs . '{self.top}/slept') -lt 3 ] || break; /bin/sleep 0.1; done; echo cargo"
        for name, text in (("sleep", sleeps), ("cargo", CARGO.format(top=self.top).replace("echo cargo", waits))):
            (self.top / "cargo" / name).write_text(text)
            (self.top / "cargo" / name).chmod(0o755)
        ran = self.build(has_rt=False, has_cargo=True)
        self.assertRegex(ran.stderr, r"(?m)\Abuild: compiling the library for C by cargo, in a minute\n(build: still compiling, [0-9]+ s\n)+build: making")
        self.assertEqual(self.build(has_rt=False, has_cargo=True).stderr, "")

    def test_proves_again_after_an_edit(self):
        self.build()
        for count, path in enumerate((self.source, self.top / "crates.txt", self.top / "clients/c/string_interner.h"), 2):
            self.edit(path)
            self.build()
            self.assertEqual(self.proofs, count, path)
            os.utime(path, (1, 1))
        (self.out / "string_interner.pc").unlink()
        self.build()
        self.assertTrue((self.out / "string_interner.pc").exists())

    def test_makes_the_module_again_after_an_edit(self):
        self.build()
        self.edit(self.top / "clients/python/setup.py", stamp="module.stamp")
        self.assertRegex(self.build().stderr, f"making the module for Python by {self.commands}/python3\n")
        self.assertEqual((self.proofs, self.modules), (1, 2))

    def test_makes_all_again_after_an_edit_with_an_older_time(self):
        self.build()
        for path in ("clients/c/string_interner.h", "clients/python/setup.py"):
            with open(self.top / path, "a", encoding="utf-8") as file:
                file.write("\n")
            os.utime(self.top / path, (1, 1))
            self.build()
        self.assertEqual((self.proofs, self.modules), (2, 3))

    def test_shows_the_log_of_a_failed_proof(self):
        self.build()
        self.edit(self.source, "bad")
        self.assertIn("proved: something", self.build(fails=True).stderr)
        self.edit(self.source, "good")
        self.build()

    def test_takes_an_archive(self):
        self.build()
        shutil.copy(self.made, self.top / "crate.a")
        shutil.copy(self.out / "libstring_interner.a", self.top / "whole.a")
        shutil.rmtree(self.out)
        self.build("crate.a")
        made = os.stat(self.out / "libstring_interner.a").st_ino
        self.build("crate.a", has_rt=False)
        self.assertEqual(os.stat(self.out / "libstring_interner.a").st_ino, made)
        future = os.stat(self.out / "archive.stamp").st_mtime + 10
        os.utime(self.top / "crate.a", (future, future))
        self.assertIn("no rt", self.build("crate.a", has_rt=False, fails=True).stderr)
        self.build("whole.a", has_rt=False)
        self.build("clients/out/libstring_interner.a", has_rt=False)
        self.assertEqual(self.proofs, 1)
        # What was made of an archive may be of other sources.
        self.build()
        self.assertEqual(self.proofs, 2)

    def shown(self, name, *words):
        ran = subprocess.run(["nm", *words, "--defined-only", self.out / name], capture_output=True, encoding="utf-8", check=True)
        return sorted(line.split()[-1] for line in ran.stdout.splitlines() if " T " in line)

    def test_builds_by_cargo_where_there_is_no_rt(self):
        for _ in range(2):
            ran = self.build(has_rt=False, has_cargo=True)
            self.assertEqual(ran.stdout, f"build: {self.out}: proved source, compiled by rustc\n")
        self.assertEqual(ran.stderr, "")
        self.assertEqual((self.top / "calls").read_text().split(), ["cargo", "module"])
        for name, words in (("libstring_interner.a", ()), ("libstring_interner.so.1", ("-D",))):
            self.assertEqual(self.shown(name, *words), ["interner_build", "interner_share", "interner_version"], name)
        self.edit(self.top / "clients/rust/src/unchecked.rs", stamp="cargo.stamp")
        self.build(has_rt=False, has_cargo=True)
        self.assertEqual((self.top / "calls").read_text().split().count("cargo"), 2)

    def test_builds_by_cargo_where_another_program_is_called_rt(self):
        (self.top / "rt/rt").write_text("#!/bin/sh\necho 'rt: no such command' >&2\nexit 1\n")
        self.assertEqual(self.build(has_cargo=True).stdout, f"build: {self.out}: proved source, compiled by rustc\n")
        shutil.rmtree(self.out)
        self.assertRegex(self.build(fails=True).stderr, "^build: no cargo on this machine: .*\n$")

    def test_builds_by_cargo_for_this_machine(self):
        self.build(has_rt=False, has_cargo=True, CARGO_BUILD_TARGET="another-machine")
        self.assertEqual(self.shown("libstring_interner.a"), ["interner_build", "interner_share", "interner_version"])

    def test_builds_by_rt_where_both_are(self):
        self.build(has_cargo=True)
        self.build("--cargo", has_cargo=True)
        self.assertEqual(self.build(has_cargo=True).stdout, f"build: {self.out}: proved by rt\n")
        # What is made stays, whatever is there.
        self.assertEqual(self.build(has_rt=False).stdout, f"build: {self.out}: proved by rt\n")
        self.assertEqual(((self.top / "calls").read_text().split().count("cargo"), self.proofs), (1, 2))

    def test_says_how_to_call_it(self):
        self.assertIn("--install PREFIX", self.build("--help").stdout)
        for words in (["--install"], ["-x"], ["a", "b"], ["--cargo", "a"]):
            ran = subprocess.run([self.top / "clients/build", *words], capture_output=True, encoding="utf-8", check=False)
            self.assertEqual((ran.returncode, ran.stdout), (2, ""), words)
            self.assertIn("usage", ran.stderr)


class ChecksTest(unittest.TestCase):
    """How checks of a table run, and what is told of them."""

    def tell(self, *checks, **options):
        """What is told, in order, and what passed and failed."""
        told = Told()
        missing = mock.patch("client_checks.table.missing", lambda needs: [f"no {it}" for it in needs])
        with missing, contextlib.redirect_stdout(io.StringIO()) as printed:
            told.try_all(Language([*checks]), Options(**options))
        return printed.getvalue().splitlines(), told.passed, told.failed

    def test_steps(self):
        cases: tuple[tuple[Steps, str], ...] = (
            ("printf 'one\\ntwo\\n'", "it: two"),
            ("in $work NAME='a b' sh -c 'echo \"$$NAME $$0\" > file' $out\nin $work cat file", f"it: a b {TOP}/clients/out"),
            ("HOME= sh -c 'echo \"none:$$HOME\"'", "it: none:"),
            (lambda place: place.refused("^no", "sh -c 'echo no; exit 3'"), "it: no"),
            (lambda place: place.printed("cat", "a", given="a\n"), "it: a"),
            (lambda place: "said", "it: said"),
        )
        for steps, line in cases:
            self.assertEqual(self.tell(Check("it", steps)), ([line], 1, 0))

    def test_what_fails(self):
        failing: tuple[Steps, ...] = (
            "true\nfalse\ntrue", "no-such-command", lambda place: place.refused("yes", "false"), lambda place: place.only("*"),
            lambda place: place.refused("", "true"), lambda place: place.printed("echo a", "b"))
        for steps in failing:
            lines, passed, failed = self.tell(Check("it", steps))
            self.assertEqual((lines[0], passed, failed), ("it: failed", 0, 1))

    def test_what_is_told(self):
        step = "printf 'test a ... ok\\ntest b ... FAILED\\ntest c ... ok\\nRan 7\\nlast\\n'"
        for tells, told in (("{} tests", "2 tests"), ("Ran [1-9]-", "Ran 7"), ("words", "words"), ("", "last")):
            self.assertEqual(self.tell(Check("it", step, tells))[0], [f"it: {told}"])
        for tells in "{} tests", "Ran [1-9]-":
            self.assertEqual(self.tell(Check("it", "echo Ran 0", tells))[1:], (0, 1))

    def test_what_is_left_out(self):
        lacks = Check("b", "true", needs=("cc",))
        self.assertEqual(self.tell(Check("a", "true"), lacks), (["no cc", "a: "], 1, 1))
        self.assertEqual(self.tell(lacks, what_is_there=True), (["no cc"], 0, 0))
        self.assertEqual(self.tell(Check("a", "true", also=(Need(lambda _: False, "a thing"),))), (["left out: a thing"], 0, 0))
        self.assertEqual(self.tell(Check("a", "true", needs=("cc",), once=False), once=True), ([], 0, 0))
        self.assertEqual(self.tell(Check("a", "false"), Check("b", "true", after="a"))[1:], (0, 1))
        self.assertEqual(self.tell(Check("a", "true"), Check("b", "true", after="a"))[1:], (2, 0))

    def test_languages_without_the_library(self):
        languages = {"wants": Language([Check("a", "true")]), "apart": Language([Check("b", "true")], wants_library=False)}
        for built, lines, counts in (("true", {"the library: ", "a: ", "b: "}, (3, 0)),
                                     ("false", {"the library: failed", "left out: all that wants the library", "b: "}, (1, 1))):
            told = Told()
            changed = mock.patch.dict(LANGUAGES, languages, clear=True)
            with changed, mock.patch.object(c, "BUILT", Check("the library", built)):
                with contextlib.redirect_stdout(io.StringIO()) as printed:
                    check_clients.run_languages([*languages], Options(), told)
            self.assertEqual(({it for it in printed.getvalue().splitlines() if it[0] != " "}, (told.passed, told.failed)), (lines, counts))

    def test_each_name_of_a_step_is_known(self):
        for language in LANGUAGES.values():
            with tempfile.TemporaryDirectory() as work:
                known = language.place(Path(work), Options()).names
                for check in language.checks:
                    if isinstance(check.steps, str):
                        Template(check.steps).substitute(known)

    def test_names(self):
        names = [check.name for language in LANGUAGES.values() for check in language.checks]
        self.assertEqual(len({*names}), len(names))
        for language in LANGUAGES.values():
            before = {""}
            for check in language.checks:
                self.assertIn(check.after, before)
                before.add(check.name)


EXPORTS = TOP / "crates/string_interner_c/src/lib.rt"
# A call on what `read` lends, or what `tell` makes of its outcome. Its arguments are parameters.
CALL = r"h\.read\(\)\.\w+\((?:(?!h\b)\w+(?:, (?!h\b)\w+)*)?\)"
BODY = re.compile(rf"(?:{CALL}|tell\({CALL}, (?!h\b)\w+\))")
LENDS = re.compile(r"\bh: &'\w+ mut Handle\b")
LIFETIME = re.compile(r"\bfn \w+<'")


def bodies(text):
    """The body of each function that lends what a handle holds, by its name."""
    lending = (it for it in functions(text) if LENDS.search(it.contract))
    return {it.name: " ".join(it.text.removeprefix(it.contract).strip("{}\n").split()) for it in lending}


class LendingTest(unittest.TestCase):
    def test_each_export_that_lends_is_one_call_that_reads(self):
        found = bodies(read(EXPORTS))
        self.assertEqual({*found}, {
            "interner_resolve", "interner_string_resolve", "interner_bucket_resolve", "interner_buffer_resolve", "interner_string_joined",
            "interner_entries"})
        for name, body in found.items():
            with self.subTest(name):
                self.assertRegex(body, f"^{BODY.pattern}$")

    def test_what_lends_has_its_lifetime(self):
        """No other export writes something that borrows."""
        for it in functions(read(EXPORTS)):
            with self.subTest(it.name):
                self.assertEqual(bool(LIFETIME.search(it.contract)), bool(LENDS.search(it.contract)))

    def test_bodies_that_change_the_handle(self):
        """Each is proved, although texts are gone."""
        for body in (
            "if h.read().lend(symbol).is_err() { h.interner().truncate(1 << 20); return 4; } tell(h.read().lend(symbol), text)",
            "if symbol == u32::MAX { h.interner().truncate(0); } tell(h.read().lend(symbol), text)",
            "let len = h.interner().len(); h.interner().truncate(len / 2); tell(h.read().lend(symbol), text)",
            "tell(lose(h, symbol), text)",
            "tell(h.read().lend(lose(h)), text)",
            "tell(h.read().lend(symbol), lose(h, text))",
            "h.interner().entries(cursor, entries)",
            "h.read().entries(cursor, h)",
            "h.read().entries(cursor, entries); h.interner().truncate(0)",
        ):
            with self.subTest(body):
                text = f"pub extern \"C\" fn f<'a>(h: &'a mut Handle, text: &mut Text<'a>) -> u32\n    ensures {{ x }}\n{{\n    {body}\n}}\n"
                self.assertEqual([*bodies(text)], ["f"])
                self.assertNotRegex(bodies(text)["f"], f"^{BODY.pattern}$")


if __name__ == "__main__":
    unittest.main()
