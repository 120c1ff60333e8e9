"""How bin/ starts a program: current, stale or missing, with rt, by cargo, and with neither."""

import contextlib
import os
import pty
import re
import shutil
import subprocess
import tempfile
import unittest
from pathlib import Path

from small import link_commands

TOP = Path(__file__).resolve().parents[2]

# Stands for `rt`: "builds" a program that prints what it was built of, and tells how far it is if a file says how long it takes.
RT = """#!/bin/sh
[ "$1" = version ] && { echo 'kit-1 logic 1f'; exit; }
[ -d src ] || exit
mkdir -p out/incremental/of_this_prover
touch out/incremental/of_this_prover/first.Proof.oantt out/incremental/of_this_prover/type.TheImpl.Proof.oantt
if [ -e ../../takes ]; then
    echo "rt: waiting for another rt to finish in $PWD"
    echo 'so far: 0 of 8 functions checked; the verdict comes last'
    sleep "$(cat ../../takes)"
fi
echo "echo \\"$(cat src/main.rt) \\$*\\"" > out/intern
chmod +x out/intern
echo built
"""

# Another program with this name, which would wait for input.
OTHER_RT = """#!/bin/sh
echo 'rt: no such command' >&2
echo "$*"
exec cat
"""

# Stands for cargo, in the same way. A setting of it may name another target than this machine.
CARGO = """#!/bin/sh
if [ "$1" = -vV ]; then
    echo 'host: of_this_machine'
    exit
fi
words='build --release --offline --target-dir target -p string-interner-programs --bin intern'
[ "$*" = "$words --target of_this_machine" ] || exit 1
mkdir -p target/of_this_machine/release
echo "echo \\"by cargo: $(cat clients/programs/src/lib.rs) \\$*\\"" > target/of_this_machine/release/intern
chmod +x target/of_this_machine/release/intern
"""
# What cargo compiles, and where that is.
COMPILED = ("Cargo.toml", "clients/programs/Cargo.toml", "clients/programs/src/lib.rs", "clients/rust/Cargo.toml",
            "clients/rust/src/lib.rs", "clients/rust/src/erased/mod.rs")


class Start(unittest.TestCase):
    commands: tempfile.TemporaryDirectory[str]

    @classmethod
    def setUpClass(cls):
        """The commands of this machine, but for cargo, which Debian has among them."""
        cls.commands = tempfile.TemporaryDirectory()
        cls.addClassCleanup(cls.commands.cleanup)
        link_commands(cls.commands.name, without="cargo")

    def setUp(self):
        self.folder = tempfile.TemporaryDirectory()
        self.addCleanup(self.folder.cleanup)
        self.top = Path(self.folder.name, "a copy")
        shutil.copytree(TOP / "bin", self.top / "bin")
        (self.top / "tools").mkdir()
        for name in ("records.py", "machine.py"):
            shutil.copy(TOP / "tools" / name, self.top / "tools")
        for name in ("intern", "string_interner", "dictcol"):
            (self.top / "crates" / name / "src").mkdir(parents=True)
        (self.top / "crates.txt").write_text("string_interner: serde_json\nintern: string_interner thiserror\ndictcol: string_interner\n")
        self.source = self.top / "crates/intern/src/main.rt"
        self.write(self.source, "old")
        (self.top / "rt").mkdir()
        for name in COMPILED:
            (self.top / name).parent.mkdir(parents=True, exist_ok=True)
            self.write(self.top / name, "old")
        (self.top / "cargo").mkdir()
        for path, text in (self.top / "rt/rt", RT), (self.top / "cargo/cargo", CARGO):
            path.write_text(text)
            path.chmod(0o755)

    def write(self, path, text):
        """Writes a file, with a time in the past: what is older than a second is never taken for newer."""
        path.write_text(text)
        os.utime(path, (1, 1))
        os.utime(path.parent, (1, 1))

    def run_bin(self, *words, has_rt=True, has_cargo=False, **environment):
        path = ":".join([f"{self.top}/rt"] * has_rt + [f"{self.top}/cargo"] * has_cargo + [self.commands.name])
        return subprocess.run([str(self.top / "bin/intern"), *words], env={"PATH": path} | environment, stdin=subprocess.DEVNULL,
                              capture_output=True, encoding="utf-8", check=False)

    def edit(self, path, text, folder="crates/intern"):
        path.write_text(text)
        future = os.stat(self.top / folder / "out/bin-intern.stamp").st_mtime + 10
        os.utime(path, (future, future))

    def test_builds_what_is_missing(self):
        ran = self.run_bin("buffer", "a b")
        self.assertEqual((ran.returncode, ran.stdout), (0, "old buffer a b\n"))
        self.assertIn("proving and building", ran.stderr)

    def build_again(self, run, *patterns):
        """Builds, and returns what was said. Builds again, where each crate takes longer, if what it said has not all of these: on a
        busy machine a crate may be proved before it was said how far it is."""
        for takes in ("1.5", "3", "6", "12"):
            for crate in ("string_interner", "intern"):
                shutil.rmtree(self.top / "crates" / crate / "out", ignore_errors=True)
            (self.top / "takes").write_text(takes)
            said = run()
            if all(re.search(pattern, said) for pattern in patterns):
                break
        for pattern in patterns:
            self.assertRegex(said, pattern)
        return said

    def test_tells_each_minute_how_far_it_is(self):
        said = self.build_again(lambda: self.run_bin("string", SECONDS="58").stderr,
                                r"\nintern: proving \w+ \(crate [12] of 2\), 1 of 8 functions, 1 min \d+ s\n")
        for crate in ("string_interner", "intern"):
            self.assertIn(f"intern: waiting for another run in {self.top}/crates/{crate}\n", said)

    def run_on_a_terminal(self):
        """What a build says on a terminal."""
        ours, theirs = pty.openpty()
        words, environment = [str(self.top / "bin/intern"), "string"], {"PATH": f"{self.top}/rt:/usr/bin:/bin", "TERM": "xterm"}
        subprocess.run(words, env=environment, stdin=subprocess.DEVNULL, stdout=subprocess.DEVNULL, stderr=theirs, check=True)
        os.close(theirs)
        said = b""
        # A read may give less than what is there. Behind all of it there is an error, because nobody has the other end any more.
        with contextlib.suppress(OSError):
            while piece := os.read(ours, 1 << 16):
                said += piece
        os.close(ours)
        return said.decode()

    def test_tells_each_second_on_a_terminal(self):
        said = self.build_again(self.run_on_a_terminal, *(
            rf"\rintern: proving {crate} \(crate {number} of 2\), 1 of 8 functions, 0 min \d+ s\x1b\[K"
            for number, crate in enumerate(("string_interner", "intern"), 1)))
        self.assertTrue(said.endswith("\r\x1b[K"))

    def test_runs_what_is_current(self):
        self.run_bin("string")
        ran = self.run_bin("string", has_rt=False)
        self.assertEqual((ran.returncode, ran.stdout, ran.stderr), (0, "old string\n", ""))

    def test_builds_again_after_an_edit(self):
        for path in (self.source, self.top / "crates/string_interner/src/lib.rt", self.top / "crates.txt"):
            self.write(self.source, "old")
            self.run_bin("string")
            self.edit(path, "new" if path == self.source else (self.top / "crates.txt").read_text())
            self.assertIn("proving and building", self.run_bin("string").stderr, path)

    def test_builds_again_after_an_edit_with_an_older_time(self):
        self.run_bin("string")
        self.write(self.source, "new")
        ran = self.run_bin("string")
        self.assertEqual(ran.stdout, "new string\n")
        self.assertIn("proving and building", ran.stderr)

    def test_copies_and_links_are_current(self):
        self.run_bin("string")
        os.link(self.source, self.top / "rt/linked")
        copy = shutil.copytree(self.top, self.top.with_name("copied"))
        for top in (self.top, copy):
            ran = subprocess.run([top / "bin/intern", "x"], stdin=subprocess.DEVNULL, capture_output=True, encoding="utf-8", check=False)
            self.assertEqual((ran.returncode, ran.stdout, ran.stderr), (0, "old x\n", ""), top)

    def test_no_edit_of_another_crate_builds_again(self):
        self.run_bin("string")
        self.edit(self.top / "crates/dictcol/src/main.rt", "")
        self.assertEqual(self.run_bin("string").stderr, "")

    def test_runs_what_is_stale_with_a_warning_without_rt(self):
        self.run_bin("string")
        self.edit(self.source, "new")
        ran = self.run_bin("string", has_rt=False)
        self.assertEqual((ran.returncode, ran.stdout), (0, "old string\n"))
        self.assertEqual(ran.stderr, "intern: this program may be older than its sources, and cannot be built here\n")

    def test_compiles_by_cargo_without_rt(self):
        ran = self.run_bin("buffer", "a b", has_rt=False, has_cargo=True)
        self.assertEqual((ran.returncode, ran.stdout), (0, "by cargo: old buffer a b\n"))
        self.assertEqual(ran.stderr, "intern: compiling the program by cargo, in a minute, because there is no rt\n")
        for has_cargo in (True, False):
            ran = self.run_bin("string", has_rt=False, has_cargo=has_cargo)
            self.assertEqual((ran.returncode, ran.stdout, ran.stderr), (0, "by cargo: old string\n", ""))

    def test_compiles_again_after_an_edit(self):
        for name in COMPILED:
            self.run_bin("string", has_rt=False, has_cargo=True)
            self.edit(self.top / name, "new", "clients/programs")
            ran = self.run_bin("string", has_rt=False)
            self.assertIn("may be older than its sources", ran.stderr, name)
            self.assertIn("compiling", self.run_bin("string", has_rt=False, has_cargo=True).stderr, name)

    def test_takes_rt_before_cargo(self):
        ran = self.run_bin("string", has_cargo=True)
        self.assertEqual((ran.returncode, ran.stdout), (0, "old string\n"))
        self.edit(self.source, "new")
        ran = self.run_bin("string", has_rt=False, has_cargo=True)
        self.assertEqual(ran.stdout, "by cargo: old string\n")
        self.assertEqual(self.run_bin("string", has_cargo=True).stdout, "new string\n")

    def test_another_program_that_is_called_rt(self):
        (self.top / "rt/rt").write_text(OTHER_RT)
        ran = self.run_bin("string")
        self.assertEqual((ran.returncode, ran.stdout), (1, ""))
        self.assertRegex(ran.stderr, "^intern: the program is not built, .*\n$")
        ran = self.run_bin("buffer", "a b", has_cargo=True)
        self.assertEqual((ran.returncode, ran.stdout), (0, "by cargo: old buffer a b\n"))
        self.assertEqual(ran.stderr, "intern: compiling the program by cargo, in a minute, because there is no rt\n")

    def test_says_why_cargo_failed(self):
        (self.top / "cargo/cargo").write_text("#!/bin/sh\necho 'no such edition' >&2\nexit 101\n")
        ran = self.run_bin("string", has_rt=False, has_cargo=True)
        self.assertEqual((ran.returncode, ran.stdout), (1, ""))
        self.assertIn("no such edition\nintern: the program was not built\n", ran.stderr)

    def test_says_what_is_wanted_where_nothing_is_built(self):
        ran = self.run_bin("string", has_rt=False)
        self.assertEqual((ran.returncode, ran.stdout), (1, ""))
        self.assertIn("not built", ran.stderr)

    def test_a_link_starts_it_too(self):
        self.run_bin("string")
        for link, to, name in (("rt/interner", "bin/intern", ""), ("rt/programs", "bin", "intern")):
            (self.top / link).symlink_to(self.top / to)
            words = [str(self.top / link / name), "x"]
            ran = subprocess.run(words, stdin=subprocess.DEVNULL, capture_output=True, encoding="utf-8", check=False)
            self.assertEqual((ran.returncode, ran.stdout, ran.stderr), (0, "old x\n", ""), link)

    def test_installs(self):
        for name in ("intern", "dictcol"):
            out = self.top / "crates" / name / "out"
            out.mkdir()
            (out / name).write_text("#!/bin/sh\n")
            (out / name).chmod(0o700)
            self.write(out / f"bin-{name}.stamp", "crates.txt\n")
            os.utime(out / f"bin-{name}.stamp")
        # What is installed below share/, and where.
        shared = {"crates/dictcol/dictcol.1": "man/man1/dictcol.1", "crates/intern/intern.1": "man/man1/intern.1",
                  "crates/dictcol/completions/dictcol.bash": "bash-completion/completions/dictcol",
                  "crates/dictcol/completions/_dictcol": "zsh/site-functions/_dictcol",
                  "crates/dictcol/completions/dictcol.fish": "fish/vendor_completions.d/dictcol.fish"}
        for name in shared:
            (self.top / name).parent.mkdir(exist_ok=True)
            self.write(self.top / name, f"{name}\n")
        prefix = self.top / "installed"
        for words, folder in (([str(prefix)], prefix), (["/usr"], self.top / "staged/usr")):
            environment = {"PATH": "/usr/bin:/bin"} | ({"DESTDIR": str(self.top / "staged")} if folder != prefix else {})
            subprocess.run([str(self.top / "bin/install"), *words], env=environment, check=True, capture_output=True)
            self.assertEqual(sorted(os.listdir(folder / "bin")), ["dictcol", "intern"])
            self.assertEqual((folder / "bin/intern").stat().st_mode & 0o777, 0o755)
            for name, place in shared.items():
                self.assertEqual((folder / "share" / place).read_text(), f"{name}\n")
            self.assertEqual(len([it for it in (folder / "share").rglob("*") if it.is_file()]), len(shared))


if __name__ == "__main__":
    unittest.main()
