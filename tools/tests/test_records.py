"""What is built from the records of proofs, what is proved anew, and what is refused, over a prover that hashes what it is given."""

import hashlib
import os
import shutil
import subprocess
import sys
import tempfile
import unittest
from pathlib import Path

TOP = Path(__file__).resolve().parents[2]
CRATES = """\
string_interner:
intern: string_interner
dictcol: string_interner
string_interner_c staticlib: string_interner
"""
# Stands for the prover. A record has the hashes of files as macros leave them and as they are, of the libraries below and of all that.
RATTLE = """#!{python}
import hashlib, os, re, sys
words = sys.argv[1:]
after = lambda flag: words[words.index(flag) + 1] if flag in words else None
sum_of = lambda text: hashlib.sha256(text.encode()).hexdigest()
files = [f"{{at}}/{{name}}" for part in ("src", "specs", "proofs") for at, _, names in os.walk(part) for name in names if name != "tests.rt"]
of_kit = [f"library std --extern {{sum_of('std')}}"]
externs = [it.split("=") for flag, it in zip(words, words[1:]) if flag == "--extern" and "/kit/rlibs/" not in it]
inputs = [f'file "{{it}}" {{sum_of(open(it).read() * 2)}}\\nwritten "{{it}}" {{sum_of(open(it).read())}}' for it in sorted(files)] + of_kit
inputs = "\\n".join([*inputs, *(f"library {{name}} --extern {{sum_of(open(at).read())}}" for name, at in externs)])
record, made, proved = after("--crate-checked"), after("-o"), "logic=proved functions=2 cache=trusted"
if record:
    texts = [open(f"{{record}}/{{it}}").read() for it in ("inputs", "verdict", "format")]
    if sum_of(texts[0] + texts[1]) != texts[2] or texts[0] != inputs:
        sys.exit("error: the checked crate is not as it was written")
    if made:
        with open(made, "w") as file:
            file.write("#!/bin/sh\\necho recorded " + sum_of(inputs)[:8] + "\\n")
else:
    open("../../proofs", "a").write(after("--crate-name") + "\\n")
    os.mkdir(made)
    for name, text in ("inputs", inputs), ("verdict", proved), ("format", sum_of(inputs + proved)):
        open(f"{{made}}/{{name}}", "w").write(text)
print(proved)
"""
LINK = """#!/bin/sh
while [ "$1" != -o ]; do shift; done
cp "$3" "$2" && chmod +x "$2"
"""
# Stands for `rt doc`, `rt version`, `rt lib` and `rt run`.
RT = """#!/bin/sh
[ "$1" = doc ] && { echo "${0%/bin/rt}/START-HERE.md"; exit; }
[ "$1" = version ] && { cat "${0%/bin/rt}/KIT-ID"; exit; }
mkdir -p out && printf '#!/bin/sh\\necho proved\\n' > "out/${PWD##*/}" && chmod +x "out/${PWD##*/}"
"""


EVERY = [line.split(":")[0].split()[0] for line in CRATES.splitlines()]


def write(path, text):
    path.parent.mkdir(parents=True, exist_ok=True)
    path.write_text(text)


def source(top, crate):
    return top / "crates" / crate / "src" / ("main.rt" if crate in ("intern", "dictcol") else "lib.rt")


def run_in(folder, *words):
    """Runs a command in the repository of a folder, with the toolchain beside it."""
    environment = {"PATH": f"{folder}/kit/bin:{os.path.dirname(sys.executable)}:/usr/bin:/bin"}
    return subprocess.run(words, cwd=folder / "copy", env=environment, stdin=subprocess.DEVNULL, capture_output=True,
                          encoding="utf-8", check=False)


def where_rt_is():
    ran = subprocess.run("rt doc", shell=True, capture_output=True, encoding="utf-8", check=False)
    return Path(ran.stdout.split("\n")[0]).parent / "bin" if ran.returncode == 0 else None


@unittest.skipUnless(where_rt_is(), "no rt on this machine")
class Records(unittest.TestCase):
    model: Path

    @classmethod
    def setUpClass(cls):
        """Makes a repository with records of its proofs, and a toolchain, which each test copies."""
        folder = tempfile.TemporaryDirectory()
        cls.addClassCleanup(folder.cleanup)
        cls.model = Path(folder.name)
        for it in ("bin", "tools"):
            shutil.copytree(TOP / it, cls.model / "copy" / it, ignore=shutil.ignore_patterns("tests", "__pycache__"))
        write(cls.model / "copy/crates.txt", CRATES)
        for crate in EVERY:
            write(source(cls.model / "copy", crate), "one")
        write(cls.model / "kit/KIT-ID", "kit-1 logic 0")
        shutil.copytree(where_rt_is(), cls.model / "kit/bin", ignore=lambda at, names: [it for it in names if not it.endswith(".py")])
        for name, text in ("rattle", RATTLE.format(python=sys.executable)), ("rattle-link", LINK), ("rt", RT):
            write(cls.model / "kit/bin" / name, text)
            (cls.model / "kit/bin" / name).chmod(0o755)
        run_in(cls.model, "tools/record-proofs", "--cache", "cache")

    def setUp(self):
        folder = tempfile.TemporaryDirectory()
        self.addCleanup(folder.cleanup)
        self.here = Path(folder.name)
        self.top = self.here / "copy"
        shutil.copytree(self.model, self.here, dirs_exist_ok=True)

    def edit(self, crate):
        write(source(self.top, crate), "two")

    def run_in_copy(self, *words, status=0):
        ran = run_in(self.here, *words)
        self.assertEqual(ran.returncode, status, ran)
        return ran

    def proved(self):
        """The crates that were proved since this was asked last."""
        found = Path(self.top / "proofs").read_text().split() if (self.top / "proofs").exists() else []
        (self.top / "proofs").unlink(missing_ok=True)
        return found

    def record(self, crate):
        return self.top / "records/kit-1" / crate

    def test_a_program_is_built_from_its_record(self):
        ran = self.run_in_copy("bin/intern", "string")
        self.assertRegex(ran.stdout, "^recorded ")
        self.assertEqual(ran.stderr, "intern: building from the recorded proof of these sources, in a minute; ./check proves them here\n")
        self.assertEqual(self.run_in_copy("bin/intern", "string").stderr, "")

    def test_changed_sources_are_proved(self):
        self.edit("string_interner")
        ran = self.run_in_copy("bin/intern", "string")
        self.assertEqual(ran.stdout, "proved\n")
        self.assertIn("intern: string_interner is not as its proof was recorded: src/lib.rt\n", ran.stderr)

    def test_a_new_file_of_proofs_is_a_change_and_one_of_tests_is_none(self):
        write(self.top / "crates/intern/src/tests.rt", "")
        self.assertRegex(self.run_in_copy("bin/intern", "string").stdout, "^recorded ")
        shutil.rmtree(self.top / "crates/intern/out")
        write(self.top / "crates/intern/proofs/main/Answers.antt", "")
        ran = self.run_in_copy("bin/intern", "string")
        self.assertIn("intern: intern is not as its proof was recorded: proofs/main/Answers.antt\n", ran.stderr)

    def test_another_toolchain_proves(self):
        write(self.here / "kit/KIT-ID", "kit-2 logic 0")
        ran = self.run_in_copy("bin/intern", "string")
        self.assertEqual(ran.stdout, "proved\n")
        self.assertIn("intern: no proof is recorded for this toolchain\n", ran.stderr)

    def test_a_missing_record_proves(self):
        shutil.rmtree(self.record("string_interner"))
        ran = self.run_in_copy("bin/intern", "string")
        self.assertEqual(ran.stdout, "proved\n")
        self.assertIn("intern: no proof of string_interner is recorded\n", ran.stderr)

    def test_other_libraries_are_proved(self):
        (self.top / "crates.txt").write_text(CRATES.replace("intern: string_interner", "intern:"))
        self.assertIn("intern is not as its proof was recorded: string_interner", self.run_in_copy("bin/intern", "string").stderr)

    def test_a_damaged_record_builds_nothing(self):
        for crate in ("intern", "string_interner"):
            for file, text in ("verdict", "logic=proved functions=3"), ("verdict", None), ("inputs", None), ("format", None):
                kept = (self.record(crate) / file).read_text()
                (self.record(crate) / file).unlink() if text is None else write(self.record(crate) / file, text)
                ran = self.run_in_copy("bin/intern", "string", status=1)
                self.assertEqual(ran.stdout, "")
                self.assertIn(f"intern: not built: records/kit-1/{crate} is damaged", ran.stderr)
                self.assertFalse((self.top / "crates/intern/out/intern").exists())
                write(self.record(crate) / file, kept)
        self.run_in_copy("bin/intern", "string")

    def take_library(self, crates="string_interner:\nyours: string_interner\n", status=0):
        """Puts the library into a project with this list of crates, and returns its folder there and what was said."""
        write(self.here / "kit/WHAT", "")
        write(self.here / "project/crates.txt", crates)
        write(self.here / "project/crates/yours/src/main.rt", "")
        return self.here / "project/crates/string_interner", self.run_in_copy("bin/library", "../project", status=status)

    def test_a_project_gets_the_library_from_its_record(self):
        folder, ran = self.take_library()
        self.assertEqual((ran.stdout, ran.stderr), ("library: string_interner is built\n", ""))
        self.assertRegex((folder / "out/rlib/string_interner.rlib").read_text(), "^#!/bin/sh\necho recorded ")
        self.assertRegex((folder / "out/rlib/stamp").read_text(), "^[0-9a-f]{64}$")
        self.assertEqual(sorted(it.name for it in folder.iterdir()), ["out", "src"])
        self.assertEqual(self.proved(), EVERY)

    def test_a_project_with_another_library_is_told_that_it_will_be_proved(self):
        write(self.here / "project/crates/string_interner/src/lib.rt", "two")
        folder, ran = self.take_library(status=3)
        self.assertRegex(ran.stderr, "^library: rt will prove string_interner, in minutes: string_interner is not as its proof ")
        self.assertFalse((folder / "out").exists())

    def test_a_project_that_names_no_library(self):
        self.assertIn("crates.txt names string_interner or string_column", self.take_library("yours:\n", 1)[1].stderr)

    def test_a_page_whose_steps_would_prove_the_library_fails(self):
        for it in "WHAT", "rlibs/core.rlib/format":
            write(self.here / "kit" / it, "")
        steps = "```sh\nmkdir ../yours\necho 'string_interner:{}' >../yours/crates.txt\nbin/library ../yours\n```\n"
        for libraries, status in ("", 0), (" core", 1):
            write(self.top / "docs/use/rattle.md", steps.format(libraries))
            said = self.run_in_copy("tools/try_guide.py", "", "docs/use/rattle.md", status=status).stdout
            self.assertEqual("library: rt will prove string_interner, in minutes: " in said, status == 1)

    def test_proofs_are_recorded_where_no_record_fits(self):
        self.assertEqual(self.proved(), EVERY)
        self.run_in_copy("tools/record-proofs")
        self.assertEqual(self.proved(), [])
        self.edit("intern")
        self.run_in_copy("tools/record-proofs")
        self.assertEqual(self.proved(), ["intern"])
        self.edit("string_interner")
        self.run_in_copy("tools/record-proofs")
        self.assertEqual(self.proved(), EVERY)

    def compare(self, status=0, *words, **other):
        """Compares the records with what `rt ci` built in the copy and said, where that is something else of some crates."""
        said = {crate: "logic=proved functions=2 statements=trusted" for crate in EVERY} | other
        write(self.top / "log", "".join(f"== {crate}\n{verdict}\nrt: {crate} proved\n" for crate, verdict in said.items()))
        return self.run_in_copy("tools/records.py", "compare", str(self.top), "log", *words, status=status).stdout

    def build_programs(self):
        for words in ("bin/intern", "string"), ("bin/dictcol", "count"):
            self.run_in_copy(*words)

    def test_records_are_compared_with_the_proof_made_anew(self):
        self.assertIn("records/kit-1/intern: no program was built of the proof made anew", self.compare(1))
        self.build_programs()
        self.assertEqual(self.compare(), "4 passed, 0 failed\n")

    def test_another_verdict_or_code_fails(self):
        self.build_programs()
        said = self.compare(1, intern="logic=proved functions=3")
        self.assertIn("records/kit-1/intern: it says logic=proved functions=2 cache=trusted, and the proof made anew logic=proved "
                      "functions=3\n3 passed, 1 failed\n", said)
        self.assertIn("3 passed, 1 failed", self.compare(1, dictcol="logic=not-proved"))
        write(self.top / "crates/intern/out/intern", "other code")
        self.assertEqual(self.compare(1), "records/kit-1/intern: its code is other than that of the proof made anew\n3 passed, 1 failed\n")

    def test_a_crate_that_an_earlier_run_proved_has_no_verdict(self):
        self.build_programs()
        said = self.compare(intern="rt: intern is kept: an earlier run on this machine proved the same files")
        self.assertEqual(said, "no verdict made anew: intern was proved by an earlier run on this machine\n4 passed, 0 failed\n")

    def test_a_record_that_the_prover_refuses_fails(self):
        self.build_programs()
        write(self.record("intern") / "verdict", "logic=proved functions=3")
        self.assertIn("records/kit-1/intern: the prover refuses it", self.compare(status=1))

    def test_stale_records_are_named(self):
        self.edit("string_interner")
        said = self.compare()
        self.assertIn("no record of these sources: string_interner is not as its proof was recorded: src/lib.rt\n", said)
        self.assertIn("no record of these sources: intern stands on string_interner\n", said)
        self.assertTrue(said.endswith("0 passed, 0 failed\n"))

    def test_stale_records_of_a_commit_fail(self):
        self.build_programs()
        self.assertEqual(self.compare(0, "--committed"), "4 passed, 0 failed\n")
        self.edit("intern")
        said = "records/kit-1/intern: intern is not as its proof was recorded: src/main.rt\n3 passed, 1 failed\n"
        self.assertEqual(self.compare(1, "--committed"), said)
        self.edit("string_interner")
        self.assertTrue(self.compare(1, "--committed").endswith("0 passed, 4 failed\n"))

    def test_records_that_nothing_compares_fail(self):
        self.build_programs()
        for name in "kit-2", "notes":
            write(self.top / "records" / name / "intern/verdict", "")
            self.assertEqual(self.compare(1), f"records/{name}: nothing compares this: remove it\n4 passed, 1 failed\n")
            shutil.rmtree(self.top / "records" / name)

    def test_records_by_another_toolchain_are_named(self):
        write(self.here / "kit/KIT-ID", "kit-2 logic 0")
        self.assertEqual(self.compare(), "no record of these sources: none is by this build of the toolchain, but by kit-1\n0 passed, 0 failed\n")


@unittest.skipUnless(where_rt_is(), "no rt on this machine")
class ForgedRecord(unittest.TestCase):
    def test_the_prover_refuses_it(self):
        """A record by hand, of the right files, which says that a wrong function is proved."""
        folder = tempfile.TemporaryDirectory()
        self.addCleanup(folder.cleanup)
        top, text = Path(folder.name), "pub fn never(x: usize) -> usize { x + 1 }\n"
        shutil.copytree(TOP / "tools", top / "tools", ignore=shutil.ignore_patterns("tests", "__pycache__"))
        write(top / "crates.txt", "wrong:\n")
        write(top / "crates/wrong/src/lib.rt", text)
        kit = subprocess.run(["rt", "version"], capture_output=True, encoding="utf-8", check=True).stdout.split()[0]
        sum_of = hashlib.sha256(text.encode()).hexdigest()
        inputs = f'crate wrong library\nfile "src/lib.rt" {sum_of}\nlibrary std --extern {sum_of}\n'
        for name, said in ("inputs", inputs), ("verdict", "logic=proved functions=1\n"), ("format", f"rattle crate-checked v2\nsum {sum_of}\n"):
            write(top / "records" / kit / "wrong" / name, said)
        ran = subprocess.run([top / "tools/records.py", "build", "wrong"], capture_output=True, encoding="utf-8", check=False)
        self.assertEqual((ran.returncode, ran.stdout), (1, ""))
        self.assertIn("error[unusable-checked-crate]", ran.stderr)
        self.assertIn(f"wrong: not built: records/{kit}/wrong is damaged", ran.stderr)
        self.assertFalse((top / "crates/wrong/out/rlib/recorded/wrong.rlib").exists())


if __name__ == "__main__":
    unittest.main()
