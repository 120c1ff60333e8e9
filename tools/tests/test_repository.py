"""What a copy of the crates has, what is counted in the repository, what linters find there, and what a machine lacks."""

import contextlib
import io
import shutil
import tempfile
import unittest
from pathlib import Path
from unittest import mock

from small import SmallRepository
import lint
import machine
import needs
import weigh
from needs import missing
from tree import TOP, copy_crates, link_kept_work, read, take_kept_work, write


class CopyTest(SmallRepository):
    def copied(self, *given, **named):
        """The files of a copy, by their paths."""
        self.write("HANDLES", "")
        for name in ("low", "high"):
            self.write(f"crates/{name}/out/kept", name)
        into = self.top / "copy"
        copy_crates(self.top, into, *given, **named)
        return {str(path.relative_to(into)) for path in into.rglob("*") if path.is_file()}

    def test_without_planted_bugs_and_what_is_built(self):
        copied = self.copied()
        self.assertLessEqual({"HANDLES", "crates/low/src/shape.rt", "crates/low/proofs/double/Answers.antt", "crates/high/src/lib.rt"}, copied)
        self.assertEqual([name for name in copied if "bugs" in name or "out" in Path(name).parts], [])
        self.assertEqual(read(self.top / "copy/crates.txt"), read(self.top / "crates.txt"))

    def test_some_crates(self):
        self.assertEqual([name for name in self.copied(["low"]) if "high" in name], [])
        self.assertEqual(read(self.top / "copy/crates.txt"), "low: std_alloc\n")

    def test_kept_work(self):
        for name in ("low", "high"):
            for part in ("rlib", "incremental"):
                self.write(f"crates/{name}/out/{part}/it", f"{part} of {name}")
        self.copied()
        take_kept_work(self.top, self.top / "copy", "high")
        link_kept_work(self.top / "copy", self.top / "again")
        kept = {str(path.relative_to(self.top / "again")) for path in self.top.glob("again/crates/*/out/*/*")}
        self.assertEqual(kept, {"crates/low/out/rlib/it", "crates/high/out/incremental/it"})
        self.assertEqual(read(self.top / "again/crates/high/out/incremental/it"), "incremental of high")

    def test_what_is_written_is_read(self):
        write(self.top / "new/folder/file", "é\n")
        self.assertEqual(read(self.top / "new/folder/file"), "é\n")


class WeighTest(unittest.TestCase):
    weights: dict[str, weigh.Weight]

    @classmethod
    def setUpClass(cls):
        cls.weights = {it.name: it for it in weigh.weigh()}

    def test_what_machines_make(self):
        made = {"docs/use/pictures/", "bench/measured/", "records/", "clients/rust/src/erased/", "clients/c/src/erased/",
                "clients/programs/src/erased/", "crates/suite/large/", "tools/bugs-last-run"}
        found = {name: next((it for it in made if name.startswith(it)), "") for name, it in self.weights.items() if it.is_made}
        self.assertEqual({*found.values()}, made)
        self.assertIn("crates/suite/large/choose.py", {*self.weights} - {*found})

    def test_what_builds_and_tries(self):
        for name, is_harness in (("check", True), ("tools/weigh.py", True), ("clients/check", True), ("tools/tests/test_repository.py", False),
                                 ("bench/README.md", False), ("bench/measured/times.tsv", False), ("clients/build", False)):
            self.assertEqual(self.weights[name].is_harness, is_harness, name)

    def test_the_counts(self):
        with contextlib.redirect_stdout(io.StringIO()) as printed:
            weigh.tell_folders([weigh.Weight("a/b/c", 3, False), weigh.Weight("a/d", 4, True), weigh.Weight("e", 5, False)], 1)
        self.assertEqual([line.split() for line in printed.getvalue().splitlines()],
                         [["1", "files", "5", "lines", "."], ["2", "files", "7", "lines", "a"]])


# A file for each linter that finds a fault in it.
BAD = {
    "flake8": ("bad.py", "import os\n"),
    "mypy": ("worse.py", "def double(number):\n    return 2 * number\n"),
    "mypy over tests": ("tools/tests/bad.py", 'def double(number) -> int:\n    return "two"\n'),
    "shellcheck": ("bad.sh", "#!/bin/sh\nrm $1\n"),
    "warnings of C": ("bad.c", "int low(long number);\nint low(long number) { return number; }\n"),
    "warnings of the module in C": ("clients/python/native/bad.c", "int one(void);\nint one(void) { int two; return 1; }\n"),
}


class LintTest(unittest.TestCase):
    def setUp(self) -> None:
        folder = tempfile.TemporaryDirectory()
        self.addCleanup(folder.cleanup)
        self.top = Path(folder.name)
        for name, text in BAD.values():
            (self.top / name).parent.mkdir(parents=True, exist_ok=True)
            (self.top / name).write_text(text)
        for name in ("setup.cfg", ".shellcheckrc"):
            shutil.copy(TOP / name, self.top)

    def test_each_finds_what_is_wrong(self) -> None:
        with mock.patch.multiple(lint, TOP=self.top, READ_BY_SHELL=()):
            every = list(lint.lints([name for name, _ in BAD.values()], str(self.top / "cache")))
            self.assertEqual({it.name for it in every}, {*BAD})
            for it in every:
                with self.subTest(it.name):
                    if lacking := missing([it.need]):
                        self.skipTest(lacking[0])
                    self.assertIn(BAD[it.name][0], it.run())

    def test_nothing_is_wrong(self) -> None:
        self.assertEqual(lint.Lint("it", "sh", ["true"]).run(), "")
        self.assertEqual(lint.Lint("it", "sh", ["sh", "-c", "echo said; exit 3"]).run(), "it finds (status 3):\nsaid\n")

    def test_languages_by_first_lines(self) -> None:
        names = ["check", "bin/intern", "clients/check", "README.md", "tools/lint.py"]
        self.assertEqual(lint.scripts_of(names, "python3", ".py"), ["check", "tools/lint.py"])
        self.assertEqual(lint.scripts_of(names, "sh|bash", ".sh"), ["bin/intern", "clients/check"])

    def test_what_is_missing_is_told_and_no_fault(self) -> None:
        with mock.patch.object(lint, "missing", return_value=["no flake8 on this machine: it"]):
            with contextlib.redirect_stdout(io.StringIO()) as printed:
                self.assertEqual(lint.main("flake8"), 0)
        self.assertEqual(printed.getvalue(), "no flake8 on this machine: it\n0 passed, 0 failed\n")

    def test_no_such_linter(self) -> None:
        with self.assertRaisesRegex(SystemExit, "^no linter flake9\n"):
            lint.main("flake9")


LISTED = "# a comment\nsh: dash\nno-such-command: one two\npython json: python3\npython json no_such_module: three\n"


class NeedsTest(unittest.TestCase):
    def setUp(self):
        with tempfile.NamedTemporaryFile("w", delete=False) as file:
            file.write(LISTED)
        self.addCleanup(Path(file.name).unlink)
        patch = mock.patch.object(needs, "PACKAGES", Path(file.name))
        patch.start()
        self.addCleanup(patch.stop)

    def run_main(self, *words):
        with contextlib.redirect_stdout(io.StringIO()) as printed:
            status = needs.main(*words)
        return status, printed.getvalue()

    def test_the_packages_of_all_that_is_missing(self):
        self.assertEqual(self.run_main(), (0, "one two three\n"))

    def test_what_is_there(self):
        self.assertEqual(self.run_main("sh", "python json"), (0, ""))

    def test_what_is_missing(self):
        status, printed = self.run_main("sh", "no-such-command")
        self.assertEqual(printed, "no no-such-command on this machine: what needs it is left out. Debian's packages: one two\n")
        self.assertEqual((status, printed.count("\n")), (1, 1))

    def test_a_toolchain(self):
        with tempfile.TemporaryDirectory() as folder, mock.patch.dict("os.environ", PATH=f"{folder}:/usr/bin:/bin"):
            rt = Path(folder, "rt")
            machine.ask_rt.cache_clear()
            self.assertFalse(needs.is_there("rt"))
            for said, is_one in (("echo kit-1 logic 1f", True), ("echo rt 4.4.6", False), ("cat", False), ("exit 1", False)):
                rt.write_text(f"#!/bin/sh\n{said}\n")
                rt.chmod(0o755)
                machine.ask_rt.cache_clear()
                self.assertEqual(needs.is_there("rt"), is_one, said)
        machine.ask_rt.cache_clear()

    def test_a_python(self):
        status, printed = self.run_main("--python", "json")
        self.assertEqual((status, printed.strip()), (0, needs.python_with("json")))
        self.assertEqual(self.run_main("--python", "json", "no_such_module"), (1, ""))


class ListedTest(unittest.TestCase):
    def test_each_line_has_packages(self):
        self.assertIn("python pip setuptools wheel", needs.packages())
        self.assertTrue(all(needs.packages().values()))


if __name__ == "__main__":
    unittest.main()
