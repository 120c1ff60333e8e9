"""Runs of built programs, for which scripts of a shell stand here, the cases and tables for them, and the model of what dictcol asks for."""

import os
import shutil
import tempfile
import time
import unittest
import unittest.mock
from itertools import count
from pathlib import Path

import small  # noqa: F401 (brings the tools into reach)
from built import End, HELD, Program, holding, is_held_up, processor_seconds, without_held
from program.cases import Case, cases, read_cases, rows
from program.requests import asks_of_lines
from trials import Tally, outcome


class ScriptTest(unittest.TestCase):
    def program(self, script):
        """A program over a library that does nothing."""
        folder = tempfile.TemporaryDirectory()
        self.addCleanup(folder.cleanup)
        program = Program.__new__(Program)
        program.path, program.library = f"{folder.name}/program", ""
        Path(program.path).write_text(f"#!/bin/sh\n{script}\n")
        os.chmod(program.path, 0o755)
        return program

    def test_an_end(self):
        program = self.program('cat; echo "$1" >&2; exit 3')
        self.assertEqual(program.run([b"a b"], b"in\xff"), (3, b"in\xff", b"a b\n"))
        self.assertEqual(program.run([b"a"], b"in", is_joined=True), (3, b"ina\n", b""))
        with holding(b"file") as file:
            self.assertEqual(program.run([b"a"], file).output, b"file")

    def test_the_library_that_refuses_needs_no_toolchain(self):
        without_rt = unittest.mock.patch("built.is_there", lambda need: need != "rt" and shutil.which(need))
        without_folder = unittest.mock.patch("built.toolchain_folder", side_effect=FileNotFoundError)
        with without_rt, without_folder, tempfile.TemporaryDirectory() as folder:
            ended, asks = Program("/bin/true", folder).run_with_asks([], b"")
        self.assertEqual((ended, asks), ((0, b"", b""), []))

    def test_settings_are_all_of_the_environment(self):
        program = self.program('echo "$REFUSE $HOME"')
        self.assertEqual(program.run([], REFUSE=2).output, b"2 \n")
        self.assertEqual(program.run([]).output, b" \n")

    def test_a_run_without_end(self):
        # One that gets no processor for a while does not hang.
        for script, seconds, least in ("exec sleep 60", 0.1, 0), ("while :; do :; done", 1, 1):
            ended = self.program(script).run([], seconds=seconds, TELL_HELD=1)
            self.assertIsNone(ended.status)
            self.assertRegex(ended.error, rb"\Ahangs after [\d.]+ seconds of processor time\n\Z")
            self.assertGreaterEqual(float(ended.error.split()[2]), least)

    def test_a_run_that_takes_long_by_the_clock(self):
        with unittest.mock.patch("built.processor_seconds", side_effect=count(0.001, 1e-6)):
            self.assertEqual(self.program("sleep 0.3; echo done").run([], seconds=0.1), (0, b"done\n", b""))

    def test_a_run_that_a_busy_machine_holds_up(self):
        held_up = unittest.mock.patch("built.is_held_up", return_value=True)
        with held_up, unittest.mock.patch("built.processor_seconds", return_value=0.05):
            self.assertEqual(self.program("sleep 0.3; echo done").run([], seconds=0.1), (0, b"done\n", b""))

    def test_processor_time(self):
        while (before := time.process_time()) < 0.2:
            pass
        found = processor_seconds(os.getpid())
        self.assertTrue(before - 0.1 < found < time.process_time() + 0.1, found)
        self.assertTrue(is_held_up(os.getpid()))

    def test_asks(self):
        program = self.program("printf 'asks 8\\nword\\nasks 16\\nrequest refused\\nholds 0\\n' >&2")
        self.assertEqual(program.run_with_asks([], b"", 2), (End(0, b"", b"word\n"), [8, 16]))

    def test_the_most_memory(self):
        program = self.program('cat; echo "$1" >&2; exit 3')
        with holding(b"in") as given, holding(b"") as output:
            ended, peak = program.run_with_peak([b"a"], given, output)
            output.seek(0)
            self.assertEqual((ended, output.read()), (End(3, b"", b"a\n"), b"in"))
        self.assertGreater(peak, 100)

    def test_memory_that_is_held_at_the_end(self):
        program = self.program("printf 'asks 8\\nholds 1\\n' >&2")
        self.assertEqual(program.run_with_asks([], b""), (End(0, b"", b"holds 1\n" + HELD), [8]))
        self.assertEqual(without_held(b"holds 0\nlate\n"), b"holds 0\nlate\n" + HELD)
        self.assertEqual(program.run([], is_joined=True, TELL_HELD=1).output, b"asks 8\nholds 1\n" + HELD)


@unittest.skipUnless(shutil.which("rt"), "no toolchain")
class FailuresTest(unittest.TestCase):
    """The library that has reading, writing and memory fail, before programs of the system."""

    program: Program

    @classmethod
    def setUpClass(cls):
        folder = tempfile.TemporaryDirectory()
        cls.addClassCleanup(folder.cleanup)
        cls.program = Program(str(shutil.which("cat")), folder.name)

    def test_input_that_breaks_off(self):
        ended = self.program.run([], b"abcdef", READ_BYTES=3)
        self.assertEqual((ended.status, ended.output), (1, b"abc"))
        self.assertIn(b"onnection reset", ended.error)

    def test_output_that_breaks_off(self):
        self.assertEqual(self.program.run([], b"abcdef", WRITE_BYTES=2), (0, b"abcdef", b""))
        self.assertEqual(self.program.run([], b"abcdef", WRITE_BYTES=2, BROKEN_WRITE=3, ERROR=28)[:2], (1, b"abcd"))

    def test_requests_are_told_and_refused(self):
        _, asks = self.program.run_with_asks([], b"")
        self.assertTrue(asks and all(size > 0 for size in asks))
        ended, after = self.program.run_with_asks([], b"a", len(asks))
        self.assertEqual(after[:len(asks)], asks)
        self.assertNotEqual(ended, self.program.run([], b"a"))


class OutcomeTest(unittest.TestCase):
    def outcome(self, *compared, error=None):
        def trial(_):
            yield from compared
            if error:
                raise error

        return outcome(None, (trial,))

    def test_what_differs_is_a_fault(self):
        ends = ("it", End(1, b"out", b"err"), (1, b"out", b""))
        self.assertEqual(self.outcome(("same", 1, 1), ends, ("list", [1], [])),
                         (["it: error b'err' in the place of error b''", "list: [1] in the place of []"], 3))

    def test_the_first_line_that_differs_is_told(self):
        found, wanted = (0, b"a\nb\nc\n", b""), (0, b"a\nx\nc\n", b"")
        self.assertEqual(self.outcome(("it", found, wanted))[0], ["it: b'b' in the place of b'x'"])
        self.assertEqual(self.outcome(("it", (0, b"a", b""), (0, b"a\n", b"")))[0], ["it: nothing in the place of b''"])
        self.assertEqual(self.outcome(("it", b"a\nb", b"a\nc"))[0], ["it: b'b' in the place of b'c'"])

    def test_a_trial_that_cannot_be_made_is_a_fault(self):
        faults, count = self.outcome(("same", 1, 1), error=ValueError("no such request"))
        self.assertEqual(count, 2)
        self.assertRegex(faults[0], "(?s)^same, and then: .*ValueError: no such request")
        self.assertTrue(self.outcome(error=KeyError(3))[0][0].startswith("trial [], and then: "))

    def test_nothing_tried_is_a_failure(self):
        with unittest.mock.patch("builtins.print"):
            self.assertEqual(Tally().end(), 1)


def try_case(program, case):
    yield program, case, None


def try_row(program, row):
    yield f"{program} {row}", len(row), 1


class CasesTest(unittest.TestCase):
    def setUp(self):
        folder = tempfile.TemporaryDirectory()
        self.addCleanup(folder.cleanup)
        self.folder = Path(folder.name)

    def write(self, **files):
        for name, text in files.items():
            (self.folder / name.replace("__", ".")).write_text(text, encoding="utf-8")

    def found(self, trials):
        return [it for function, *given in trials for it in function("p", *given)]

    def faults(self, trials):
        return [(name, found) for name, found, wanted in self.found(trials) if found != wanted]

    def read(self, text):
        """The one case of a file."""
        self.write(one__t=f"name:\n\n{text}")
        [case] = read_cases(self.folder / "one.t")
        return case.words, case.data, case.end

    def test_input(self):
        self.assertEqual(self.read("  $ intern string <<'END'\n  > é \n  > \n  > END\n  text é \n  \n"),
                         ([b"string"], "é \n\n".encode(), (0, "text é \n\n".encode(), b"")))
        self.assertEqual(self.read("  $ printf 'a\\n\\377%%\\\\\\047' | intern 'a b' ''\n  bad line 1\n  [2]\n"),
                         ([b"a b", b""], b"a\n\xff%\\'", (2, b"", b"bad line 1\n")))

    def test_output(self):
        for text, told in (("a\\x00\\\\ (esc)", b"a\0\\\n"), ("a (no-eol)", b"a"), ("a\n  \\xff (no-eol) (esc)", b"a\n\xff"),
                           ("[1]x\n  [-1]", b"[1]x\n[-1]\n")):
            with self.subTest(text):
                self.assertEqual(self.read(f"  $ printf '' | intern\n  {text}\n"), ([], b"", (0, told, b"")))

    def test_what_is_no_case(self):
        for text in "", "  > a\n", "  $ intern\nx\n", "  $ intern\n  $ intern\n", "  $ intern <<'END'\n  > a\n[2]\n":
            with self.subTest(text), self.assertRaises(ValueError):
                self.read(text)

    def test_a_case_without_a_name(self):
        for text in "  $ intern\n", "a:\n\n  $ intern\n\n  $ intern\n", "a\n\n  $ intern\n", "a:\n\n  $ intern\n\nb:\n":
            self.write(one__t=text)
            with self.subTest(text), self.assertRaises(ValueError):
                read_cases(self.folder / "one.t")

    def test_files_of_cases(self):
        self.write(one__t="a b:\n\n  $ intern\n\nc:\n\n  $ intern x\n  y\n", three__ask="", README__md="", bad_lines="")
        [(_, strays), *found] = self.faults(cases(self.folder, try_case))
        self.assertEqual(strays, ["three.ask"])
        self.assertEqual([case for _, case in found],
                         [Case("one, a b", [], b"", (0, b"", b"")), Case("one, c", [b"x"], b"", (0, b"y\n", b""))])

    def test_no_cases(self):
        self.assertEqual(self.faults(cases(self.folder, try_case)), [(f"there are cases in {self.folder}", False)])

    def test_tables(self):
        self.write(bad_lines="a\n\nb\n", words="")
        trials = rows(self.folder, {"bad_lines": try_row, "words": try_row})
        self.assertEqual(self.faults(trials), [("p b''", 0), ("words has rows", False)])


class RequestsTest(unittest.TestCase):
    def test_codes_of_a_block(self):
        few, many = (b"".join(b"%d\n" % number for number in range(count)) for count in (65535, 65536))
        cases: tuple[tuple[bytes, int, list[int]], ...] = (
            (few, 600, []), (many, 0, []), (many, 4, [16]), (many, 5, [16, 32]), (many, 600, [16, 32, 64, 128, 256, 512, 1024]))
        for lines, known, codes in cases:
            with self.subTest(known):
                before, asked = (asks_of_lines([b"count"], lines + b"1\n" * count, b"string")[1] for count in (0, known))
                self.assertEqual(asked, before + codes)

    def test_a_line_longer_than_a_block(self):
        cases: tuple[tuple[int, list[int]], ...] = (262143, []), (262144, [524288]), (524288, [524288, 1048576])
        for longest, grown in cases:
            with self.subTest(longest):
                asked = asks_of_lines([b"count"], b"b\n" + b"a" * longest, b"string")
                self.assertEqual(asked[1][: len(grown) + 1], [*grown, 32])


if __name__ == "__main__":
    unittest.main()
