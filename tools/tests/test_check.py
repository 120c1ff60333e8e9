"""The parts of the gate: what they count, what they take, and how they end."""

import contextlib
import io
import json
import os
import runpy
import subprocess
import sys
import tempfile
import unittest
from pathlib import Path
from unittest import mock

import small  # noqa: F401 (brings the tools into reach)
from gate_log import PARTS
from machine import ask_rt
from tree import TOP

CHECK = runpy.run_path(str(TOP / "check"))


def tells(passed, failed=0, *left_out):
    """A command of a shell that hands over what it counted, as a part does."""
    return f"echo '{json.dumps([passed, failed, left_out])}' > $GATE_COUNTS"


def of_table(form):
    """The parts that a command of the gate has by the table."""
    return {name for name, row in PARTS.items() if form in row.forms.split()}


class PartTest(unittest.TestCase):
    def run_part(self, script, **named):
        """A part that runs a script, whether all was well, and what was printed."""
        self.gate = CHECK["Gate"](None)
        with contextlib.redirect_stdout(io.StringIO()) as printed:
            is_well = self.gate.begin("it", "sh", "-c", script).wait(**named)
        return is_well, self.gate.parts[0], printed.getvalue()

    def test_a_count(self):
        is_well, part, printed = self.run_part(f"echo '9 passed, 9 failed'; {tells(3, 0, 'a thing')}")
        self.assertEqual((is_well, part.passed, part.failed, part.left_out), (True, 3, 0, ["a thing"]))
        self.assertEqual(printed, "== it: begins\n== it\n9 passed, 9 failed\n")

    def test_a_count_by_a_tool(self):
        """It does not hand its file on to what it starts."""
        script = f"cd '{TOP}/tools' && python3 -c 'import machine, os; machine.tell_count(2, 1, [\"it\"]); print(os.environ.get(\"GATE_COUNTS\"))'"
        _, part, printed = self.run_part(script)
        self.assertEqual((part.passed, part.failed, part.left_out), (2, 1, ["it"]))
        self.assertTrue(printed.endswith("2 passed, 1 failed\nNone\n"))

    def test_the_count_of_the_toolchain(self):
        with contextlib.redirect_stdout(io.StringIO()):
            part = CHECK["Part"]("proofs", ["printf", "1 passed, 1 failed\n9 passed, 0 failed\n"])
            self.assertEqual((part.wait(), part.passed), (True, 9))

    def test_it_is_told_that_a_part_begins(self):
        with contextlib.redirect_stdout(io.StringIO()) as printed:
            part = CHECK["Part"]("proofs", ["sleep", "60"])
        self.assertRegex(printed.getvalue(), r"^== proofs: begins, and takes \d+ to \d+ minutes\n$")
        self.assertTrue(part.end())
        part.log.close()

    def test_what_failed(self):
        self.assertEqual(self.run_part(f"{tells(3, 2)}; exit 1")[0], False)
        for script in f"{tells(3)}; exit 1", "true", "echo '3 passed, 0 failed'", tells(0):
            is_well, part, printed = self.run_part(script)
            self.assertEqual((is_well, part.failed), (False, 1), script)
            self.assertIn("and no count of what passed", printed)

    def test_a_part_that_a_signal_ends(self):
        self.assertIn("it: ended by SIGKILL, and no count", self.run_part("kill -9 $$")[2])

    def test_tests_of_python(self):
        case = "import unittest\nclass Case(unittest.TestCase):\n    def test_it(self): self.assertTrue({})\n    def test_that(self): self.skipTest('why')\n"
        for passes, counts in (1, (1, 0, ["test_one.Case.test_that: why"])), (0, (0, 1, ["test_one.Case.test_that: why"])):
            with tempfile.TemporaryDirectory() as folder:
                Path(folder, "test_one.py").write_text(case.format(passes))
                _, part, _ = self.run_part(f"{TOP}/tools/run-tests '{folder}'")
                self.assertEqual((part.passed, part.failed, part.left_out), counts)

    def test_a_part_that_counts_nothing(self):
        self.assertTrue(self.run_part("true", is_counted=False)[0])
        self.assertFalse(self.run_part("exit 1", is_counted=False)[0])

    def test_the_count_of_all(self):
        self.run_part(tells(3, 2))
        self.gate.left_out.append("a thing")
        with contextlib.redirect_stdout(io.StringIO()) as printed:
            self.assertEqual(self.gate.tell(), 1)
        lines = printed.getvalue().splitlines()
        self.assertRegex(lines[1], r"^it: 3 passed, \d+ seconds, \d+ processor seconds$")
        self.assertEqual(lines[-2:], ["left out: a thing", "3 passed, 2 failed"])


class ProofsTest(unittest.TestCase):
    """How far the proofs are, over something that stands for `rt`."""

    def run_proofs(self, script, *ahead):
        """The status of what proves, what it prints, and what it says meanwhile, as if it had begun a minute ago."""
        with tempfile.TemporaryDirectory() as tree:
            for name in ("one", "two", "three"):
                Path(tree, "crates", name).mkdir(parents=True)
            Path(tree, "rt").write_text(f"#!/bin/sh\n{script}")
            Path(tree, "rt").chmod(0o755)
            environment = {"PATH": f"{tree}:{os.environ['PATH']}", "SECONDS": "58", "ahead_seconds": "3"}
            ran = subprocess.run(["bash", "-c", CHECK["PROVE"], TOP, *ahead], cwd=tree, env=environment, capture_output=True,
                                 encoding="utf-8", check=False)
        return ran.returncode, ran.stdout, ran.stderr

    def test_how_many_crates_are_proved(self):
        said = ["== one", "rt: one proved", "rt: one: its tests are proved", "rt: two is kept: why", "== three", "rt: three NOT PROVED"]
        script = "".join(f"echo '{line}'\n" for line in said) + 'sleep 2.5\necho "$1" >&2\nprintf "3 passed, 0 failed"\n'
        # On a busy machine the minute may be over before all is read.
        for _ in range(5):
            status, printed, told = self.run_proofs(script)
            self.assertEqual((status, printed), (0, "\n".join([*said, "ci", "3 passed, 0 failed"])))
            if told.startswith("proofs: 2 of 3 "):
                break
        self.assertRegex(told, r"^proofs: 2 of 3 crates are proved, 1 min \d s\n$")

    def test_the_gate_says_it_too(self):
        words = ["import runpy", f"CHECK = runpy.run_path({str(TOP / 'check')!r})", "gate = CHECK['Gate'](None)",
                 "CHECK['prove'].__globals__.update(copy_crates=lambda *_: None, PROVE='echo said >&2; echo 0 passed, 1 failed; exit 1')",
                 "CHECK['prove'](gate, '.')"]
        ended = subprocess.run([sys.executable, "-c", "\n".join(words)], capture_output=True, encoding="utf-8", check=True)
        self.assertEqual(ended.stderr, "said\n")

    def test_crates_that_are_proved_ahead(self):
        """The first goes on once it has proved the library, and `rt ci` begins last. It alone judges."""
        script = """echo "begins $2" >> order
case $2 in
    one) sleep 1.5; echo 'rt: string_interner proved'
        for turn in $(seq 600); do ! grep -qx 'begins ' order || break; sleep 0.2; done
        echo 'one passed' >> order; exit 1 ;;
    two) echo 'said by two'; exit 1 ;;
    *) until grep -q 'one passed' order; do sleep 0.2; done; cat order; echo '3 passed, 0 failed' ;;
esac
"""
        status, printed, _ = self.run_proofs(script, "one", "two")
        order = "begins one\nbegins two\nbegins \none passed\n"
        self.assertEqual((status, printed), (0, f"{order}3 passed, 0 failed\nrt: string_interner proved\nsaid by two\n"))
        self.assertEqual(self.run_proofs("[ $# = 1 ] || exit 2; echo 'a failed'; exit 3", "one")[:2], (3, "a failed\n"))

    def test_proofs_that_fail(self):
        self.assertEqual(self.run_proofs("echo '2 passed, 1 failed'; exit 3"), (3, "2 passed, 1 failed\n", ""))


class BeforehandTest(unittest.TestCase):
    def told(self, command, lacking=(), leaves_out=()):
        found = mock.patch.dict(CHECK["tell_beforehand"].__globals__, {"is_there": lambda need: need not in lacking})
        with found, contextlib.redirect_stdout(io.StringIO()) as printed:
            CHECK["tell_beforehand"](command, leaves_out)
        return printed.getvalue().splitlines()

    def test_what_a_command_takes(self):
        for command in ("./check", "./check tests", "./check quick", "./check edits", "./check all"):
            lines = self.told(command)
            self.assertEqual(len(lines), 1)
            self.assertRegex(lines[0], rf"^{command} takes [\d.]+ to [\d.]+ (minutes|hours) on 4 processors, and \d+ GiB of memory$")

    def test_the_first_line_is_what_is_left_out(self):
        lines = self.told("./check tests", leaves_out=["proofs (./check)", "a thing"])
        self.assertEqual(lines[0], "./check tests leaves out proofs (./check); a thing")
        self.assertRegex(lines[1], "^./check tests takes ")

    def run_without_the_toolchain(self, mode):
        """The status, and what was printed."""
        found = mock.patch.dict(CHECK["run_mode"].__globals__, {
            "is_there": lambda need: need != "rt", "tests_by_cargo": lambda gate: gate.run("it", "sh", "-c", tells(1))})
        with found, mock.patch("signal.signal"), contextlib.redirect_stdout(io.StringIO()) as printed:
            return CHECK["run_mode"](CHECK["Gate"](None), mode), printed.getvalue().splitlines()

    def test_nothing_begins_without_the_toolchain_but_tests(self):
        for mode in None, "quick", "edits", "all":
            with self.assertRaisesRegex(SystemExit, "^no rt on this machine: .* Nothing was run$"):
                self.run_without_the_toolchain(mode)
        status, lines = self.run_without_the_toolchain("tests")
        self.assertEqual((status, lines[-1]), (0, "1 passed, 0 failed"))
        self.assertIn("left out: proofs (./check)", lines)
        self.assertRegex(lines[0], r"^\./check tests leaves out the library and the programs that rt builds .*; proofs \(\./check\); ")

    def test_what_the_machine_lacks(self):
        with mock.patch("needs.is_there", lambda need: need not in ("cc", "mypy")):
            lines = self.told("./check quick", ("cc", "mypy"))
        self.assertEqual([line.partition(":")[0] for line in lines[1:3]], ["no cc on this machine", "no mypy on this machine"])
        self.assertRegex(lines[3], r"^\.ci/run installs them first, or: apt-get install .* gcc libc6-dev binutils mypy$")

    def test_it_comes_before_the_first_part(self):
        """And the command is printed at the end, for tools/release."""
        gate = CHECK["Gate"](None)
        modes = mock.patch.dict(CHECK["MODES"], {"all": lambda gate: gate.run("it", "sh", "-c", tells(1))})
        signals = mock.patch("signal.signal")
        with modes, signals, contextlib.redirect_stdout(io.StringIO()) as printed:
            self.assertEqual(CHECK["run_mode"](gate, "all"), 0)
        lines = printed.getvalue().splitlines()
        self.assertLess(next(i for i, line in enumerate(lines) if line.startswith("./check all takes ")), lines.index("== it: begins"))
        end = lines[lines.index("== what it took"):]
        self.assertIn("ran: ./check all", end)
        self.assertIn(f"toolchain: {ask_rt('version')}", end)


class EndedTest(unittest.TestCase):
    def test_a_gate_that_a_signal_ends(self):
        """The signal comes to a part that waits for one, after a part that has ended."""
        # It waits until the gate has noted the part.
        script = "until [ -e begun ]; do sleep 0.1; done; sleep 0.5; kill -TERM $PPID; sleep 60"
        with tempfile.TemporaryDirectory() as folder:
            words = ["import runpy, sys", f"CHECK = runpy.run_path({str(TOP / 'check')!r})", "gate = CHECK['Gate'](None)",
                     f"gate.run('one', 'sh', '-c', {tells(3)!r})",
                     "def quick(gate):",
                     f"    part = gate.begin('two', 'sh', '-c', {script!r}, folder={folder!r})",
                     f"    open({folder + '/begun'!r}, 'w').close()",
                     "    gate.wait_for(part)",
                     "CHECK['MODES']['quick'] = quick",
                     "sys.exit(CHECK['run_mode'](gate, 'quick'))"]
            ended = subprocess.run([sys.executable, "-c", "\n".join(words)], capture_output=True, encoding="utf-8", check=False)
        lines = ended.stdout.splitlines()
        self.assertEqual((ended.returncode, lines[-1]), (1, "3 passed, 1 failed"), ended.stderr)
        self.assertIn("ended by SIGTERM. Cut: two. What comes after was not begun", lines)


class CheckTest(unittest.TestCase):
    def parts_of_check(self, is_proved, command="check"):
        """The parts that ./check or another command runs in order, and whether the libraries that it proved are kept."""
        gate = CHECK["Gate"](None)
        kept: list[str] = []
        begun = []

        def part(name, words, **_):
            begun.append((name, words[:2]))
            return mock.Mock(said="", left_out=["wasm (its packages)"], failed=not is_proved, **{"wait.return_value": is_proved})

        changed = {"missing": lambda needs: [], "stamp_libraries": kept.append, "take_libraries": lambda tree, top: kept.append(tree)}
        changed |= {"copy_crates": lambda source, into: (into / "crates.txt").touch(), "Part": part, "commit_as_it_stands": lambda: None,
                    "touched": lambda: {"handles": ["a_bug"]}}
        with mock.patch.dict(CHECK["check"].__globals__, changed):
            CHECK[command](gate)
        self.assertEqual(len({*kept}), len(kept) // 2)
        return [name for name, _ in begun], dict(begun).get("proofs"), len(kept), gate.left_out

    def test_the_parts(self):
        names, words, kept, left_out = self.parts_of_check(True)
        self.assertEqual(names, ["texts chosen without keys", "linters", "proofs", "the library for C and its clients", "scenarios", "the program",
                                 "the program dictcol", "the steps of the pages for users", "the steps of the pages by cargo",
                                 "records of proofs", "what was measured"])
        self.assertEqual({*names}, of_table("check"))
        self.assertEqual((words, kept), (["bash", "-c"], 2))
        self.assertIn("wasm (its packages)", left_out)

    def test_other_commands_have_the_parts_of_the_table(self):
        for form, command in ("quick", "quick"), ("edits", "edits"), ("all", "everything"):
            self.assertEqual({*self.parts_of_check(True, command)[0]} & {*PARTS}, of_table(form))

    def test_nothing_runs_that_is_not_proved(self):
        names, _, kept, _ = self.parts_of_check(False)
        self.assertEqual((names, kept), (["texts chosen without keys", "linters", "proofs", "what was measured"], 0))

    def test_what_is_proved_ahead(self):
        named = CHECK["names_ahead"].__globals__
        for available, ci, names in (16 << 30, "", ("suite", "dictcol")), ((16 << 30) - 1, "", ()), (16 << 30, "true", ()):
            with mock.patch.dict(named, {"available_bytes": lambda it=available: it}), mock.patch.dict(os.environ, {"CI": ci}):
                self.assertEqual(CHECK["names_ahead"](), names)


class TestsTest(unittest.TestCase):
    """The tests over what is built from records."""

    def parts_of_tests(self, unrecorded=(), tests="tests"):
        """The parts that begin, in order, with what follows their first word, and what is left out."""
        gate, begun = CHECK["Gate"](None), []

        def part(name, words):
            begun.append((name, [Path(it).name for it in words]))
            status = 3 if words[0] == "tools/records.py" and words[-1] in unrecorded else 0
            return mock.Mock(said="", left_out=[], **{"wait.return_value": True, "process.returncode": status})

        named = mock.patch.dict(CHECK["tests"].__globals__, {"missing": lambda needs: [], "Part": part})
        with named, mock.patch("try_guide.pages", lambda: ["README.md", "docs/use/rattle.md"]):
            CHECK[tests](gate)
        return begun, gate.left_out

    def test_all_has_a_record(self):
        begun, left_out = self.parts_of_tests()
        names = ["linters", "the Rust crate", "string_interner_c from its record", "the library for C", "from C", "from Python",
                 "dictcol from its record", "the program dictcol", "intern from its record", "the program", "the steps of the pages for users"]
        self.assertEqual([name for name, _ in begun], names)
        self.assertEqual({*names} & {*PARTS}, of_table("tests"))
        for name, word in ("the Rust crate", "rust"), ("from C", "c"), ("from Python", "python"):
            self.assertIn("--once", dict(begun)[name])
            self.assertEqual(dict(begun)[name][-2:], ["--only", word])
        self.assertIn("libstring_interner_c.a", dict(begun)["from C"])
        self.assertEqual((dict(begun)[names[-1]][2:], left_out), (["README.md"], []))

    def test_a_program_without_a_record(self):
        begun, left_out = self.parts_of_tests(["dictcol"])
        names = [name for name, _ in begun]
        self.assertLess(names.index("dictcol without a proof"), names.index("the program dictcol"))
        self.assertNotIn("the steps of the pages for users", names)
        self.assertRegex(left_out[0], "^the record of a proof of dictcol: ")

    def test_no_library_without_a_record(self):
        begun, left_out = self.parts_of_tests(["string_interner_c"])
        self.assertEqual([name for name, _ in begun][:4], ["linters", "the Rust crate", "string_interner_c from its record", "dictcol from its record"])
        self.assertRegex(left_out[0], "^the record of a proof of string_interner_c: ")

    def test_by_cargo(self):
        begun, left_out = self.parts_of_tests(tests="tests_by_cargo")
        self.assertEqual([name for name, _ in begun], ["linters", "all clients by cargo", "the programs by cargo", "the steps of the pages by cargo"])
        self.assertEqual({name for name, _ in begun}, of_table("cargo"))
        self.assertNotIn("--only", dict(begun)["all clients by cargo"])
        self.assertEqual((dict(begun)["the programs by cargo"][-2:], left_out), (["--only", "programs"], []))

    def test_what_the_machine_lacks(self):
        gate = CHECK["Gate"](None)
        with mock.patch.dict(CHECK["tests"].__globals__, {"missing": lambda needs: [f"no {it}" for it in needs]}):
            self.assertFalse(gate.run("from C"))
        self.assertEqual((gate.parts, gate.left_out), ([], ["no cc"]))

    def test_a_status_that_is_well(self):
        gate = CHECK["Gate"](None)
        with contextlib.redirect_stdout(io.StringIO()):
            for status, is_well in (3, True), (1, False):
                part = gate.begin("it", "sh", "-c", f"exit {status}")
                self.assertEqual(part.wait(is_counted=False, is_well=(0, 3)), is_well)


if __name__ == "__main__":
    unittest.main()
