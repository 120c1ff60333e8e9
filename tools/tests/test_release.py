"""Which logs of the gate a release takes."""

import shutil
import subprocess
import sys
import tempfile
import unittest
from pathlib import Path

TOP = Path(__file__).resolve().parents[2]
sys.path.append(str(TOP / "tools"))
from gate_log import PARTS

# What the parts said, of which the second counts nothing, and what the gate says of them at its end.
NAMES = sorted(name for name, row in PARTS.items() if "all" in row.forms)
SAID = {name: f"== one\n{number} passed, 0 failed\n" for number, name in enumerate(NAMES, 1)} | {NAMES[1]: "no record\n"}
COUNTS = {name: 0 if name == NAMES[1] else number for number, name in enumerate(NAMES, 1)}
LOG = "".join(f"== {name}: begins\n== {name}\n{said}" for name, said in SAID.items()) + "== what it took\n" + "".join(
    f"{name}: {count} passed, 9 seconds, 32 processor seconds\n" for name, count in COUNTS.items()) + """\
ran: ./check all
checked: commit {commit}
toolchain: kit-1 logic 1f
left out: no python3d on this machine: what needs it is left out. Debian's packages: python3-dbg
TOTAL passed, 0 failed
""".replace("TOTAL", str(sum(COUNTS.values())))


class ReleaseTest(unittest.TestCase):
    """In a repository of one commit. What comes after the log is not begun, because the folder for the archives is not empty."""

    def setUp(self):
        folder = tempfile.TemporaryDirectory()
        self.addCleanup(folder.cleanup)
        self.top = Path(folder.name, "clone")
        (self.top / "tools").mkdir(parents=True)
        for name in ("release", "gate_log.py"):
            shutil.copy(TOP / "tools" / name, self.top / "tools")
        (self.top / "VERSION").write_text("1.2.3\n")
        (self.top / "README.md").write_text("whose `rt version` ends in `logic 1f`\n")
        git = ["git", "-C", str(self.top), "-c", "user.name=a", "-c", "user.email=a@example.org"]
        for words in (["init", "-q"], ["add", "."], ["commit", "-qm", "all"]):
            subprocess.run([*git, *words], check=True)
        commit = subprocess.run([*git, "rev-parse", "HEAD"], check=True, capture_output=True, encoding="utf-8").stdout.strip()
        self.log = LOG.format(commit=commit)

    def said_of(self, log):
        path = self.top.with_name("log")
        path.write_text(log)
        ran = subprocess.run([self.top / "tools/release", path, path.parent], capture_output=True, encoding="utf-8", check=False)
        self.assertEqual((ran.returncode, ran.stdout), (1, ""))
        return ran.stderr.strip().replace(str(path), "LOG")

    def test_a_log_of_all(self):
        self.assertEqual(self.said_of(self.log), f"release: {self.top.parent} is not empty")

    def test_a_log_of_another_command(self):
        for command in ("./check", "./check quick", "./check edits"):
            said = self.said_of(self.log.replace("ran: ./check all", f"ran: {command}"))
            self.assertEqual(said, f"release: LOG is of {command}, and not of ./check all")
        self.assertEqual(self.said_of(self.log.replace("ran: ./check all\n", "")), "release: LOG is of no command, and not of ./check all")

    def test_planted_bugs_that_were_left_out(self):
        line = "left out: 219 planted bugs that no change since the last run can touch (./check all)"
        self.assertEqual(self.said_of(self.log.replace("left out: no", f"{line}\nleft out: no")), f"release: LOG says {line}")

    def test_a_gate_that_failed_or_ran_elsewhere(self):
        self.assertEqual(self.said_of(self.log.replace("0 failed", "1 failed")), "release: LOG is no log of a gate that passed")
        self.assertIn("release: LOG is of another commit", self.said_of(self.log.replace("checked: commit", "checked:")))

    def test_counts_that_do_not_fit(self):
        name, total = NAMES[4], sum(COUNTS.values())
        other = self.log.replace(f"{name}: 5 passed", f"{name}: 6 passed")
        self.assertEqual(self.said_of(other), f"release: LOG says 6 passed of {name}, which says otherwise")
        said = self.said_of(self.log.replace(f"{total} passed", f"{total + 1} passed"))
        self.assertEqual(said, "release: LOG has parts that do not come to the count of all")
        without = self.log.replace(f"{name}: 5 passed, 9 seconds, 32 processor seconds\n", "")
        self.assertEqual(self.said_of(without), f"release: LOG has not the parts {name}")
        ends_alone = self.log[self.log.index("== what it took"):]
        self.assertIn("which says otherwise", self.said_of(ends_alone))

    def test_another_toolchain(self):
        said = self.said_of(self.log.replace("logic 1f", "logic 2f"))
        self.assertEqual(said, "release: LOG is by another toolchain than README.md names: kit-1 logic 2f")
        self.assertIn("README.md names: none", self.said_of(self.log.replace("toolchain: kit-1 logic 1f\n", "")))


if __name__ == "__main__":
    unittest.main()
