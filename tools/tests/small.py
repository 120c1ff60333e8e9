"""A small repository of one crate, which each test makes for itself."""

import subprocess
import sys
import tempfile
import unittest
from pathlib import Path
from unittest import mock

sys.path.insert(0, str(Path(__file__).resolve().parent.parent))
from bugs import place, tables
import touched
import tree

SHAPE = """\
pub trait Shape {
    /// Returns the area.
    fn area(&self) -> u32
        ensures { AreaOf self.now result };
}
"""
SOURCE = """\
mod shape;

impl Shape for Square {
    fn area(&self) -> u32 {
        let side = self.side;
        side * side
    }
}

/// Doubles.
pub fn double(number: u32) -> u32
    ensures { IsTwice number result }
{
    number + number
}

fn half(number: u32) -> u32
    ensures { IsHalf number result }
{
    number / 2
}

fn quarter(number: u32) -> u32
    ensures { IsQuarter number result }
{
    number / 4
}

pub struct Square {
    side: u32,
}
"""
# In a crate above.
ABOVE = """\
fn fourfold(number: u32) -> u32
    ensures { result ≡ 4 * number }
{
    double(double(number))
}
"""
SPECS = """\
use Somewhere.{ℕ}

-- twice a number
pub record IsTwice (a b : ℕ) : Type 0 where
  pub sum : b ≡ a + a

abbrev pub IsHalf : ℕ → ℕ → Type 0
IsHalf a b = IsTwice b a

abbrev pub IsQuarter : ℕ → ℕ → Type 0
IsQuarter a b = (c : ℕ) × IsHalf a c × IsHalf c b

abbrev pub AreaOf : Square → ℕ → Type 0
AreaOf square area = ⊤
"""
ANSWERS = """\
use Rattle.low.proofs.double.Goals as goal

lemma : 1 ≡ 1
lemma = refl

pub returns : goal.returns
returns g c = lemma

pub returns-then-ne : goal.returns-then-ne
returns-then-ne g c = returns g c
"""
# For each planted bug its crate, its function, and a text of the function with the wrong one in its place.
EDITS = {
    "area_is_the_side": ("low", "SquareShape::area", "side * side", "side"),
    "doubles_once": ("low", "double", "    number + number", "    number"),
    "halves_twice": ("low", "half", "number / 2", "number / 8"),
    "quarters_once": ("low", "quarter", "number / 4", "number / 6"),
    "doubles_instead": ("high", "fourfold", "double(double(number))", "double(number)"),
}


def link_commands(folder: str, without: str) -> None:
    """Links the commands of this machine into a folder, but for one."""
    for path in {it.name: it for place in ("/bin", "/usr/bin") for it in Path(place).iterdir()}.values():
        if path.name != without:
            Path(folder, path.name).symlink_to(path)


class SmallRepository(unittest.TestCase):
    """Makes the repository, of one commit, before each test."""

    def setUp(self) -> None:
        folder = tempfile.TemporaryDirectory()
        self.addCleanup(folder.cleanup)
        self.top = Path(folder.name)
        for module in (place, tables, touched, tree):
            patch = mock.patch.object(module, "TOP", self.top)
            patch.start()
            self.addCleanup(patch.stop)
        self.addCleanup(tree.crates.cache_clear)
        tree.crates.cache_clear()
        self.write("crates.txt", "low: std_alloc\nhigh: low\n")
        self.write("crates/low/src/lib.rt", SOURCE)
        self.write("crates/low/src/shape.rt", SHAPE)
        self.write("crates/high/src/lib.rt", ABOVE)
        self.write("crates/low/specs/Words.antt", SPECS)
        self.write("crates/low/proofs/double/Answers.antt", ANSWERS)
        for name, (crate, function, old, new) in EDITS.items():
            self.write_edit(name, old, new, function, crate)
        self.git("init", "-q")
        self.commit = self.commit_all()

    def write(self, name: str | Path, text: str) -> None:
        path = self.top / name
        path.parent.mkdir(parents=True, exist_ok=True)
        path.write_text(text, encoding="utf-8")

    def write_edit(self, name: str, old: str, new: str, function: str, crate: str = "low") -> None:
        """Adds a planted bug to the crate's table."""
        self.write_lines(f"bug: {name}\nfunction: {function}\nold: {old}\nnew: {new}\n", crate)

    def write_caught(self, name: str, old: str, new: str = "x", file: str | None = None, crate: str = "low") -> tables.Edit:
        """Adds a planted bug that runs catch, and returns it."""
        in_file = f"file: {file}\n" if file else ""
        self.write_lines(f"bug: {name}\nscenario: cases\n{in_file}old: {old}\nnew: {new}\n", crate)
        return next(it for it in tables.edits_of(crate, by_runs=True) if it.name == name)

    def write_lines(self, lines: str, crate: str) -> None:
        table = self.top / f"crates/{crate}/bugs/lib.bugs"
        before = table.read_text(encoding="utf-8") + "\n" if table.exists() else ""
        self.write(table, before + lines)

    def edit(self, name: str) -> tables.Edit:
        return next(it for it in tables.edits_of("low") if it.name == name)

    def commit_all(self) -> str:
        self.git("add", "-A")
        self.git("-c", "user.name=t", "-c", "user.email=t@localhost", "commit", "-qm", "next")
        return self.git("rev-parse", "HEAD").strip()

    def git(self, *words: str) -> str:
        return subprocess.run(["git", *words], cwd=self.top, check=True, capture_output=True, encoding="utf-8").stdout
