"""How planted bugs are tried: what is changed where, which are tried together, and what a program with copies for them is made of."""

import re
import subprocess
import unittest
from pathlib import Path
from unittest import mock

from small import SHAPE, SOURCE, SmallRepository, place, tables
import unproved
from bugs import copies
from bugs.place import Unfit, apply, placed, trials_of
from source import block_name, find_functions, functions, outside_functions


class SourceTest(unittest.TestCase):
    def test_functions(self):
        self.assertEqual([it.name for it in functions(SOURCE)], ["area", "double", "half", "quarter"])
        [declared] = functions(SHAPE)
        self.assertTrue(declared.text.endswith("ensures { AreaOf self.now result };"))
        method, double, *_ = functions(SOURCE)
        self.assertTrue(method.text.endswith("side * side\n    }"))
        self.assertEqual(double.contract, "pub fn double(number: u32) -> u32\n    ensures { IsTwice number result }\n")

    def test_outside_functions(self):
        lines = ["impl Shape for Square {", "}", "pub struct Square {", "    side: u32,", "}"]
        self.assertEqual(outside_functions(SOURCE), lines)
        self.assertEqual(outside_functions(f"use a::{{\n    B,\n}};\n{SOURCE}"), lines)

    def test_names_of_blocks(self):
        names = {"impl Square {": "Square", "pub trait Shape<S: Side>: Drop {": "Shape", "impl<S: Side> Shape for Square<S> {": "SquareShape",
                 "impl From<small::Side> for Square {": "SquareFromSide", "impl<'a, B: Side> Shape for &'a Square<B> {": "RefSquareShape",
                 "impl<'a, 't> Shape for &'a [&'t str] {": "RefSliceRefStrShape", "impl<B: Side<B::It>> Shape for Square<B, Low> {": "SquareLowShape",
                 "impl Shape for Square<'_> {": "SquareShape", "impl<\n    S: Side + Drop,\n> fmt::Shape for Square<\n    S,\n> {": "SquareShape"}
        for block, name in names.items():
            text = f"{block}\n    fn area() {{\n    }}\n}}\n"
            with self.subTest(block):
                self.assertEqual(block_name(text, functions(text)[0]), name)
                self.assertEqual(len(find_functions(text, f"shape::{name}::area")), 1)

    def test_a_function_is_found_in_its_block_alone(self):
        text = f"{SOURCE}\nimpl Square {{\n    fn half() {{\n    }}\n}}\n"
        self.assertEqual([it.is_method for it in find_functions(text, "half")], [False])
        self.assertEqual([it.is_method for it in find_functions(text, "shape::Square::half")], [True])
        self.assertEqual(find_functions(text, "SquareShape::half"), [])


class TrialTest(SmallRepository):
    def trial(self, name):
        return next(it for it in trials_of(tables.edits_of("low")) if it.name == name)

    def written(self, *trials):
        """The source after these trials are put into it."""
        folder = self.top / "crates/low"
        apply([change for it in trials for change in it.put(folder)], folder)
        return (folder / "src/lib.rt").read_text(encoding="utf-8")

    def test_a_bug_stands_beside_its_function(self):
        bug = self.trial("halves_twice")
        half = next(it.text for it in functions(SOURCE) if it.name == "half")
        copies = [half.replace("fn half", f"fn half_bug{number}") for number in (0, 1)]
        wanted = [half, copies[0].replace("\n}", "\n/* as it is */ }"), copies[1].replace("/ 2", "/ 8")]
        self.assertEqual(self.written(bug, bug.control), SOURCE.replace(half, "\n\n".join(wanted)))
        self.assertEqual((bug.function, bug.control.function), ("half_bug1", "half_bug0"))

    def test_each_bug_of_a_function_has_a_number(self):
        self.write_edit("halves_thrice", "number / 2", "number / 16", "half")
        first, again = (self.trial(name) for name in ("halves_twice", "halves_thrice"))
        self.assertEqual((first.function, again.function, again.control.function), ("half_bug1", "half_bug2", "half_bug0"))

    def test_the_attributes_of_a_function_are_copied(self):
        self.write("crates/low/src/lib.rt", SOURCE.replace("fn half", "/// Halves.\n#[inline]\n#[tactic(none)]\nfn half"))
        self.assertIn("}\n\n#[inline]\n#[tactic(none)]\nfn half_bug1", self.written(self.trial("halves_twice")))

    def test_proof_files_are_copied(self):
        self.written(self.trial("doubles_once"))
        copied = (self.top / "crates/low/proofs/double_bug1/Answers.antt").read_text(encoding="utf-8")
        self.assertIn("use Rattle.low.proofs.double_bug1.Goals as goal\n", copied)
        self.assertIn("returns g c = lemma", copied)

    def test_a_bug_of_a_method_of_a_trait_is_put_in_its_place(self):
        bug = self.trial("area_is_the_side")
        self.assertEqual((bug.function, bug.control.function), ("SquareShape::area", "SquareShape::area"))
        self.assertEqual(self.written(bug), SOURCE.replace("side * side", "side"))

    def test_the_control_in_its_place_has_a_comment(self):
        self.assertEqual(self.written(self.trial("area_is_the_side").control), SOURCE.replace("side * side\n    }", "side * side\n    /* as it is */ }"))

    def test_a_bug_that_writes_the_function_has_a_control_that_does(self):
        table = "bug: one\nfunction: SquareShape::side\nfile: src/lib.rt\nold: impl Shape for Square {\n"
        for word, side in ("new", 1), ("right", 2):
            table += "".join(f"{word}: {it}\n" for it in ("impl Shape for Square {", "    fn side() -> u32 {", f"        {side}", "    }"))
        self.write_lines(table, "low")
        bug = self.trial("one")
        self.assertTrue(bug.is_alone)
        self.assertIn("        2\n", self.written(bug.control))

    def test_a_function_that_is_not_written_is_none(self):
        self.write_lines("bug: one\nfunction: SquareShape::side\nfile: src/lib.rt\nold: side * side\nnew: 1\n", "low")
        with self.assertRaises(Unfit):
            self.trial("one")

    def test_an_old_text_stands_once_in_the_function(self):
        self.write("crates/low/src/lib.rt", SOURCE.replace("number / 4", "number / 2"))
        self.write_edit("quarters_once", "number / 2", "number / 3", "quarter")
        for name, old, function in (("a", "number", "double"), ("b", "number / 4", "half"), ("c", "number / 2", "third"), ("d", "side", "Square::area")):
            edit = tables.Edit(name, "low", "src/lib.rt", [tables.Change(None, old, "0")], function)
            with self.subTest(old), self.assertRaises(Unfit):
                trials_of([edit])
        edit = tables.Edit("e", "low", "src/lib.rt", [tables.Change(None, "number / 2", "0")], "half")
        start = (self.top / "crates/low/src/lib.rt").read_text(encoding="utf-8").index("number / 2")
        self.assertEqual(placed(edit), [("src/lib.rt", start, start + 10, "0")])

    def test_answers_are_taken_out(self):
        bug = self.trial("doubles_once")
        self.assertEqual(bug.answered, {"returns", "returns-then-ne"})
        self.assertIsNone(bug.without_answers(["returns", "returns-then-lt"]))
        self.written(bug.without_answers(["returns"]))
        copied = (self.top / "crates/low/proofs/double_bug1/Answers.antt").read_text(encoding="utf-8")
        self.assertNotIn("returns g c = lemma", copied)
        self.assertIn("returns-then-ne g c = returns g c", copied)


class PlanTest(SmallRepository):
    def trials(self):
        return trials_of(tables.edits_of("low"))

    def dealt(self, workers):
        return [sorted(it.name for it in batch) for batch in place.batches(self.trials(), workers)]

    def test_bugs_in_one_place_go_one_by_one(self):
        for number in range(4):
            self.write_edit(f"area_{number}", "side * side", str(number), "SquareShape::area")
        for workers in 1, 2, 3:
            dealt = place.batches(self.trials(), workers)
            self.assertEqual(len([it for batch in dealt for it in batch]), 8)
            for batch in dealt:
                functions = [it.function for it in batch]
                self.assertEqual(len(functions), len(set(functions)))

    def test_bugs_beside_a_function_go_together(self):
        self.write_edit("halves_thrice", "number / 2", "number / 16", "half")
        self.assertEqual([len(it) for it in self.dealt(1)], [5])

    def test_workers_get_about_as_many_each(self):
        self.assertEqual([len(it) for it in self.dealt(2)], [2, 2])
        self.assertEqual(sorted(len(it) for it in self.dealt(3)), [1, 1, 2])

    def test_no_batch_gets_too_many(self):
        with mock.patch.object(place, "TOGETHER", 1):
            self.assertEqual([len(it) for it in self.dealt(1)], [1, 1, 1, 1])

    def test_a_bug_about_more_than_its_function_comes_alone(self):
        self.write_lines("bug: sides\nfunction: SquareShape::area\nfile: src/lib.rt\nold: side: u32\nnew: side: u16\n", "low")
        self.assertEqual(self.dealt(1), [["sides"], ["area_is_the_side", "doubles_once", "halves_twice", "quarters_once"]])

    def test_bugs_that_runs_catch_are_apart(self):
        olds = {"side": "let side", "square": "side * side", "half": "number / 2", "field": "side: u32"}
        side, square, half, field = (self.write_caught(name, old) for name, old in olds.items())
        answer = self.write_caught("answer", "lemma = refl", file="proofs/double/Answers.antt")
        whole = self.write_caught("whole", "", file="proofs/new.antt")
        bugs = [side, square, half, field, answer, whole]
        self.assertEqual(place.apart(bugs, 5), [[side, half, field, answer, whole], [square]])
        self.assertEqual(place.apart(bugs, 3), [[side, half, field], [square, answer, whole]])

    def test_a_bug_about_many_functions_comes_alone(self):
        self.write("crates/low/src/size.rt", "const SIZE: u32 = 2;\n")
        spec, half = self.write_caught("spec", "a + a", file="specs/Words.antt"), self.write_caught("half", "number / 2")
        size = self.write_caught("size", "const SIZE: u32 = 2;", file="src/size.rt")
        self.assertEqual(place.apart([spec, half, size], 3), [[half], [spec], [size]])


SCENARIO = """\
use crate::level::run_calls;

/// Reads it.
pub fn read_scenario(text: &str) -> Option<Scenario<'_>> {
    None
}

/// Runs a scenario of level `run` or `tagged_run`.
fn choose_run(rt: &HostRuntime, scenario: Scenario<'_>) -> Result<(), Fault> {
    match scenario.first {
        "run string SymbolU16 default" => run_commands::<StringBackend<SymbolU16>>(rt, scenario),
        "run counting SymbolU32 default" => run_commands_with::<
            Counting,
            Index<SymbolU32>,
        >(rt, scenario),
        "tagged_run string Bit default" => run_tagged_commands::<StringBackend<Bit>, FixedState>(
            rt, scenario,
        ),
        _ => blame_words(scenario),
    }
}
"""


class CopiesTest(SmallRepository):
    def setUp(self):
        super().setUp()
        for module, name, value in ((copies, "TOP", self.top), (tables, "PROGRAMS", {"low": "high"})):
            patch = mock.patch.object(module, name, value)
            patch.start()
            self.addCleanup(patch.stop)
        self.write("crates.txt", "low: std_alloc\nside: json\nhigh: low side\n")
        self.write("crates/side/src/lib.rt", "pub fn aside() {}\n")
        self.write("crates/high/src/main.rt", "use low::double;\n\nfn main(rt: HostRuntime) {\n    slow::double(side::aside())\n}\n")
        self.bug = self.write_caught("halves_once", "number / 2", "number")
        self.room = self.top / "room"

    def written(self, path):
        return (self.room / path).read_text(encoding="utf-8")

    def test_only_what_a_bug_can_change_is_copied(self):
        self.assertEqual(copies.copied_crates(self.bug), ["high", "low"])
        self.assertEqual(copies.copied_crates(tables.Edit("bug", "high", "src/lib.rt")), ["high"])

    def test_crates_of_the_program(self):
        copies.write_program(self.room, [self.bug])
        self.assertEqual(self.written("crates.txt"), "side: json\nhigh_0: low_0 side\nlow_0: std_alloc\nhigh_1: low_1 side\n"
                         "low_1: std_alloc\ncopies: high_0 high_1\n")
        self.assertEqual(self.written("crates/side/src/lib.rt"), "pub fn aside() {}\n")
        self.assertIn("        1 => high_1::main(rt),\n", self.written("crates/copies/src/main.rt"))

    def test_a_bug_is_in_its_copy_alone(self):
        copies.write_program(self.room, [self.bug])
        self.assertEqual(self.written("crates/low_0/src/lib.rt"), SOURCE)
        self.assertEqual(self.written("crates/low_1/src/lib.rt"), SOURCE.replace("number / 2", "number"))

    def test_a_copy_of_a_program_is_a_library_over_copies(self):
        copies.write_program(self.room, [self.bug])
        wanted = "use low_1::double;\n\npub fn main(rt: HostRuntime) {\n    slow::double(side::aside())\n}\n"
        self.assertEqual(self.written("crates/high_1/src/lib.rt"), wanted)

    def test_proofs_are_not_copied(self):
        self.bug.changes.append(tables.Change("proofs/double/Answers.antt", "refl", "none"))
        copies.write_program(self.room, [self.bug])
        self.assertEqual([it.name for it in (self.room / "crates/low_1").iterdir()], ["src"])

    def test_the_suite_is_cut_to_what_a_bug_runs_on(self):
        kept = copies.cut_suite(SCENARIO, {("tagged_run", "string", "Bit", "default"), ("run", "string", "SymbolU16", "default")})
        [arm] = re.findall(r'^        "run counting(?s:.*?)>\(rt, scenario\),\n', SCENARIO, re.M)
        self.assertEqual(kept, SCENARIO.replace(arm, ""))
        self.assertEqual(copies.cut_suite(SCENARIO, {("run", "counting", "SymbolU32", "default")}).count(" => "), 2)

    def test_the_suite_is_not_cut_to_what_it_is_not_built_for(self):
        with self.assertRaisesRegex(unproved.Unbuilt, "not built for run bucket Even default"):
            copies.cut_suite(SCENARIO, {("run", "bucket", "Even", "default")})

    def test_the_module_of_the_program_is_kept(self):
        kept = unproved.write_toolchain(self.room)
        (self.top / "module.bc").write_bytes(b"BC")
        words = [str(kept.with_suffix("")), "-c", "-x", "ir", "module.bc"]
        self.assertNotEqual(subprocess.run([*words, "-o", "it"], cwd=self.top, capture_output=True, check=False).returncode, 0)
        self.assertFalse(kept.exists())
        subprocess.run([*words, "-fsanitize=address"], cwd=self.top, check=False)
        self.assertEqual(kept.read_bytes(), b"BC")
        self.assertTrue(Path(self.room, "bin/ld.lld").samefile(unproved.CLANG))

    def test_what_is_not_lowered_is_told(self):
        with mock.patch.object(unproved, "run_in", return_value=(2, "error: no such name")), self.assertRaises(unproved.Unbuilt) as fault:
            copies.build_copies(self.room, [self.bug])
        self.assertIn("error: no such name", str(fault.exception))


if __name__ == "__main__":
    unittest.main()
