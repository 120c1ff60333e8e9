"""The format of planted bugs, which of them are chosen by their names, which functions have one, and which bugs a change touches."""

import re
import unittest
from pathlib import Path
from unittest import mock

from small import EDITS, SOURCE, SmallRepository, place, tables, tree
import scenarios
import touched
from program import dictcol, intern
from source import block_around, block_name, end_of_generics, find_functions, functions
from tree import read

# The source whose bugs begin the table that the tests of its form read.
SHAPE = "src/part/shape.rt"
ITEM = re.compile(r'^pub (?:unsafe )?(?:extern "C" )?(?:struct|enum|trait|fn) (\w+)', re.M)
USE = re.compile(r"^pub use ([^;]*);", re.M)
ALIAS = re.compile(r"^pub type (\w+)(?:<.*?>)? =\s*(\w+)", re.M)
# The functions of which no contract refuses another body of the same type: they lend a field, give back an allocator or a builder,
# free memory, write a message, or only say what saves time or takes memory; and examples, of which nothing is promised. Tests see what
# they do.
UNPLANTED = set("""
    StringBackend::memory_used BucketBackend::memory_used NumberList::memory_used
    StringInterner::backend StringInterner::hasher StringInterner::index Scopes::interner Handle::interner Column::dictionary
    Column::codes Dictionary::interner TableTextIndex::allocator NumberList::allocator StdHasher::new ReturnedDrop::drop
    HandleDrop::drop interner_free SymbolU16Symbol::has_narrow_numbers SymbolU32Symbol::has_narrow_numbers SeededStateDebug::fmt
    PartsErrorDisplay::fmt count_bytes collect encode""".split())


def is_open(path, src):
    """Whether other crates reach the module of a source by its path."""
    above = src / "lib.rt" if path.parent == src else path.parent.with_suffix(".rt")
    return path == src / "lib.rt" or f"\npub mod {path.stem};" in read(above) and is_open(above, src)


def is_public(text, function, shown):
    """Whether a user of a library can call a function, of which these names are shown."""
    block, owner = block_around(text, function), function.name
    if block:
        head = text[end_of_generics(text, block.end("kind")):block.end()].rpartition(" for ")[2]
        owner = (re.findall(r"[A-Z]\w*", head) or [None])[0]
    is_of_trait = block and (block["kind"] == "trait" or " for " in block[0])
    return owner in shown and bool(is_of_trait or re.match(r" *pub (?!\()", function.text))


def public_functions(src):
    """The public functions with a body of a library with these sources, each with its file and path."""
    texts = {it: read(it) for it in src.rglob("*.rt")}
    shown = {None, *(name for it in texts if is_open(it, src) for name in ITEM.findall(texts[it]))}
    shown.update(name for text in texts.values() for used in USE.findall(text) for name in re.findall(r"\w+", used))
    shown.update(named for text in texts.values() for name, named in ALIAS.findall(text) if name in shown)
    return [(path, "::".join(filter(None, (block_name(text, it), it.name))), it) for path, text in texts.items()
            for it in functions(text) if is_public(text, it, shown) and not it.text.endswith((";", "{}"))]


class ReadTableTest(unittest.TestCase):
    def read(self, text):
        return tables.read_table(text, "crates/low/bugs/part/shape.bugs")

    def test_lines(self):
        one, two = self.read("bug: one\nfunction: m::f\nold:  x\nold:\nnew: y\nnew: z\nold: u\nnew:\n\n\n"
                             "bug: two\nscenario: cases one\nold: v\nnew: w\nfile: a\nold:\nnew: all\nright: most\n")
        changes = [tables.Change(None, " x\n", "y\nz"), tables.Change(None, "u", "")]
        self.assertEqual(one, tables.Edit("one", "low", SHAPE, changes, "m::f"))
        changes = [tables.Change(None, "v", "w"), tables.Change("a", "", "all", "most")]
        self.assertEqual(two, tables.Edit("two", "low", SHAPE, changes, "", ["cases", "one"]))
        self.assertEqual((one.files, two.files), ([SHAPE], [SHAPE, "a"]))

    def test_a_source_is_that_of_all_bugs_below(self):
        bug = "function: f\nold: x\nnew: y\n"
        found = self.read(f"bug: one\n{bug}\nsource: src/a.rt\nbug: two\n{bug}\nbug: three\n{bug}\nsource: src/b.rt\nbug: four\n{bug}")
        self.assertEqual([it.source for it in found], [SHAPE, "src/a.rt", "src/a.rt", "src/b.rt"])

    def test_faults_tell_the_line(self):
        good = "bug: one\nfunction: f\nold: x\nnew: y\n"
        self.assertEqual(len(self.read(f"{good}\n{good}")), 2)
        bad = {f"{good}what: z\n": 5, f"{good}z\n": 5, f"{good}bug: two\n": 5, "bug: one\nnew: y\n": 2, "bug: one\nfunction: f\nold: x\n": 1,
               "\nold: x\nnew: y\nfunction: f\n": 2, "bug: one\nold: x\nnew: y\n": 1, f"{good}scenario: cases\n": 1,
               f"{good}source: a\n": 5, f"source: a\n\n{good}": 1}
        for text, line in bad.items():
            with self.subTest(text), self.assertRaisesRegex(ValueError, f"crates/low/bugs/part/shape.bugs:{line}: "):
                self.read(text)


class ChoiceTest(SmallRepository):
    def test_all_where_none_is_named(self):
        self.assertEqual({it.name for it in tables.choose_edits(["low", "high"], [])}, set(EDITS))

    def test_those_that_are_named(self):
        self.assertEqual([it.name for it in tables.choose_edits(["low"], ["halves_twice"])], ["halves_twice"])

    def test_a_name_of_none(self):
        with self.assertRaises(SystemExit):
            tables.choose_edits(["high"], ["halves_twice"])


def words_of(parts):
    """What names trials of a program: each part, and each function of one."""
    return {word for part, trials in parts.items() for word in (part, *(f"{part}:{it[0].__name__}" for it in trials))}


class PlantedBugsTest(unittest.TestCase):
    """The planted bugs of this repository."""

    def every(self, *given):
        tree.crates.cache_clear()
        return [it for crate in tree.crates() for it in tables.edits_of(crate, *given)]

    def test_each_old_text_stands_once(self):
        self.assertEqual(len(place.trials_of(self.every())), len(self.every()))
        for edit in self.every(True):
            with self.subTest(edit.name):
                place.placed(edit)

    def test_names_are_of_one_bug(self):
        names = [it.name for it in [*self.every(), *self.every(True)]]
        self.assertEqual(sorted(set(names)), sorted(names))

    def test_each_stands_in_the_table_of_its_room(self):
        for path in tree.TOP.glob("crates/*/bugs/**/*.bugs"):
            name = path.relative_to(tree.TOP).as_posix()
            self.assertEqual(path.parent.name, tree.TABLES, name)
            for source in {it.source for it in tables.read_table(read(path), name)}:
                room = Path(source).relative_to("src").with_suffix("").parts[0]
                self.assertIn(path.stem, [room] if path.with_stem(room).exists() else ["lib", "main"], f"{name}: {source}")

    def test_each_public_function_has_one(self):
        planted = set()
        for edit in [*self.every(), *self.every(True)]:
            crate = tree.TOP / "crates" / edit.crate
            planted |= {(crate / edit.source, it.start) for it in find_functions(read(crate / edit.source), edit.function)}
            for file, start, *_ in place.placed(edit) if edit.scenario else ():
                planted |= {(crate / file, it.start) for it in functions(place.text_of(crate / file)) if it.start <= start < it.end}
        libraries = [it for it in tree.crates() if (tree.TOP / "crates" / it / "src/lib.rt").exists()]
        every = [it for name in libraries for it in public_functions(tree.TOP / "crates" / name / "src")]
        without = {name for path, name, it in every if (path, it.start) not in planted}
        self.assertGreater(len(every), 300)
        self.assertEqual(without, UNPLANTED)

    def test_each_scenario_is_there(self):
        words = {"intern": words_of(intern.parts()), "dictcol": words_of(dictcol.parts())}
        for edit in self.every(True):
            with self.subTest(edit.name):
                if edit.program == "suite":
                    self.assertNotEqual(list(scenarios.find_scenarios(*edit.scenario)), [])
                else:
                    self.assertLessEqual(set(edit.scenario), words[edit.program])


LIB, ABOVE, WORDS = "crates/low/src/lib.rt", "crates/high/src/lib.rt", "crates/low/specs/Words.antt"
LOW = {name for name, (crate, *_) in EDITS.items() if crate == "low"}


class TouchedTest(SmallRepository):
    def touched(self):
        changes = touched.Changes(self.commit)
        return {it.name for crate in tree.crates() for it in tables.edits_of(crate) if changes.touch(it)}

    def touched_by(self, name, old, new):
        """The planted bugs that replacing a text of a file touches."""
        text = (self.top / name).read_text(encoding="utf-8")
        self.assertEqual(text.count(old), 1)
        self.write(name, text.replace(old, new))
        return self.touched()

    def test_nothing_has_changed(self):
        self.assertEqual(self.touched(), set())

    def test_a_body_touches_its_function(self):
        self.assertEqual(self.touched_by(LIB, "number / 2", "number >> 1"), {"halves_twice"})

    def test_a_body_touches_no_caller(self):
        self.assertEqual(self.touched_by(LIB, "number + number", "2 * number"), {"doubles_once"})

    def test_what_stands_outside_functions_touches_its_file(self):
        self.assertEqual(self.touched_by(LIB, "side: u32,", "side: u32,\n    sides: u32,"), LOW)

    def test_a_contract_touches_callers_in_crates_above(self):
        self.assertEqual(self.touched_by(LIB, "IsTwice number result", "IsTwice number 0"), {"doubles_once", "doubles_instead"})

    def test_a_contract_in_another_file(self):
        self.write("crates/low/src/size.rt", "pub fn half(number: u64) -> u64\n    ensures { result ≡ 1 }\n{\n    1\n}\n")
        self.commit = self.commit_all()
        self.assertEqual(self.touched_by("crates/low/src/size.rt", "    1", "    2 - 1"), set())
        self.assertEqual(self.touched_by("crates/low/src/size.rt", "result ≡ 1", "result ≡ 2"), {"halves_twice"})

    def test_a_type_or_a_constant_touches_what_names_it(self):
        for name, before, after in (("Square", "side: u16", "side: u8"), ("SIDE", "SIDE: u16", "SIDE: u8")):
            self.write("crates/low/src/side.rt", "pub struct Square {\n    side: u16,\n}\n\npub const SIDE: u16 = 1;\n")
            self.write(ABOVE, f"fn fourfold(number: u32) -> u32 {{\n    {name}; double(double(number))\n}}\n")
            self.commit = self.commit_all()
            self.assertLessEqual({"doubles_instead"}, self.touched_by("crates/low/src/side.rt", before, after))
        self.write(ABOVE, "fn fourfold(number: u32) -> u32 {\n    double(double(number))\n}\n")
        self.commit = self.commit_all()
        self.assertEqual(self.touched_by("crates/low/src/side.rt", "SIDE: u8", "SIDE: u32"), LOW)

    def test_a_crate_that_is_not_below(self):
        self.write("crates/low/src/size.rt", "fn area() {\n    fourfold()\n}\n")
        self.commit = self.commit_all()
        self.assertEqual(self.touched_by(ABOVE, "result ≡ 4 * number", "result ≡ 0"), {"doubles_instead"})

    def test_comments_and_what_is_new_touch_nothing(self):
        changed = f"{SOURCE.replace('/// Doubles.', '/// Returns twice the number.')}\npub fn fourfold() {{\n}}\n"
        self.write(LIB, changed.replace("mod shape;", "mod shape;\nmod size;\n\nuse shape::{\n    Area, Shape,\n};"))
        self.write("crates/low/src/size.rt", "fn fourfold(number: u64) -> u64\n    ensures { result ≡ 0 }\n{\n    0\n}\n")
        self.assertEqual(self.touched(), set())

    def test_a_file_of_specs_touches_its_crate_and_those_above(self):
        self.assertEqual(self.touched_by(WORDS, "b ≡ a + a", "b ≡ 2 * a"), {*EDITS})
        self.write("crates/high/specs/Words.antt", "abbrev pub Nothing : Type 0")
        self.commit = self.commit_all()
        self.assertEqual(self.touched_by("crates/high/specs/Words.antt", "Nothing", "Other"), {"doubles_instead"})

    def test_a_proof_file_touches_its_function(self):
        self.assertEqual(self.touched_by("crates/low/proofs/double/Answers.antt", "c = lemma", "c = refl"), {"doubles_once"})

    def test_a_proof_file_that_moved_touches_its_function(self):
        self.git("mv", "crates/low/proofs/double", "crates/low/proofs/twofold")
        self.assertEqual(self.touched(), {"doubles_once"})

    def test_its_lines(self):
        table = "crates/low/bugs/lib.bugs"
        self.assertEqual(self.touched_by(table, "new: number / 8", "new: number / 16"), {"halves_twice"})
        self.git("checkout", "-q", table)
        self.assertEqual(self.touched_by(table, "bug: halves_twice", "bug: halves_less"), {"halves_less"})

    def test_its_lines_in_another_table(self):
        table = self.top / "crates/low/bugs/lib.bugs"
        bugs = table.read_text(encoding="utf-8")
        self.write("crates/low/bugs/part/shapes.bugs", f"source: src/lib.rt\n{bugs}")
        table.unlink()
        self.assertEqual(self.touched(), set())
        self.assertEqual(self.touched_by("crates/low/bugs/part/shapes.bugs", "source: src/lib.rt\n", "source: src/shape.rt\n"), LOW)

    def test_a_new_bug(self):
        self.write_edit("doubles_never", "number + number", "number", "double")
        self.assertEqual(self.touched(), {"doubles_never"})

    def test_a_file_that_its_lines_name(self):
        self.write_lines("bug: shapes\nfunction: double\nfile: src/shape.rt\nold: self.now\nnew: self.old\n", "low")
        self.commit = self.commit_all()
        self.assertEqual(self.touched_by("crates/low/src/shape.rt", "Returns the area", "The area"), {"shapes"})


class FullRunTest(SmallRepository):
    ALL = {"low": ["area_is_the_side", "doubles_once", "halves_twice", "quarters_once"], "high": ["doubles_instead"]}

    def setUp(self):
        super().setUp()
        for name, value in (("TRIED", self.top / "tried"), ("logic", lambda: "1f")):
            patch = mock.patch.object(touched, name, value)
            patch.start()
            self.addCleanup(patch.stop)

    def written(self):
        return (self.top / "tried").read_text(encoding="utf-8")

    def test_after_a_run_over_each_crate_nothing_is_touched(self):
        touched.note_run(self.commit, "low", "high")
        self.assertEqual(touched.touched(), {})

    def test_a_run_is_what_the_next_one_begins_from(self):
        touched.note_run("0" * 40, "low", "high")
        touched.note_run(self.commit, "low", "high")
        self.assertEqual(touched.touched(), {})
        self.write("crates/low/proofs/double/Answers.antt", "")
        self.assertEqual(touched.touched(), {"low": ["doubles_once"]})

    def test_a_run_over_a_crate_is_none_over_another(self):
        touched.note_run(self.commit, "low")
        self.assertEqual(touched.touched(), {"high": ["doubles_instead"]})

    def test_a_run_keeps_what_is_said_of_others(self):
        touched.note_run("0" * 40, "at once", "high")
        touched.note_run(self.commit, "low")
        self.assertEqual(self.written(), f"logic 1f\nat once {'0' * 40}\nlow {self.commit}\nhigh {'0' * 40}\n")

    def test_without_a_run_all_are_touched(self):
        self.assertEqual(touched.touched(), self.ALL)

    def test_with_a_commit_that_is_gone_all_are_touched(self):
        touched.note_run("0" * 40, "low", "high")
        self.assertEqual(touched.touched(), self.ALL)

    def test_under_another_logic_all_are_touched(self):
        touched.note_run(self.commit, "at once", "low", "high")
        with mock.patch.object(touched, "logic", lambda: "2f"):
            self.assertEqual(touched.touched(), self.ALL)
            touched.note_run(self.commit, "low")
            self.assertEqual(touched.touched(), {"high": ["doubles_instead"]})
        self.assertEqual(self.written(), f"logic 2f\nat once {self.commit}\nlow {self.commit}\n")

    def test_a_commit_as_it_stands(self):
        self.assertEqual(touched.commit_as_it_stands(), self.commit)
        self.write("crates/low/src/lib.rt", "")
        self.assertIsNone(touched.commit_as_it_stands())


if __name__ == "__main__":
    unittest.main()
