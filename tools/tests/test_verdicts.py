"""How what the prover and runs say of controls and planted bugs is read and judged. Provers and programs are made up."""

import argparse
import contextlib
import io
import runpy
import unittest
from dataclasses import dataclass, field
from pathlib import Path
from unittest import mock

from small import SmallRepository, tables, tree
from bugs.place import trials_of
from bugs.verdicts import BY_FORM_ALONE, LET_THROUGH, REFUSED, Verdicts, first_errors, is_complete
from built import Program
from source import find_functions

# A goal that its answer does not prove, another that has none here, and the verdict on the function.
REFUSAL = """\
checked low::double, 1 of 1
./proofs/double/Answers.antt:6:15: error: `returns`: `search`: no proof of `c.result ≡ c.number + c.number`
  was found. Every way was tried: a deeper search would find nothing either.
note: src/lib.rt:18:5: it is not proved that what the function ensures holds when it returns (`returns-then-ne`)
help: `#[tactic(none)]` holds here: answer these goals in the function's `Answers.antt`
fn low::double: not proved; it stands on `Rattle.low.proofs.double.Answers.returns`, which antt refuses
crate low: modules loaded=4 checked=1
only=1 holes=0
"""
# What is open is a goal that has no answer.
OPEN_GOAL = """\
note: src/lib.rt:18:5: it is not proved that what the function ensures holds when it returns (`returns-then-ne`)
fn low::double: no proof: expected answers in ./proofs/double/Answers.antt; `#[tactic(none)]` leaves `returns-then-ne`
only=1 holes=0
"""
MISSING_GOAL = """\
./proofs/double/Answers.antt:5:15: error: `returns`: `goal.returns`: module `Rattle.low.proofs.double.Goals` has no `returns` that can be named from here
fn low::double: not proved; it stands on `Rattle.low.proofs.double.Answers.returns`, which antt refuses
only=1 holes=0
"""
MISSING_STATE = """\
./proofs/double/Answers.antt:3:10: error: `lemma`: `In-Vacant` is not in scope
./proofs/double/Answers.antt:6:15: error: `returns`: `search`: no proof of `c.result ≡ 2`
  was found.
fn low::double: not proved; it stands on `Rattle.low.proofs.double.Answers.returns`, which antt refuses
only=1 holes=0
"""
# The face of a goal that the tactics do not prove has a variable of its own.
SHOWN_UNDER_A_NAME = REFUSAL.replace("note:", """\
./proofs/double/Answers.antt:9:15: error: `by-tactics`: on the face `x = 1` this clause's body is `2`, but the type requires `c.result`
  there
  `x` is not in scope here, so what is shown does not paste back as it stands: the text binds it as `_`
note:""")


@dataclass
class Tried:
    """The part of a trial that a verdict looks at."""

    function: str = "double"
    answered: set[str] = field(default_factory=lambda: {"returns"})
    without: set[str] = field(default_factory=set)


class VerdictsTest(unittest.TestCase):
    def outcome(self, output, **trial):
        return Verdicts(output, "low").outcome(Tried(**trial))

    def test_an_answer_that_does_not_prove_its_goal(self):
        self.assertEqual(self.outcome(REFUSAL), REFUSED)

    def test_a_goal_that_the_tactics_do_not_prove(self):
        self.assertEqual(self.outcome(OPEN_GOAL), REFUSED)

    def test_a_function_that_is_proved(self):
        self.assertEqual(self.outcome("fn low::double: proved\nonly=1 proved=1\n"), LET_THROUGH)

    def test_a_name_that_is_gone(self):
        self.assertEqual(self.outcome(MISSING_GOAL), BY_FORM_ALONE)
        self.assertEqual(self.outcome(MISSING_STATE), BY_FORM_ALONE)

    def test_an_open_goal_beside_an_answer_to_none(self):
        self.assertEqual(self.outcome(MISSING_GOAL + OPEN_GOAL), BY_FORM_ALONE)

    def test_an_answer_that_fails_beside_an_answer_to_none(self):
        both = REFUSAL.replace("note:", MISSING_GOAL.replace("`returns`: `goal.r", "`returns-then-gt`: `goal.r").partition("fn ")[0] + "note:")
        self.assertEqual(self.outcome(both, answered={"returns", "returns-then-gt"}), REFUSED)

    def test_a_variable_of_a_goal_as_shown_is_no_name_that_is_gone(self):
        self.assertEqual(self.outcome(SHOWN_UNDER_A_NAME), REFUSED)

    def test_a_function_of_which_nothing_is_said(self):
        self.assertNotIn(self.outcome(REFUSAL, function="half"), (REFUSED, LET_THROUGH))

    def test_without_an_answer_the_tactics_must_fail_at_its_goal(self):
        self.assertEqual(self.outcome(OPEN_GOAL, without={"returns-then-ne"}), REFUSED)
        self.assertNotEqual(self.outcome(OPEN_GOAL, without={"returns"}), REFUSED)

    def test_what_is_open(self):
        self.assertEqual(Verdicts(REFUSAL, "low").opened(Tried()), ["returns-then-ne", "returns"])

    def test_the_first_errors(self):
        errors = first_errors(REFUSAL * 9).splitlines()
        self.assertEqual(errors, ["./proofs/double/Answers.antt:6:15: error: `returns`: `search`: no proof of `c.result ≡ c.number + c.number`"] * 5)
        self.assertEqual(first_errors("killed\n"), "killed\n")

    def test_a_check_that_was_cut_off_says_nothing(self):
        self.assertTrue(is_complete(REFUSAL, 1))
        self.assertFalse(is_complete(REFUSAL, -9))
        self.assertFalse(is_complete("checked low::double, 1 of 1\n", 1))


REFUSE = runpy.run_path(str(tree.TOP / "tools/refuse-edits"))
OF_REFUSE = REFUSE["main"].__globals__
# Functions that are right, each by a text that it has.
RIGHT = {"area": "side * side", "double": "number + number", "half": "number / 2", "quarter": "number / 4"}
OPEN = "note: src/lib.rt:1:1: it is not proved that what the function ensures holds (`{}`)\n"
FAILED = "./proofs/{}/Answers.antt:6:15: error: `returns`: `search`: no proof\n"
GONE = "./proofs/{}/Answers.antt:6:15: error: `returns`: `goal.returns`: module `Goals`\n  has no `returns`\n"


class RefuseTest(SmallRepository):
    def setUp(self):
        super().setUp()
        self.write("HANDLES", "")
        self.checks = []
        self.right, self.unread, self.goals = dict(RIGHT), [], ["returns", "returns-then-ne"]
        patch = mock.patch.dict(OF_REFUSE, TOP=self.top, run_in=self.prove)
        patch.start()
        self.addCleanup(patch.stop)

    def prove(self, folder, *words):
        """What a check prints. It ends early where a text stands in the source that it cannot read."""
        text = (folder / "src/lib.rt").read_text(encoding="utf-8")
        functions = [it.removeprefix("--only=") for it in map(str, words) if it.startswith("--only=")]
        self.checks.append(functions)
        if any(it in text for it in self.unread):
            return 2, "error: no such name\n"
        said = ""
        for function in functions:
            [own] = find_functions(text, function)
            answers = folder / f"proofs/{function}/Answers.antt"
            is_answered = answers.exists() and "pub returns :" in answers.read_text(encoding="utf-8")
            if text[: own.start].endswith("#[tactic(none)]\n"):
                self.assertFalse(is_answered)
                said += "".join(map(OPEN.format, self.goals))
            elif "renamed" in own.text:
                said += GONE.format(function) + OPEN.format("returns-else")
            elif self.right[own.name.partition("_bug")[0]] not in own.text:
                said += FAILED.format(function) if is_answered else "" if "proved by tactics" in own.text else OPEN.format("returns")
            said += f"fn low::{function}: ..\n"
        return 1, f"{said}only=1 holes=0\n"

    def outcomes(self, is_thorough=False):
        said = argparse.Namespace(kept=None, workers=1, outputs=None, thorough=is_thorough)
        base = self.top / f"base_{len(self.checks)}"
        with contextlib.redirect_stdout(io.StringIO()):
            good, wrong = REFUSE["accept"](base, trials_of(tables.edits_of("low")), said)
            found = REFUSE["refuse"](good, base, said) | wrong
        return {it.name: outcome for it, outcome in found.items()}

    def refused(self, **named):
        return {name for name, outcome in self.outcomes(**named).items() if outcome == REFUSED}

    def test_controls_come_first(self):
        self.assertEqual(self.outcomes(), dict.fromkeys(("area_is_the_side", "doubles_once", "halves_twice", "quarters_once"), REFUSED))
        controls, bugs = self.checks
        self.assertEqual(sorted(controls), ["SquareShape::area", "double_bug0", "half_bug0", "quarter_bug0"])
        self.assertEqual(sorted(bugs), ["SquareShape::area", "double_bug1", "half_bug1", "quarter_bug1"])

    def test_the_same_text_with_a_comment_is_let_through(self):
        self.write_edit("halves_still", "number / 2", "number / 2 /* the same */", "half")
        self.assertEqual(self.outcomes()["halves_still"], LET_THROUGH)

    def test_nothing_is_shown_where_the_control_is_not_accepted(self):
        self.right["half"] = "number >> 1"
        outcomes = self.outcomes()
        self.assertEqual(outcomes["halves_twice"], f"the control of half: {REFUSED}")
        self.assertNotIn("half_bug1", self.checks[1])

    def test_a_bug_that_does_not_compile_is_found_among_others(self):
        self.write_edit("halves_oddly", "number / 2", "nothing / 8", "half")
        self.unread.append("nothing / 8")
        outcomes = self.outcomes()
        self.assertEqual({name for name, outcome in outcomes.items() if outcome != REFUSED}, {"halves_oddly"})

    def test_a_bug_that_no_check_tries_is_not_refused(self):
        with mock.patch.dict(OF_REFUSE, batches=lambda trials, _: [[it] for it in trials[:1]]):
            self.assertEqual(sorted(self.outcomes().values()), ["not tried"] * 3 + [REFUSED])

    def test_an_open_goal_shows_a_refusal_if_the_function_has_it(self):
        self.write_edit("doubles_by_another_name", "    number + number", "    renamed(number)", "double")
        self.assertEqual(self.outcomes()["doubles_by_another_name"], BY_FORM_ALONE)
        self.assertIn(["double"], self.checks)
        self.goals.append("returns-else")
        self.assertEqual(self.outcomes()["doubles_by_another_name"], REFUSED)

    def test_a_thorough_trial_wants_the_tactics_to_fail(self):
        self.write_edit("doubles_so", "    number + number", "    2 * number /* proved by tactics */", "double")
        self.assertIn("doubles_so", self.refused())
        self.assertEqual(self.refused(is_thorough=True), self.refused() - {"doubles_so"})


CATCH = runpy.run_path(str(tree.TOP / "tools/catch-edits"))
OF_CATCH = CATCH["main"].__globals__


def say(program, wanted, more=None):
    """A trial that compares the name of the program with some."""
    for number, name in enumerate(wanted):
        yield f"thing {number}", program.path, name
    if more:
        raise AssertionError(more)


class CatchTest(SmallRepository):
    def setUp(self):
        super().setUp()
        patch = mock.patch.dict(OF_CATCH, TOP=self.top)
        patch.start()
        self.addCleanup(patch.stop)
        self.write("HANDLES", "")
        self.bugs = [self.write_caught(name, old, "0") for name, old in (("half", "number / 2"), ("quarter", "number / 4"), ("side", "side * side"))]

    def test_a_run_catches_what_it_passes_without_the_bug(self):
        catch = CATCH["catch"]
        self.assertTrue(catch(self.bugs[0], None, "1 in the place of 2").is_good)
        self.assertFalse(catch(self.bugs[0], None, None).is_good)
        self.assertFalse(catch(self.bugs[0], "1 in the place of 2", "1 in the place of 2").is_good)

    def test_a_word_names_a_part_or_one_function_of_it(self):
        parts = {"both": [(say, "1"), (mock.Mock(__name__="it"),), (say, "2")]}
        self.assertEqual([*CATCH["chosen"](parts, "both")], parts["both"])
        self.assertEqual([*CATCH["chosen"](parts, "both:say")], [(say, "1"), (say, "2")])
        self.assertEqual([*CATCH["chosen"](parts, "both:other"), *CATCH["chosen"](parts, "other")], [])

    def test_the_first_fault_is_enough(self):
        program = Program.__new__(Program)
        trials = [(say, "1"), (say, "0", "in vain"), (mock.Mock(side_effect=AssertionError("in vain"), __name__="it"),)]
        self.assertEqual(CATCH["first_fault"](program, Path("1"), trials), "thing 0: 1 in the place of 0")
        self.assertIsNone(CATCH["first_fault"](program, Path("0"), [(say, "00")]))
        self.assertIn("in vain", CATCH["first_fault"](program, Path("0"), trials[2:]))

    def test_all_bugs_of_a_batch_fail_that_is_not_built(self):
        build = mock.Mock(side_effect=CATCH["Unbuilt"]("no module"))
        with mock.patch.dict(OF_CATCH, build_copies=build):
            self.assertEqual([it.is_good for it in CATCH["try_runs"](self.bugs)], [False] * 3)

    def test_batches_are_of_one_crate(self):
        other = tables.Edit("other", "high", "src/lib.rt", scenario=["it"])
        with mock.patch.dict(OF_CATCH, TOGETHER=2):
            dealt = CATCH["run_batches"]([*self.bugs, other])
        self.assertEqual([[it.name for it in batch] for batch in dealt], [["half"], ["quarter", "side"], ["other"]])

    def accepted(self, refuses):
        """What comes of all bugs if the prover refuses a source that has one of these texts no longer."""
        def check(tree, crate):
            text = (tree / "crates" / crate / "src/lib.rt").read_text()
            self.tried.append([it.name for it in self.bugs if it.changes[0].old not in text])
            return "fn half: not proved" if any(it not in text for it in refuses) else ""
        self.tried = []
        with mock.patch.dict(OF_CATCH, check=check):
            return {it.edit: it.is_good for it in CATCH["accept"](self.top, self.bugs)}

    def test_one_check_serves_all(self):
        self.assertEqual(self.accepted([]), {"half": True, "quarter": True, "side": True})
        self.assertEqual(self.tried, [["half", "quarter", "side"]])

    def test_a_bug_that_the_prover_refuses_is_found_among_others(self):
        self.assertEqual(self.accepted(["number / 4"]), {"half": True, "quarter": False, "side": True})

    def test_a_bug_passes_by_both_sides(self):
        verdicts = [CATCH["Verdict"](*it, "") for it in (("half", True), ("quarter", True), ("half", True), ("quarter", False), ("low", False))]
        self.assertEqual(CATCH["count_passed"](self.bugs, verdicts), 1)

    def test_the_crates_below_are_checked_first(self):
        with mock.patch.dict(OF_CATCH, check=mock.Mock(return_value="")):
            self.assertEqual(CATCH["prepare"](self.top / "copy", ["high", "high"], None), [])
            self.assertEqual([crate for (_, crate), _ in OF_CATCH["check"].call_args_list], ["low", "high"])

    def test_nothing_is_tried_over_a_tree_that_is_not_proved(self):
        with mock.patch.dict(OF_CATCH, check=lambda _, crate: "not proved"):
            [verdict] = CATCH["prepare"](self.top / "copy", ["high"], None)
        self.assertEqual((verdict.edit, verdict.is_good), ("low", False))

    def test_a_check_passes_by_its_last_line(self):
        for status, said, is_good in ((0, "logic=proved functions=3\n", True), (0, "only=1 holes=0\n", False), (1, "logic=proved \n", False)):
            with mock.patch.dict(OF_CATCH, run_in=lambda *_, end=(status, said): end):
                self.assertEqual(not CATCH["check"](self.top, "low"), is_good)


if __name__ == "__main__":
    unittest.main()
