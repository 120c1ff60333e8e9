"""What run-scenarios finds wrong with a program, which a model of one stands for here, and the model of what calls ask for."""

import runpy
import unittest

from small import tree
from asks import reckon, split_asks
from built import End, HELD
from scenarios import Scenario, find_scenarios, read_blocks, word_of
from trials import outcome

RUN = runpy.run_path(str(tree.TOP / "tools/run-scenarios"))
FILE = b"on backend string SymbolU32 default\n> intern ab\nsymbol 0\n> count\n1\n"
TOLD = b"asks 8\nasks 16\nsymbol 0\n1\n"


class Model:
    """A program that interns one text, with two requests for memory. `ends` are its ends by the request that is refused."""

    def __init__(self, **ends):
        refused = End(0, b"symbol 0\n1\n", b"refused: intern\n")
        self.ends = {"told": End(0, TOLD, b""), "once1": refused, "once2": refused,
                     "on2": End(0, b"out of memory\n", b"refused: intern\n")} | ends

    def run(self, words, calls, is_joined=False, REFUSE=None, REFUSE_ON=None, **settings):
        return self.ends["told" if is_joined else f"on{REFUSE}" if REFUSE_ON else f"once{REFUSE}"]


class SmallTest(unittest.TestCase):
    def faults(self, file=FILE, **ends):
        [([first], parts)] = read_blocks(file)
        faults, self.count = outcome(Model(**ends), (RUN["try_small"], Scenario("it", first, parts)))
        return [fault.removeprefix("it on backend string SymbolU32 default") for fault in faults]

    def test_a_good_program(self):
        self.assertEqual((self.faults(), self.count), ([], 6))

    def test_other_sizes(self):
        told = End(0, TOLD.replace(b"16", b"32"), b"")
        self.assertEqual(self.faults(told=told), [", what intern asks for, and by the model: [8, 32] in the place of [8, 16]"])

    def test_the_sizes_of_a_file(self):
        file = FILE.replace(b"symbol 0", b"asks 8\nasks 16\nsymbol 0")
        self.assertEqual((self.faults(file), self.count), ([], 7))
        self.assertEqual(self.faults(file.replace(b"16", b"32")),
                         [", with the sizes of the file: b'asks 16' in the place of b'asks 32'"])

    def test_other_answers(self):
        self.assertEqual(self.faults(told=End(0, TOLD.replace(b"symbol 0", b"symbol 1"), b"")),
                         [": b'symbol 1' in the place of b'symbol 0'"])
        self.assertEqual(self.faults(told=End(2, TOLD, b"")), [": status 2 in the place of status 0"])

    def test_a_request_that_is_refused(self):
        good = b"refused: intern\n"
        for end in (End(0, b"symbol 1\n1\n", good), End(1, b"symbol 0\n1\n", good), End(0, b"symbol 0\n1\n", b""),
                    End(0, b"symbol 0\n1\n", b"refused: len\n"), End(0, b"symbol 0\n1\n", good + HELD)):
            [fault] = self.faults(once2=end)
            self.assertTrue(fault.startswith(", request 2 refused: "), fault)

    def test_all_requests_refused_from_one_on(self):
        for end in End(0, b"symbol 0\n1\n", b""), End(0, b"out of memory\n", HELD):
            [fault] = self.faults(on2=end)
            self.assertTrue(fault.startswith(", request 2 and all after it refused: "), fault)


class NarrowTest(unittest.TestCase):
    """A program with a `usize` of 32 bits, of which no request is looked at."""

    def faults(self, printed=b"symbol 0\n1\n", status=0):
        [([first], parts)] = read_blocks(FILE)
        faults, _ = outcome(Model(told=End(status, printed, b"")), (RUN["try_narrow"], Scenario("it", first, parts)))
        return faults

    def test_a_good_program(self):
        self.assertEqual(self.faults(), [])

    def test_other_answers(self):
        self.assertEqual(len(self.faults(b"symbol 1\n1\n")), 1)
        self.assertEqual(len(self.faults(status=1)), 1)

    def test_scenarios_of_64_bits_are_there(self):
        self.assertLessEqual(RUN["OF_64_BITS"], {it.name for it in RUN["find_scenarios"]()})

    def test_scenarios_with_greater_numbers_are_left_out(self):
        for number, is_tried in (b"4294967295", True), (b"4294967296", False), (b"18446744073709551614", False):
            for file in FILE.replace(b"intern ab", b"resolve " + number), FILE.replace(b"symbol 0", b"symbol " + number):
                [([first], parts)] = read_blocks(file)
                self.assertEqual(RUN["is_narrow_too"](Scenario("it", first, parts)), is_tried)


def asks(first, *calls):
    """What the parts of a scenario ask for, by the model."""
    text = "".join(f"{line}\n" for line in (f"on {first}", *calls))
    [([first], parts)] = read_blocks(text.encode())
    return reckon(Scenario("it", first, parts))


class ModelTest(unittest.TestCase):
    def test_scenarios_with_sizes(self):
        found = [it for it in find_scenarios() if it.has_sizes]
        levels = {"backend", "index", "interner", "linear", "run", "scopes", "symbol", "tagged"}
        self.assertEqual({word_of(it.first).decode() for it in found}, levels)
        for it in found:
            with self.subTest(str(it)):
                sizes = [[int(line[5:]) for line in part.printed if line.startswith(b"asks ")] for part in it.parts]
                self.assertEqual(reckon(it), sizes)

    def test_slots_three_quarters_of_which_are_filled(self):
        for count, asked in ((1, 32), (6, 32), (7, 64), (12, 64), (13, 128)):
            with self.subTest(count):
                calls = f"> with_capacity {count}", "ok"
                self.assertEqual(asks("interner buffer SymbolU32 default", *calls), [[asked, 13 * count]])
                self.assertEqual(asks("index buffer SymbolU32 default", *calls), [[asked]])

    def test_tagged_slots(self):
        self.assertEqual(asks("tagged string Even default", "> with_capacity 7", "ok"), [[64, 24, 35, 28]])
        self.assertEqual(asks("tagged buffer usize default", "> with_capacity 8", "ok"), [[256, 32, 104]])
        self.assertEqual(asks("tagged buffer SymbolU32 default", "> extend_numbers 8", "ok"), [[16, 64, 24, 8, 16, 128, 32]])

    def test_a_backend_has_repeats(self):
        calls = "> intern a", "symbol 0", "> intern a", "symbol 1", "> empties 3", "symbol 4"
        self.assertEqual(asks("backend bucket SymbolU32 default", *calls), [[64, 128, 2], [], [128]])

    def test_what_a_block_of_commands_asks(self):
        calls = "> Extend a,b", "> InternNumbers 2", "> Number 0", "ok", "symbol 4", "symbol 6", "text a", "4"
        self.assertEqual(asks("tagged_run buffer SymbolU32 default", *calls), [[4, 32, 96, 128, 64, 24, 8, 1]])

    def test_a_call_that_finds_no_memory_is_made_again(self):
        self.assertEqual(asks("linear buffer SymbolU32 default", "> with_capacity 709490156681136601", "out of memory"),
                         [[2837960626724546404] * 2])

    def test_a_bad_line_ends_it(self):
        calls = "> get_or_intern a", "symbol 0", "> numbers x", "line 3: not a number", "> extend b"
        self.assertEqual(asks("interner string SymbolU32 default", *calls), [[32, 8, 16], [], []])
        self.assertEqual(asks("vector", "line 1: unknown backend", "> new"), [[], []])

    def test_each_part_has_its_own(self):
        calls = b"> iter\n  1 left\n0 left\n> entry_at\n> from_iter a\nok\n> clone\nok\n> len\n1\n"
        [(_, parts)] = read_blocks(b"on tagged string Bit fold\n" + calls)
        told = b"  1 left\n0 left\nasks 8\nasks 16\nok\nasks 4\nok\n1\nasks 2\n"
        self.assertEqual(split_asks(parts, told), [[], [], [8, 16], [4], [2]])


if __name__ == "__main__":
    unittest.main()
