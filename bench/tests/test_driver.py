"""What the driver reads and tells, how callgrind's files are weighed, and the lines that programs read."""

import os
import sys
import tempfile
import unittest
from pathlib import Path
from unittest import mock

sys.path.insert(0, str(Path(__file__).resolve().parents[1]))
import columns
import cycles
import driver
from results import summary

SUMS = {"fill": 45, "known": 45, "clone": 9}
# Stands for the driver: two rounds of each kind, of which one phase is not made.
RUN = "45 45 3 7 7 52 9 9 45\n8 8 8 8 8 8 8 18446744073709551615 8\n6 9 8 8 8 8 8 18446744073709551615 8\n"


class Inputs(unittest.TestCase):
    def test_texts_are_distinct_and_the_same_in_each_run(self):
        for name, lengths in (("identifiers", range(5, 16)), ("long", (200,))):
            new, known, unknown = driver.texts_of(name, 300)
            self.assertEqual(len({*new, *unknown}), 600)
            self.assertNotEqual(new, known)
            self.assertEqual(sorted(new), sorted(known))
            self.assertTrue(all(len(text) in lengths for text in new + unknown))
            self.assertEqual(driver.texts_of(name, 300), (new, known, unknown))

    def test_chosen_texts_have_one_code(self):
        new, known, unknown = driver.texts_of("chosen", 1024)
        self.assertEqual((len({*new}), known, unknown), (1024, [], []))
        codes = set()
        for text in new:
            code = 0xCBF29CE484222325
            for byte in text.encode():
                code = (code ^ byte) * 0x100000001B3 % 2**64
            codes.add(code % 2**32)
        self.assertEqual(len(codes), 1)

    def test_a_file_has_three_parts(self):
        with mock.patch.object(driver, "texts_of", lambda *_: (["a", "bcd"], ["bcd", "a"], ["e", "f"])), driver.input_of("x", 2) as given:
            self.assertEqual(given.path.read_text(), "a\nbcd\n\nbcd\na\n\ne\nf")
            self.assertEqual(given[1:], ("x", 2, 2))


class Sums(unittest.TestCase):
    def test_kinds_that_number_alike_agree(self):
        driver.compare({"a/string/-": SUMS, "b/bucket/-": {**SUMS, "copy": 9, "together": 45}, "c/buffer/-": {**SUMS, "fill": 70}})
        for other in ({**SUMS, "fill": 44}, {**SUMS, "copy": 8}, {**SUMS, "together": 44}):
            with self.assertRaises(SystemExit):
                driver.compare({"a/string/-": SUMS, "b/bucket/-": other})

    def test_the_least_and_the_median(self):
        self.assertEqual(summary("fill", [5000, 1, 3, 2, 4]), {"fill": 1, "fill median": 3})
        self.assertEqual(summary("fill", [4, 2]), {"fill": 2, "fill median": 2})

    def test_times_of_all_rounds(self):
        given = driver.Input(Path("texts"), "words", 2, 3.5)
        with mock.patch.object(driver.Input, "kinds", lambda _: ["a/string/-/b"]), mock.patch.object(
            driver, "told", lambda words: RUN.splitlines()
        ):
            rows = list(driver.time_kinds(given, 1, 2))
        self.assertEqual(rows[:2], [f"a\tstring\t-\tb\twords\t2\t3.5\t{row}" for row in ("fill\t3.00", "fill median\t3.00")])
        self.assertFalse([row for row in rows if "copy" in row])


# Stands for valgrind: writes six parts, each with its number for a total, and one for the rest.
VALGRIND = """#!/bin/sh
for word; do case $word in --callgrind-out-file=*) file=${word#*=}; esac; done
file=${file%.%p}.77
for part in 1 2 3 4 5 6; do printf 'events: Ir\\ntotals: %s\\n' $part >"$file.$part"; done
printf 'events: Ir\\ntotals: 1000\\n' >"$file"
"""


class Cycles(unittest.TestCase):
    def test_weights_each_event(self):
        events = "Ir Dr Dw I1mr D1mr D1mw ILmr DLmr DLmw Bc Bcm Bi Bim"
        totals = cycles.totals_in(["version: 1", f"events: {events}", "fn=(1) main", "totals: 1000 9 9 2 3 1 1 0 2 9 4 9 1"])
        self.assertEqual(cycles.cycles_in(totals), 1000 + 10 * (2 + 3 + 1) + 100 * (1 + 2) + 10 * (4 + 1))

    def test_takes_what_is_left_out_for_zero(self):
        totals = cycles.totals_in(["events: Ir Dr Dw I1mr D1mr", "totals: 50 1 1 1"])
        self.assertEqual(cycles.cycles_in(totals), 60)

    def test_sorts_parts_by_number(self):
        names = ["counts.12", "counts.12.10", "counts.12.9"]
        self.assertEqual(sorted(map(Path, names), key=cycles.number_of_part), list(map(Path, reversed(names))))

    def test_a_phase_is_between_two_readings_of_the_clock(self):
        with tempfile.TemporaryDirectory() as folder:
            tool = Path(folder, "valgrind")
            tool.write_text(VALGRIND)
            tool.chmod(0o755)
            with mock.patch.dict(os.environ, PATH=f"{folder}:{os.environ['PATH']}"):
                self.assertEqual(cycles.count_phases("a/kind", "texts:1"), {"fill": {"Ir": 3}, "known": {"Ir": 5}})


# Stands for dictcol: writes each line twice.
PROGRAM = "#!/bin/sh\nsed p\n"


class Columns(unittest.TestCase):
    def test_lines_in_order_are_sorted_and_shuffled_ones_are_the_same(self):
        lines = columns.lines_of("in order", 2000)
        self.assertEqual(lines, sorted(set(lines)))
        shuffled = columns.lines_of("shuffled", 2000)
        self.assertNotEqual(shuffled, lines)
        self.assertEqual(sorted(shuffled), lines)

    def test_few_of_the_repeated_lines_are_distinct(self):
        self.assertEqual(len(set(columns.lines_of("repeated", 20_000))), 600)

    def test_each_command_reads_its_lines(self):
        runs = {}

        def measure(command, given):
            runs[command, given.name] = len(given.read_text().splitlines())
            return {"run": 50, "memory": 25}

        with tempfile.TemporaryDirectory() as folder:
            program = Path(folder, "dictcol")
            program.write_text(PROGRAM)
            program.chmod(0o755)
            rows = [row.split("\t") for row in columns.measure_columns(program, 10, measure)]
        self.assertEqual(runs[f"{program} encode", "shuffled"], 10)
        self.assertEqual(runs[f"{program} decode", "encoded"], 20)
        self.assertIn(("sort | uniq -c", "repeated"), runs)
        self.assertEqual([row[0] for row in rows[::2]], [command for command, _ in columns.COMMANDS])
        self.assertEqual({(what, value) for *_, what, value in rows}, {("run", "5.00"), ("memory", "2.50")})


if __name__ == "__main__":
    unittest.main()
