"""How results are read, and what tables and documents show of them."""

import sys
import tempfile
import unittest
from pathlib import Path
from unittest import mock

sys.path.insert(0, str(Path(__file__).resolve().parents[1]))
import tables
from results import DEFAULT, FAST, FNV, MAP, MEASURED, ORIGINAL, PARTS, RUST, SET, SOURCES, THREADS, Results, code_of, sum_of, table_of

HEAD = {"commit": "c0ffee", "date": "2026-01-01", "machine": "a machine", "original": "the original", "load": "busy"}


def results_of(*rows):
    """Results of rows of a kind, an input, a count, a measure and a value."""
    with tempfile.TemporaryDirectory() as folder:
        for part in PARTS:
            head = "".join(f"# {key}: {value}\n" for key, value in HEAD.items())
            lines = ("\t".join(map(str, (*kind, *row[:2], "", *row[2:]))) for kind, *row in (rows if part == "times" else ()))
            Path(folder, f"{part}.tsv").write_text(head + "".join(f"{line}\n" for line in table_of(lines)))
        return Results(folder)


SOURCE = """\
//! Doubles.
ghost use Rattle.Words.{IsTwice};

impl Twice for Number {
    ghost laws = {
        first
    };

    /// Doubles.
    #[inline]
    fn double(&self) -> u32
        ensures { IsTwice self.now
            result }
        ensures lends { Keeps (
            self.now
        ) }
    {
        self.value * 2 // No overflow.
    }
}
"""


class Code(unittest.TestCase):
    def test_comments_contracts_proofs_and_layout_are_no_code(self):
        self.assertEqual(code_of(SOURCE), "impl Twice for Number { #[inline] fn double(&self) -> u32 { self.value * 2 } }")

    def test_the_sum_is_that_of_the_code_and_of_the_names_of_files(self):
        with tempfile.TemporaryDirectory() as folder:
            files = [Path(folder, source, "lib.rt") if "." not in source else Path(folder, source) for source in SOURCES["columns"]]
            for file in files:
                file.parent.mkdir(parents=True, exist_ok=True)
                file.write_text(SOURCE)
            before = sum_of("columns", Path(folder))
            files[0].write_text(SOURCE.replace("No overflow", "It fits").replace("first", "second").replace("value *", "value\n *"))
            self.assertEqual(sum_of("columns", Path(folder)), before)
            files[0].write_text(SOURCE.replace("* 2", "* 3"))
            self.assertNotEqual(sum_of("columns", Path(folder)), before)
            files[0].rename(files[0].with_name("main.rt"))
            files[0].with_name("main.rt").write_text(SOURCE)
            self.assertNotEqual(sum_of("columns", Path(folder)), before)

    def test_results_of_other_code_are_told(self):
        results = Results(MEASURED)
        results.heads = {part: {**head, "code": sum_of(part)} for part, head in results.heads.items()}
        with mock.patch.object(tables, "DOCUMENTS", ()):
            self.assertEqual(list(tables.faults(results)), [])
            results.heads["memory"]["code"] = "another"
            del results.heads["columns"]["code"]
            self.assertEqual([fault.partition(":")[0] for fault in tables.faults(results)], ["bench/measured/memory.tsv", "bench/measured/columns.tsv"])

    def test_a_table_of_other_results_is_told(self):
        results = Results(MEASURED)
        results.heads = {part: {**head, "code": sum_of(part)} for part, head in results.heads.items()}
        with tempfile.TemporaryDirectory() as folder:
            page = Path(folder, "PAGE.md")
            with mock.patch.object(tables, "DOCUMENTS", (page,)), mock.patch.object(tables, "DOCS", Path(folder, "docs")):
                page.write_text(tables.put("<!-- bench/run: speed -->\n<!-- end: speed -->\n", tables.blocks(results)))
                self.assertEqual(list(tables.faults(results)), [])
                page.write_text(page.read_text().replace("fill", "full").replace("0.", "1."))
                self.assertEqual(len(list(tables.faults(results))), 1)


class Tables(unittest.TestCase):
    def test_a_ratio_is_ours_over_the_original(self):
        rows = [(FAST["string"], "words", 10, "fill", 30), (ORIGINAL["string"], "words", 10, "fill", 60)]
        self.assertEqual(results_of(*rows).ratio(FAST["string"], ORIGINAL["string"], "words", 10, "fill"), 0.5)
        self.assertIsNone(results_of(rows[0]).ratio(FAST["string"], ORIGINAL["string"], "words", 10, "fill"))

    def test_a_copy_is_a_clone_where_there_is_none(self):
        rows = [(FNV["string"], "words", 10, f"clone{of}", value) for of, value in (("", 4), (" cycles", 9))]
        results = results_of(*rows, (FAST["string"], "words", 10, "clone", 7), (FAST["string"], "words", 10, "copy", 3))
        self.assertEqual(results.value(FNV["string"], "words", 10, "copy"), 4)
        self.assertEqual(results.value(FNV["string"], "words", 10, "copy cycles"), 9)
        self.assertEqual(results.value(FAST["string"], "words", 10, "copy"), 3)

    def test_known_texts_are_interned_one_by_one_where_there_is_no_call_for_many(self):
        results = results_of((FNV["string"], "words", 10, "known", 5), (FAST["string"], "words", 10, "together", 2))
        self.assertEqual(results.value(FNV["string"], "words", 10, "together"), 5)
        self.assertEqual(results.value(FAST["string"], "words", 10, "together"), 2)
        self.assertIsNone(results_of((FAST["string"], "words", 10, "known", 5)).value(FAST["string"], "words", 10, "together"))

    def test_a_file_of_results(self):
        lines = ["a\tb\t-\t-\twords\t10\t4.0\tfill\t2.5", "a\tc\t-\t-\twords\t10\t4.0\tlive\t3", "a\tb\t-\t-\twords\t10\t4.0\tlive\t7"]
        names, *rows = table_of(lines)
        self.assertEqual(names, "library\tbackend\tindex\thasher\tinput\tcount\tbytes\tfill\tlive")
        self.assertEqual(rows, ["a\tb\t-\t-\twords\t10\t4.0\t2.5\t7", "a\tc\t-\t-\twords\t10\t4.0\t\t3"])

    def test_what_was_not_measured_is_no_value(self):
        results = results_of((MAP, "words", 10, "fill", 2.5), (MAP, "words", 10, "live", 3), (SET, "words", 10, "live", 4))
        self.assertEqual(results.values[MAP, "words", 10], {"fill": 2.5, "live": 3})
        self.assertEqual(results.values[SET, "words", 10], {"live": 4})

    def test_counts_with_cycles(self):
        rows = [("words", 20, "fill cycles", 1), ("words", 10, "fill cycles", 1), ("long", 5, "fill cycles", 1)]
        results = results_of(*((FAST["string"], *row) for row in (*rows, ("words", 30, "fill", 1))))
        self.assertEqual(results.counted("words"), [10, 20])

    def test_the_readme_has_the_rust_crate_by_each_hasher(self):
        rows = [(RUST[kind], "identifiers", 10, "known cycles", value) for kind, value in (("original", 4), ("default", 6), ("fixed", 3))]
        rows.append((RUST["default"], "identifiers", 10, "clone cycles", 1))
        shown = tables.speed(results_of(*rows)).splitlines()
        self.assertIn("divided by those of string-interner 0.19, by the", shown[0])
        self.assertEqual(shown[-2:], ["| `rust, default` | 10 |  | 1.50 |  |  |  |  |", "| `rust, fixed` | 10 |  | 0.75 |  |  |  |  |"])
        self.assertEqual(tables.speed(results_of()), "Not measured.")

    def test_in_short_it_has_the_most_texts(self):
        rows = [(RUST[kind], "identifiers", count, "known cycles", count) for kind in ("original", "default", "fixed") for count in (10, 20)]
        shown = tables.speed(results_of(*rows), is_short=True).splitlines()
        self.assertEqual([line.split(" | ")[:2] for line in shown[-2:]], [["| `rust, default`", "20"], ["| `rust, fixed`", "20"]])

    def test_a_row_of_python_has_a_range(self):
        figures = {what: {"one": 0.5, "two": 0.251} for what in tables.IN_SHORT}
        figures["memory of a distinct text / a dict"] = {"one": 0.333}
        shown = tables.in_python(figures, tables.IN_SHORT)
        self.assertIn("| `get` of a known text | `d.get(text)` | 0.25 .. 0.50 |", shown)
        self.assertIn("| memory of a distinct text | a dict | 0.33 |", shown)

    def test_rows_of_python_are_told_apart(self):
        where = {"distinct, ASCII, fresh objects": 0.1, "distinct, not ASCII, fresh objects": 0.2, "repeats, ASCII, fresh objects": 0.3}
        where |= {"repeats, ASCII, same objects": 0.4, "distinct, not ASCII, same objects": 0.5, "repeats, not ASCII, fresh objects": 0.6}
        names = ("intern_all / pandas.factorize", "Column(rows) / pandas.factorize", "intern_all / a dict")
        lines = tables.batches_in_python({name: where for name in names}).splitlines()
        self.assertEqual([line.split(" | ")[1] for line in lines[2:]], ["0.40", "0.30 .. 0.60", "0.50", "0.10", "0.20"])

    def test_keys_of_python_have_a_column_for_each_count(self):
        calls = ("intern_all / pandas.factorize, keys", "Column(rows) / pandas.factorize, keys")
        where = ("`a1` .., 1,000", "the same, shuffled, 1,000", "`a1` .., 20,000", "the same, shuffled, 20,000")
        figures = {call: {it: number / 10 + place for number, it in enumerate(where)} for place, call in enumerate(calls)}
        lines = tables.keys_in_python(figures).splitlines()
        self.assertEqual(lines[2].count("1,000"), 2)
        self.assertEqual(lines[4:], ["| `a1` .. | 0.00 | 1.00 | 0.20 | 1.20 |", "| the same, shuffled | 0.10 | 1.10 | 0.30 | 1.30 |"])

    def test_columns_of_python_are_beside_a_categorical(self):
        with mock.patch.object(tables, "COLUMN_CALLS", {"a / b": ("`a`", "`b`")}):
            lines = tables.columns_in_python({"a / b": {"100": 0.254, "1,000,000": 1.5}}).splitlines()
        self.assertEqual(lines[2:], ["| a column | a Categorical | 100 | 1,000,000 |", "|---|---|---:|---:|", "| `a` | `b` | 0.25 | 1.50 |"])

    def test_what_was_measured_is_shown_again(self):
        with tempfile.TemporaryDirectory() as folder:
            page = Path(folder, "PAGE.md")
            page.write_text("<!-- bench/run: speed -->\nold\n<!-- end: speed -->\n")
            with mock.patch.object(tables, "DOCUMENTS", (page,)), mock.patch.object(sys, "argv", ["tables.py", "--measured"]):
                self.assertEqual(tables.main(), 0)
            self.assertIn(tables.blocks(Results(MEASURED))["speed"], page.read_text())

    def test_both_interners_are_beside_the_original_under_a_like_hasher(self):
        kinds = {FAST["string"]: 3, ORIGINAL["string"]: 4, DEFAULT["string"]: 6, FNV["string"]: 2}
        shown = tables.calls(results_of(*((kind, "identifiers", 10, "fill", time) for kind, time in kinds.items())))
        self.assertEqual(shown.splitlines()[4:], ["| time, 10 identifiers | 0.75 |  |  | 3.00 |  |  |"])

    def test_long_texts_have_cycles_and_no_times(self):
        rows = [(kind, "long", 10, f"fill{of}", 5) for kind in (FAST["string"], ORIGINAL["string"]) for of in ("", " cycles")]
        shown = tables.calls(results_of(*rows))
        self.assertEqual(shown.splitlines()[4:], ["| cycles, 10 texts of 200 bytes | 1.00 |  |  |  |  |  |"])

    def test_the_page_says_when_and_where_it_was_measured(self):
        results = results_of()
        results.heads["cycles"] = {**HEAD, "date": "2026-01-02"}
        said = "Measured 2026-01-01; 2026-01-02: a machine; for times, busy. The original is the original."
        self.assertEqual(tables.measured(results), said)

    def test_bytes_beside_other_maps_are_of_the_greatest_count_too(self):
        rows = [(10, "fill cycles", 70), (10, "live", 4), (1000, "live", 5)]
        shown = tables.peers(results_of(*((FAST["string"], "identifiers", *row) for row in rows))).splitlines()
        self.assertIn("| live, 10 | live, 1,000 |", shown[2])
        self.assertEqual(shown[4], "| `FastStringInterner` | 70.0 |  |  |  |  | 4.00 | 5.00 |")

    def test_a_program_has_a_row_for_both_counts(self):
        sort = ("sort | uniq -c", "-", "-", "-")
        rows = [(sort, "shuffled", 10, "run cycles", 70), (sort, "shuffled", 100, "run", 300)]
        rows.append((sort, "shuffled", 100, "memory", 25))
        last = tables.columns(results_of(*rows)).splitlines()[-1]
        self.assertEqual(last, r"| `sort \| uniq -c` | of a log, shuffled | 70.0 | 300 | 25.0 |")

    def test_four_threads_are_told_by_how_many_times_the_work_of_one_they_do(self):
        kind = (*THREADS, "one lock")
        rows = [("known 1 used", 30), ("known 1 took", 25), ("known 4 used", 60), ("known 4 took", 90), ("new 1 used", 70), ("bytes", 8)]
        shown = tables.shared(results_of(*((kind, "texts of 9 bytes", 10, *row) for row in rows))).splitlines()
        self.assertEqual(shown[2], "|  | texts | known, ns | by 4 | new, ns | by 4 | resolve, ns | by 4 | bytes |")
        self.assertEqual(shown[4:], ["| one lock | 10 | 30.0 | 2.00 | 70.0 |  |  |  | 8.00 |"])

    def test_parts_were_measured_apart(self):
        results = results_of()
        results.heads["cycles"] = {**HEAD, "commit": "f00d"}
        said = "Times and memory: commit c0ffee, 2026-01-01, a machine; busy. Cycles: commit f00d, 2026-01-01, a machine; busy"
        self.assertEqual(results.line("times", "cycles", "memory"), f"{said}. The original is the original.")

    def test_numbers_are_short(self):
        shown = [tables.short(value) for value in (None, 1234.4, 99.94, 9.944)]
        self.assertEqual(shown, ["", "1,234", "99.9", "9.94"])

    def test_a_document_keeps_what_is_outside_of_the_markers(self):
        begin, end = "<!-- bench/run: speed -->", "<!-- end: speed -->"
        text = f"before\n{begin}\nold\nolder\n{end}\nafter\n<!-- bench/run: other -->\nkept\n<!-- end: other -->\n"
        shown = tables.put(text, {"speed": r"new \1", "not there": "no"})
        self.assertEqual(shown, text.replace("old\nolder", r"new \1"))


if __name__ == "__main__":
    unittest.main()
