"""What is read from the files of scenarios, and what such a file must not say."""

import hashlib
import os
import re
import runpy
import subprocess
import sys
import tempfile
import unittest
from itertools import accumulate, combinations, islice, product
from pathlib import Path
from types import SimpleNamespace
from typing import Any
from unittest import mock

sys.path.insert(0, str(Path(__file__).resolve().parent.parent))
import scenarios
from scenarios import CRATE, LARGE, Part, Scenario, cut, digest_of, file_faults, find_scenarios, read_blocks, read_file, write_file

BLOCKS = b"""\
on interner string SymbolU32 default
on interner bucket SymbolU32 default
> get_or_intern a b
asks 8
symbol 0
> iter
  1 left, symbol 0, text a b
0 left
>\x20
line 4: unknown call
> len

on interner buffer Even default
> get_or_intern a b
symbol 0
> iter
>\x20
> len
"""
FILE = b"scenario one\n# A comment.\n" + BLOCKS + b"\nscenario other\non interner string SymbolU32 default\n> len\n0\n"
PARTS = [Part(b"get_or_intern", [b"get_or_intern a b"], [b"asks 8", b"symbol 0"]),
         Part(b"iter", [b"iter"], [b"  1 left, symbol 0, text a b", b"0 left"]),
         Part(b"", [b""], [b"line 4: unknown call"]), Part(b"len", [b"len"], [])]
RUN = b"on run string SymbolU32 default\n> Intern a\n> Shrink\nsymbol 0\nok\n1\n> Shrink\n> Shrink\nok\nok\n1\n"


def pairs_of(first):
    return combinations(enumerate(first.split()), 2)


def scenario(text, at=0):
    (firsts, parts), *_ = read_blocks(text)
    return Scenario("it", firsts[at], parts)


class ReadTest(unittest.TestCase):
    def test_blocks(self):
        one, other = read_blocks(BLOCKS)
        self.assertEqual(one, ([b"interner string SymbolU32 default", b"interner bucket SymbolU32 default"], PARTS))
        self.assertEqual(other[1][1:3], [Part(b"iter", [b"iter"], []), Part(b"", [b""], [])])

    def test_scenarios_of_a_file(self):
        first, second = found = list(read_file(FILE))
        self.assertEqual(first, ("one", b"# A comment.\n", list(read_blocks(BLOCKS))))
        self.assertEqual(second[:2], ("other", b""))
        self.assertEqual(write_file(found), FILE)

    def test_calls(self):
        it = scenario(BLOCKS, 1)
        self.assertEqual((str(it), it.has_sizes), ("it on interner bucket SymbolU32 default", True))
        self.assertEqual(it.input, b"interner bucket SymbolU32 default\nget_or_intern a b\niter\n\nlen\n")
        self.assertEqual(it.end(), (2, b"symbol 0\n  1 left, symbol 0, text a b\n0 left\n", b"line 4: unknown call\n"))

    def test_blocks_of_commands(self):
        it = scenario(RUN)
        self.assertEqual(it.input, b"run string SymbolU32 default\nIntern a\nShrink\n\nShrink\nShrink\n")
        self.assertEqual([(part.word, part.unseen) for part in it.parts], [(b"run", 2), (b"run", 4)])
        self.assertEqual(it.end(), (0, b"symbol 0\nok\n1\nok\nok\n1\n", b""))
        self.assertEqual([part.word for part in scenario(RUN.replace(b"run", b"interner")).parts], [b"Intern", *[b"Shrink"] * 3])

    def test_no_calls(self):
        self.assertEqual(scenario(b"on run string SymbolU32 default\n0\n").parts, [Part(b"run", [], [b"0"])])
        it = scenario(b"on runs\nline 1: unknown level\n")
        self.assertEqual((it.input, it.end()), (b"runs\n", (2, b"", b"line 1: unknown level\n")))

    def test_digest_of(self):
        text = b"text a\n\n"
        self.assertEqual(cut(text), [b"text a", b""])
        self.assertEqual(digest_of(text), b"2 lines, SHA-256 %s\n" % hashlib.sha256(text).hexdigest().encode())

    def test_names_and_words(self):
        for words, count in ("run_of_nothing", 3), ("run_of_nothing bucket", 1), ("run_of_nothing bucket Even", 0), ("no", 0):
            with self.subTest(words):
                self.assertEqual(len(list(find_scenarios(*words.split()))), count)

    def test_the_same_calls_with_a_tagged_index(self):
        none = "backend string SymbolU32 default", "run counting SymbolU32 default", "scopes string SymbolU32 counting", "interner"
        again = {"interner bucket SymbolU32 default": "tagged bucket SymbolU32 default, tagged bucket SymbolU32 fold",
                 "scopes bucket Even default": "tagged_scopes bucket Even default", **dict.fromkeys(none, "")}
        every = {first.encode() for firsts in again.values() for first in firsts.split(", ")}
        for first, firsts in again.items():
            with self.subTest(first), mock.patch.object(scenarios, "built_firsts", return_value=every):
                found = list(scenario(BLOCKS.replace(b"interner string SymbolU32 default", first.encode())).again())
                self.assertEqual(", ".join(it.first.decode() for it in found), firsts)
                self.assertEqual([(it.has_sizes, it.end()) for it in found], [(False, scenario(BLOCKS).end())] * len(found))

    def test_not_on_what_the_suite_is_not_built_for(self):
        with mock.patch.object(scenarios, "built_firsts", return_value={b"tagged string SymbolU32 fold"}):
            self.assertEqual([it.first for it in scenario(BLOCKS).again()], [b"tagged string SymbolU32 fold"])


class BuiltTest(unittest.TestCase):
    """What the suite is built for, by its source."""

    def test_first_lines(self):
        built = scenarios.built_firsts()
        for first in b"interner string SymbolU32 default", b"tagged string SymbolU32 counting", b"symbol none usize default":
            self.assertIn(first, built)
        self.assertNotIn(b"interner none SymbolU32 default", built)

    def test_scenarios_use_each(self):
        found = list(find_scenarios())
        firsts = {it.first for it in found if not it.parts[0].is_bad}
        self.assertEqual(scenarios.built_firsts(), firsts | {again.first for it in found for again in it.again()})

    def test_words_that_scenarios_put_together(self):
        """Any two words of a first line, also with a tagged index in the place of another, are together in one that is built."""
        found = [it for it in find_scenarios() if it.first in scenarios.built_firsts()]
        pairs = {pair for it in found for first in (it.first, *it.firsts_again()) for pair in pairs_of(first)}
        self.assertEqual(pairs - {pair for first in scenarios.built_firsts() for pair in pairs_of(first)}, set())

    def test_each_bad_hasher_over_each_backend(self):
        """Two words that are together elsewhere do not stand for a run of these."""
        firsts = {it.first.decode() for it in find_scenarios("thirty_texts_under_a_bad_hasher")}
        nine = product(("string", "bucket", "buffer"), ("constant", "length", "salted"))
        self.assertEqual({f"interner {backend} SymbolU32 {hasher}" for backend, hasher in nine}, firsts)


class ChosenTest(unittest.TestCase):
    """The scenarios that large/choose.py wrote. It took the texts that it found first; here they are not searched for again."""

    script = CRATE / LARGE / "choose.py"
    choose: Any
    kept: dict[Path, bytes]
    found: dict[str, Any]

    @classmethod
    def setUpClass(cls):
        cls.choose = SimpleNamespace(**runpy.run_path(str(cls.script)))
        cls.kept = {path.relative_to(cls.script.parent): path.read_bytes() for path in cls.script.parent.rglob("chosen.scenario")}
        cls.found = {kind: cls.pairs_of(name) for kind, name in (("words", "chosen_texts_string"), ("blocks", "chosen_blocks_string_sip"))}
        letters = [letter - ord("!") for letter in cls.call_of("chosen_numbers_under_other_keys", b"distances")]
        distances = (94 * high + low for high, low in zip(letters[::2], letters[1::2]))
        cls.found["numbers"] = [b"%d" % number for number in accumulate(distances)]

    @classmethod
    def call_of(cls, name, word):
        """What a scenario gives a call besides its count."""
        [text] = re.findall(rb"scenario %s\n(?:.+\n)*?> %s \d+ (.*)" % (name.encode(), word), b"".join(cls.kept.values()))
        return text

    @classmethod
    def pairs_of(cls, name):
        words = cls.call_of(name, b"choices").split(b",")
        return list(zip(words[::2], words[1::2]))

    @unittest.skipUnless(sys.hash_info.algorithm == "siphash13", "Python hashes by another function")
    def test_what_is_written_of_them(self):
        with tempfile.TemporaryDirectory() as folder:
            self.choose.write_scenarios(Path(folder), self.found)
            written = {path.relative_to(folder): path.read_bytes() for path in Path(folder).rglob("*")
                       if path.is_file()}
        self.assertEqual(sorted(self.kept), sorted(written))
        for name, text in self.kept.items():
            with self.subTest(name):
                self.assertTrue(text == written[name])

    def test_words_have_one_code(self):
        pairs = self.found["words"]
        texts = [self.choose.choose(pairs, number) for number in (0, 2 ** 16 - 1, *(2 ** at for at in range(16)))]
        self.assertEqual((len(pairs), len({*texts}), len({self.choose.fnv_1a(text, bits=32) for text in texts})), (16, 18, 1))

    def test_blocks_have_the_code_0(self):
        pairs = self.found["blocks"]
        texts = [self.choose.choose(pairs, number) for number in (0, 2 ** len(pairs) - 1, *(2 ** at for at in range(len(pairs))))]
        self.assertEqual({self.choose.fold_code(text) for text in texts}, {0})

    @unittest.skipUnless(sys.hash_info.algorithm == "siphash13", "Python hashes by another function")
    def test_numbers_are_in_few_slots(self):
        script = f"import sys; print(sum(bool(hash(it) & {self.choose.ZERO}) for it in sys.stdin.buffer.read().split()))"
        keys = {**os.environ, "PYTHONHASHSEED": self.choose.SEEDS["keyed"]}
        words, numbers = [sys.executable, "-c", script], b"\n".join(self.found["numbers"])
        self.assertEqual(subprocess.run(words, env=keys, input=numbers, check=True, stdout=subprocess.PIPE).stdout, b"0\n")
        self.assertEqual(len(self.found["numbers"]), 50000)

    def test_the_searches(self):
        one, other = self.choose.find_pair(b"front", bits=12)
        codes = {self.choose.fnv_1a(b"front" + word, bits=12) for word in (one, other)}
        self.assertEqual((one != other, len(codes)), (True, 1))
        self.assertEqual(self.choose.find_zero(self.choose.mix(7, b"0123456789abcdef"))[:16].isalnum(), True)
        first = islice(self.choose.find_numbers(), 3)
        self.assertEqual([hash(it) & self.choose.ZERO for it in first], [0, 0, 0])


class FilesTest(unittest.TestCase):
    def faults(self, files):
        with tempfile.TemporaryDirectory() as folder:
            for name, text in files.items():
                path = Path(folder, name)
                path.parent.mkdir(parents=True, exist_ok=True)
                path.write_bytes(text)
            return list(file_faults(Path(folder)))

    def test_files_as_they_must_be(self):
        digest = b"scenario digest\non run string\n> Len\n2 lines, SHA-256 12\n"
        bad = b"scenario bad\non runs string\nline 1: unknown level\n"
        good = {"scenarios/run/a.scenario": b"scenario good\n" + RUN + b"\n" + bad, "large/run/b.scenario": digest, "large/choose.py": b"",
                "scenarios/interner/a.scenario": FILE}
        self.assertEqual(self.faults(good), [])

    def test_other_files_and_names(self):
        self.assertEqual(self.faults({"scenarios/run/a.calls": b""}), ["a.calls is no scenario"])
        files = {"scenarios/run/a.scenario": b"scenario it\n" + RUN, "large/run/b.scenario": b"scenario it\n" + RUN}
        self.assertEqual(self.faults(files), ["2 scenarios have the name it"])

    def test_what_a_file_must_not_say(self):
        named = b"scenario it\n" + RUN
        for text in b"", named[:-1], named + b"\n", b"x\n" + named, RUN, named + b"scenario other\n" + RUN:
            with self.subTest(text):
                self.assertIn("run/a.scenario is not as it would be written", self.faults({"scenarios/run/a.scenario": text}))

    def test_what_a_scenario_must_not_say(self):
        answer = b"on run string\n> Len\n0\n"
        for text, fault in ((b"", "has no block"), (RUN.replace(b"run", b"scopes"), "is of another level than its folder, run"),
                            (RUN + b"\n" + RUN.replace(b" a", b" b"), "has more than one list of calls"),
                            (answer.replace(b"run", b"interner").replace(b"0\n", b"> Len\n0\n0\n"), "has two answers of Len")):
            with self.subTest(text):
                self.assertIn(f"it {fault}", self.faults({"scenarios/run/a.scenario": b"scenario it\n" + text}))


if __name__ == "__main__":
    unittest.main()
