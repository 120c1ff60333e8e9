"""What is wrong with a document, as tools/documents.py finds it."""

import shutil
import unittest
from pathlib import Path
from unittest import mock

from small import SmallRepository
import documents
from gate_log import TAKES

README = """\
# Small things

See [the words](docs/WORDS.md#what-they-mean) and [below](#use-it). `double` is in `src/lib.rt` and in `crates/low`, module
`low/src/shape`; `IsTwice` is in `Words.antt`. Built: `crates/low/out/rlib`, and no name: `a/..`, `PREFIX/bin`, `x + y`.

## Use it

    tools/count

```rattle
fn half(number: u32) -> u32
    ensures { IsHalf number result }
```

```c
if (number == 0) return 1;
number /= 2;
```

```rust
let number = half(4);
```

```python
number = half(4)
```
"""


class DocumentsTest(SmallRepository):
    def setUp(self):
        super().setUp()
        patch = mock.patch.object(documents, "TOP", self.top)
        patch.start()
        self.addCleanup(patch.stop)
        self.write("tools/count", "")
        self.write("docs/WORDS.md", "# Words\n\n## What *they* mean\n")
        self.write("clients/c/examples/half.c", "int main(void) {\n  if (number == 0) return 1;\n  number /= 2;\n}\n")
        self.write("clients/rust/examples/half.rs", "fn main() {\n    let number = half(4);\n}\n")
        self.write("clients/python/examples/half.py", "number = half(4)\n")
        self.write("README.md", README)

    def faults_after(self, old, new):
        self.assertIn(old, README)
        self.write("README.md", README.replace(old, new))
        return list(documents.faults())

    def test_nothing_is_wrong(self):
        self.assertEqual(list(documents.faults()), [])

    def test_links(self):
        self.assertEqual(self.faults_after("WORDS.md#", "WORD.md#"), ["README.md: the link docs/WORD.md#what-they-mean leads to no file"])
        self.assertEqual(self.faults_after("#use-it", "#use"), ["README.md: the link #use leads to no heading"])
        self.assertEqual(self.faults_after("they-mean", "they"), ["README.md: the link docs/WORDS.md#what-they leads to no heading"])

    def test_files(self):
        self.assertEqual(self.faults_after("src/lib.rt", "src/main.rt"), ["README.md: no file `src/main.rt`"])
        self.assertEqual(self.faults_after("Words.antt", "Word.antt"), ["README.md: no file `Word.antt`"])
        self.assertEqual(self.faults_after("src/shape", "src/size"), ["README.md: no file `low/src/size`"])
        self.assertEqual(self.faults_after("tools/count", "tools/counts"), ["README.md: no file tools/counts"])

    def test_identifiers(self):
        self.assertEqual(self.faults_after("`double`", "`Treble`"), ["README.md: no `Treble` in any file"])
        self.assertEqual(self.faults_after("`IsTwice`", "`low::IsTwice`"), [])
        self.assertEqual(self.faults_after("`IsTwice`", "`low::IsThrice`"), ["README.md: no `low::IsThrice` in any file"])
        self.assertEqual(self.faults_after("`double`", "`doubles`"), [])

    def test_worked_rows(self):
        self.write("crates/low/proofs/Worked/Twice.antt", "pub twice-two : twice 2 ≡ 4\ntwice-two = refl twice-three\n")
        self.write("clients/build", "pkg-config --libs halves\n")
        self.assertEqual(self.faults_after("`double`", "`twice-two`, `pkg-config`"), [])
        self.assertEqual(self.faults_after("`double`", "`twice-three`"), ["README.md: no row or law `twice-three`"])
        self.assertEqual(self.faults_after("`double`", "`twice-tw`"), ["README.md: no row or law `twice-tw`"])
        self.write("docs/use/PORTING.md", "Shown by `twice-four`, not by `Treble`.\n")
        self.assertEqual(self.faults_after("`double`", "`double`"), ["docs/use/PORTING.md: no row or law `twice-four`"])

    def test_the_original(self):
        self.write("docs/use/PORTING.md", "The original has `Treble`, and `src/treble.rs`.\n")
        self.assertEqual(list(documents.faults()), ["docs/use/PORTING.md: no file `src/treble.rs`"])

    def test_blocks(self):
        self.assertEqual(self.faults_after("fn half(", "fn third("), ["README.md: in no crate: fn third(number: u32) -> u32"])
        self.assertEqual(self.faults_after("```rattle", "```"), ["README.md: a block in no known language: fn half(number: u32) -> u32"])

    def test_blocks_of_other_languages(self):
        self.assertEqual(self.faults_after("number /= 2", "number /= 3"), ["README.md: in no example: if (number == 0) return 1;"])
        self.assertEqual(self.faults_after("let number", " let number"), ["README.md: in no example:  let number = half(4);"])
        self.assertEqual(self.faults_after("let number = half(4)", "let number = half(5)"), ["README.md: in no example: let number = half(5);"])
        self.assertEqual(self.faults_after("```python", "```rust"), ["README.md: in no example: number = half(4)"])
        self.assertEqual(self.faults_after("```python", "```text"), [])

    def test_answers_of_examples(self):
        self.write("crates/examples/proofs/half/Answers.antt", "use Low\n\npub returns : goal.returns\nreturns g c = c.half\n")
        block = "```antt\npub returns : goal.returns\nreturns g c = c.half\n```\n"
        self.write("docs/ANSWERS.md", block)
        self.assertEqual(list(documents.faults()), [])
        self.write("docs/ANSWERS.md", block.replace("c.half", "c.third"))
        self.assertEqual(list(documents.faults()), ["docs/ANSWERS.md: in no example: pub returns : goal.returns"])

    def test_commands(self):
        self.write("clients/README.md", "# Clients\n\n```sh\ncc half.c\n```\n")
        self.assertEqual(list(documents.faults()), ["clients/README.md: in no example: cc half.c"])
        self.write("clients/c/examples/half.sh", "cc half.c\n./half\n")
        self.assertEqual(list(documents.faults()), [])

    def test_steps(self):
        steps = "```sh\ncc new.c\n```\n\n```text\n1\n```\n\nWrite this into `new.c`:\n\n```c\nint new;\n```\n"
        self.write("docs/use/c.md", steps)
        self.assertEqual(list(documents.faults()), [])
        self.write("docs/use/c.md", steps.replace("`new.c`:", "`new.c`."))
        self.assertEqual(list(documents.faults()), ["docs/use/c.md: no file `new.c`", "docs/use/c.md: in no example: int new;"])
        self.write("docs/use/c.md", steps.replace("```sh", "```c"))
        self.assertEqual(list(documents.faults()), ["docs/use/c.md: in no example: cc new.c"])

    def test_block_of_a_method(self):
        half = "fn half(number: u32) -> u32\n    ensures { IsHalf number result }\n"
        area = "fn area(&self) -> u32\n    ensures { AreaOf self.now result };\n"
        self.assertEqual(self.faults_after(half, area), [])
        self.assertEqual(self.faults_after(half, area.replace("    ensures", "ensures")), ["README.md: in no crate: fn area(&self) -> u32"])

    def test_a_long_readme(self):
        self.write("README.md", README + "\n" * (120 - len(README.splitlines())))
        self.assertEqual(list(documents.faults()), [])
        self.write("README.md", README + "\n" * (121 - len(README.splitlines())))
        self.assertEqual(list(documents.faults()), ["README.md: 121 lines, and 120 may be"])

    def test_many_words(self):
        for page, most in (("docs/inside/tests.md", 1_800), ("docs/use/shell.md", 1_250), ("docs/use/MORE.md", 2_500), ("docs/inside/more.md", 2_500)):
            self.write(page, "word " * most)
            self.assertEqual(list(documents.faults()), [])
            self.write(page, "word " * (most + 1))
            self.assertEqual(list(documents.faults()), [f"{page}: {most + 1} words, and {most} may be"])
            self.write(page, "")

    def test_the_front_page(self):
        page = "crates/string_interner/src/lib.rt"
        self.write(page, "//! Halves.\n//!\n//! ```\n//! number / 2\n//! ```\n\n/// ```\n/// number / 3\n/// ```\n")
        self.assertEqual(list(documents.faults()), [])
        self.write(page, "//! Halves.\n//!\n//! ```\n//! number / 3\n//! ```\n")
        self.assertEqual(list(documents.faults()), [f"{page}: in no crate: number / 3"])

    def test_libraries_that_are_trusted(self):
        page = "docs/use/promises.md"
        self.write("crates.txt", "low: std_alloc json\nhigh: low\n")
        row = "| `low` | `json`, `std_alloc` |\n"
        self.write(page, row)
        self.assertEqual(list(documents.faults()), [])
        self.write(page, row.replace("`json`, ", ""))
        self.assertEqual(list(documents.faults()), [f"{page}: does not name json, which low uses"])
        self.write(page, f"{row}| `high` | `json` |\n")
        self.assertEqual(list(documents.faults()), [f"{page}: names json, which high does not use"])
        self.write(page, "")
        missing = ["json", "std_alloc"]
        self.assertEqual(list(documents.faults()), [f"{page}: does not name {it}, which low uses" for it in missing])

    def test_lines_of_crates(self):
        self.write("crates.txt", "low: json\nhigh: low\narchive staticlib: low\n")
        page = "    low: json\n    yours: low\n\n```text\nhigh: low\narchive staticlib: low\nlow of words: json\n```\n"
        self.write("docs/MORE.md", page)
        self.assertEqual(list(documents.faults()), [])
        for old, new in ("low: json", "low: core json"), ("high: low", "high:"), ("archive staticlib:", "archive:"):
            self.write("docs/MORE.md", page.replace(old, new))
            line = next(it.strip() for it in page.splitlines() if old in it)
            self.assertEqual(list(documents.faults()),
                             [f"docs/MORE.md: has the line {line.replace(old, new)!r}, and crates.txt {line!r}"])

    def test_versions(self):
        places = {
            "CHANGELOG.md": "# Changes\n\n## [Unreleased]\n\n## [0.2.0] - 2030-01-02\n\n## [0.1.0] - 2029-01-02\n",
            "Cargo.toml": 'version = "0.2.0"\n',
            "clients/python/string_interner/__init__.py": '__version__ = "0.2.0"\n',
            "clients/rust/Cargo.toml": 'version = "0.19.1+0.2.0"\n',
            "crates/dictcol/src/main.rt": 'const VERSION: &str = "dictcol 0.2.0\\n";\n',
            "crates/intern/src/help.rt": 'pub const VERSION: &str = "intern 0.2.0\\n";\n',
        }
        for name, text in ("VERSION", "0.2.0\n"), *places.items():
            self.write(name, text)
        self.assertEqual(list(documents.faults()), [])
        for name, text in places.items():
            self.write(name, text.replace("0.2.0", "0.1.0"))
            self.assertEqual(list(documents.faults()), [f"{name}: names 0.1.0, and VERSION names 0.2.0"])
            self.write(name, "nothing\n")
            self.assertEqual(list(documents.faults()), [f"{name}: names no version, and VERSION names 0.2.0"])
            self.write(name, text)

    def test_an_unpacked_release(self):
        shutil.rmtree(self.top / ".git")
        for folder in ("crates/low/out", "target"):
            self.write(f"{folder}/BUILT.md", "See [nothing](nothing.md).\n")
        self.assertEqual(list(documents.faults()), [])
        self.assertEqual(self.faults_after("src/lib.rt", "src/main.rt"), ["README.md: no file `src/main.rt`"])


class TimesTest(unittest.TestCase):
    def test_the_front_page_has_what_the_gate_prints(self):
        page = (Path(__file__).parents[2] / "README.md").read_text(encoding="utf-8")
        self.assertEqual(list(documents.other_times(page)), [])
        for old, new in (f"| {TAKES['./check'][0]} |", "| a minute |"), ("| 5 GiB |", "| 4 GiB |"), ("`./check quick`", "`./check fast`"):
            self.assertIn(old, page)
            self.assertEqual(len(list(documents.other_times(page.replace(old, new)))), 1, old)
