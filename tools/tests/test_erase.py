"""What the eraser makes of each form of the language that the library uses, and which forms it must refuse."""

import re
import runpy
import tempfile
from pathlib import Path
from unittest import TestCase, main

TOP = Path(__file__).resolve().parent.parent.parent
TOOL = runpy.run_path(str(TOP / "tools/erase"))
ERASE, UNKNOWN, TOKENS = TOOL["erase"], TOOL["Unknown"], TOOL["tokens_of"]
PRELUDE = TOOL["PRELUDE"]
SELDOM = "|".join(name for names in TOOL["SELDOM"].values() for name in names)
INLINE = re.compile(rf"#\[inline\(\w+\)\](?=\n *(?:pub(?:\(super\))? )?fn (?:{SELDOM})\b)")
# What is written of one token of code for another, apart from what the rules of RULES write.
NO_CODE = {"space", "comment", "doc", "inner_doc"}


def code_of(text):
    """The tokens of code of a text, whose comments, docs and ghost parts are left out."""
    found: list[str] = []
    for token in TOKENS(text):
        if token.kind == "ghost" and found and found[-1] == "pub":
            found.pop()
        elif token.kind == "attribute":
            found.append(re.sub(r"\s+", "", token.text))
        elif token.kind not in NO_CODE and not token.is_ghost:
            found.append(token.text)
    return found


def without_models(text, of):
    """A source text without what is ghost as a whole, in which no brace stands at the margin but the last one."""
    text = re.sub(r"^(?:///.*\n)*impl\b[^{]*\bModel for [^{]*\{\n(?:    .*\n|\n)*\}$", "", text, flags=re.M)
    text = re.sub(r"^use thiserror::Error;$|^ *#\[error\(.*\)\]$|^#!?\[tactic\(.*\)\]$", "", text, flags=re.M)
    text = re.sub(rf"^(pub mod ({'|'.join(of.for_others)});)$", r'#[cfg(feature = "parts")] \1', text, flags=re.M)
    return re.sub(rf"^(#\[cfg\(test\)\]\n)?(pub )?mod ({'|'.join(of.left_out)});$", "", text, flags=re.M)


class EraseTest(TestCase):
    def gives(self, source, *wanted, place=""):
        """The source, without the import, becomes these lines."""
        self.assertEqual(ERASE(source, place).replace(PRELUDE, "", 1).splitlines(), list(wanted))

    def refuses(self, source, line, why, place=""):
        with self.assertRaisesRegex(UNKNOWN, why) as refused:
            ERASE(source, place)
        self.assertEqual(source.count("\n", 0, refused.exception.at) + 1, line)

    def test_plain_rust_stays(self):
        for source in (
            "fn f(x: u8) -> u8 { match x { 0 => 'a' as u8, b'\\'' => b\"\\\"{\"[0], _ => x } }\n",
            "fn f<'a>(x: &'a str) -> &'a str { r#\"a \" } requires { \"#; x }\n",
            "/* a /* nested { */ comment */ pub fn f() { if !g() && 1.5e3 != 0x1_0 { return; } }\n",
            "// ghost at = { };\nconst PLACE: u32 = '\\u{1F600}' as u32;\n",
        ):
            self.assertEqual(ERASE(source).replace(PRELUDE, "", 1), source)

    def test_a_contract_is_a_comment_between_head_and_body(self):
        self.gives(
            "fn half(x: u32) -> u32\n"
            "    requires small { x ≤ 7 }\n"
            "    ensures * { result ≡\n"
            "        x / 2 }\n"
            "    ensures { x' ≡ 1 -- it's {\n"
            " }\n"
            "{\n"
            "    x / 2\n"
            "}\n",
            "fn half(x: u32) -> u32",
            "    //~ requires small { x ≤ 7 }",
            "    //~ ensures * { result ≡",
            "    //~     x / 2 }",
            "    //~ ensures { x' ≡ 1 -- it's {",
            "    //~  }",
            "{",
            "    x / 2",
            "}",
        )

    def test_a_declaration_ends_before_its_contract(self):
        self.gives(
            "trait Shape {\n"
            "    fn area(&self) -> u32\n"
            "        ensures { a }\n"
            "        ensures b { c };\n"
            "    fn side(&self);\n"
            "}\n",
            "trait Shape: Sized {",
            "    fn area(&self) -> u32;",
            "        //~ ensures { a }",
            "        //~ ensures b { c };",
            "    fn side(&self);",
            "}",
        )

    def test_ghost_items_are_comments_with_their_docs(self):
        self.gives(
            "ghost use A.{◌≡◌, {}};\n"
            "impl T for S {\n"
            "    /// Says.\n"
            "    #[inline]\n"
            "    ghost texts: { Self → List };\n"
            "    pub ghost at: { ℕ } = { 0 };\n"
            "    ghost laws = { λ x. {} } by { y };\n"
            "}\n",
            "//~ ghost use A.{◌≡◌, {}};",
            "impl T for S {",
            "    //~ /// Says.",
            "    //~ #[inline]",
            "    //~ ghost texts: { Self → List };",
            "    //~ pub ghost at: { ℕ } = { 0 };",
            "    //~ ghost laws = { λ x. {} } by { y };",
            "}",
        )

    def test_ghost_fields_are_comments(self):
        self.gives(
            "pub struct Count {\n"
            "    ghost value: { ℕ },\n"
            "    of: u8,\n"
            "}\n"
            "fn new() -> Count { Count { ghost value = { 0 }, of: 1 } }\n",
            "pub struct Count {",
            "    //~ ghost value: { ℕ },",
            "    of: u8,",
            "}",
            "fn new() -> Count { Count { /*~ ghost value = { 0 }, */ of: 1 } }",
        )

    def test_a_model_is_a_comment(self):
        self.gives(
            "/// Seen.\n"
            "impl<S: Symbol> std::marker::Model for Slots<S> {\n"
            "    ghost Value = { ℕ };\n"
            "\n"
            "    ghost view = { λ s. s };\n"
            "}\n"
            "\n"
            "impl Model {}\n",
            "//~ /// Seen.",
            "//~ impl<S: Symbol> std::marker::Model for Slots<S> {",
            "//~     ghost Value = { ℕ };",
            "//~",
            "//~     ghost view = { λ s. s };",
            "//~ }",
            "",
            "impl Model {}",
        )

    def test_paths_lead_to_the_crate(self):
        self.gives(
            "use std::{mem, str};\n"
            "pub(crate) use crate::symbol::Symbol;\n"
            "fn f() { core::mem::swap(); my::std::f(crate::g()); let std = 1; }\n",
            "use crate::rt::{mem, str};",
            "pub(crate) use crate::erased::symbol::Symbol;",
            "fn f() { crate::rt::mem::swap(); my::std::f(crate::erased::g()); let std = 1; }",
        )

    def test_modules_are_open_to_the_crate(self):
        self.gives(
            "mod low;\npub mod high;\npub(super) mod side;\n/// JSON.\npub mod json;\n",
            "pub mod low;",
            "pub mod high;",
            "pub(super) mod side;",
            "/// JSON.",
            '#[cfg(feature = "parts")] pub mod json;',
        )
        self.gives("pub mod json;\n", "pub mod json;", place="symbol.rs")
        self.gives("mod list;\n", "pub use crate::rt::words as list;", place="dedup/words.rs")
        self.gives("mod list;\n", "pub mod list;", place="dedup/slots.rs")
        self.assertIn("//~ mod tests;\n", ERASE("mod a;\nmod tests;\n", "main.rs", TOOL["INTERN"]))

    def test_traits_are_for_sized_types(self):
        self.gives("trait A<T: B<u8>>: C {}\ntrait D<T> {\n}\n", "trait A<T: B<u8>>: Sized + C {}", "trait D<T>: Sized {", "}")

    def test_derives_that_rust_lacks(self):
        self.gives("#[derive(Drop)]\nstruct A;\n", "//~ #[derive(Drop)]", "struct A;")
        self.gives("#[derive(Debug, Drop)]\nstruct A;\n", "#[derive(Debug)]", "struct A;")
        variants = '#[error("no \\"x\\"")]\n    No,\n    #[error("of")]\n    Of(u8),\n'
        erased = ERASE(f"use thiserror::Error;\n#[derive(Debug, Error)]\npub enum E {{\n    {variants}}}\n")
        self.assertIn('match self { Self::No { .. } => f.write_str("no \\"x\\""), Self::Of { .. } => f.write_str("of"), }', erased)
        self.assertIn("#[derive(Debug)]\n", erased)

    def test_errors_with_fields(self):
        """As thiserror does: the text has fields, and `#[from]` makes the error of what a field has."""
        variants = '    #[error("{0}")]\n    Of(#[from] Why),\n    #[error("bad {0}")]\n    Bad(u8),\n'
        variants += '    #[error("{line}: {why}")]\n    At { line: u8, why: Why },\n'
        erased = ERASE(f"#[derive(Error)]\nenum E {{\n{variants}}}\n").splitlines()
        self.assertEqual([it.strip() for it in erased[2:4]], ['//~ #[error("{0}")]', "Of(/*~ #[from] */ Why),"])
        arms = '{ Self::Of(it) => ::core::write!(f, "{0}", it), Self::Bad(it) => ::core::write!(f, "bad {0}", it), '
        arms += 'Self::At { line, why, .. } => ::core::write!(f, "{line}: {why}"), }'
        self.assertIn(f"match self {arms}", erased[8])
        self.assertIn("} impl From<Why> for E { fn from(it: Why) -> Self { Self::Of(it) } } impl ", erased[8])
        erased = ERASE('#[derive(Error)]\n#[error("{why}")]\nstruct S {\n    line: u8,\n    why: Why,\n}\n').splitlines()
        self.assertIn('match self {Self { why, .. } => ::core::write!(f, "{why}") } } }', erased[5])

    def test_errors_that_borrow(self):
        """Fields of further types, several of them, and constants in the text."""
        variants = '    #[error("{0} {1}{HINT}")]\n    Two(&\'static str, Shown<\'a>),\n    #[error("{HINT}")]\n    No,\n'
        erased = ERASE(f"#[derive(Error)]\nenum E<'a> {{\n{variants}}}\n").splitlines()
        arms = '{ Self::Two(it0, it1) => ::core::write!(f, "{0} {1}{HINT}", it0, it1), Self::No => ::core::write!(f, "{HINT}"), }'
        self.assertIn(f"match self {arms}", erased[6])
        self.assertIn("} impl<'a> ::core::error::Error for E<'a> {} impl<'a> ::core::fmt::Display for E<'a> { fn ", erased[6])

    def test_names_of_a_program(self):
        """In a program paths and macros lead elsewhere, and other modules are left out."""
        names = {"library": "library::proved", "println!": "crate::rt::println", "format!": "crate::rt::format"}
        program = TOOL["Erased"]("", "", "crate::a", frozenset({"b"}), names=names)
        source = "use library::B;\nmod b;\nfn main() { println!(rt; \"\"); crate::g(library::h, a::library::i); format::g() }\n"
        erased = ERASE(source, "main.rs", program).replace(PRELUDE, "", 1).splitlines()
        self.assertEqual(erased, [
            "use library::proved::B;",
            "//~ mod b;",
            'pub fn main() { crate::rt::println!(rt; ""); crate::a::g(library::proved::h, a::library::i); format::g() }',
        ])
        self.gives("fn main() { a.collect(); b.collect(alloc) }\n", "fn main() { a.collect(); b.try_collect(alloc) }")

    def test_other_forms(self):
        self.gives("impl A { final fn f() {} }\n", "impl A { fn f() {} }")
        self.gives(
            "impl Debug for A {\n    fn fmt<W: fmt::Write>(&self, f: &mut Formatter<W>) -> fmt::Result {}\n}\n",
            "impl Debug for A {",
            "    fn fmt(&self, f: &mut Formatter<'_>) -> fmt::Result {}",
            "}",
        )
        self.gives("fn fmt<W: fmt::Write>(&self, f: &mut fmt::Formatter<W>) {}\n", "fn fmt(&self, f: &mut fmt::Formatter<'_>) {}")
        self.gives("fn fmt<W: Write>(&self, f: &mut Formatter<W>) {}\n", "fn fmt(&self, f: &mut Formatter<'_>) {}")
        self.gives(
            "const A: u8 = 1;\nconst _: () = prove!(size_of::<A>() == 1);\n",
            "const A: u8 = 1;",
            "#[test] fn holds_at_line_2() { assert!(size_of::<A>() == 1); }",
        )
        self.gives("#![tactic(auto)]\n#[cycle(a)]\nfn f() {}\n", "//~ #![tactic(auto)]", "//~ #[cycle(a)]", "fn f() {}")
        self.gives("/// ```\n/// x\n/// ```\nfn f() {}\n", "/// ```ignore", "/// x", "/// ```", "fn f() {}")
        self.gives("/// ```text\n/// ```\nfn f() {}\n", "/// ```text", "/// ```", "fn f() {}")

    def test_indexes_that_are_within(self):
        """In functions that are named, and in no others, also not of their names in another file."""
        self.gives(
            "fn item_with(at: [u8; 2]) {\n    self.tags[at] == of(self.items[at], self.items[1])\n}\nfn f() { self.tags[at] }\n",
            "fn item_with(at: [u8; 2]) {",
            "    *unsafe { self.tags.at_unchecked(at) } == of(*unsafe { self.items.at_unchecked(at) }, self.items[1])",
            "}",
            "fn f() { self.tags[at] }",
            place="dedup/tagged.rs",
        )
        self.gives(
            "fn lanes_with() { of(&tags[at..]) }\n",
            "fn lanes_with() { of(unsafe { tags.sixteen_unchecked(at) }) }",
            place="dedup/tagged/tags.rs",
        )
        self.gives(
            "fn piece_text(it: &'a [u8]) { &bytes[piece.span.from..piece.span.to] }\n",
            "fn piece_text(it: &'a [u8]) { unsafe { crate::unchecked::cut_unchecked(bytes, piece.span.from..piece.span.to) } }",
            place="backend/bucket/buckets.rs",
        )
        for place in ("", "dedup/tagged/tags.rs"):
            self.gives("fn item_with() { self.tags[at] }\n", "fn item_with() { self.tags[at] }", place=place)
        for other in ("&tags[at]", "&tags[at + 1..]", "&tags[..at]", "&self.tags[at..]", "&tags[at..]; &tags[at..]"):
            self.refuses(f"\nfn lanes_with() {{\n    {other}\n}}\n", 2, "not once &tags", "dedup/tagged/tags.rs")

    def test_parts_of_the_joined_texts(self):
        source = "fn {}() {{\n    narrow[place + index] as u8; narrow[place - 1];\n    joined[start..end].as_bytes(); &joined[a..b]\n}}\n"
        of = TOOL["HANDLES"]
        erased = ERASE(source.format("string_entries"), "any/entries.rs", of)
        self.assertIn("    *unsafe { narrow.at_unchecked(place + index) } as u8; narrow[place - 1];\n", erased)
        self.assertIn("    unsafe { crate::unchecked::cut_unchecked(joined, start..end) }.as_bytes(); &joined[a..b]\n", erased)
        for name, place in (("string_entries", "any.rs"), ("entries", "any/entries.rs")):
            self.assertNotIn("unchecked", ERASE(source.format(name), place, of))
        self.gives(
            "fn narrow_text() { Some(&self.joined[start..end]) }\n",
            "fn narrow_text() { Some(unsafe { crate::unchecked::cut_unchecked(&self.joined, start..end) }) }",
            place="backend/string.rs",
        )

    def test_what_is_called_seldom(self):
        """It is a call in the functions of SELDOM alone."""
        source = "#[inline(always)]\npub(super) fn probe_on() {}\n\n#[inline]\nfn f() {}"
        self.gives(source, "#[cold] #[inline(never)]", "pub(super) fn probe_on() {}", "", "#[inline]", "fn f() {}", place="dedup/probe.rs")
        self.gives(source, *source.splitlines(), place="dedup/table.rs")
        self.refuses("#[inline]\nfn f() {}\n\nfn probe_on() {}", 4, "no #.inline. before", place="dedup/probe.rs")

    def test_what_gets_a_body(self):
        """It is a call in the functions of FILLED alone, which have none."""
        source = "fn ask_for<T>(_items: &[T], _at: usize) {}\n\nfn f() {}"
        filled = "fn ask_for<T>(_items: &[T], _at: usize) { crate::unchecked::ask_for(_items, _at) }"
        self.gives(source, filled, "", "fn f() {}", place="dedup/tagged.rs")
        self.gives(source, *source.splitlines(), place="dedup/table.rs")
        self.refuses("fn f() {}\nfn ask_for() { f() }", 2, "a function that gets a body has one", place="dedup/tagged.rs")

    def test_the_prelude_is_on_the_line_of_the_first_item(self):
        self.assertEqual(ERASE("//! Docs.\nghost use A;\n\n/// It.\n#[inline]\nfn f() {}\n").splitlines()[3], f"{PRELUDE}/// It.")

    def test_what_is_not_known_is_refused(self):
        for source, line, why in (
            ("fn f() {}\nghost fn g() {}\n", 2, "a form that is not known"),
            ("ghost { x };\n", 1, "no name"),
            ("ghost at = x;\n", 1, "no block"),
            ("fn f()\n    requires x ≤ 7\n{}\n", 2, "no block"),
            ("fn f()\n    ensures { {x }\n{}\n", 2, "without an end"),
            ("\nlet x = λ;\n", 2, "the character"),
            ("#[link(name)]\nfn f() {}\n", 1, "the attribute"),
            ("fn f() {\n    println!(rt; 1);\n}\n", 2, "the macro println"),
            ("fn f() {\n    vec![in a; 1];\n}\n", 2, "the macro vec"),
            ("fn f() {\n    prove!(1 == 1);\n}\n", 2, "no constant"),
            ("\nunsafe extern fn f() {}\n", 2, "`extern`"),
            ("\nextern \"C\" {}\n", 2, "`extern`"),
            ("\nstatic A: u8 = 1;\n", 2, "`static`"),
            ("\nmod a {}\n", 2, "within its file"),
            ("impl Model for A {\n    fn f() {}\n}\n", 1, "not ghost"),
            ("impl A {\n    fn fmt(&self) {}\n}\n", 2, "another form"),
            ("#[derive(Error)]\nstruct A;\n", 2, "has no braces"),
            ('#[derive(Error)]\nenum A {\n    #[error("{0}")]\n    B(u8, u8),\n}\n', 2, "fields"),
            ('#[derive(Error)]\nenum A {\n    #[error("{0}")]\n    B,\n}\n', 2, "fields"),
            ('#[derive(Error)]\nenum A {\n    #[error(transparent)]\n    B(u8),\n}\n', 2, "of another form"),
            ("trait A<T {}\n", 1, "without an end"),
            ("fn f( {}\n", 1, "a bracket without an end"),
            ("fn f()\n{ ( }\n", 2, "brackets that do not match"),
            ("/* a\n", 1, "without an end"),
            ('const A: &str = "a;\n', 1, "the character"),
            ("fn f() { final x }\n", 1, "`final`"),
        ):
            with self.subTest(source):
                self.refuses(source, line, why)

    def test_the_tool_names_file_and_line(self):
        with tempfile.TemporaryDirectory() as folder:
            sources = Path(folder, "src")
            (sources / "low").mkdir(parents=True)
            (sources / "low/a.rt").write_text("fn f() {}\n\nghost fn g() {}\n", encoding="utf-8")
            with self.assertRaisesRegex(SystemExit, r"^src/low/a\.rt:3: ghost fn: a form that is not known$"):
                TOOL["erase_all"](TOOL["LIBRARY"], sources, Path(folder, "out"))

    def exports(self, source, *wanted):
        self.assertEqual(ERASE(source, "", TOOL["EXPORTS"]).replace(PRELUDE, "", 1).splitlines(), list(wanted))

    def test_exports_take_what_c_passes(self):
        self.exports(
            'pub extern "C" fn f(alloc: Global, text: &\'a [u8], n: usize, out: &mut [Entry<\'a>]) -> u32\n    ensures { x }\n{\n    0\n}\n',
            'pub extern "C" fn f(/*~ alloc: Global, */ text: *const u8, text_len: usize, n: usize, out: *mut Entry<\'a>, out_len: usize) -> u32',
            "    //~ ensures { x }",
            "{ let alloc = Global; let text = unsafe { crate::border::slice(text, text_len) };"
            " let out = unsafe { crate::border::slice_mut(out, out_len) };",
            "    0",
            "}",
        )

    def test_items_lose_bounds(self):
        """Those of the table alone, and each of them."""
        self.gives("pub trait CopyHasher: TextHasher {\n}\ntrait B: TextHasher {}\n", "pub trait CopyHasher: Sized {", "}",
                   "trait B: Sized + TextHasher {}", place="hash.rs")
        struct, other = "struct StringInterner<B, H: TextHasher = D> {}", "impl<H: TextHasher> C<H> { fn length() {} }"
        block = "impl<B: Store, H: TextHasher, I> C<H> {{ fn len(h: u8) where H: TextHasher {{}} }}"
        self.gives(f"{struct}\n{other}\n{block.format()}\n", "struct StringInterner<B, H = D> {}", other,
                   "impl<B: Store, H, I> C<H> { fn len(h: u8) where H: TextHasher {} }", place="interner.rs")
        self.refuses("trait CopyHasher {}\n", 1, "not once CopyHasher: TextHasher", place="hash.rs")
        self.refuses(f"\nstruct StringInterner<H: TextHasher, G: A<H: TextHasher>> {{}}\n{block.format()}\n", 2, "not once H: TextHasher",
                     place="interner.rs")

    def test_a_bound_that_no_item_loses(self):
        """A row of the table that is not used, and one for a file that is not there."""
        self.refuses("trait Copied: TextHasher {}\n", 1, "no `trait CopyHasher`, which loses a bound", place="hash.rs")
        with tempfile.TemporaryDirectory() as folder, self.assertRaisesRegex(SystemExit, "no hash.rs, in which items lose a bound"):
            (Path(folder) / "sources").mkdir()
            TOOL["erase_all"](TOOL["LIBRARY"], Path(folder) / "sources", Path(folder) / "into")

    def test_a_handle_that_stays_is_only_read(self):
        """As the contract says of each handle by itself. The body reads what it lent to be changed."""
        for contract, h, g in (
            ("", "read", "read"),
            ("ensures { h.new.value ≡ h.old.value } ensures { g.old }", "read", "read"),
            ("ensures { h.new.value ≡ h.old.value } ensures { P g.new.value }", "read", "interner"),
            ("ensures { h.new.value ≡ g.old.value ∧ P g.new }", "interner", "interner"),
        ):
            source = f"fn f(h: &mut Handle, g: &'a mut Handle)\n    {contract}\n{{ h.interner().a(g.interner()) }}\n"
            mut = {"read": "", "interner": "mut "}
            with self.subTest(contract):
                erased = ERASE(source, "", TOOL["HANDLES"])
                self.assertIn(f"fn f(h: &{mut[h]}Handle, g: &'a {mut[g]}Handle)\n", erased)
                self.assertIn(f"{{ h.{h}().a(g.{g}()) }}\n", erased)

    def test_paths_of_other_crates(self):
        """A module that is left out is one of the package."""
        self.exports(
            "use handles::{calls};\nuse handles::handle::Handle;\nfn f() { string_interner::json::f(); serde_json::f(); }\n",
            "use crate::handles::{calls};",
            "use crate::handle::Handle;",
            "fn f() { crate::erased::json::f(); crate::rt::serde_json::f(); }",
        )
        self.exports("fn f() { crate::g(); part.to_vec(alloc) }\n", "fn f() { crate::exports::g(); part.try_to_vec(alloc) }")

    def test_exports_change_what_the_header_says(self):
        """What the header takes as const the library takes to be read, and nothing else."""
        header = (TOP / "clients/c/string_interner.h").read_text(encoding="utf-8")
        exports = (TOP / "clients/c/src/erased/exports/mod.rs").read_text(encoding="utf-8")
        taken = dict(re.findall(r"^\w+ (interner_\w+)\((const )?interner \*h\b", header, re.M))
        lent = dict(re.findall(r"fn (interner_\w+)(?:<'a>)?\(\s*(?:/\*.*?\*/\s*|//~.*\n\s*)?h: &(?:'a )?(mut )?Handle\b", exports))
        self.assertGreater(len(lent), 25)
        # These take the handle over.
        del taken["interner_free"], taken["interner_share"]
        self.assertEqual({it: bool(const) for it, const in taken.items()}, {it: not mut for it, mut in lent.items()})


class SourcesTest(TestCase):
    """All that is erased."""

    top: Path
    sources: Path

    @classmethod
    def setUpClass(cls):
        folder = tempfile.TemporaryDirectory()
        cls.addClassCleanup(folder.cleanup)
        cls.top = Path(folder.name)
        cls.sources = TOOL["LIBRARY"].sources
        TOOL["write_all"](cls.top)

    def pairs(self):
        """Each source without the bounds that its items lose, with what is written of it, and the crate."""
        for of in TOOL["ALL"]:
            for path in sorted(of.sources.rglob("*.rt")):
                place = path.relative_to(of.sources).with_suffix(".rs")
                if of.takes(place):
                    target = self.top / of.into / ("mod.rs" if str(place) in ("lib.rs", "main.rs") else place)
                    source = self.without_bounds(path.read_text(encoding="utf-8"), of.unbound.get(str(place), {}))
                    yield source, target.read_text(encoding="utf-8"), of

    @staticmethod
    def without_bounds(source, bounds):
        for words, bound in bounds.items():
            item = source.index(words)
            # What a function is in loses the bound.
            item = source.rindex("\nimpl", 0, item) if words.startswith("fn ") else item
            at = source.index(bound, item)
            source = source[:at] + bound.split(":")[0] + source[at + len(bound) :]
        return source

    def test_each_line_keeps_its_number(self):
        for source, erased, _ in self.pairs():
            for old, new in zip(source.splitlines(), erased.splitlines(), strict=True):
                if old.strip().startswith("///"):
                    self.assertIn(old.strip().removesuffix("```").strip(), new)

    def test_without_comments_the_tokens_are_those_of_the_source(self):
        """A few tokens are others, as the tool's page says: both sides are brought to one form."""
        for source, erased, of in self.pairs():
            for path in of.in_rt.values():
                erased = erased.replace(f"use {path} as ", "mod ")
            erased = self.with_paths_of_the_source(erased.replace(PRELUDE, "", 1), of)
            erased = re.sub(r"#\[test\] fn holds_at_line_\d+\(\) \{ assert(.*;) \}", r"const _: () = prove\1", erased)
            erased = re.sub(r"^\} impl(<'a>)? ::core::error::Error .*$", "}", erased, flags=re.M)
            erased = re.sub(r"\*unsafe \{ ([\w.]+)\.at_unchecked\(([\w +]+)\) \}", r"\1[\2]", erased)
            erased = re.sub(r"unsafe \{ (\w+)\.sixteen_unchecked\((\w+)\) \}", r"&\1[\2..]", erased)
            erased = erased.replace("crate::unchecked::cut_unchecked", "cut")
            erased = re.sub(r"unsafe \{ cut\(&?([\w.]+), (.*?\.\..*?)\) \}(?!\.as_bytes)", r"&\1[\2]", erased)
            erased = re.sub(r"unsafe \{ cut\((\w+), (.*?)\) \}", r"\1[\2]", erased)
            for call in (call for calls in TOOL["FILLED"].values() for call in calls.values()):
                erased = erased.replace(f"{{ {call} }}", "{}")
            erased = re.sub(r"\bpub(?:\(crate\))? mod (\w+;)", r"mod \1", erased)
            erased = erased.replace(": Sized + ", ": ").replace(": Sized ", " ")
            erased = erased.replace("pub fn main(", "fn main(").replace(".try_collect(", ".collect(")
            source, erased = INLINE.sub("#[inline]", source), erased.replace("#[cold] #[inline(never)]", "#[inline]")
            source, erased = self.of_handles(source, of), self.of_handles(erased, of)
            source = without_models(source, of).replace("final fn ", "fn ")
            source = re.sub(r"\bpub(?:\(crate\))? mod (\w+;)", r"mod \1", source)
            source = source.replace("use core::", "use std::")
            source = re.sub(r"#\[derive\((.*)\)\]", self.plain_derive, source)
            source = re.sub(r"fmt<W: (?:fmt::)?Write>(\(&self, f: &mut (?:fmt::)?Formatter)<W>\)", r"fmt\1<'_>)", source)
            self.assertEqual(code_of(source), code_of(erased))

    @staticmethod
    def with_paths_of_the_source(erased, of):
        # First those of other crates, because a crate may have a module of such a name.
        for crate, modules in TOOL["AT_THE_ROOT"].items():
            for it in modules if crate != of.crate else ():
                erased = erased.replace(f"crate::{it}::", f"{crate}::{it}::")
        erased = erased.replace(of.name, "crate")
        # What is in a module that has another name, too, first.
        for crate, name in sorted(of.names.items(), key=lambda it: (not it[0].endswith("!"), -len(it[1]))):
            mark = "!" if crate.endswith("!") else "::"
            erased = erased.replace(f"{name}{mark}", f"{'std' if crate == 'core' else crate.removesuffix('!')}{mark}")
        return erased

    @staticmethod
    def of_handles(text, of):
        """What is passed to the functions of handles, and to exports, in one form."""
        if of.crate not in ("handles", "string_interner_c"):
            return text
        text = re.sub(r"(&(?:'a )?)mut Handle\b", r"\1Handle", text).replace(".interner()", ".read()").replace("try_to_vec", "to_vec")
        text = re.sub(r"\b(\w+): \*const ([^,]*), \1_len: usize", r"\1: &[\2]", text)
        text = re.sub(r"\b(\w+): \*mut ([^,]*), \1_len: usize", r"\1: &mut [\2]", text)
        text = re.sub(r" let alloc = Global;| let (\w+) = unsafe \{ crate::border::slice(_mut)?\(\1, \1_len\) \};", "", text)
        return re.sub(r"(?<!\*~ )\balloc: Global,", "", text).replace("&'static [u8]", "&[u8]")

    @staticmethod
    def plain_derive(found):
        kept = [it for it in found[1].split(", ") if it not in ("Drop", "Error")]
        return f"#[derive({', '.join(kept)})]" if kept else ""

    def test_each_function_that_is_called_seldom_is_there(self):
        for place, names in TOOL["SELDOM"].items():
            erased = (self.top / TOOL["LIBRARY"].into / place).read_text(encoding="utf-8")
            found = re.findall(r"^ *#\[cold\] #\[inline\(never\)\]\n *(?:pub(?:\(super\))? )?fn (\w+)", erased, re.M)
            self.assertEqual({*found}, names)

    def test_each_function_that_gets_a_body_is_there(self):
        for place, calls in TOOL["FILLED"].items():
            erased = (self.top / TOOL["LIBRARY"].into / place).read_text(encoding="utf-8")
            for name, call in calls.items():
                self.assertRegex(erased, rf"\bfn {name}\b[^{{}}]*{{ {re.escape(call)} }}")

    def test_a_token_that_changes_is_seen(self):
        """Each number and each operator of a file, changed by itself, changes what is written, on its line alone."""
        source = (self.sources / "dedup/tagged/tags.rt").read_text(encoding="utf-8")
        before = ERASE(source).splitlines()
        tokens = [it for it in TOKENS(source) if it.kind == "number" or it.kind == "sign" and it.text in "+/%|"]
        self.assertGreater(len(tokens), 10)
        for token in tokens:
            other = "7" if token.kind == "number" else "^"
            after = ERASE(source[: token.start] + other + source[token.end :]).splitlines()
            changed = [at for at, (old, new) in enumerate(zip(before, after, strict=True)) if old != new]
            self.assertEqual(changed, [source.count("\n", 0, token.start)])

    def test_a_file_that_is_stale_is_named(self):
        with tempfile.TemporaryDirectory() as folder:
            TOOL["write_all"](Path(folder))
            self.assertEqual(TOOL["stale"](Path(folder)), [])
            library, handles = Path(folder, TOOL["LIBRARY"].into), Path(folder, TOOL["HANDLES"].into)
            path = library / "dedup/probe.rs"
            path.write_text(path.read_text(encoding="utf-8").replace("+ 1", "+ 2", 1), encoding="utf-8")
            (handles / "more.rs").write_text("", encoding="utf-8")
            (library / "symbol.rs").unlink()
            wanted = [handles / "more.rs", path, library / "symbol.rs"]
            self.assertEqual(TOOL["stale"](Path(folder)), [str(it.relative_to(folder)) for it in wanted])


if __name__ == "__main__":
    main()
