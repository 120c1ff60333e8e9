"""What is wrong with contracts and their quotes, as tools/contracts.py finds it."""

from unittest import TestCase, mock

from small import SmallRepository
import contracts

PAGE = """\
# Calls

<!-- contract: rooms::Room::double -->
```rattle
pub fn double(
    &self,
    number: u32,
) -> u32
    ensures value { IsTwice number
        result }

    // What holds of every room.
    ensures { IsRoom self.now }
```

<!-- contract: rooms::half -->
```rattle
pub fn half(number: u32) -> u32
    requires { IsEven number }
    ensures { IsHalf number result }
```
It halves.
"""
ROOMS = """\
impl<A: Shape<B>, B> Shape<B> for Room<A, B> {
    fn double(&self) -> u32 {
        2
    }
}

impl<A: Shape<B>, B> Hall<A, B> {
    pub fn double(&self) -> u32 {
        2
    }
}

impl<
    A: Shape<B>,
    B,
> Room<A, B> {
    /// Doubles.
    #[inline(always)]
    pub fn double(
        &self,
        number: u32,
    ) -> u32
        ensures value { IsTwice number
            result }

        // What holds of every room.
        ensures { IsRoom self.now }
    {
        number + number
    }
}
"""
HALF = """\
/// Halves.
#[must_use]
pub fn half(number: u32) -> u32
    requires { IsEven number }
    ensures { IsHalf number result }
{
    number / 2
}
"""
LIBRARY = "crates/low/src"
LONG = "IsTheSumOf self.now.first self.now.second"


class ContractsTest(SmallRepository):
    def setUp(self):
        super().setUp()
        patch = mock.patch.multiple(contracts, TOP=self.top, LIBRARY=LIBRARY, CALLS=["rooms::Room::double", "rooms::half"])
        patch.start()
        self.addCleanup(patch.stop)
        self.write(f"{LIBRARY}/rooms.rt", ROOMS)
        self.write(f"{LIBRARY}/rooms/half.rt", HALF)
        self.write(contracts.PAGE, PAGE)

    def faults_of(self, page):
        self.assertNotEqual(page, PAGE)
        self.write(contracts.PAGE, page)
        return list(contracts.faults())

    def test_nothing_is_wrong(self):
        self.assertEqual(list(contracts.faults()), [])

    def test_stale_quote(self):
        fault = "docs/inside/CONTRACTS.md: the quote of rooms::half is stale: it has `    requires { IsOdd number }` for `    requires { IsEven number }`"
        self.assertEqual(self.faults_of(PAGE.replace("IsEven", "IsOdd")), [fault])

    def test_quote_without_its_last_lines(self):
        fault = "docs/inside/CONTRACTS.md: the quote of rooms::Room::double is stale: it has `` for `    ensures { IsRoom self.now }`"
        self.assertEqual(self.faults_of(PAGE.replace("    ensures { IsRoom self.now }\n", "")), [fault])

    def test_new_clause(self):
        self.write(f"{LIBRARY}/rooms/half.rt", HALF.replace("    requires", "    requires { IsSmall number }\n    requires"))
        fault = "docs/inside/CONTRACTS.md: the quote of rooms::half is stale: it has `    requires { IsEven number }` for `    requires { IsSmall number }`"
        self.assertEqual(list(contracts.faults()), [fault])

    def test_clause_over_several_lines(self):
        page = PAGE.replace("        result }", "        number }")
        fault = "docs/inside/CONTRACTS.md: the quote of rooms::Room::double is stale: it has `        number }` for `        result }`"
        self.assertEqual(self.faults_of(page), [fault])

    def test_other_margin(self):
        page = PAGE.replace("    requires", "  requires")
        fault = "docs/inside/CONTRACTS.md: the quote of rooms::half is stale: it has `  requires { IsEven number }` for `    requires { IsEven number }`"
        self.assertEqual(self.faults_of(page), [fault])

    def test_call_of_a_trait(self):
        declared = "pub trait Hall {\n    fn area(&self) -> u32\n        ensures { AreaOf self.now result };\n}\n"
        self.write(f"{LIBRARY}/halls.rt", declared + HALF)
        self.assertEqual(contracts.contract_of("halls::half"), PAGE[PAGE.index("pub fn half") : PAGE.index("```\nIt halves.")])
        self.assertIsNone(contracts.contract_of("halls::area"))

    def test_attribute_and_comment(self):
        page = PAGE.replace("pub fn half", "#[must_use]\npub fn half")
        fault = "the quote of rooms::half is stale: it has `#[must_use]` for `pub fn half(number: u32) -> u32`"
        self.assertEqual(self.faults_of(page), [f"docs/inside/CONTRACTS.md: {fault}"])

    def test_call_that_is_not_there(self):
        faults = ["docs/inside/CONTRACTS.md: no quote of rooms::half", "docs/inside/CONTRACTS.md: no rooms::third in the library"]
        self.assertEqual(self.faults_of(PAGE.replace("rooms::half", "rooms::third")), faults)
        self.assertEqual(self.faults_of(PAGE.replace("rooms::half", "rooms::Room::half"))[1:], ["docs/inside/CONTRACTS.md: no rooms::Room::half in the library"])
        self.assertEqual(self.faults_of(PAGE.replace("rooms::half", "halls::half"))[1:], ["docs/inside/CONTRACTS.md: no halls::half in the library"])
        self.assertEqual(self.faults_of(PAGE.replace("rooms::Room::", "rooms::Shape::"))[1:], ["docs/inside/CONTRACTS.md: no rooms::Shape::double in the library"])
        self.assertEqual(self.faults_of(PAGE.replace("rooms::Room::", "rooms::"))[1:], ["docs/inside/CONTRACTS.md: no rooms::double in the library"])

    def test_block_without_a_fence(self):
        faults = ["docs/inside/CONTRACTS.md: no block of Rattle behind the mark of rooms::half"]
        self.assertEqual(self.faults_of(PAGE.replace("-->\n```rattle\npub fn half", "-->\npub fn half")), faults)
        self.assertEqual(self.faults_of(PAGE.replace("\n```\nIt halves.", "\nIt halves.")), faults)

    def test_writing(self):
        for old, new in (("IsEven", "IsOdd"), ("    ensures value", ""), ("pub fn half", "pub fn third")):
            self.assertEqual(contracts.written_anew(PAGE.replace(old, new)), PAGE)
        missing = "<!-- contract: rooms::third -->\n"
        self.assertEqual(contracts.written_anew(PAGE + missing), PAGE + missing)
        self.assertEqual(contracts.written_anew("<!-- contract: rooms::half -->\n"), PAGE[PAGE.index("<!-- contract: rooms::half") : PAGE.index("It halves.")])

    def test_long_lines(self):
        wide = "    ensures { IsHalf number\n        " + "x" * 92 + "{} }\n"
        self.write(f"{LIBRARY}/halls.rt", HALF.replace("    ensures { IsHalf number result }\n", wide).replace("/// Halves.", f"/// {'Halves. ' * 20}"))
        self.assertEqual(list(contracts.faults()), ["crates/low/src/halls.rt:6: 104 columns in a clause"])

    def test_long_ghost_members(self):
        self.write(f"{LIBRARY}/halls.rt", f"trait Hall {{\n    ghost use {'a.' * 60}{{B}};\n\n    ghost law: {{ A }} = {{\n        {'x' * 93} }};\n}}\n")
        self.assertEqual(list(contracts.faults()), ["crates/low/src/halls.rt:5: 104 columns in a clause"])

    def test_hundred_columns_are_no_fault(self):
        self.write(f"{LIBRARY}/halls.rt", HALF.replace("IsHalf number result", "x" * (100 - len("    ensures {  }"))))
        self.assertEqual(list(contracts.faults()), [])

    def test_repeated_text(self):
        spread = LONG.replace(" ", "\n        ")
        self.write(f"{LIBRARY}/halls.rt", f"fn a()\n    ensures {{ {LONG} }}\n{{\n}}\n\nfn b()\n    ensures b {{ {spread} }}\n{{\n}}\n")
        again, share = contracts.repeated()
        self.assertEqual(again, [(LONG, 2)])
        every = [text for file in contracts.sources() for _, _, text in contracts.clauses(file.read_text())]
        self.assertAlmostEqual(share, 100 * len(LONG) / sum(map(len, every)))
        self.assertRegex(list(contracts.faults())[-1], r"^\d+\.\d % of the clauses' text is repeated")

    def test_short_text_may_be_repeated(self):
        text = LONG[:40]
        self.write(f"{LIBRARY}/halls.rt", f"fn a()\n    ensures {{ {text} }}\n{{\n}}\n\nfn b()\n    ensures {{ {text} }}\n{{\n}}\n")
        self.assertEqual(contracts.repeated(), ([], 0))

    def test_long_lines_of_each_kind(self):
        wide = "x" * 99
        kinds = (f"    requires {{ {wide} }}", f"    pub ghost view = {{ {wide} }};", f"    ghost a: {{ A }} by {{\n        {wide}xx }};")
        for kind in kinds:
            self.write("crates/high/src/halls.rt", f"fn hall()\n{kind}\n{{\n}}\n")
            self.assertEqual([fault.split(":")[0] for fault in contracts.faults()], ["crates/high/src/halls.rt"], kind)

    def test_most_repeated_text_comes_first(self):
        texts = [LONG, LONG + " and", LONG + " and", LONG, LONG]
        self.write(f"{LIBRARY}/halls.rt", "".join(f"fn a()\n    ensures {{ {text} }}\n{{\n}}\n" for text in texts))
        self.assertEqual(contracts.repeated()[0], [(LONG, 3), (LONG + " and", 2)])

    def test_quote_with_a_line_more(self):
        faults = ["docs/inside/CONTRACTS.md: the quote of rooms::half is stale: it has `` for ``"]
        self.assertEqual(self.faults_of(PAGE.replace("number result }\n```", "number result }\n\n```")), faults)

    def test_mark_that_is_written_otherwise(self):
        faults = ["docs/inside/CONTRACTS.md: a mark of a contract that is not written `<!-- contract: CALL -->`"]
        self.assertEqual(self.faults_of(PAGE + "<!--contract: rooms::third -->\n"), faults)

    def run_main(self, *words):
        with mock.patch("sys.argv", ["contracts.py", *words]), mock.patch("builtins.print"):
            return contracts.main()

    def test_main(self):
        self.assertEqual(self.run_main(), 0)
        self.write(contracts.PAGE, PAGE.replace("IsEven", "IsOdd"))
        self.assertEqual(self.run_main(), 1)
        self.assertEqual(self.run_main("--write"), 0)
        self.assertEqual((self.top / contracts.PAGE).read_text(encoding="utf-8"), PAGE)


class CallsTest(TestCase):
    def test_calls(self):
        names = [call.rpartition("::")[2] for call in contracts.CALLS]
        self.assertEqual(names, "new with_capacity len get get_or_intern resolve iter truncate extend intern_all run".split())
