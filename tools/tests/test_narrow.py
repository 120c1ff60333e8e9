"""Where the page about 32 bits and the library's source differ, as tools/narrow.py finds it."""

from unittest import mock

from small import SmallRepository
import narrow

SOURCE = """\
//! Rooms: a * b.

const MOST: usize = 1 << 20;

/// Adds 1 + 2.
#[inline]
pub fn area<T: Shape + Copy>(room: &T, sides: &[u32]) -> usize
    ensures { result ≡ left room.now * right room.now + 2 ^ 64 }
{
    // The product left * right.
    let width = sides[room.index_of("a * b")] as usize;
    let depth = *room.depth();
    width * depth
}

impl<A: Shape + Copy> Room<A> {
    ghost view = { λ r. r.width * r.depth };

    fn grow(&mut self, by: usize) -> Option<usize> {
        self.width += by;
        *self.place() = Self::place_of::<A>(by)?.checked_add(
            self.depth
                - 1,
        )?;
        let code = self.code() << 8 >> by / 2;
        let all: Vec<Vec<u8>> = self.all();
        Some(if by < 3 { 1 } else { 2 } + all.len() + usize::MAX)
    }
}
"""
OPERATIONS = {
    "rooms::MOST": ["1 << 20"],
    "rooms::area": ["sides[room.index_of(\"a * b\")] as usize", "width * depth"],
    "rooms::grow": ["self.width += by", "Self::place_of::<A>(by)?.checked_add(self.depth - 1)", "self.code() << 8", "8 >> by",
                    "{ 2 } + all.len()", "all.len() + usize::MAX", "usize::MAX"],
}
PAGE = """\
# 32 bits

- **few**: small constants.
- **inside**: a place in a block.

| Function or constant | Operations | Why |
|---|---|---|
| `rooms::MOST` | `1 << 20` | few |
| `rooms::area` | `a + b`, `b * c` | few, inside |
"""
FOUND = {"rooms::MOST": ["1 << 20"], "rooms::area": ["a + b", "b * c"]}


class OperationsTest(SmallRepository):
    def setUp(self):
        super().setUp()
        patch = mock.patch.multiple(narrow, TOP=self.top, SOURCES="crates/low/src")
        patch.start()
        self.addCleanup(patch.stop)
        self.write("crates/low/src/rooms.rt", SOURCE)
        self.write("crates/low/src/json.rt", SOURCE)
        (self.top / "crates/low/src/lib.rt").unlink()

    def test_operations_of_a_source(self):
        self.assertEqual(narrow.operations_of_source(), OPERATIONS)

    def test_each_form(self):
        forms = ["a * b", "a.len() * b.len()", "(a - 1) * (b + 2)", "a[1] *= b", "a += 1", "a << b", "a <<= 1", "a >> 3", "a >>= 3",
                 "a as usize", "a.wrapping_mul(b)", "usize::pow(a, 2)", "isize::MAX", "a.iter().sum()", "a.next_power_of_two()",
                 "size_of::<Vec<u8>>() * size_of::<Vec<A>>()", "a.iter().sum::<usize>()", "size_of::<A>()", "mem::size_of_val(a)",
                 "a.leading_zeros()", "usize::BITS"]
        for form in forms:
            text = f"fn plan(a: usize, b: usize) {{\n    let c = {form};\n}}\n"
            self.assertIn(("plan", form), [*narrow.Code(text).operations()])

    def test_what_is_no_operation(self):
        forms = ["*a", "&*a", "f(*a, *b)", "a as *const u8", "a - b", "a / b % c", "a < b", "Vec::<Vec<u8>>::new()", "a & b | c ^ d",
                 "a as u32", "u32::MAX", "f::<<B as Store>::Symbol>(a)", '"a * b"', "/* a * b */ a", "match a {\n    _ => 1,\n};\n*b = 2"]
        for form in forms:
            text = f"fn plan<A: B + C>(a: usize) -> impl D + E {{\n    let c = {form};\n}}\n"
            self.assertEqual([*narrow.Code(text).operations()], [], form)

    def test_operation_within_a_function_of_a_function(self):
        text = "fn outer() {\n    fn inner<A: B + C>() {\n        1 + 2;\n    }\n    3 + 4;\n}\n"
        self.assertEqual([*narrow.Code(text).operations()], [("inner", "1 + 2"), ("outer", "3 + 4")])

    def test_planted_product(self):
        """A product of two of type `usize` in each function of a file, none of which is in the page."""
        self.write(narrow.PAGE, PAGE.replace("`a + b`, `b * c` | few, inside", "`width * depth` | inside"))
        planted = "fn size(a: usize, b: usize) -> usize {\n    a * b\n}\n"
        self.write("crates/low/src/rooms.rt", f"{planted}\nconst MOST: usize = 1 << 20;\n\nfn area() {{\n    width * depth\n}}\n")
        self.assertEqual(list(narrow.faults()), ["docs/inside/NARROW.md: no row of rooms::size has `a * b`"])


class PageTest(SmallRepository):
    def differences(self, page, found=FOUND):
        return list(narrow.differences(page, found))

    def test_nothing_differs(self):
        self.assertEqual(self.differences(PAGE), [])
        self.assertEqual(self.differences(PAGE.replace("few, inside", "inside")), [])

    def test_operation_without_a_row(self):
        self.assertEqual(self.differences(PAGE, {**FOUND, "rooms::new": ["a * b"]}), ["no row of rooms::new has `a * b`"])
        self.assertEqual(self.differences(PAGE, {**FOUND, "rooms::MOST": ["1 << 20", "a * b"]}), ["no row of rooms::MOST has `a * b`"])

    def test_row_without_an_operation(self):
        self.assertEqual(self.differences(PAGE, {"rooms::area": FOUND["rooms::area"]}), ["rooms::MOST has no `1 << 20`"])
        self.assertEqual(self.differences(PAGE, {**FOUND, "rooms::area": ["a + b"]}), ["rooms::area has no `b * c`"])

    def test_rules(self):
        self.assertEqual(self.differences(PAGE.replace("few, inside", "few, slots")), ["no rule slots", "no row is by the rule inside"])
        page = PAGE.replace("few, inside", "few, inside, few")
        self.assertEqual(self.differences(page), ["rooms::area has 3 rules for 2 operations"])

    def test_two_rows_of_a_function(self):
        page = PAGE.replace("| `rooms::MOST` |", "| `rooms::MOST` | `1 << 20` | few |\n| `rooms::MOST` |")
        self.assertEqual(self.differences(page), ["1 rows are of a function that has another"])

    def test_row_in_another_form(self):
        page = PAGE.replace("| `rooms::MOST` |", "| rooms::MOST |")
        self.assertEqual(self.differences(page), ["no row of rooms::MOST has `1 << 20`"])


class LibraryTest(SmallRepository):
    def test_page_of_the_library(self):
        self.assertEqual(list(narrow.faults()), [])
