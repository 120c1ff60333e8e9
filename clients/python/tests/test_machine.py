"""Random calls over each backend, beside a plain list of the texts that are known.

EXAMPLES=10000 makes as many runs, each time others. Else there are a hundred, always the same.
"""

import copy
import json
import os
import pickle
from array import array
from itertools import accumulate

from hypothesis import settings, strategies
from hypothesis.stateful import RuleBasedStateMachine, initialize, invariant, rule
from test_calls import BACKENDS, places

from string_interner import Interner

# Few letters, so that texts repeat and begin alike, or any; some longer than a length of one byte can say.
TEXTS = (strategies.text("abß語", max_size=4) | strategies.text()
         | strategies.builds(str.__mul__, strategies.text("aß", min_size=1), strategies.sampled_from((60, 127, 128, 300))))
COLUMNS = strategies.lists(TEXTS, max_size=12)
NUMBERS = strategies.integers(-2, 40) | strategies.integers()
TYPECODES = strategies.sampled_from(("I", "Q"))
ENDS = strategies.sampled_from((list, iter, *(lambda ends, it=it: array(it, ends) for it in "iIlQ")))


class BesideAList(RuleBasedStateMachine):
    @initialize(backend=strategies.sampled_from(BACKENDS), column=COLUMNS, capacity=strategies.integers(0, 20))
    def make(self, backend, column, capacity):
        self.backend = backend
        self.known = list(dict.fromkeys(column))
        self.interner = Interner(column, backend=backend, capacity=capacity)

    def numbers_of(self, column):
        """The numbers of a column, whose new texts are then known."""
        self.known = list(dict.fromkeys(self.known + column))
        numbers = dict(zip(self.known, places(self.known, self.backend)))
        return [numbers[text] for text in column]

    @rule(text=TEXTS)
    def intern(self, text):
        assert [self.interner.intern(text)] == self.numbers_of([text])

    @rule(column=COLUMNS, typecode=TYPECODES)
    def intern_all(self, column, typecode):
        assert self.interner.intern_all(column, typecode=typecode) == array(typecode, self.numbers_of(column))

    @rule(column=COLUMNS, typecode=TYPECODES, form=ENDS)
    def intern_column(self, column, typecode, form):
        raws = [text.encode() for text in column]
        codes = self.interner.intern_column(b"".join(raws), ends=form(list(accumulate(map(len, raws)))), typecode=typecode)
        assert codes == array(typecode, self.numbers_of(column))

    @rule(column=COLUMNS, text=TEXTS, typecode=TYPECODES, form=ENDS)
    def intern_column_by_offsets(self, column, text, typecode, form):
        # The first begins behind another text, as in a slice of an array of Arrow.
        raws = [it.encode() for it in (text, *column)]
        codes = self.interner.intern_column(b"".join(raws), offsets=form(list(accumulate(map(len, raws)))), typecode=typecode)
        assert codes == array(typecode, self.numbers_of(column))

    @rule(column=COLUMNS, change=strategies.integers(), wrong=strategies.sampled_from((-1, 2**64, 10**6)))
    def intern_column_with_a_bad_end(self, column, change, wrong):
        raws = [text.encode() for text in column]
        ends = list(accumulate(map(len, raws)))
        kept = change % (len(ends) + 1)
        ends.insert(kept, wrong)
        try:
            self.interner.intern_column(b"".join(raws), ends=ends)
        except ValueError:
            self.numbers_of(column[:kept])
        else:
            raise AssertionError("a bad end was taken")

    @rule(text=TEXTS)
    def look_up(self, text):
        known = text in self.known
        assert (text in self.interner) == known
        assert self.interner.get(text) == (dict(zip(self.known, places(self.known, self.backend)))[text] if known else None)

    @rule(number=NUMBERS)
    def resolve(self, number):
        texts = dict(zip(places(self.known, self.backend), self.known))
        # Between those of texts, numbers on a buffer may read something.
        if number in texts or self.backend != "buffer":
            assert self.interner.resolve(number) == texts.get(number)

    @rule(numbers=strategies.lists(strategies.integers(0, 40), max_size=20), typecode=TYPECODES)
    def resolve_all(self, numbers, typecode):
        rows = [number for number in numbers if number < len(self.known)]
        numbers = places(self.known, self.backend)
        found = self.interner.resolve_all(array(typecode, [numbers[row] for row in rows]))
        assert found == [self.known[row] for row in rows]

    @rule(length=strategies.integers(0, 50))
    def truncate(self, length):
        self.interner.truncate(length)
        del self.known[length:]

    @rule()
    def shrink(self):
        self.interner.shrink()

    @rule(make=strategies.sampled_from((copy.copy, copy.deepcopy, lambda it: pickle.loads(pickle.dumps(it)))))
    def go_on_with_a_copy(self, make):
        before, self.interner = self.interner, make(self.interner)
        assert self.interner == before
        before.truncate(0)
        before.intern_all(["x", "y", "z"])

    @rule(column=COLUMNS)
    def go_on_with_json(self, column):
        assert json.loads(self.interner.to_json()) == self.known
        self.numbers_of(column)
        texts = json.dumps(self.known + column, ensure_ascii=len(column) % 2 == 0)
        self.interner = Interner.from_json(texts, backend=self.backend)

    @rule(column=COLUMNS, backend=strategies.sampled_from(BACKENDS))
    def compare(self, column, backend):
        other = Interner(column, backend=backend)
        assert (self.interner == other) == (backend == self.backend and list(other) == self.known)

    @invariant()
    def holds_what_the_list_holds(self):
        if hasattr(self, "interner"):
            assert list(self.interner.entries()) == list(zip(places(self.known, self.backend), self.known))
            assert list(self.interner) == self.known and len(self.interner) == len(self.known)


TestBesideAList = BesideAList.TestCase
TestBesideAList.settings = settings(max_examples=int(os.environ.get("EXAMPLES", 100)), stateful_step_count=40, deadline=None,
                                    derandomize="EXAMPLES" not in os.environ, database=None)
