"""Tests of handlers of signals that run within calls over many rows: how long one waits, and that a call which one ends leaves all as
it was. Waits are times of the processor, so a busy machine changes nothing."""

import copy
import gc
import json
import pickle
import random
import signal
import time
import unittest
from array import array
from collections import deque
from contextlib import contextmanager
from functools import partial
from itertools import accumulate, chain

from within import attempts

from string_interner import Column, Interner

# No handler waits as long, in seconds. On a machine that is slow, or for a while, none waits as long as Python makes 800,000 texts.
LONGEST = 0.2


@contextmanager
def not_collecting():
    """Has no collection come, which would take time, and whose finalizers would swallow what a handler raises."""
    collects = gc.isenabled()
    gc.disable()
    try:
        yield
    finally:
        if collects:
            gc.enable()


@contextmanager
def handling(handle):
    """Has a handler of a signal run whenever one may, again and again."""
    before = signal.signal(signal.SIGVTALRM, lambda *_: handle())
    signal.setitimer(signal.ITIMER_VIRTUAL, 0.001, 0.001)
    try:
        with not_collecting():
            yield
    finally:
        signal.setitimer(signal.ITIMER_VIRTUAL, 0)
        signal.signal(signal.SIGVTALRM, before)


def texts_of(count):
    return [f"text {number}" for number in range(count)]


def is_short(wait):
    """Whether a handler may wait as long. What Python takes is measured at the same time, because machines are slow for a while."""
    if wait < LONGEST:
        return True
    start = time.thread_time()
    texts_of(800_000)
    return wait < time.thread_time() - start


def interrupt():
    """What a handler does that ends a call."""
    raise KeyboardInterrupt


def walk(values):
    """Reads an iterator without a loop of Python, where handlers would run."""
    deque(values, 0)


def truncate_beside_an_iterator(interner):
    """Has the interner read for the iterator all that it drops."""
    rows = iter(interner)
    interner.truncate(1)
    next(rows)


class Inputs:
    """Texts, and what has them."""

    def __init__(self, count):
        self.texts = texts_of(count)
        raws = [text.encode() for text in self.texts]
        self.joined, self.ends = b"".join(raws), array("Q", accumulate(map(len, raws)))
        self.lines, self.numbers, self.json = b"\n".join(raws), list(range(count)), json.dumps(self.texts)
        self.interner, self.column = Interner(self.texts), Column(self.texts)
        self.other = Column(["first", *self.texts[1:]])
        self.gaps = Column([None, *self.texts[1:]])
        self.shuffled = Column(random.Random(1).sample(self.texts, count))
        self.objects = (self.interner, self.column, self.other, self.gaps, self.shuffled)

    def calls(self):
        """Calls that change none of the objects, by name. Each reads all texts or rows."""
        texts, interner, column = self.texts, self.interner, self.column
        yield "get_all", lambda: interner.get_all(texts)
        yield "get_all of an iterator", lambda: interner.get_all(iter(texts))
        yield "resolve_all", lambda: interner.resolve_all(self.numbers)
        yield "iteration", lambda: walk(interner)
        yield "items", lambda: walk(interner.items())
        yield "reversed", lambda: walk(reversed(interner))
        yield "from_json", lambda: Interner.from_json(self.json)
        yield "from_json of a backend", lambda: Interner.from_json(self.json, backend="buffer", exact=True)
        yield "unpickling an interner", lambda dumped=pickle.dumps(interner): pickle.loads(dumped)
        yield "Column", lambda: Column(texts)
        yield "Column of an iterator", lambda: Column(iter(texts))
        yield "from_parts", lambda: Column.from_parts(texts, self.numbers)
        yield "from_buffers", lambda: Column.from_buffers(self.joined, ends=self.ends, codes=self.numbers)
        yield "from_arrow", lambda: Column.from_arrow(column)
        yield "unpickling a column", lambda dumped=pickle.dumps(column): pickle.loads(dumped)
        yield "iteration over rows", lambda: walk(chain(*[column] * 9))
        yield "reversed rows", lambda: walk(chain(*map(reversed, [column] * 9)))
        yield "dictionary", lambda: column.dictionary
        yield "value_counts", lambda: column.value_counts()
        yield "unique", lambda: column.unique()
        yield "isin", lambda: column.isin(texts)
        yield "isin of an iterator", lambda: column.isin(iter(texts))
        yield "compact", lambda: column[1:].compact()
        yield "==", lambda: column == self.other
        yield "take", lambda: column.take(range(len(texts)))
        yield "rows by a list", lambda: column[self.numbers]
        yield "rows by a mask", lambda: column[[True] * len(texts)]
        yield "eq", lambda: column.eq(self.other)
        yield "map_texts", lambda: column.map_texts(str.upper)
        yield "sort_dictionary", lambda: column.sort_dictionary()
        yield "sort_dictionary of texts in no order", lambda: self.shuffled.sort_dictionary()
        yield "sort_dictionary by a key", lambda: self.shuffled.sort_dictionary(key=str.upper)
        yield "remap", lambda: column.remap(self.texts)
        yield "remap to a column", lambda: column.remap(self.other, unknown="first")
        yield "counts of an iterator", lambda: column.counts(iter(self.numbers))
        yield "a token for dask", column.__dask_tokenize__

    def short_calls(self):
        """The same, which the library makes in one step, or which only copy. They take less time than a handler may wait."""
        interner, column = self.interner, self.column
        yield "to_json", lambda: interner.to_json()
        yield "copy", lambda: interner.copy()
        yield "== of interners", lambda copied=interner.copy(): interner == copied
        yield "truncate beside an iterator", lambda: truncate_beside_an_iterator(interner.copy())
        yield "a token of an interner for dask", interner.__dask_tokenize__
        yield "pickling an interner", lambda: pickle.dumps(interner)
        yield "pickling a part", lambda: pickle.dumps(column[1:])
        yield "copying a column", lambda: copy.deepcopy(column)
        yield "counts", lambda: column.counts()
        yield "isna", lambda: column.isna()
        yield "eq of a text", lambda: column.eq("text 5")
        yield "a mask of masks", lambda mask=column.isna(): ~mask & mask | mask
        yield "a slice", lambda: column[::-1]
        yield "to_buffers", lambda: column.to_buffers()
        yield "Arrow", lambda: column.__arrow_c_array__()
        yield "append to a copy", lambda: column[:].append("new")
        yield "merge with itself", lambda: column[:].merge(column)
        yield "fillna", lambda: self.gaps.fillna("new")
        yield "dropna", lambda: self.gaps.dropna()
        yield "nunique", lambda: self.gaps.nunique(dropna=False)
        yield "counts with weights", lambda: column.counts(array("d", self.numbers))
        yield "+", lambda: column + self.gaps

    def changes(self):
        """Functions that make calls in C, each of which adds all texts to an empty interner or column."""
        for change in (lambda it: partial(it.intern_all, self.texts), lambda it: partial(it.intern_all, map(str, self.texts)),
                       lambda it: partial(it.intern_all, [*self.texts, None], missing=-1), lambda it: partial(it.intern_lines, self.lines),
                       lambda it: partial(it.intern_column, self.joined, ends=self.ends),
                       lambda it: partial(it.intern_column, self.joined, ends=list(self.ends)),
                       lambda it: partial(it.intern_column, self.joined, offsets=[0, *self.ends])):
            yield Interner, change
        for change in (lambda it: partial(it.extend, self.texts), lambda it: partial(it.extend, iter(self.texts)),
                       lambda it: partial(it.merge, self.column)):
            yield Column, change


class Signals(unittest.TestCase):
    def longest_wait(self, call):
        """The longest time of a call in which no handler could run."""
        waits, last = [], 0.0

        def note():
            nonlocal last
            now = time.thread_time()
            waits.append(now - last)
            last = now

        with handling(note):
            last = time.thread_time()
            call()
            note()
        return max(waits)

    def test_no_handler_waits_long(self):
        inputs = Inputs(1_000_000)
        # A step that has no parts waits for memory, too, and takes some times as long on a busy machine.
        calls = [*inputs.calls(), *Inputs(300_000).short_calls()]
        for number, (make, change) in enumerate(inputs.changes()):
            calls.append((f"change {number}", lambda make=make, change=change: change(make(["first"]))()))
        for name, call in calls:
            with self.subTest(name):
                self.assertTrue(any(is_short(self.longest_wait(call)) for _ in range(9)))

    def stop(self, make_call, after=0.001):
        """Makes a call that a handler ends by an exception."""
        with not_collecting():
            for attempt in attempts(after):
                ended = attempt.run(interrupt, make_call())
        self.assertIsInstance(ended, KeyboardInterrupt)

    def stop_twice(self, make_call, check):
        """Has a handler end a call at once, and another about in the middle, and looks each time at what is left."""
        self.stop(make_call)
        check()
        call, start = make_call(), time.thread_time()
        call()
        self.stop(make_call, (time.thread_time() - start) / 2)
        check()

    def test_a_call_that_a_handler_ends_changes_nothing(self):
        inputs = Inputs(300_000)
        before = [[*it] for it in inputs.objects]

        def check():
            self.assertEqual([[*it] for it in inputs.objects], before)
            self.assertEqual((inputs.column.distinct, inputs.column.codes.tolist()), (300_000, inputs.numbers))

        for name, call in inputs.calls():
            with self.subTest(name):
                self.stop_twice(lambda: call, check)

    def test_a_change_that_a_handler_ends_changes_nothing(self):
        inputs = Inputs(300_000)
        for number, (make, change) in enumerate(inputs.changes()):
            with self.subTest(number):
                kept, shared = [], Column(["first"])

                def make_call():
                    kept[:] = [make(["first"]) if make is Interner else shared[:]]
                    return change(kept[0])

                def check():
                    self.assertEqual((list(kept[0]), len(kept[0])), (["first"], 1))
                    self.assertEqual((list(shared), shared.dictionary), (["first"], ["first"]))

                self.stop(make_call)
                check()
                change(kept[0])()
                self.assertEqual([*kept[0]][:300_001], ["first", *inputs.texts])
                self.stop_twice(make_call, check)

    def test_rows_are_those_at_the_beginning_whatever_a_handler_does(self):
        texts = [f"text {number}" for number in range(1_000_000)]
        other, turned, codes = Column(["first", *texts[1:]]), Column(texts[::-1])[::-1], list(range(1_000_000))
        for name, call, wanted in (
            ("isin", lambda it: it.isin(texts).tolist(), [True] * 1_000_000), ("==", lambda it: it == other, False),
            ("equal", lambda it: it == turned, True), ("dictionary", lambda it: it.dictionary, texts),
            ("unique", lambda it: it.unique(), texts), ("compact", lambda it: list(it[1:].compact()), texts[1:]),
            ("list", list, texts), ("reversed", lambda it: list(reversed(it)), texts[::-1]),
            ("in order", lambda it: it._in_order().codes.tolist(), codes),
            ("pickle", lambda it: list(pickle.loads(pickle.dumps(it[1:]))), texts[1:]),
            ("value_counts", lambda it: it.value_counts(), dict.fromkeys(texts, 1)),
        ):
            for handle in (lambda it: it.append("new"), lambda it: it.__init__(["x"]), lambda it: it.shrink(),
                           lambda it: (it.extend(["p", None, "p"]), it.shrink()), lambda it: it.merge(Column(["y", "z"]))):
                with self.subTest(name):
                    column = Column()
                    for attempt in attempts():
                        column.__init__(texts)
                        with not_collecting():
                            found = attempt.run(lambda: handle(column), call, column, once=False)
                        self.assertEqual(found, wanted)

    def test_an_iterator_goes_on_after_a_handler_ended_a_call(self):
        texts = [f"text {number}" for number in range(300_000)]
        for make in (Interner, Column):
            it = make(texts)
            kept = []

            def make_call():
                it.shrink()
                kept[:] = [iter(it), []]
                return partial(kept[1].extend, kept[0])

            self.stop(make_call)
            self.assertLess(len(kept[1]), len(texts))
            self.assertEqual(kept[1] + list(kept[0]), texts)

    def test_an_interner_that_a_handler_changes(self):
        inputs = Inputs(500_000)
        for handle, kind in ((Interner.close, ValueError), (lambda it: it.truncate(0), RuntimeError),
                             (lambda it: it.__init__(["x"]), RuntimeError)):
            for attempt in attempts():
                interner = Interner(["first"])
                raised = attempt.run(lambda: handle(interner), partial(interner.intern_column, inputs.joined, ends=inputs.ends))
            self.assertIsInstance(raised, kind)

        # What a handler adds, and what it saw, stays.
        def see():
            interner.intern("handler")
            raise KeyboardInterrupt

        for attempt in attempts():
            interner = Interner(["first"])
            raised = attempt.run(see, partial(interner.intern_column, inputs.joined, ends=inputs.ends))
        self.assertIsInstance(raised, KeyboardInterrupt)
        self.assertEqual((interner[0], interner[interner.get("handler")]), ("first", "handler"))


class Parts(unittest.TestCase):
    """What is read in parts is what is read at once."""

    def test_texts_between_ends(self):
        inputs = Inputs(150_000)
        for last in (65_535, 65_536, 65_537, 131_072, 150_000):
            ends = inputs.ends[:last]
            interner = Interner(["text 70000"])
            numbers = interner.intern_column(inputs.joined, ends=ends)
            self.assertEqual(interner.resolve_all(numbers), inputs.texts[:last])
            self.assertEqual(list(Column.from_buffers(inputs.joined, ends=ends, codes=range(last))), inputs.texts[:last])
        for bad in (1, 65_535, 65_536, 65_537, 131_072, 149_999):
            for end in (0, inputs.ends[bad - 1] - 1, len(inputs.joined) + 1, 2**64 - 1, -1):
                ends, interner = [*inputs.ends[:bad], end, *inputs.ends[bad + 1 :]], Interner()
                with self.assertRaisesRegex(ValueError, f": end {bad}$"):
                    interner.intern_column(inputs.joined, ends=ends)
                self.assertEqual(list(interner), inputs.texts[:bad])
                with self.assertRaisesRegex(ValueError, f": end {bad}$"):
                    Column.from_buffers(inputs.joined, ends=ends, codes=[])
            joined, interner = bytearray(inputs.joined), Interner()
            joined[inputs.ends[bad] - 1] = 0xFF
            with self.assertRaisesRegex(ValueError, f"^text {bad} is not UTF-8$"):
                interner.intern_column(joined, ends=inputs.ends)
            self.assertEqual(list(interner), inputs.texts[:bad])

    def test_json_of_many_parts(self):
        source = random.Random(2)
        letters = [*"ab,[]{}:\"\\/ \t\n", "é", "\u2028", "\U0001F600", "\0"]
        rows = ["".join(source.choices(letters, k=source.randrange(30))) for _ in range(200_000)]
        for options in ({}, {"ensure_ascii": False}, {"indent": 2}, {"separators": (",", ":")}):
            text = json.dumps(rows, **options)
            for backend in ("string", "bucket", "buffer"):
                read = Interner.from_json(f" \n{text}\t\r\n", backend=backend, hasher="fixed")
                self.assertEqual((list(read), read.backend, read.hasher), ([*dict.fromkeys(rows)], backend, "fixed"))
        distinct = json.dumps([*dict.fromkeys(rows)])
        self.assertEqual(Interner.from_json(distinct, exact=True), Interner(rows))

    def test_wrong_json_of_many_parts(self):
        """It raises what it raises in a short array."""
        front = json.dumps([f"text {number}" for number in range(100_000)])[:-1]
        for end in ("", ",", ",]", ',,"a"]', ', ,"a"]', ", 1]", ", null]", ', ["a"]]', ', {"a": "b"}]', ", [1, [", ' "a"]', ', "a]',
                    ', "a\\"]', ', "\\x"]', ', "\\ud800"]', ', "\n"]', ', "a"}', "] x", ', "text 7"]', ', "a", "a"]', ', 1, "a]', ', "a"]]'):
            for exact in (False, True):
                with self.subTest(end, exact=exact):
                    said = []
                    for text in (f'["text 7"{end}', front + end, f"{front}, {front[1:]}{end}"):
                        try:
                            Interner.from_json(text, exact=exact)
                            said.append(None)
                        except ValueError as error:
                            said.append(str(error))
                    self.assertEqual(said[0], said[1])
                    # The third has each text twice. Only what is no JSON is found before that.
                    repeats = exact and said[0] != "not JSON"
                    self.assertEqual(said[2], "an element repeats an earlier string" if repeats else said[0])
        rest = front[1:]
        for text in ("{" + rest + "}", rest + "]", "[[" + rest + "]", ",[" + rest + "]", "[," + rest + "]"):
            with self.assertRaisesRegex(ValueError, "^not "):
                Interner.from_json(text)


if __name__ == "__main__":
    unittest.main()
