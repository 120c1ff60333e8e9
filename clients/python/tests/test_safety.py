"""Tests that no Python program can make the module read or keep what nobody gave it: lying subclasses, threads that change
what a call reads, forks, calls between two steps of a call, and the ends of interpreters."""

import gc
import mmap
import os
import signal
import subprocess
import sys
import textwrap
import threading
import time
import unittest
from array import array
from contextlib import contextmanager
from itertools import accumulate
from operator import methodcaller

from within import attempts

from string_interner import Column, Interner

BACKENDS = ("string", "bucket", "buffer")
# After so many seconds something hangs: no machine is so busy that it takes as long.
HANGS = 600


class LyingStr(str):
    """A text that says wrong things about itself."""

    def encode(self, *_):
        return b"\xff\xfe\xc0"

    def __len__(self):
        return 1

    def __str__(self):
        return "lie"

    def __iter__(self):
        return iter("lie")


class LyingBytes(bytes):
    def __len__(self):
        return 1 << 12

    def __bytes__(self):
        return b"lie"


class LyingList(list):
    """A list that is another one each time it is read."""

    def __iter__(self):
        self.append("more")
        return super().__iter__()

    def __len__(self):
        return 1


class LyingArray(array):
    def buffer_info(self):
        return 8, 1 << 20

    def __len__(self):
        return 1 << 20

    def __iter__(self):
        return iter([1])


def run_apart(code):
    """Runs lines in a Python of their own, because they may crash it, and returns how that ended."""
    paths = os.pathsep.join(path or os.getcwd() for path in sys.path)
    ended = subprocess.run([sys.executable, "-c", textwrap.dedent(code)], env=os.environ | {"PYTHONPATH": paths},
                           capture_output=True, text=True, timeout=HANGS)
    return ended.returncode, ended.stdout.strip(), ended.stderr.strip()


@contextmanager
def running(*steps):
    """Has a thread for each of these functions call it again and again, and threads take turns often."""
    ended, interval = threading.Event(), sys.getswitchinterval()
    sys.setswitchinterval(1e-5)

    def repeat(step):
        while not ended.is_set():
            step()

    threads = [threading.Thread(target=repeat, args=(step,), daemon=True) for step in steps]
    for thread in threads:
        thread.start()
    try:
        yield
    finally:
        ended.set()
        for thread in threads:
            thread.join(HANGS)
        sys.setswitchinterval(interval)


@contextmanager
def collecting(step):
    """Has a collection come whenever something is made, and calls a function as a finalizer is called."""
    def call(phase, _):
        if phase == "start":
            step()

    thresholds = gc.get_threshold()
    gc.callbacks.append(call)
    gc.set_threshold(1)
    try:
        yield
    finally:
        gc.set_threshold(*thresholds)
        gc.callbacks.remove(call)


class LyingArguments(unittest.TestCase):
    def test_a_text_is_what_it_holds(self):
        for text in ("Tiger", "Käfer"):
            lying = LyingStr(text)
            for backend in BACKENDS:
                interner = Interner(backend=backend)
                number = interner.intern(lying)
                self.assertEqual(interner.resolve(number), text)
                self.assertEqual(interner.get(lying), number)
                self.assertIn(lying, interner)
                self.assertEqual(interner.intern_all([lying, "Horse", lying])[::2].tolist(), [number, number])
                self.assertEqual(list(interner), [text, "Horse"])
            read = Interner.from_json(LyingStr(f'["{text}"]'))
            self.assertEqual(list(read), [text])

    def test_what_only_encodes_is_no_text(self):
        class Encodes:
            def encode(self):
                return b"\xed\xa0\x80"

        interner = Interner()
        for call in (interner.intern, interner.get, Interner.from_json):
            with self.assertRaises(TypeError):
                call(Encodes())
        self.assertNotIn(Encodes(), interner)
        self.assertEqual(list(interner), [])

    def test_an_encoded_text_with_a_lying_length(self):
        self.assertEqual(run_apart("""
            from string_interner import Interner
            class Bytes(bytes):
                def __len__(self):
                    return 1 << 40
            class Str(str):
                def encode(self):
                    return Bytes(b"x")
            interner = Interner(["x"])
            print(interner.get(Str("x")), Str("x") in interner, interner.intern(Str("x")))
            """), (0, "0 True 0", ""))

    def test_bytes_are_as_many_as_there_are(self):
        for given in (LyingBytes(b"abc"), memoryview(LyingBytes(b"abc"))):
            interner = Interner()
            for end in (4, 100, 4000):
                with self.assertRaises(ValueError):
                    interner.intern_column(given, ends=[3, end])
            self.assertEqual(list(interner), ["abc"])

    def test_ends_are_those_of_the_array(self):
        self.assertEqual(run_apart("""
            from array import array
            from string_interner import Interner
            class Lying(array):
                def buffer_info(self):
                    return 8, 1 << 20
                def __len__(self):
                    return 1 << 20
                def __iter__(self):
                    return iter([1])
            interner = Interner()
            print(interner.intern_column(b"abbc", ends=Lying("Q", [1, 3, 4])).tolist(), list(interner))
            """), (0, "[0, 1, 2] ['a', 'bb', 'c']", ""))

    def test_anything_with_a_buffer_is_bytes(self):
        with mmap.mmap(-1, 3) as mapped:
            mapped[:] = b"aba"
            for given in (b"aba", LyingBytes(b"aba"), bytearray(b"aba"), memoryview(b"aba"), array("B", b"aba"), mapped):
                interner = Interner()
                self.assertEqual(interner.intern_column(given, ends=[1, 2, 3]).tolist(), [0, 1, 0])
                self.assertEqual(list(interner), ["a", "b"])
        for wrong in ("aba", None, 3, [97, 98, 97]):
            with self.assertRaises(TypeError):
                Interner().intern_column(wrong, ends=[1, 2, 3])

    def test_a_list_is_read_once(self):
        interner = Interner()
        self.assertEqual(interner.intern_all(LyingList(["a", "ß"])).tolist(), [0, 1, 2])
        self.assertEqual(list(interner), ["a", "ß", "more"])

    def test_an_end_that_changes_what_is_read(self):
        joined, ends = bytearray(b"abc"), []

        class End:
            def __init__(self, place):
                self.place = place

            def __index__(self):
                joined[:] = b"xxxxxx"
                ends.clear()
                return self.place

        ends += map(End, (1, 2, 3))
        interner = Interner()
        try:
            interner.intern_column(joined, ends=ends)
        except (IndexError, ValueError):
            pass
        self.assertLessEqual({*interner}, {"a", "b", "c"})


class Threads(unittest.TestCase):
    def test_ends_that_another_thread_moves(self):
        # At each moment the ends are those of the texts, with some empty texts behind them or none.
        self.assertEqual(run_apart("""
            import threading
            from array import array
            from string_interner import Interner
            ROWS = 400_000
            joined, ends = b"ab" * ROWS, array("Q", range(2, 2 * ROWS + 1, 2))
            more, ended = array("Q", [2 * ROWS]) * (2 * ROWS), threading.Event()
            def move():
                while not ended.is_set():
                    ends.extend(more)
                    del ends[ROWS:]
                    for _ in range(3):
                        array("Q", b"\\xff" * (8 * ROWS))
            mover = threading.Thread(target=move, daemon=True)
            mover.start()
            interner, codes = Interner(), set()
            for _ in range(20):
                codes.update(interner.intern_column(joined, ends=ends))
            ended.set()
            mover.join()
            print(codes <= {0, 1}, {*interner} <= {"ab", ""})
            """), (0, "True True", ""))

    def test_numbers_that_another_thread_changes(self):
        # The ends are good ones before and after each change.
        rows = 200_000
        joined, ends = b"ab" * rows, array("Q", range(2, 2 * rows + 1, 2))
        good, empty = ends[:], array("Q", [2 * rows]) * rows

        def change():
            ends[:] = empty
            ends[:] = good

        interner = Interner()
        with running(change):
            for _ in range(30):
                interner.intern_column(joined, ends=ends)
        self.assertLessEqual({*interner}, {"ab", "ab" * rows, ""})

    def test_texts_that_another_thread_changes(self):
        for short, long in (("ab", "abc"), ("aß", "aßc")):
            texts = [short] * 5_000

            def change():
                for row in range(0, len(texts), 10):
                    texts[row] = long
                for row in range(0, len(texts), 10):
                    texts[row] = short

            interner = Interner()
            with running(change):
                for _ in range(300):
                    interner.intern_all(texts)
            self.assertLessEqual({*interner}, {short, long})

    def test_two_are_compared_in_both_orders(self):
        one, other, results = Interner(["a"]), Interner(["a"]), []
        threads = [threading.Thread(target=lambda: results.append(all(one == other for _ in range(3000))), daemon=True),
                   threading.Thread(target=lambda: results.append(all(other == one for _ in range(3000))), daemon=True)]
        for thread in threads:
            thread.start()
        for thread in threads:
            thread.join(HANGS)
        self.assertEqual(results, [True, True])


def take_back(value):
    """Empties the dict in which a call was passed a value by its name, as any code may. For `call(**words)` nobody else has it."""
    for found in gc.get_objects():
        if type(found) is dict and any(each is value for each in found.values()):
            found.clear()


class Words(unittest.TestCase):
    """What is passed by its name stays until the call ends, whoever empties the dict that has it."""

    def setUp(self):
        ends = self.ends = []
        ends_then = self.ends_then = []

        class Kept(str):
            def __del__(self):
                ends.append("kept")

        class KeptRows:
            def __init__(self, rows):
                self.rows = rows

            def __iter__(self):
                return iter(self.rows)

            def __del__(self):
                ends.append("kept")

        class Taking(KeptRows):
            def take(self):
                take_back(self)
                ends_then.extend(ends)

            def __iter__(self):
                self.take()
                return iter(self.rows)

            def __index__(self):
                self.take()
                return 0

            def __del__(self):
                pass

        self.kinds = Kept, KeptRows, Taking

    def test_calls_that_use_it_late(self):
        text, kept, taking = self.kinds
        for name, call in (
            ("from_parts", lambda: Column.from_parts(**{"dictionary": taking(["a"]), "codes": kept([0])})),
            ("from_buffers", lambda: Column.from_buffers(b"a", **{"ends": taking([1]), "codes": kept([0])})),
            ("index", lambda: Column(["a"]).index(**{"value": text("a"), "start": taking([])})),
            ("Interner", lambda: Interner(**{"texts": kept(["a"]), "capacity": taking([])})),
            ("get_all", lambda: Interner().get_all(**{"texts": kept(["a"]), "missing": taking([])})),
            ("intern_all", lambda: Interner().intern_all(**{"texts": kept(["a"]), "missing": taking([])})),
        ):
            with self.subTest(name):
                call()
                self.assertEqual((self.ends_then, self.ends), ([], ["kept"]))
            self.ends.clear()

    def test_an_array_of_arrow(self):
        ends = []

        class Array:
            @property
            def __arrow_c_array__(self):
                take_back(self)
                raise AttributeError

            def __arrow_c_stream__(self):
                self.is_read = True
                return Column(["a"]).__arrow_c_stream__()

            def __del__(self):
                ends.append(self.is_read)

        self.assertEqual(list(Column.from_arrow(**{"values": Array()})), ["a"])
        self.assertEqual(ends, [True])


class Parts(unittest.TestCase):
    """Calls that make a column or an interner of much, which nobody else has yet, let other threads run after each part."""

    @contextmanager
    def watching(self):
        """Has another thread note how much processor time this one has taken, each time that it took more."""
        clock, seen, may_run = time.pthread_getcpuclockid(threading.get_ident()), [0.0], [True]

        def watch():
            while may_run:
                if (now := time.clock_gettime(clock)) > seen[-1] + 0.001:
                    seen.append(now)

        thread = threading.Thread(target=watch)
        thread.start()
        try:
            yield seen
        finally:
            may_run.clear()
            thread.join()

    def count_stops(self, call):
        """How often another thread ran in the middle of a call."""
        with self.watching() as seen:
            start = time.thread_time()
            call()
            end = time.thread_time()
        margin = (end - start) / 8
        return sum(start + margin < each < end - margin for each in seen)

    def test_other_threads_run_in_between(self):
        count = 1_000_000
        texts = [f"text {number}" for number in range(count)]
        raws = [text.encode() for text in texts]
        joined, offsets = b"".join(raws), array("q", accumulate(map(len, raws), initial=0))
        codes = array("i", range(count))
        for name, call in (("from_buffers", lambda: Column.from_buffers(joined, offsets=offsets, codes=codes)),
                           ("from_parts", lambda: Column.from_parts(texts, codes))):
            with self.subTest(name):
                # On a busy machine the other thread may not come to its turn.
                self.assertTrue(any(self.count_stops(call) >= 3 for _ in range(30)))
        # To another thread this is one step.
        self.assertLessEqual(min(self.count_stops(lambda: Interner().intern_all(texts)) for _ in range(3)), 1)


class Forks(unittest.TestCase):
    def fork(self, look, children=20):
        """How many children of some fail or hang, each of which makes a call."""
        bad = 0
        for _ in range(children):
            time.sleep(0.01)
            child = os.fork()
            if not child:
                status = 1
                try:
                    signal.alarm(HANGS)
                    status = 0 if look() else 1
                finally:
                    os._exit(status)
            bad += os.waitpid(child, 0)[1] != 0
        return bad

    def test_a_child_finds_the_interner_whole(self):
        interner, texts = Interner(), [f"text {number}" for number in range(100_000)]

        def look():
            known = list(interner)
            return (known == texts[: len(known)] and interner.intern_all(known).tolist() == list(range(len(known)))
                    and interner.intern("new") == len(known) and len(interner) == len(known) + 1)

        def fill():
            interner.intern_all(texts)
            interner.truncate(0)

        with running(fill):
            self.assertEqual(self.fork(look), 0)

    def test_interners_that_threads_make_and_compare(self):
        kept = [Interner(map(str, range(50_000))) for _ in range(3)]

        def make():
            kept.append(Interner(map(str, range(20_000))))
            del kept[3:-1]

        def compare():
            one, other = kept[0], kept[-1]
            one == other, other == one, one == kept[1], kept[2] == kept[1], kept[1].copy()

        def look():
            return (all(interner.get("7") == 7 for interner in kept) and kept[0] == kept[1] == kept[2]
                    and Interner(["new"]).get("new") == 0)

        with running(make, compare, compare):
            self.assertEqual(self.fork(look), 0)

    def test_threads_that_fork(self):
        interner, texts, found = Interner(), list(map(str, range(50_000))), []

        def fill():
            interner.intern_all(texts)
            interner.truncate(0)

        with running(fill):
            forkers = [threading.Thread(target=lambda: found.append(self.fork(lambda: len([*interner]) == len(interner))))
                       for _ in range(2)]
            for forker in forkers:
                forker.start()
            for forker in forkers:
                forker.join(HANGS)
        self.assertEqual(found, [0, 0])

    def test_a_child_forks_too(self):
        interner = Interner(["a"])

        def look():
            return self.fork(lambda: interner.intern("b") == 1, 1) == 0 and list(interner) == ["a"]

        with running(lambda: interner.get("a")):
            self.assertEqual(self.fork(look), 0)


class CallsBetweenSteps(unittest.TestCase):
    """A finalizer or a signal handler runs between any two steps of the thread that it comes upon."""

    def test_entries_belong_together(self):
        # Each text with its place, on a buffer: as many bytes as go before it.
        states = [["a", "bb", "ccc"], ["ccc", "a", "bb"], ["bb"]]
        wanted = [[(0, "a"), (2, "bb"), (5, "ccc")], [(0, "ccc"), (4, "a"), (6, "bb")], [(0, "bb")]]
        interner, turn = Interner(backend="buffer"), 0

        def change():
            nonlocal turn
            turn += 1
            interner.truncate(0)
            interner.intern_all(states[turn % 3])

        change()
        kept = []
        with collecting(change):
            for _ in range(400):
                # From 3.12 on a collection comes only once more objects were made than dropped.
                kept.append([])
                self.assertIn(list(interner.items()), wanted)
                self.assertIn(list(interner), states)
        self.assertGreater(turn, 300)

    def test_buffers_belong_together(self):
        column, kept = Column(), []
        with collecting(lambda: column.__init__(["x"])):
            for _ in range(200):
                kept.append([])
                column.__init__(["a", "b"])
                joined, _, codes = column.to_buffers()
                self.assertIn((joined, codes.tolist()), ((b"ab", [0, 1]), (b"x", [0])))

    def test_a_finalizer_adds_rows_while_values_are_looked_up(self):
        self.assertEqual(run_apart("""
            import gc
            from string_interner import Column
            column, kept = Column(["a"]), []
            def grow(phase, _):
                if phase == "start":
                    column.extend([f"text {number}" for number in range(column.distinct, column.distinct + 1000)])
            gc.callbacks.append(grow)
            gc.set_threshold(1)
            for _ in range(100):
                kept.append([])
                values = [*["\\ud800"] * 10, *[f"text {number}" for number in range(column.distinct - 10, column.distinct + 2000)]]
                found = column.isin(values)
                assert not found[0] and len(found) <= len(column)
            gc.callbacks.clear()
            print(column.distinct > 10_000)
            """), (0, "True", ""))

    def test_an_audit_hook_adds_rows(self):
        self.assertEqual(run_apart("""
            import sys
            from string_interner import Column, Interner
            column, interner, calls = Column(["a"]), Interner(["a"]), []
            def hook(event, _):
                if event == "array.__new__" and calls:
                    calls.pop()()
            sys.addaudithook(hook)
            calls.append(lambda: column.extend(map(str, range(100_000))))
            print(len(column.counts()), len(column.counts()))
            calls.append(interner.close)
            try:
                interner.intern_all(["a"])
            except ValueError as error:
                print(error)
            """), (0, "1 100001\nthe interner is closed", ""))

    def test_what_is_copied_may_grow_meanwhile(self):
        joined, ends, interner, failed = bytearray(b"ab" * 1000), array("Q", range(2, 2001, 2)), Interner(), []

        def grow():
            try:
                joined.extend(b"ab" * 1000)
                del joined[2000:]
                ends.extend([2000] * 1000)
                del ends[1000:]
            except BufferError as error:
                failed.append(error)

        with collecting(grow):
            for _ in range(300):
                self.assertEqual({*interner.intern_column(joined, ends=ends)}, {0})
        self.assertEqual((list(interner), failed), (["ab"], []))

    def test_a_list_that_changes_is_read_once(self):
        for pair in (["a", "bbb"], ["ß", "ßßß"]):
            texts, interner = pair[:], Interner()
            with collecting(texts.reverse):
                for _ in range(300):
                    self.assertIn(interner.intern_all(texts).tolist(), ([0, 1], [1, 0]))
            self.assertEqual({*interner}, {*pair})

    def test_signal_handlers_call_too(self):
        interner, handled, failed = Interner(["s"]), 0, []

        def handle(*_):
            nonlocal handled
            handled += 1
            interner.truncate(1)
            interner.intern(f"handler {handled} with a long tail")

        before = signal.signal(signal.SIGALRM, handle)
        signal.setitimer(signal.ITIMER_REAL, 0.0002, 0.0002)
        try:
            end = time.monotonic() + HANGS
            while handled < 2000 and time.monotonic() < end:
                rows = [list(interner), [text for _, text in interner.items()], list(interner.copy())]
                failed += [row for row in rows if row[0] != "s"]
                interner.intern_all(["p", "q"])
        finally:
            signal.setitimer(signal.ITIMER_REAL, 0)
            signal.signal(signal.SIGALRM, before)
        self.assertGreaterEqual(handled, 2000)
        self.assertEqual(failed, [])

    def test_a_signal_handler_closes_within_a_call(self):
        self.assertEqual(run_apart("""
            import random, signal
            from string_interner import Interner
            current, text = None, "tiger" * 20
            signal.signal(signal.SIGALRM, lambda *_: current and current.close())
            chance, closed = random.Random(5), 0
            for _ in range(1000):
                current = Interner([text, "x"])
                signal.setitimer(signal.ITIMER_REAL, 0.00005 + chance.random() * 0.0003)
                try:
                    while current.resolve(0) == text:
                        pass
                except ValueError:
                    closed += 1
            print(closed)
        """), (0, "1000", ""))


class Finalizers(unittest.TestCase):
    """A collection finalizes all objects of a cycle before it drops one of them."""

    def run_nodes(self, lines):
        """Runs lines after those of a class whose finalizer calls `use` with the interner of its cycle."""
        return run_apart(textwrap.dedent("""
            import gc
            from string_interner import Interner
            class Node:
                def __init__(self, interner):
                    self.me, self.interner = self, interner
                def __del__(self):
                    use(self.interner)
            """) + textwrap.dedent(lines))

    def test_a_finalizer_uses_and_keeps_an_interner_of_its_cycle(self):
        self.assertEqual(self.run_nodes("""
            kept = []
            def use(interner):
                interner.intern("late")
                kept.append(interner)
            for _ in range(50):
                Node(Interner(["a", "b"]))
                # What is older is finalized first.
                node = Node(None)
                node.interner = Interner(["a", "b"])
                del node
            gc.collect()
            texts = [f"text {number}" for number in range(1000)]
            print(len(kept), all(it.intern_all(texts)[-1] == 1002 for it in kept), {tuple(it)[:3] for it in kept})
            """), (0, "100 True {('a', 'b', 'late')}", ""))

    def test_a_finalizer_hands_the_interner_to_a_thread(self):
        # The thread is within one call of the library while the collection goes on.
        self.assertEqual(self.run_nodes("""
            import threading, time
            from array import array
            rows, found, threads, has_begun = 1_000_000, [], [], threading.Event()
            joined, ends = b"".join(b"%07d" % row for row in range(rows)), array("Q", range(7, 7 * rows + 1, 7))
            def call(interner):
                has_begun.set()
                found.append((interner.intern_column(joined, ends=ends)[-1], len(interner)))
            def use(interner):
                threads.append(threading.Thread(target=call, args=(interner,)))
                threads[0].start()
                has_begun.wait()
                time.sleep(0.05)
            Node(Interner(["a", "b"]))
            gc.collect()
            threads[0].join()
            print(found)
            """), (0, "[(1000001, 1000002)]", ""))

    def test_memory_of_a_cycle_is_freed(self):
        self.assertEqual(self.run_nodes("""
            import resource
            use = len
            texts = [f"{number:0100d}" for number in range(10_000)]
            for turn in range(110):
                Node(Interner(texts))
                gc.collect()
                if turn == 10:
                    before = resource.getrusage(resource.RUSAGE_SELF).ru_maxrss
            # A hundred of them would take 100 MB.
            print(resource.getrusage(resource.RUSAGE_SELF).ru_maxrss - before < 20_000)
            """), (0, "True", ""))


class Ends(unittest.TestCase):
    """The interpreter stops daemon threads wherever they are when it ends, and then finalizes what is left."""

    def test_a_finalizer_calls_while_threads_are_stopped_at_any_step(self):
        self.assertEqual(run_apart("""
            import faulthandler, sys, threading, time
            from string_interner import Column, Interner
            faulthandler.dump_traceback_later(300, exit=True)
            interner, column = Interner(["a"]), Column(["a"])
            class Late:
                def __init__(self, interner, column):
                    self.me, self.interner, self.column = self, interner, column
                def __del__(self):
                    self.interner.intern("late")
                    self.column.append("late")
                    list(self.column)
            sys.modules["late"], cycle = Late(interner, column), Late(interner, column)
            del cycle
            def work():
                while True:
                    interner.intern_all([f"x{number}" for number in range(2000)])
                    column.extend(["q"] * 100)
            for _ in range(3):
                threading.Thread(target=work, daemon=True).start()
            time.sleep(0.2)
            """), (0, "", ""))


class Batches(unittest.TestCase):
    """A batch is all or nothing, whatever runs in the middle of it."""

    def test_a_wrong_value_undoes_all(self):
        for backend in BACKENDS:
            interner = Interner(["a"], backend=backend)
            for wrong, error in ((1, TypeError), ("\ud800", UnicodeEncodeError)):
                for rows in (["b", wrong], ("b", wrong), iter(["b", wrong]), ["b"] * 200_000 + ["c", wrong]):
                    with self.assertRaises(error):
                        interner.intern_all(rows)
                    self.assertEqual(list(interner), ["a"])
            with self.assertRaisesRegex(ValueError, "^line 3 is not UTF-8$"):
                interner.intern_lines(b"b\nc\n\xff\nd")
            self.assertEqual(list(interner), ["a"])

    def test_a_finalizer_after_a_wrong_value(self):
        # Finds nothing that is undone later.
        interner, found = Interner(["a"]), []

        class Late:
            def __init__(self):
                self.me = self

            def __del__(self):
                found.append(tuple(interner))

        with collecting(lambda: None):
            for number in range(300):
                Late()
                with self.assertRaises(TypeError):
                    interner.intern_all([f"new {number}", 1])
        self.assertGreater(len(found), 100)
        self.assertEqual({*found}, {("a",)})

    def test_a_type_with_a_name_of_its_own(self):
        interner, column = Interner(["a"]), Column(["a"])

        class Meta(type):
            def __repr__(cls):
                interner.close()
                return "lie"

        class Wrong(metaclass=Meta):
            def __repr__(self):
                interner.close()
                return "lie"

        for call in (interner.intern, interner.get, lambda it: interner.intern_all([it]), lambda it: interner.get_all([it]),
                     column.append, lambda it: column.extend([it]), column.merge, column.code):
            with self.assertRaisesRegex(TypeError, "Wrong"):
                call(Wrong())
        self.assertEqual((list(interner), list(column)), (["a"], ["a"]))

    def test_a_handler_within_a_batch(self):
        texts = [f"text {number}" for number in range(1_000_000)]
        lines = "\n".join(texts).encode()
        kept = []
        for encode in (methodcaller("intern_all", texts), methodcaller("intern_lines", lines), methodcaller("get_all", texts)):
            for name, handle, kind in (
                ("raises", lambda it: 1 // 0, ZeroDivisionError),
                ("closes", Interner.close, ValueError),
                ("truncates", lambda it: it.truncate(0), RuntimeError),
                ("makes again", lambda it: it.__init__(["x"]), RuntimeError),
                ("interns", lambda it: it.intern("handler"), array),
                ("interns and raises", lambda it: it.intern("handler") // 0, ZeroDivisionError),
                ("walks and raises", lambda it: kept.append(iter(it)) or 1 // 0, ZeroDivisionError),
                ("nothing", len, array),
            ):
                with self.subTest(name):
                    for attempt in attempts():
                        interner = Interner(["first"])
                        found = attempt.run(lambda: handle(interner), encode, interner)
                    self.assertIsInstance(found, kind)
                    if name == "raises":
                        self.assertEqual(list(interner), ["first"])
                    elif name.startswith("interns"):
                        self.assertEqual(interner[interner.get("handler")], "handler")
                    elif name == "walks and raises":
                        self.assertEqual(list(kept.pop()), list(interner))

    def test_a_handler_within_other_calls(self):
        texts, found = [f"text {number}" for number in range(400_000)], []
        lines, numbers = "\n".join(texts).encode(), array("I", [0]) * 3_000_000 + array("I", [1])
        for encode in (methodcaller("intern_all", texts), methodcaller("intern_lines", lines)):
            for attempt in attempts():
                attempt.run(lambda: found.append(gc.isenabled()), encode, Interner())
        self.assertEqual((found, gc.isenabled()), ([True, True], True))
        for attempt in attempts():
            interner = Interner(["a", "b"])
            raised = attempt.run(lambda: interner.truncate(0) or interner.intern_all(["c", "d"]), interner.resolve_all, numbers)
        self.assertIsInstance(raised, RuntimeError)
        other = Column(texts)
        for attempt in attempts():
            column = Column(["first"])
            shared = column[:]
            raised = attempt.run(lambda: 1 // 0, column.merge, other)
        self.assertIsInstance(raised, ZeroDivisionError)
        self.assertEqual((list(column), column.dictionary, list(shared)), (["first"], ["first"], ["first"]))

    def test_what_a_handler_saw_stays_though_the_batch_fails(self):
        texts, seen = [f"text {number}" for number in range(1_000_000)], []
        rows = [*texts, 1]
        for look in (lambda it, last: it.get(texts[last]), lambda it, last: texts[last] in it and last, lambda it, last: it[last] and last,
                     lambda it, last: it.resolve(last) and last, lambda it, last: it.resolve_all([last]) and last,
                     lambda it, last: it.to_json() and last, lambda it, last: it.get_all([texts[last]])[0],
                     lambda it, last: it.copy().get(texts[last])):
            for attempt in attempts():
                interner = Interner()
                raised = attempt.run(lambda: seen.append(look(interner, len(interner) - 1)), interner.intern_all, rows)
            self.assertIsInstance(raised, TypeError)
            self.assertEqual((interner[seen[-1]], interner.get(texts[seen[-1]])), (texts[seen[-1]], seen[-1]))
        # What is not there was not seen.
        for attempt in attempts():
            interner = Interner(["first"])
            raised = attempt.run(lambda: [interner.get("none"), "none" in interner, interner.resolve(2**32)], interner.intern_all, rows)
        self.assertIsInstance(raised, TypeError)
        self.assertEqual(list(interner), ["first"])
        for attempt in attempts():
            column = Column()
            raised = attempt.run(lambda: seen.append(column.code(texts[column.distinct - 1])), column.extend, rows)
        self.assertIsInstance(raised, TypeError)
        self.assertEqual((len(column), column.code(texts[seen[-1]])), (0, seen[-1]))

    def test_a_handler_changes_the_list(self):
        texts = [f"text {number}" for number in range(1_000_000)]
        for handle in (list.clear, lambda it: it.append("more")):
            for make, call in ((Interner, Interner.intern_all), (Column, Column.extend)):
                for attempt in attempts():
                    it, rows = make(), texts[:]
                    found = attempt.run(lambda: handle(rows), call, it, rows)
                self.assertEqual((str(found), len(it)), ("the list changed its length during the call", 0))

    def test_a_handler_uses_the_column(self):
        texts = [f"text {number}" for number in range(1_000_000)]
        for name, handle, kind in (
            ("appends", lambda it: it.append("handler"), type(None)), ("slices", lambda it: kept.append(it[:]), type(None)),
            ("makes again", lambda it: it.__init__(["x"]), RuntimeError), ("raises", lambda it: 1 // 0, ZeroDivisionError),
            ("slices and raises", lambda it: kept.append(it[:]) or 1 // 0, ZeroDivisionError),
        ):
            for form in (list, iter):
                with self.subTest(name):
                    for attempt in attempts():
                        kept, column = [], Column(["first", None])
                        found = attempt.run(lambda: handle(column), column.extend, form(texts))
                    self.assertIsInstance(found, kind)
                    before = {"appends": ["first", None, "handler"], "makes again": ["x"]}.get(name, ["first", None])
                    self.assertEqual(list(column), before + texts * (kind is type(None)))
                    self.assertTrue(all(list(part) == ["first", None] for part in kept))

    def test_signals_everywhere(self):
        interner, column = Interner(["s"]), Column(["s", None])
        handled, is_handling, may_raise = 0, False, False

        def handle(*_):
            nonlocal handled, is_handling, may_raise
            if is_handling:
                return
            is_handling = True
            handled += 1
            interner.intern(f"handler {handled}")
            interner.truncate(5000)
            column[-3:].extend(["p", None])
            assert list(column[:2]) == ["s", None] and interner.copy() == interner
            is_handling = False
            if may_raise and handled % 3 == 0:
                may_raise = False
                raise ZeroDivisionError

        texts = [f"text {number % 1000}" for number in range(70_000)]
        before, failed = signal.signal(signal.SIGALRM, handle), []
        signal.setitimer(signal.ITIMER_REAL, 0.0002, 0.0002)
        end = time.monotonic() + HANGS
        while handled < 500 and time.monotonic() < end:
            try:
                try:
                    may_raise = True
                    rows = list(interner)
                    failed += [rows] if rows[0] != "s" else []
                    interner.intern_all(texts)
                    interner.resolve_all([0] * 70_000)
                    column.extend(texts[:500])
                    column.extend(iter(texts[:50]))
                    Column(texts), list(interner.entries()), interner.copy()
                finally:
                    may_raise = False
            except (ZeroDivisionError, RuntimeError):
                pass
        signal.setitimer(signal.ITIMER_REAL, 0)
        signal.signal(signal.SIGALRM, before)
        self.assertGreaterEqual(handled, 500)
        self.assertEqual((failed, list(column)[:2]), ([], ["s", None]))


class Walks(unittest.TestCase):
    def test_a_walk_shows_what_there_was_whatever_happens(self):
        texts = ["a", "b" * 200, "", "ß"]
        for backend in BACKENDS:
            for change in (lambda it: it.truncate(1), lambda it: it.truncate(0), Interner.close, lambda it: it.__init__(["x"]),
                           lambda it: it.intern_all(["x", "y", "z"]), Interner.shrink):
                for read in range(5):
                    interner = Interner(texts, backend=backend)
                    pairs = list(interner.entries())
                    walks = [iter(interner), interner.entries(), iter(interner), reversed(interner)]
                    for walk in walks:
                        for _ in range(read):
                            next(walk, None)
                    change(interner)
                    rest = [list(walk) for walk in walks]
                    self.assertEqual(rest, [texts[read:], pairs[read:], texts[read:], texts[::-1][read:]])
                    self.assertEqual([next(walk, "end") for walk in walks], ["end"] * 4)

    def test_the_next_text_is_read_at_once(self):
        walk = iter(Interner(map(str, range(100_000))))
        self.assertEqual((next(walk), next(walk), walk.__length_hint__()), ("0", "1", 99_998))

    def test_walks_that_are_dropped(self):
        interner = Interner(["a", "b"])
        walks = [iter(interner) for _ in range(9)]
        del walks[::2]
        del walks[1]
        interner.close()
        self.assertEqual([*map(list, walks)], [["a", "b"]] * 3)

    def test_a_walk_in_a_cycle(self):
        class Holder:
            pass

        for _ in range(100):
            holder = Holder()
            holder.interner = Interner(["a", "b"])
            holder.walk, holder.me = iter(holder.interner), holder
            next(holder.walk)
            del holder
        gc.collect()


class OthersObjects(unittest.TestCase):
    """What a program reaches by `gc.get_objects`, or puts in the place of others' functions."""

    def test_a_tuple_that_is_still_filled(self):
        self.assertEqual(run_apart("""
            import gc
            from string_interner import Column, Interner
            def fill(mark):
                yield mark
                found.extend(it for it in gc.get_referrers(mark) if type(it) is tuple)
                raise KeyboardInterrupt
            found, interner, column = [], Interner(["first"]), Column(["first"])
            try:
                tuple(fill("mark" + str(gc)))
            except KeyboardInterrupt:
                pass
            for call in (interner.intern_all, interner.get_all, column.extend, column.take, lambda it: Column.from_parts(it, []), column.isin):
                try:
                    call(found[0])
                except SystemError as error:
                    print(error.args[0][:5], list(interner), list(column))
                except TypeError:
                    print("a text where a number belongs")
            """), (0, "\n".join([*["row 1 ['first'] ['first']"] * 3, "a text where a number belongs", *["row 1 ['first'] ['first']"] * 2]), ""))

    def test_another_function_in_the_place_of_array(self):
        for instead in ("bytearray(1)", "memoryview(bytearray(1))[:0]", "[b'']", "b''", "None"):
            self.assertEqual(run_apart(f"""
                import array
                array.array = lambda typecode, raw: {instead}
                from string_interner import Column, Interner
                interner, column = Interner(), Column(map(str, range(100_000)))
                for call in (lambda: interner.intern_all(map(str, range(1_000_000))), lambda: interner.intern_lines(b"a\\n" * 1_000_000),
                             lambda: interner.get_all(["a"] * 100_000), column.counts):
                    try:
                        print(call())
                    except (RuntimeError, TypeError, BufferError):
                        print(len(interner))
                """), (0, "0\n0\n0\n0", ""))

    def test_no_list_of_numbers_is_found(self):
        self.assertEqual(run_apart("""
            import gc
            from string_interner import Column, Interner
            class Index:
                def __index__(self):
                    found.extend(it for it in gc.get_objects() if type(it) is list and it[:1] == [123456789] and it is not rows)
                    gc.collect()
                    return 10**6
            class Late:
                def __init__(self):
                    self.me = self
                def __del__(self):
                    for it in found:
                        it.clear()
            found, rows = [], [123456789, Index()]
            for call in (Column(["a"]).take, Interner(["a"]).resolve_all, lambda it: Column.from_parts(["a"], it)):
                Late()
                try:
                    call(rows)
                except (IndexError, KeyError, ValueError) as error:
                    print(len(found), error)
            """), (0, "0 there is no row 123456789\n0 123456789\n0 row 0 has code 123456789, and the dictionary has 1 texts", ""))


class Limits(unittest.TestCase):
    def test_a_text_whose_number_finds_no_memory(self):
        try:
            from _testcapi import remove_mem_hooks, set_nomemory
        except ImportError:
            self.skipTest("no _testcapi")
        for backend in BACKENDS:
            # CPython keeps the numbers up to 256.
            interner, failed = Interner(map(str, range(1000)), backend=backend), 0
            before = list(interner)
            for request in range(9):
                set_nomemory(request, request + 1)
                try:
                    interner.intern("new")
                except MemoryError:
                    failed += 1
                finally:
                    remove_mem_hooks()
                if failed == request + 1:
                    self.assertEqual((list(interner), "new" in interner), (before, False))
            self.assertGreater(failed, 0)

    def test_texts_whose_numbers_find_no_memory(self):
        try:
            from _testcapi import remove_mem_hooks, set_nomemory
        except ImportError:
            self.skipTest("no _testcapi")
        for backend in BACKENDS:
            failed = 0
            for request in range(40):
                interner = Interner(["a"], backend=backend)
                set_nomemory(request, request + 1)
                try:
                    interner.intern_all(["new", None, "a"], missing=-1)
                except MemoryError:
                    failed += 1
                    remove_mem_hooks()
                    self.assertEqual((list(interner), "new" in interner), (["a"], False))
                finally:
                    remove_mem_hooks()
            self.assertGreater(failed, 5)

    def test_a_short_iterator_takes_little_longer_than_a_short_list(self):
        def time_of(form):
            column = Column()
            start = time.process_time()
            for _ in range(300):
                column.extend(form("abc"))
            return time.process_time() - start

        def is_little_longer():
            return min(time_of(iter) for _ in range(60)) < 5 * min(time_of(list) for _ in range(60))

        # It makes a list. It took 14 times as long when each call cleared the table for a long one. A machine may be slow for a while.
        self.assertTrue(any(is_little_longer() for _ in range(6)))

    def test_at_the_limit_of_recursion(self):
        self.assertEqual(run_apart("""
            from string_interner import Column, Interner
            interner, column, seen = Interner(["a"]), Column(["a", None]), set()
            class Number:
                def __index__(self):
                    return 0
            def calls():
                yield lambda: interner.intern("new")
                yield lambda: interner[Number()]
                yield lambda: interner.intern_all(str(k) for k in range(3))
                yield lambda: Interner(["x", "y"]).copy()
                yield lambda: column.extend(str(k) for k in range(3))
                yield lambda: [*column, *interner]
            def go(call, depth):
                try:
                    call()
                except RecursionError:
                    seen.add("recursion")
                try:
                    go(call, depth + 1)
                except RecursionError:
                    pass
            for call in calls():
                go(call, 0)
            print(seen, column[0], interner[0])
            """), (0, "{'recursion'} a a", ""))

    def test_a_thread_with_a_small_stack(self):
        self.assertEqual(run_apart("""
            import threading
            from string_interner import Column, Interner
            threading.stack_size(32768)
            def work():
                texts = [f"text {k}" for k in range(10_000)]
                interner = Interner(texts)
                interner.intern_all(texts), interner.get_all(texts), interner.resolve_all(range(10_000)), list(interner)
                column = Column(texts)
                column.merge(Column(texts[::-1]))
                print(len(list(column)), column == column[:])
            thread = threading.Thread(target=work)
            thread.start()
            thread.join()
            """), (0, "20000 True", ""))

    def test_subinterpreters(self):
        self.assertEqual(run_apart("""
            import sys, threading
            try:
                import _interpreters as interpreters
            except ImportError:
                import _xxsubinterpreters as interpreters
            lines = "import sys; sys.path[:] = " + repr(sys.path) + "; " + "; ".join([
                "from string_interner import Column, Interner", "interner = Interner(f'text {k}' for k in range(10_000))",
                "assert interner.intern_all(list(interner))[-1] == 9999 and len(Column(['a', None]).codes) == 2",
                "walk = iter(interner)"])
            def run():
                apart = interpreters.create()
                failed.append(interpreters.run_string(apart, lines))
                interpreters.destroy(apart)
            failed = []
            for _ in range(3):
                run()
            threads = [threading.Thread(target=run) for _ in range(3)]
            for thread in threads:
                thread.start()
            for thread in threads:
                thread.join()
            from string_interner import Interner
            print(failed, Interner(["a"]).get("a"))
            """), (0, f"{[None] * 6} 0", ""))


if __name__ == "__main__":
    unittest.main()
