"""Tests of examples/columns_on_dask.py with two worker processes: a million rows, and workers that are killed or stopped meanwhile, or
are at their memory limit.

It needs dask and pandas, which other tests do without. So unittest does not find it by its name: python3 -m unittest on_dask
"""

import logging
import os
import random
import signal
import subprocess
import sys
import tempfile
import time
import unittest
from collections import Counter
from functools import partial
from pathlib import Path

import dask
import numpy
import pandas
from dask.distributed import Client, LocalCluster

EXAMPLES = Path(__file__).resolve().parent.parent / "examples"
sys.path.insert(0, str(EXAMPLES))
from columns_on_dask import encode_lines, encode_on  # noqa: E402

ROWS, DISTINCT, PARTS = 1_000_000, 50_000, 9
# The memory limit of a worker, which takes less than half of it.
LIMIT = 1 << 30


def wait_until(is_so, seconds=600):
    """Asks again and again, and returns the first answer that is true."""
    end = time.monotonic() + seconds
    while not (answer := is_so()):
        assert time.monotonic() < end, "waited too long"
        time.sleep(0.02)
    return answer


def note_and_encode(folder, last, path):
    """Encodes a part, and notes that. Encodes the last part only once a worker was killed or stopped."""
    if path == last:
        wait_until((folder / "ended").exists)
    column = encode_lines(path)
    with open(folder / "encoded", "a") as file:
        file.write(f"{path}\n")
    return column


def take_memory_and_encode(attempts, greedy, path):
    """Encodes a part. In the first attempt to encode the greedy one, takes memory until dask ends the worker."""
    if path == greedy and not (attempts / "first").exists():
        (attempts / "first").touch()
        # Letters, because the system gives no memory for zeros that nobody reads.
        taken = b"x" * LIMIT
        wait_until(lambda: not taken)
    return encode_lines(path)


def count_spilled(dask_worker):
    """How many of a worker's values are on its disk, and how many in memory."""
    return len(dask_worker.data.slow), len(dask_worker.data.fast)


class OnDask(unittest.TestCase):
    @classmethod
    def setUpClass(cls):
        folder = tempfile.TemporaryDirectory()
        cls.addClassCleanup(folder.cleanup)
        cls.folder = Path(folder.name)
        source = random.Random(1)
        cls.rows = [f"user{source.randrange(DISTINCT)}" for _ in range(ROWS)]
        # Parts of several sizes, of which one is empty.
        ends = [0, *sorted(source.sample(range(1, ROWS), PARTS - 2)), ROWS, ROWS]
        cls.paths = []
        for part, (start, end) in enumerate(zip(ends, ends[1:])):
            path = cls.folder / f"part {part}"
            path.write_text("".join(f"{row}\n" for row in cls.rows[start:end]))
            cls.paths.append(str(path))
        cls.codes, texts = pandas.factorize(numpy.array(cls.rows, dtype=object))
        cls.texts = texts.tolist()

    def setUp(self):
        # After so long a worker that does not answer counts as dead. On a busy machine one may not answer for a while.
        ends = "10s" if self._testMethodName == "test_a_worker_is_stopped" else "300s"
        # At this share of its limit a worker begins to move what it holds to its disk.
        target = 1e-6 if self._testMethodName == "test_workers_at_their_memory_limit" else 0.6
        settings = dask.config.set({"distributed.scheduler.worker-ttl": ends, "distributed.worker.memory.target": target})
        self.addCleanup(settings.__exit__, None, None, None)
        self.cluster = LocalCluster(
            n_workers=2, threads_per_worker=1, dashboard_address=None, silence_logs=logging.CRITICAL, memory_limit=LIMIT
        )
        self.addCleanup(self.cluster.close)
        self.client = Client(self.cluster)
        self.addCleanup(self.client.close)

    def check(self, parts):
        """Compares all parts with what pandas finds in all rows."""
        self.assertEqual(len(parts), PARTS)
        self.assertTrue(numpy.array_equal(numpy.concatenate([part.codes for part in parts]), self.codes))
        texts = []
        for part in parts:
            self.assertEqual(part.start, len(texts))
            texts += part.texts
        self.assertEqual(texts, self.texts)

    def test_the_same_as_factorize(self):
        self.check(self.client.gather(encode_on(self.client, encode_lines, self.paths, shards=5)))
        # On a busy machine one worker may get all of the work.
        for _ in range(9):
            futures = encode_on(self.client, encode_lines, self.paths)
            self.check(self.client.gather(futures))
            if len(workers := {*sum(self.client.who_has(futures).values(), ())}) == 2:
                break
        self.assertEqual(len(workers), 2, "one worker did all the work")

    def end_worker(self, signal_number):
        """Sends a signal to a worker that has encoded parts, in the middle, and has the others do its work again."""
        processes = self.client.run(os.getpid)
        folder = Path(tempfile.mkdtemp(dir=self.folder))
        futures = encode_on(self.client, partial(note_and_encode, folder, self.paths[-1]), self.paths)

        def find_worker():
            """A worker that has encoded parts, once all parts but the last are encoded."""
            held = {address: sum("note_and_encode" in key for key in keys) for address, keys in self.client.has_what().items()}
            return sum(held.values()) >= PARTS - 1 and max(held, key=held.get)

        ended = wait_until(find_worker)
        os.kill(processes[ended], signal_number)
        if signal_number == signal.SIGSTOP:
            self.addCleanup(os.kill, processes[ended], signal.SIGKILL)
        wait_until(lambda: ended not in self.client.scheduler_info()["workers"])
        (folder / "ended").touch()
        self.check(self.client.gather(futures))
        encoded = Counter((folder / "encoded").read_text().splitlines())
        self.assertEqual({*encoded}, {*self.paths})
        self.assertGreater(sum(encoded.values()), PARTS, "no part had to be encoded again")

    def test_a_worker_is_killed(self):
        self.end_worker(signal.SIGKILL)

    def test_a_worker_is_stopped(self):
        self.end_worker(signal.SIGSTOP)

    def test_workers_at_their_memory_limit(self):
        futures = encode_on(self.client, encode_lines, self.paths)
        self.check(self.client.gather(futures))
        # What is on disk was written as pickles are, and read again.
        spilled, kept = map(sum, zip(*self.client.run(count_spilled).values()))
        self.assertGreater(spilled, kept)

    def test_a_worker_passes_its_memory_limit(self):
        attempts = Path(tempfile.mkdtemp(dir=self.folder))
        before = {*self.client.run(os.getpid).values()}
        self.check(self.client.gather(encode_on(self.client, partial(take_memory_and_encode, attempts, self.paths[-3]), self.paths)))
        # Dask ended the worker of the first attempt, and began another.
        wait_until(lambda: len(after := {*self.client.run(os.getpid).values()}) == 2 and before - after)

    def test_a_file_that_has_grown(self):
        path = self.folder / "grown"
        path.write_text("a\nb\n")
        first = encode_on(self.client, encode_lines, [str(path)])
        self.assertEqual(self.client.gather(first)[0].codes.tolist(), [0, 1])
        path.write_text("a\nb\nc\na\n")
        # While the first futures live.
        (part,) = self.client.gather(encode_on(self.client, encode_lines, [str(path)]))
        self.assertEqual((part.codes.tolist(), list(part.texts)), ([0, 1, 2, 0], ["a", "b", "c"]))
        self.assertEqual(len(first), 1)

    def test_the_command(self):
        words = [sys.executable, EXAMPLES / "columns_on_dask.py", *self.paths]
        paths = os.pathsep.join(path or os.getcwd() for path in sys.path)
        said = subprocess.run(words, env=os.environ | {"PYTHONPATH": paths}, capture_output=True, text=True, timeout=3000)
        expected = sorted(Counter(self.rows).items(), key=lambda row: (-row[1], row[0]))[:10]
        self.assertEqual(said.stdout, "".join(f"{count} {text}\n" for text, count in expected), said.stderr)
        self.assertEqual(said.returncode, 0)


if __name__ == "__main__":
    unittest.main()
