"""Tests of the hashers: what each takes, and how long texts take that are chosen to have one hash code."""

import copy
import pickle
import string
import subprocess
import sys
import time
import unittest
from itertools import islice, product
from random import Random

from string_interner import Interner

LIMIT = 1 << 64
LENGTH = 32
MULTIPLIER, START = 0x9E3779B97F4A7C15, 0x243F6A8885A308D3
"""What the fixed hasher multiplies by, and the state that it begins with."""
BACKENDS = ("string", "bucket", "buffer")
NAMES = ("seeded", "siphash", "fixed")
HASHERS = (*NAMES, (0, LIMIT - 1), (1, True))


def state_after(block: bytes, state: int) -> int:
    """The state of the fixed hasher after 16 bytes more."""
    one, other = int.from_bytes(block[:8], "little"), int.from_bytes(block[8:], "little")
    high, low = divmod((one ^ state) * (other ^ MULTIPLIER), LIMIT)
    return high ^ low


def choose_texts(count: int) -> list[str]:
    """Texts that have one code under the fixed hasher.

    Where the state after 16 letters is 8 letters, these as the next half of a block make the product 0, whatever the other half
    is.
    """
    random, letters = Random(2), string.ascii_letters + string.digits
    while True:
        block = "".join(random.choices(letters, k=16))
        state = state_after(block.encode(), START + LENGTH).to_bytes(8, "little")
        if all(chr(byte) in letters for byte in state):
            break
    rest = islice(product(string.ascii_lowercase, repeat=8), count)
    return [block + state.decode() + "".join(last) for last in rest]


def other_texts(count: int) -> list[str]:
    return [f"{number:0{LENGTH}}" for number in range(count)]


def seconds(texts: list[str], rounds: int, **options: object) -> float:
    """The least processor time of some rounds to intern the texts."""
    least = float("inf")
    for _ in range(rounds):
        interner = Interner(**options)
        begun = time.process_time()
        numbers = interner.intern_all(texts)
        least = min(least, time.process_time() - begun)
        assert len(interner) == len(texts) == len(set(numbers))
    return least


def seconds_beside(interner: Interner, texts: list[str]) -> float:
    """The processor time to intern the texts beside what the interner has."""
    begun = time.process_time()
    interner.intern_all(texts)
    return time.process_time() - begun


class Hashers(unittest.TestCase):
    def test_each_answers_alike(self):
        for backend in BACKENDS:
            for hasher in HASHERS:
                with self.subTest(backend=backend, hasher=hasher):
                    names = Interner(["a", "b", "a", ""], backend=backend, capacity=2, hasher=hasher)
                    self.assertEqual(list(names), ["a", "b", ""])
                    self.assertEqual(names, Interner(["a", "b", ""], backend=backend))
                    self.assertEqual(names.hasher, hasher if hasher in NAMES else "siphash")
                    read = Interner.from_json(names.to_json(), backend=backend, exact=True, hasher=hasher)
                    self.assertEqual((read, read.hasher), (names, names.hasher))
                    read = Interner.from_json('["a", "b", "a", ""]', backend=backend, hasher=hasher)
                    self.assertEqual((read, read.hasher), (names, names.hasher))
                    for other in (names.copy(), copy.deepcopy(names), pickle.loads(pickle.dumps(names))):
                        self.assertEqual((other, other.hasher), (names, names.hasher))
                        self.assertEqual(other.get("b"), names.get("b"))
        self.assertEqual(Interner().hasher, "seeded")

    def test_the_former_name_of_the_default(self):
        self.assertEqual(Interner(["a"], hasher="keyed").hasher, "seeded")

    def test_what_is_no_hasher(self):
        for make in (Interner, lambda hasher: Interner.from_json("[]", hasher=hasher)):
            for wrong in ("", "Fixed", "sip", (1, 2, 3), (1,), (-1, 0), (0, LIMIT)):
                self.assertRaises(ValueError, make, hasher=wrong)
            for wrong in (None, b"ab", [1, 2], 1, ("1", "2"), (1.0, 2.0)):
                self.assertRaises(TypeError, make, hasher=wrong)

    def test_no_key_is_told(self):
        keys = (0x123456789ABCDEF, 0xFEDCBA987654321)
        names = Interner(["a"], hasher=keys)
        for told in (repr(names), repr(pickle.dumps(names)), repr(names.__getstate__())):
            for key in keys:
                self.assertNotIn(str(key), told)
                self.assertNotIn(repr(key.to_bytes(8, "little"))[2:-1], told)
        with self.assertRaises(ValueError) as raised:
            Interner(hasher=(keys[0], LIMIT))
        self.assertNotIn(str(keys[0]), str(raised.exception))

    def test_the_keys_of_a_process_are_random(self):
        # Nothing shows them. So what this shows is that they are drawn, once and at the import.
        lines = """if True:
            import os
            urandom, asked = os.urandom, []
            os.urandom = lambda count: asked.append(count) or urandom(count)
            from string_interner import Column, Interner
            Interner(["a"]), Column(["a"])
            print(asked)
            """
        told = subprocess.run([sys.executable, "-c", lines], capture_output=True, text=True, check=True).stdout
        self.assertEqual(told, "[32]\n")


class ChosenTexts(unittest.TestCase):
    def assert_once(self, is_so):
        """Times are compared again, because a machine may be slow for a while, and only one of the two times may see it."""
        self.assertTrue(any(is_so() for _ in range(6)))

    def test_under_keys_they_take_no_longer_than_others(self):
        chosen, others = choose_texts(80_000), other_texts(80_000)
        kept = Interner(others).to_json()
        for name, options in (
            ("of the process", {}),
            ("of the process, for SipHash", {"hasher": "siphash"}),
            ("given", {"hasher": (3, 4)}),
            ("with room", {"capacity": 80_000}),
        ):
            with self.subTest(name):
                self.assert_once(lambda: seconds(chosen, 1, **options) < 3 * seconds(others, 3, **options))
        # What is read or copied has keys, too.
        for name, make in (
            ("read", lambda: Interner.from_json(kept)),
            ("copied", lambda: Interner(others).copy()),
            ("unpickled", lambda: pickle.loads(pickle.dumps(Interner(others)))),
        ):
            with self.subTest(name):
                self.assert_once(lambda: seconds_beside(make(), chosen) < 6 * seconds(others, 3))

    def test_under_the_fixed_hasher_they_take_longer(self):
        # So they are rightly chosen.
        chosen, others = choose_texts(8_000), other_texts(8_000)
        self.assert_once(lambda: seconds(chosen, 1, hasher="fixed") > 10 * seconds(others, 3, hasher="fixed"))


if __name__ == "__main__":
    unittest.main()
