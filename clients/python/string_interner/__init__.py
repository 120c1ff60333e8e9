"""A string interner, proved, for Python.

An interner stores each distinct text once and returns a small number for it:

>>> animals = Interner()
>>> animals.intern("Tiger"), animals.intern("Horse"), animals.intern("Tiger")
(0, 1, 0)
>>> animals.resolve(1)
'Horse'
>>> animals.get("Elephant") is None
True

One call encodes many texts, faster than a dict:

>>> animals.intern_all(["Horse", "Elephant", "Horse"]).tolist()
[1, 2, 1]
>>> animals.resolve_all([1, 2, 1])
['Horse', 'Elephant', 'Horse']
>>> animals.get_all(["Elephant", "Unicorn"]).tolist()
[2, -1]
>>> animals.intern_lines(b"Tiger\\nHorse\\n").tolist()
[0, 1]
>>> list(animals)
['Tiger', 'Horse', 'Elephant']

A `Column` stores the rows, too, and exchanges them with numpy, pandas, Arrow, files and other processes.

From a dict to an `Interner`:

================================================  ================================================
dict                                              Interner
================================================  ================================================
`d.setdefault(text, len(d))`                      `i.intern(text)`
`[d.setdefault(text, len(d)) for text in texts]`  `i.intern_all(texts)`
`d.get(text)`, `d.get(text, -1)`                  `i.get(text)`, `i.get(text, -1)`
`[d.get(text, -1) for text in texts]`             `i.get_all(texts)`; a text may be None
`text in d`, `len(d)`, `list(d)`                  `text in i`, `len(i)`, `list(i)`
`d.items()`                                       `((text, number) for number, text in i.items())`
a list for the way back: `texts[number]`          `i[number]`
================================================  ================================================

A call holds Python's global lock, so threads take turns, and each call is whole for the others. A call in a coroutine blocks its
loop for as long as it takes, also by `asyncio.to_thread`; so intern many texts in parts, with `await asyncio.sleep(0)` in between.
Handlers of signals run after each part of a call, so Ctrl-C ends it, and nothing has changed.
"""

from __future__ import annotations

from . import _native, _types
from ._column import Column
from ._native import Mask
from ._pickled import Pickled

TYPE_CHECKING = False
if TYPE_CHECKING:
    from typing import Literal, SupportsIndex

    Backend = Literal["string", "bucket", "buffer"]
    Hasher = Literal["seeded", "siphash", "fixed"] | tuple[SupportsIndex, SupportsIndex]
    Typecode = Literal["I", "Q"]
else:
    # Made on demand, because to import `typing` takes longer than all else here.
    def __getattr__(name):
        """Makes the types of options.

        `Backend` is how texts are stored: joined in one string, in blocks that never move, or in one buffer of bytes. With
        `string` and `bucket` the numbers are 0, 1, 2, .. With `buffer`, which takes the least memory, they are byte offsets. All
        numbers are below 2 ** 32 - 1, so `buffer` holds less than 4 GiB.

        `Hasher` is how texts are hashed. This decides how long a call takes, and changes no result. `seeded` is a fast hash
        under random keys of this process. Many texts with one hash code would make each call slow, and no way is known to choose
        such texts without the keys, except by timing single calls. `siphash` is SipHash-1-3 under random keys of this process: it
        is slower, and timing calls does not help against it. A tuple of two numbers below 2 ** 64 is SipHash-1-3 under these keys,
        which should be random and secret. `fixed` is a fast hash without keys. Do not use it if strangers choose the texts: they
        easily find many with one code.

        `Typecode` is how many bytes a number takes in an array: 4 or 8.
        """
        from typing import Literal, SupportsIndex

        types = {
            "Backend": Literal["string", "bucket", "buffer"],
            "Hasher": Literal["seeded", "siphash", "fixed"] | tuple[SupportsIndex, SupportsIndex],
            "Typecode": Literal["I", "Q"],
        }
        if name not in types:
            raise AttributeError(f"module {__name__!r} has no attribute {name!r}")
        return types[name]


__all__ = ["Backend", "Column", "Hasher", "Interner", "Mask", "Typecode"]
__version__ = "0.1.0"
__build__ = _native._BUILD
"""How the library in this module was built: `proved by rt`, or `proved source, compiled by rustc`."""


def __dir__() -> list[str]:
    return sorted({*globals(), *__all__})


class Interner(Pickled, _native.Interner):
    """A list of distinct texts, each with a number.

    Like a set of texts, it has a length, supports `text in interner`, and iterates over its texts, in insertion order. Like a
    dict, it finds a text by its number: `interner[number]`. It equals an interner over the same backend with the same texts in
    the same order.

    Any thread may call it, and a finalizer or a handler of a signal may, too; calls take turns. Results are copies, so they stay
    valid. An iterator shows the texts that there were when it began, whatever happens to the interner.

    Each call raises TypeError for an argument of a wrong type, and ValueError once the interner is closed. A text without a
    UTF-8 form, such as one with a lone surrogate, is in no interner, and interning it raises `UnicodeEncodeError`.

    Making one raises ValueError for an unknown backend, an unknown hasher or a negative capacity, MemoryError, and what
    `intern_all` raises. There is then spare capacity for about `capacity` texts.

    Copies and pickles have the class and the attributes of a subclass. They do not call its `__init__`. A copy has the same
    keys. A pickle holds no keys: the interner that is read from it has those of its process.
    """

    __slots__ = ()

    def copy(self) -> _types.Self:
        """Returns an interner with the same texts under the same numbers."""
        import copy

        return copy.copy(self)

    def __sizeof__(self) -> int:
        """About how many bytes it takes, with a guess of 64 for each text. dask decides by it what to move."""
        return object.__sizeof__(self) + 64 * self._count

    def __dask_tokenize__(self) -> object:
        """The same for interners of one class that are equal and have the same attributes."""
        from hashlib import sha256

        digest = sha256(self.to_json().encode()).hexdigest()
        return type(self), super(Pickled, self).__getstate__(), self.backend, digest  # type: ignore[misc]
