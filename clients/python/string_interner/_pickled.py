"""How objects of this package are pickled."""

from __future__ import annotations

from . import _types


class Pickled:
    """A base of both classes, which stands before the one that is written in C."""

    __slots__ = ()

    _parts: _types.Any

    def __getstate__(self) -> object:
        # What a subclass has, and a copy of what the object holds, which whoever takes this state has for itself.
        state = super().__getstate__()  # type: ignore[misc]
        attributes, slots = state if isinstance(state, tuple) else (state, {})
        return attributes, slots | {"_parts": self._parts}

    def __reduce_ex__(self, protocol: _types.Any) -> _types.Any:
        # Older protocols have no way to make an object of a class that is written in C.
        return super().__reduce_ex__(max(protocol, 2))
