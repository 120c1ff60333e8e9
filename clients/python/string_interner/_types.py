"""What annotations name. It is made when somebody asks for it, because to import `typing` takes longer than all else here."""

from __future__ import annotations

TYPE_CHECKING = False
if TYPE_CHECKING:
    from array import array
    from collections.abc import Iterable as Iterable
    from os import PathLike
    from typing import Any as Any
    from typing import Literal as Literal
    from typing import Self as Self
    from typing import SupportsIndex as SupportsIndex

    from . import Hasher as Hasher

    Numbers = array[int]
    Path = str | bytes | PathLike[str] | PathLike[bytes]
else:

    def __getattr__(name):
        import typing
        from os import PathLike

        import string_interner

        if name == "Numbers":
            from array import array as any_array

            return any_array  # 3.11 has no array[int].
        if name == "Path":
            return str | bytes | PathLike[str] | PathLike[bytes]
        return getattr(string_interner if name in string_interner.__all__ else typing, name)
