"""Interns many texts in a coroutine, part by part, so that other tasks run in between."""

import asyncio
from array import array
from string_interner import Interner


async def intern_in_parts(interner: Interner, texts: list[str], size: int = 50_000) -> "array[int]":
    symbols = array("I")
    for start in range(0, len(texts), size):
        symbols += interner.intern_all(texts[start : start + size])
        # Here other tasks run.
        await asyncio.sleep(0)
    return symbols


async def main() -> None:
    texts = [f"text {number % 7919}" for number in range(500_000)]
    turns = 0

    async def count_turns() -> None:
        nonlocal turns
        while True:
            turns += 1
            await asyncio.sleep(0)

    other = asyncio.create_task(count_turns())
    symbols = await intern_in_parts(Interner(), texts)
    other.cancel()
    assert symbols == Interner().intern_all(texts)
    assert turns >= 10, turns


asyncio.run(main())
