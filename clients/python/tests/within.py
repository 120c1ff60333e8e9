"""Has a handler of a signal run within a call, and not just before or behind it.

Python runs a handler at the next step of its own, so one whose signal comes late runs after the call and still in the same statement,
where what it raises looks as if the call had raised it. Here it does nothing then, and the call is made again, with another time:

    for attempt in attempts():
        column = Column(["first"])
        found = attempt.run(lambda: 1 // 0, column.merge, other)
    # What follows is about the attempt in which the handler ran.
"""

import signal
from collections.abc import Callable, Iterator
from dis import opmap
from itertools import starmap
from operator import length_hint
from types import FrameType

# No call is so short, and no machine so busy, that each of as many signals comes too late.
ATTEMPTS = 60
# So many times a time is halved, from one attempt to the next. Then it is the first one again.
HALVES = 8
# After this time a signal comes again, if it came before the call.
AGAIN = 0.001


class Attempt:
    """One attempt to have a handler run within a call. `was_within` tells whether it did."""

    def __init__(self, after: float) -> None:
        self.after = after
        self.was_within = self.is_handling = False

    def run(self, handle: Callable[[], object], call: Callable[..., object], *words: object, once: bool = True) -> object:
        """Makes a call within which the handler runs, once or again and again. Returns what the call returned or raised.

        Between the moment at which `begun` is empty and that at which `found` is not, Python has no step of its own but those of
        `call`. So give a method in C with its words. For a function in Python the handler may run after its last call in C.
        """
        begun, found = iter([words]), list[object]()

        def note(_: int, frame: FrameType | None) -> None:
            if length_hint(begun) or found or (frame and has_just_begun(frame)):
                return
            # Last, because another signal may come at each call of this function, and again while the handler runs.
            if self.is_handling or (once and self.was_within):
                return
            self.is_handling = self.was_within = True
            if once:
                signal.setitimer(signal.ITIMER_REAL, 0)
            handle()
            self.is_handling = False

        before = signal.signal(signal.SIGALRM, note)
        # The time of day, which is exact. That of the processor goes on by some milliseconds at once, and some calls take no longer.
        signal.setitimer(signal.ITIMER_REAL, self.after, AGAIN)
        try:
            found.extend(starmap(call, begun))
        except (Exception, KeyboardInterrupt) as error:
            found.append(error)
        signal.setitimer(signal.ITIMER_REAL, 0)
        signal.signal(signal.SIGALRM, before)
        return found[0]


def has_just_begun(frame: FrameType) -> bool:
    """Whether a function in Python has not yet called anything."""
    return frame.f_code.co_code[frame.f_lasti] == opmap["RESUME"]


def attempts(first: float = 0.008) -> Iterator[Attempt]:
    """Attempts until a handler ran within a call, each with another time from the start of the clock to the first signal."""
    for number in range(ATTEMPTS):
        attempt = Attempt(max(first / 2 ** (number % HALVES), 1e-5))
        yield attempt
        if attempt.was_within:
            return
    raise AssertionError(f"in {ATTEMPTS} calls each signal came after the call")
