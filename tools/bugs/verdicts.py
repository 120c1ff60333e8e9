"""Reads what `rt check` prints of goals and proof files."""

import re
from typing import Protocol

REFUSED, LET_THROUGH, BY_FORM_ALONE = "refused", "let through", "by form alone"
# What an error in a proof file says of a name that a planted bug took away; not that a goal, as shown, names what a hole there does
# not.
MISSING = re.compile(r"\bhas no (?:field )?`|\bnot found\b|\bis not in scope\b(?! here, so what is shown)")
# What is said of a goal that is not proved and has no answer, above its function.
OPEN = re.compile(r"^note: .* is not proved .*\(`([^`]+)`\)")
# An error in a proof file: the function's folder, the definition where there is one, and what is wrong.
ERROR = re.compile(r"^\./proofs/(\S+)/\w+\.antt:\d+:\d+: error: (?:`([^`]+)`: )?(.*(?:\n  .*)*)", re.M)


class Tried(Protocol):
    """What a verdict looks at of a trial: the function, the goals that it has answers to, and those whose answers it goes without."""

    @property
    def function(self) -> str: ...

    @property
    def answered(self) -> set[str]: ...

    @property
    def without(self) -> set[str]: ...


def is_complete(output: str, status: int) -> bool:
    return status in (0, 1) and bool(re.search(r"^only=", output, re.M))


def first_errors(output: str) -> str:
    """The first errors that a check prints, or else its end."""
    return "\n".join(re.findall(r"^.*\berror\b.*$", output, re.M)[:5]) or output[-500:]


class Verdicts:
    """What a check says of the goals of functions, and of their proof files."""

    def __init__(self, output: str, crate: str) -> None:
        self.open: dict[str, list[str]] = {}
        self.errors: dict[str, list[tuple[str, str]]] = {}
        said: list[str] = []
        for line in output.splitlines():
            if note := OPEN.match(line):
                said.append(note[1])
            elif verdict := re.match(rf"fn {crate}::(\S+): ", line):
                self.open.setdefault(verdict[1], []).extend(said)
                said = []
        for folder, name, message in ERROR.findall(output):
            self.errors.setdefault(folder.replace("/", "::"), []).append((name, message))

    def outcome(self, trial: Tried) -> str:
        """How a trial ended: refused, by form alone, or let through.

        It is refused where an answer does not prove its goal, or a goal has no answer and the tactics do not prove it. Where its
        proof files miss a name, the bug may have taken it away. So an answer that misses one shows nothing; nor does a goal without
        an answer, which may be that of another answer under a new name; nor does anything if a lemma misses a name.
        """
        if trial.function not in self.open:
            return "its function is not one that the check names"
        if trial.without:
            return REFUSED if trial.without & set(self.open[trial.function]) else "the tactics prove what its answers do not"
        errors = self.errors.get(trial.function, [])
        missing = {name for name, message in errors if MISSING.search(message)}
        failed = {name for name, _ in errors} - missing
        if not errors and not self.open[trial.function]:
            return LET_THROUGH
        is_by_meaning = missing <= trial.answered and (failed or self.open[trial.function] and not missing)
        return REFUSED if is_by_meaning else BY_FORM_ALONE

    def opened(self, trial: Tried) -> list[str]:
        failed = (name or message for name, message in self.errors.get(trial.function, []))
        return list(dict.fromkeys([*self.open.get(trial.function, []), *failed]))
