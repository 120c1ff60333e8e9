"""random_calls.py COMMANDS [SEED]: makes random calls beside a plain list, those of test_machine, without hypothesis choosing
them. That is a hundred times as fast, for a run under valgrind. Prints how many calls agreed.
"""

import copy
import pickle
import random
import sys
from array import array

from test_calls import BACKENDS
from test_machine import BesideAList

COPIES = (copy.copy, copy.deepcopy, lambda it: pickle.loads(pickle.dumps(it)))
FORMS = (list, iter, lambda ends: array("I", ends), lambda ends: array("Q", ends))
# A run ends with this chance, so that an interner has a hundred calls in the mean.
LAST = 0.01


class Chance(random.Random):
    """Random arguments of the rules of the machine, by their names."""

    def text(self):
        """Returns a text of few letters, so that texts repeat, or a long one."""
        length = self.choice((60, 127, 128, 300)) if self.random() < 0.05 else self.randrange(5)
        return "".join(self.choices("abß語\0", k=length))

    def column(self):
        return [self.text() for _ in range(self.randrange(12))]

    def numbers(self):
        return [self.randrange(40) for _ in range(self.randrange(20))]

    def number(self):
        return self.choice((self.randrange(-2, 40), self.randrange(-(2**65), 2**65)))

    def length(self):
        return self.randrange(50)

    change = capacity = length

    def backend(self):
        return self.choice(BACKENDS)

    def typecode(self):
        return self.choice("IQ")

    def form(self):
        return self.choice(FORMS)

    def make(self):
        return self.choice(COPIES)

    def wrong(self):
        return self.choice((-1, 2**64, 10**6))

    def call(self, machine, rule):
        rule.function(machine, **{name: getattr(self, name)() for name in rule.arguments})


def main(commands, seed):
    chance = Chance(seed)
    (begin,), rules = BesideAList.initialize_rules(), BesideAList.rules()
    machine = None
    for _ in range(commands):
        if machine is None or chance.random() < LAST:
            machine = BesideAList()
            chance.call(machine, begin)
        chance.call(machine, chance.choice(rules))
        machine.holds_what_the_list_holds()
    print(f"{commands} calls from Python agree with a list")


if __name__ == "__main__":
    main(int(sys.argv[1]), int(sys.argv[2]) if len(sys.argv) > 2 else 1)
