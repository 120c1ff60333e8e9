"""The program of the package's page: equal texts have equal symbols."""

from string_interner import Interner

names = Interner()
tiger, horse, again = map(names.intern, ["Tiger", "Horse", "Tiger"])
assert again == tiger != horse and names.resolve(tiger) == "Tiger"
