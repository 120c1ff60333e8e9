"""Merges the columns that `dictcol encode` wrote to the files logs/*.json, and prints their rows."""

import json
from glob import glob
from string_interner import Column

whole = Column()
for name in sorted(glob("logs/*.json")):
    with open(name, encoding="utf-8") as file:
        part = json.load(file)
    whole.merge(Column.from_parts(part["dictionary"], part["lines"]))

print(*whole, sep="\n")
