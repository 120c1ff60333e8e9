"""The program of docs/use/python.md: each line of a dict, and the line of an interner that does the same."""

from string_interner import Interner

texts = ["red", "green", "red", "blue"]

d: dict[str, int] = {}
one_by_one = [d.setdefault(text, len(d)) for text in texts]
i = Interner()
assert i.intern_all(texts).tolist() == one_by_one == [0, 1, 0, 2]

assert i.intern("green") == d.setdefault("green", len(d)) == 1
assert i.get("grey") is d.get("grey") is None
assert i.get("grey", -1) == d.get("grey", -1) == -1
assert i.get_all(["blue", "grey"]).tolist() == [d.get(text, -1) for text in ["blue", "grey"]]
assert i.get_all(["blue", None]).tolist() == [2, -1] and i.resolve_all([2, -1], missing=-1) == ["blue", None]
assert i.intern_all(["red", None], missing=-1).tolist() == [0, -1]
assert ("red" in i, len(i), list(i)) == ("red" in d, len(d), list(d))

# For this a dict needs a list, too.
assert i[2] == "blue" and i.resolve_all([2, 0]) == ["blue", "red"]
# Bytes are encoded without a str of each line.
assert i.intern_lines(b"red\nblack\n").tolist() == [0, 3]
