"""A column in one process: rows as codes, other rows merged into it, and a part of it."""

from string_interner import Column

# None is a missing value.
colors = Column(["red", "green", None, "red"])
# Appends the rows of another column.
colors.merge(Column(["blue", "green"]))
assert colors.dictionary == ["red", "green", "blue"]
assert colors.codes.tolist() == [0, 1, -1, 0, 2, 1]
assert colors.counts().tolist() == [2, 2, 1]
assert list(colors[3:]) == ["red", "blue", "green"]
assert colors.unique() == ["red", "green", None, "blue"]
assert colors.value_counts(dropna=False) == {"red": 2, "green": 2, "blue": 1, None: 1}
assert list(colors[colors.isin(["red", "blue"])]) == ["red", "red", "blue"]
# As numpy chooses rows of an array: by their numbers, or by a mask.
assert list(colors[[0, 2, -1]]) == ["red", None, "green"]
assert list(colors[[code == 0 for code in colors.codes]]) == ["red", "red"]
# Of pyarrow, or anything else that has __arrow_c_array__ or __arrow_c_stream__, as a column has.
assert Column.from_arrow(colors) == colors
# Arrow's offsets: where the first text begins, and where each ends.
assert list(Column.from_buffers(b"redgreen", offsets=[0, 3, 8], codes=[1, 0])) == ["green", "red"]
