"""What pandas does to a Categorical, over a column."""

from string_interner import Column

# Each goes over the distinct texts, and once over the codes.
fruit = Column(["Pear ", "apple", None, "pear"])
tidy = fruit.map_texts(lambda text: text.strip().lower())
assert (tidy.dictionary, tidy.nunique()) == (["pear", "apple"], 2)
assert tidy.sort_dictionary().codes.tolist() == [1, 0, -1, 1]
assert tidy.sort_dictionary(key=len).dictionary == ["pear", "apple"]
assert list(tidy.remap(["apple", "other"], unknown="other")) == ["other", "apple", None, "other"]
assert list(tidy.fillna("none")) == ["pear", "apple", "none", "pear"]
assert list(tidy.dropna() + tidy[:1]) == ["pear", "apple", "pear", "pear"]
assert tidy.dropna().eq("pear").tolist() == [True, False, True]
assert list(tidy[tidy.isna() | tidy.eq("pear") & ~fruit.eq("pear")]) == ["pear", None]
assert tidy.counts(weights=[0.5, 2, 9, 1]).tolist() == [1.5, 2.0]
texts, counts = tidy.frequencies(most=1)
assert (list(texts), counts.tolist()) == (["pear"], [2])
