"""One column of a separated file: by its place, without quotes, or by the module csv; and how far a long read is."""

import csv
import tempfile
from os.path import getsize

from string_interner import Column

try:
    from tqdm import tqdm
except ImportError:
    tqdm = None


def read_field(path: str, name: str) -> Column:
    with open(path, "rb") as file:
        names = file.readline().decode().rstrip().split(",")
        return Column.from_file(file, field=names.index(name))


def read_quoted(path: str, name: str) -> Column:
    with open(path, encoding="utf-8", newline="") as file:
        return Column(row[name] for row in csv.DictReader(file))


def read_with_a_bar(path: str) -> Column:
    with tqdm(total=getsize(path), unit="B", unit_scale=True) as bar:
        return Column.from_file(path, progress=lambda done, rows: bar.update(done - bar.n))


with tempfile.NamedTemporaryFile("w", suffix=".csv") as file:
    file.write("name,city\nann,Oslo\nbob,Rome\n")
    file.flush()
    assert list(read_field(file.name, "city")) == list(read_quoted(file.name, "city")) == ["Oslo", "Rome"]
    if tqdm:
        assert list(read_with_a_bar(file.name)) == ["name,city", "ann,Oslo", "bob,Rome"]
