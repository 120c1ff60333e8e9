"""Tests of what a column gives to Arrow and takes from it, by a consumer and a producer that are written after the specification of
Arrow's C data interface."""

import ctypes
import gc
import random
import resource
import struct
import threading
import unittest
from array import array
from itertools import accumulate

from string_interner import Column, Interner, _native


class Schema(ctypes.Structure):
    """struct ArrowSchema of the specification."""


class Array(ctypes.Structure):
    """struct ArrowArray of the specification."""


class Stream(ctypes.Structure):
    """struct ArrowArrayStream of the specification."""


Schema._fields_ = [
    ("format", ctypes.c_char_p), ("name", ctypes.c_char_p), ("metadata", ctypes.c_char_p), ("flags", ctypes.c_int64),
    ("n_children", ctypes.c_int64), ("children", ctypes.c_void_p), ("dictionary", ctypes.POINTER(Schema)),
    ("release", ctypes.c_void_p), ("private_data", ctypes.c_void_p),
]
Array._fields_ = [
    ("length", ctypes.c_int64), ("null_count", ctypes.c_int64), ("offset", ctypes.c_int64), ("n_buffers", ctypes.c_int64),
    ("n_children", ctypes.c_int64), ("buffers", ctypes.POINTER(ctypes.c_void_p)), ("children", ctypes.c_void_p),
    ("dictionary", ctypes.POINTER(Array)), ("release", ctypes.c_void_p), ("private_data", ctypes.c_void_p),
]
Stream._fields_ = [(name, ctypes.c_void_p) for name in ("get_schema", "get_next", "get_last_error", "release", "private_data")]
NULLABLE = 2
pointer_of = ctypes.pythonapi.PyCapsule_GetPointer
pointer_of.restype, pointer_of.argtypes = ctypes.c_void_p, [ctypes.py_object, ctypes.c_char_p]
release_array = ctypes.CFUNCTYPE(None, ctypes.POINTER(Array))
release_schema = ctypes.CFUNCTYPE(None, ctypes.POINTER(Schema))
release_stream = ctypes.CFUNCTYPE(None, ctypes.POINTER(Stream))
get_schema = ctypes.CFUNCTYPE(ctypes.c_int, ctypes.POINTER(Stream), ctypes.POINTER(Schema))
get_next = ctypes.CFUNCTYPE(ctypes.c_int, ctypes.POINTER(Stream), ctypes.POINTER(Array))
get_last_error = ctypes.CFUNCTYPE(ctypes.c_void_p, ctypes.POINTER(Stream))
new_capsule = ctypes.pythonapi.PyCapsule_New
new_capsule.restype, new_capsule.argtypes = ctypes.py_object, [ctypes.c_void_p, ctypes.c_char_p, ctypes.c_void_p]
NAMES = {Schema: ctypes.c_char_p(b"arrow_schema"), Array: ctypes.c_char_p(b"arrow_array"), Stream: ctypes.c_char_p(b"arrow_array_stream")}
INDICES = {"c": "b", "C": "B", "s": "h", "S": "H", "i": "i", "I": "I", "l": "q", "L": "Q"}
"""The format of each type of indices, and its typecode in Python."""


def check_schema(capsule):
    """Returns the type of the codes."""
    schema = Schema.from_address(pointer_of(capsule, b"arrow_schema"))
    texts = schema.dictionary.contents
    assert (texts.format, texts.flags, texts.n_children) == (b"U", NULLABLE, 0) and not texts.dictionary
    assert (schema.flags & NULLABLE, schema.n_children, schema.metadata) == (NULLABLE, 0, None) and schema.release
    return schema.format


def move(capsule):
    """Moves the array out of its capsule, as a consumer does: the capsule then releases nothing."""
    array = Array.from_address(pointer_of(capsule, b"arrow_array"))
    moved = Array.from_buffer_copy(array)
    array.release = None
    return moved


def read_texts(array):
    """The texts of a large_utf8 array."""
    assert (array.n_buffers, array.null_count, array.offset, array.n_children) == (3, 0, 0, 0)
    offsets = (ctypes.c_int64 * (array.length + 1)).from_address(array.buffers[1])
    assert offsets[0] == 0 and all(one <= other for one, other in zip(offsets, offsets[1:]))
    parts = zip(offsets, offsets[1:])
    return [ctypes.string_at(array.buffers[2] + start, end - start).decode() for start, end in parts]


def read_rows(array, form):
    """The rows of a dictionary-encoded array, and the address of its codes."""
    assert (array.offset, array.n_buffers, array.n_children) == (0, 2, 0)
    texts, length = read_texts(array.dictionary.contents), array.length
    codes = ((ctypes.c_int32 if form == b"i" else ctypes.c_int64) * length).from_address(array.buffers[1])
    bits = (ctypes.c_uint8 * ((length + 7) // 8)).from_address(array.buffers[0]) if array.buffers[0] else None
    is_valid = [bits is None or bool(bits[row >> 3] >> (row & 7) & 1) for row in range(length)]
    assert array.null_count == is_valid.count(False) and (bits is not None or array.null_count == 0)
    assert all(0 <= code < len(texts) for code, valid in zip(codes, is_valid) if valid)
    return [texts[code] if valid else None for code, valid in zip(codes, is_valid)], ctypes.addressof(codes)


class Consumers(unittest.TestCase):
    def test_random_columns(self):
        # So that each collection looks at what a turn made, and not at all modules.
        gc.freeze()
        self.addCleanup(gc.unfreeze)
        source = random.Random(1)
        for _ in range(1000):
            rows = [source.choice((None, "", "é", "a" * 50, str(source.random()))) for _ in range(source.randrange(40))]
            column = Column(rows)
            schema, array = column.__arrow_c_array__(requested_schema=column.__arrow_c_schema__())
            form, moved = check_schema(schema), move(array)
            self.assertEqual(form, b"i" if column.distinct <= _native._MOST_NARROW else b"l")
            self.assertEqual(check_schema(column.__arrow_c_schema__()), form)
            del schema, array
            # The array stays as it was, also without its column.
            column.extend(["later", None] * 50)
            del column
            gc.collect()
            self.assertEqual(read_rows(moved, form)[0], rows)
            release_array(moved.release)(ctypes.byref(moved))
            self.assertIsNone(moved.release)

    def test_the_codes_are_not_copied(self):
        column = Column(["a", "b"] * 100)
        _, array = column.__arrow_c_array__()
        _, other = column.__arrow_c_array__()
        first, second = move(array), move(other)
        form = check_schema(column.__arrow_c_schema__())
        self.assertEqual(read_rows(first, form)[1], read_rows(second, form)[1])
        for moved in (first, second):
            release_array(moved.release)(ctypes.byref(moved))

    def test_released_by_another_thread_without_the_lock(self):
        moved = [move(Column(["a", None] * 1000).__arrow_c_array__()[1]) for _ in range(100)]
        # ctypes lets go of the lock during a call.
        threads = [threading.Thread(target=lambda it: release_array(it.release)(ctypes.byref(it)), args=(it,)) for it in moved]
        for thread in threads:
            thread.start()
        for thread in threads:
            thread.join()
        self.assertEqual({it.release for it in moved}, {None})

    def test_what_nobody_takes_is_freed(self):
        column = Column(map(str, range(100_000)))
        for turn in range(30):
            column.__arrow_c_array__(), column.__arrow_c_schema__()
            if turn == 5:
                before = resource.getrusage(resource.RUSAGE_SELF).ru_maxrss
        # Each dictionary takes 1.3 MB.
        self.assertLess(resource.getrusage(resource.RUSAGE_SELF).ru_maxrss - before, 10_000)

    def test_wrong_arguments(self):
        column = Column()
        self.assertRaises(TypeError, column.__arrow_c_array__, None, None)
        self.assertRaises(TypeError, column.__arrow_c_stream__, None, None)
        self.assertRaises(TypeError, Column.from_arrow)
        self.assertRaises(TypeError, Column.from_arrow, column, "fixed")
        self.assertRaisesRegex(ValueError, "^no hasher 'none'$", Column.from_arrow, column, hasher="none")
        self.assertRaises(TypeError, column.__arrow_c_schema__, None)


class Producer:
    """Makes arrays and streams, and counts how often each struct of a capsule is released: once, if it was taken."""

    def __init__(self):
        self.kept, self.structs, self.released = [], [], []

    def own(self, struct, prototype):
        """Has a struct count by itself."""
        number = len(self.structs)

        def release(it):
            self.released[number] += 1
            it.contents.release = None

        function = prototype(release)
        struct.release = ctypes.cast(function, ctypes.c_void_p)
        self.kept += [function, struct]
        self.structs.append(struct)
        self.released.append(0)
        return struct

    def buffers(self, *buffers):
        """The addresses of some buffers, of which None has none."""
        addresses = (ctypes.c_void_p * len(buffers))()
        for place, buffer in enumerate(buffers):
            if buffer is not None:
                # Between other bytes, and not aligned.
                held = ctypes.create_string_buffer(b"." + bytes(buffer) + b".")
                self.kept.append(held)
                addresses[place] = ctypes.addressof(held) + 1
        self.kept.append(addresses)
        return ctypes.cast(addresses, ctypes.POINTER(ctypes.c_void_p))

    def valid(self, rows, skip):
        bits = [True] * skip + [row is not None for row in rows]
        return bytes(sum(bit << place for place, bit in enumerate(bits[at : at + 8])) for at in range(0, len(bits), 8))

    def array(self, rows, skip, parts, dictionary=None, **changes):
        valid = self.valid(rows, skip) if None in rows or changes.pop("has_valid", False) else None
        fields = {"length": len(rows), "null_count": rows.count(None), "offset": skip, "n_buffers": 1 + len(parts),
                  "buffers": self.buffers(valid, *parts)}
        if dictionary is not None:
            fields["dictionary"] = ctypes.pointer(dictionary)
        return self.own(Array(**fields | changes), release_array)

    def texts(self, rows, form="u", skip=0, joined=None, offsets=None, **changes):
        """An array of texts behind others that it skips. A null has a text, too, which nobody may read."""
        raws = [b"\xff skipped"] * skip + [b"\xff null" if row is None else row.encode() for row in rows]
        joined = b"".join(raws) if joined is None else joined
        offsets = list(accumulate(map(len, raws), initial=0)) if offsets is None else offsets
        return self.array(rows, skip, (array("i" if form == "u" else "q", offsets), joined), **changes)

    def views(self, rows, skip=0, parts=None, sizes=None, views=None, count=2, **changes):
        """An array of string views behind others that it skips, whose long texts are in several buffers, in turn. The views that
        are skipped or of nulls are of buffers that there are not."""
        held, written = [bytearray(b".") for _ in range(count)], []
        for row in [None] * skip + rows:
            raw = b"" if row is None else row.encode()
            if row is None:
                written.append(struct.pack("<i4sii", 99, b"junk", 99, -5))
            elif len(raw) <= 12:
                written.append(struct.pack("<i12s", len(raw), raw))
            else:
                place = len(written) % count
                written.append(struct.pack("<i4sii", len(raw), raw[:4], place, len(held[place])))
                held[place] += raw
        held = held if parts is None else parts
        sizes = array("q", map(len, held)) if sizes is None else sizes
        return self.array(rows, skip, (b"".join(written) if views is None else views, *held, sizes), **changes)

    def nulls(self, count, **changes):
        """An array of nulls alone, which has no buffer."""
        return self.own(Array(**{"length": count, "null_count": count, "n_buffers": 0} | changes), release_array)

    def strings(self, rows, form, skip=0, **changes):
        """An array of texts of any type that has some."""
        if form == "n":
            return self.nulls(len(rows), offset=skip)
        return self.views(rows, skip, **changes) if form == "vu" else self.texts(rows, form, skip, **changes)

    def table(self, column, rows, skip=0, **changes):
        """The array of a table of one column, of which rows may be null."""
        children = (ctypes.c_void_p * 1)(ctypes.addressof(column))
        self.kept += [children, column]
        return self.array(rows, skip, (), **{"n_children": 1, "children": ctypes.addressof(children)} | changes)

    def table_schema(self, columns):
        children = (ctypes.c_void_p * len(columns))(*map(ctypes.addressof, columns))
        self.kept += [children, columns]
        fields = {"n_children": len(columns), "children": ctypes.addressof(children)} if columns else {}
        return self.own(Schema(format=b"+s", name=b"", **fields), release_schema)

    def indices(self, rows, form, dictionary, skip=0, **changes):
        """An array of indices. Those of nulls are great."""
        numbers = array(INDICES[form], [99] * skip + [99 if row is None else row for row in rows])
        return self.array(rows, skip, (numbers,), dictionary, **changes)

    def schema(self, form, texts=None):
        schema = Schema(format=form.encode(), name=b"", flags=NULLABLE)
        if texts is not None:
            schema.dictionary = ctypes.pointer(self.schema(texts))
        return self.own(schema, release_schema)

    def capsule(self, struct):
        return new_capsule(ctypes.addressof(struct), NAMES[type(struct)], None)

    def pair(self, schema, array):
        """What has an array."""
        class HasArray:
            def __arrow_c_array__(_, requested_schema=None):
                return self.capsule(schema), self.capsule(array)

        return HasArray()

    def stream(self, schema, arrays, status=0, said=None, act=lambda: None):
        """What has a stream, which fails with a status after its arrays, or before if there is no schema."""
        left, text = list(arrays), None if said is None else ctypes.create_string_buffer(said)

        def write(struct, out):
            if struct is None:
                return status
            ctypes.memmove(out, ctypes.addressof(struct), ctypes.sizeof(struct))
            struct.release = None
            return 0

        def give(_, out):
            act()
            if left or status:
                return write(left.pop(0) if left else None, out)
            out.contents.release = None
            return 0

        functions = (get_schema(lambda _, out: write(schema, out)), get_next(give),
                     get_last_error(lambda _: ctypes.addressof(text) if text else None))
        stream = self.own(Stream(*(ctypes.cast(it, ctypes.c_void_p) for it in functions)), release_stream)
        self.kept += [functions, text]

        class HasStream:
            def __arrow_c_stream__(_, requested_schema=None):
                return self.capsule(stream)

        return HasStream()


class Producers(unittest.TestCase):
    def setUp(self):
        self.producer = Producer()

    def tearDown(self):
        # What was moved out of its capsule was released once; all else the capsule would release. Those of dictionaries are theirs.
        inner = {ctypes.addressof(it.dictionary.contents) for it in self.producer.structs if getattr(it, "dictionary", None)}
        for struct, released in zip(self.producer.structs, self.producer.released):
            self.assertEqual(released, 0 if ctypes.addressof(struct) in inner else not struct.release)

    def refuse(self, error, said, given):
        with self.assertRaisesRegex(error, said):
            Column.from_arrow(given)

    def test_random_arrays_and_streams(self):
        source = random.Random(1)
        for _ in range(400):
            producer = self.producer = Producer()
            texts, form = source.choice(("u", "U", "vu", "n")), source.choice(("", *INDICES))
            wanted, dictionary, arrays = [], [], []
            for _ in range(source.randrange(1, 4)):
                some = (None,) if texts == "n" else (None, "", "é", "a" * 12, "a" * 13, "a" * 50, str(source.random()))
                known = [source.choice(some) for _ in range(source.randrange(1, 9))]
                skip, changes = source.randrange(20), source.choice(({}, {"null_count": -1}, {"has_valid": True}))
                if form:
                    rows = [source.choice((None, *range(len(known)))) for _ in range(source.randrange(40))]
                    arrays.append(producer.indices(rows, form, producer.strings(known, texts, source.randrange(9)), skip,
                                                   **changes))
                    wanted += [None if row is None else known[row] for row in rows]
                else:
                    arrays.append(producer.strings(known, texts, skip, **changes))
                    wanted += known
                dictionary += [text for text in known if text is not None]
            schema = producer.schema(form, texts) if form else producer.schema(texts)
            if source.random() < 0.3:
                schema, arrays, wanted, shown = self.in_tables(source, schema, arrays, wanted)
                dictionary = dictionary if form else shown
            given = producer.stream(schema, arrays)
            if len(arrays) == 1 and source.random() < 0.5:
                given = producer.pair(schema, arrays[0])
            column = Column.from_arrow(given, hasher="fixed")
            self.assertEqual((list(column), column.dictionary, column.hasher), (wanted, list(dict.fromkeys(dictionary)), "fixed"))
            self.tearDown()

    def in_tables(self, source, schema, arrays, wanted):
        """The same in tables of some of their rows, of which some are null; and the texts of these rows, also of those that are
        null."""
        tables, left, shown = [], [], []
        for column in arrays:
            rows, wanted = wanted[: column.length], wanted[column.length :]
            start, stop = sorted(source.randrange(len(rows) + 1) for _ in range(2))
            kept = [source.choice((0, 0, None)) for _ in rows[start:stop]]
            tables.append(self.producer.table(column, kept, start))
            shown += [row for row in rows[start:stop] if row is not None]
            left += [row if each is not None else None for row, each in zip(rows[start:stop], kept)]
        return self.producer.table_schema([schema]), tables, left, shown

    def test_string_views(self):
        producer = self.producer
        rows = ["", "twelve bytes", "thirteen byte", None, "語" * 9, "thirteen byte", "é"]
        column = Column.from_arrow(producer.pair(producer.schema("vu"), producer.views(rows, 3)))
        self.assertEqual((list(column), column.dictionary), (rows, list(dict.fromkeys(filter(lambda it: it is not None, rows)))))
        given = producer.pair(producer.schema("C", "vu"), producer.indices([4, None, 3, 0], "C", producer.views(rows)))
        self.assertEqual(list(Column.from_arrow(given)), [rows[4], None, None, ""])
        # Without a long text there need be no buffer, and no sizes.
        given = producer.pair(producer.schema("vu"), producer.views(["a", "twelve bytes"], parts=[]))
        self.assertEqual(list(Column.from_arrow(given)), ["a", "twelve bytes"])
        given = producer.array(["a"], 0, (struct.pack("<i12s", 1, b"a"), None))
        self.assertEqual(list(Column.from_arrow(producer.pair(producer.schema("vu"), given))), ["a"])

    def test_views_that_cannot_be(self):
        producer, long = self.producer, b"0123456789abcdef"
        for view, said in (((13, b"0123", 1, 0), "13 bytes from byte 0 of buffer 1"),
                           ((13, b"0123", -1, 0), "13 bytes from byte 0 of buffer -1"),
                           ((13, b"0123", 0, 4), "13 bytes from byte 4 of buffer 0"),
                           ((17, b"0123", 0, 0), "17 bytes from byte 0 of buffer 0"),
                           ((13, b"0123", 0, -1), "13 bytes from byte -1 of buffer 0"),
                           ((-1, b"0123", 0, 0), "-1 bytes from byte 0 of buffer 0"),
                           ((2**31 - 1, b"0123", 0, 2**31 - 1), "2147483647 bytes from byte 2147483647 of buffer 0")):
            written = struct.pack("<i12s", 1, b"a") + struct.pack("<i4sii", *view)
            for make in (lambda it: producer.pair(producer.schema("vu"), it),
                         lambda it: producer.stream(producer.schema("vu"), [it]),
                         lambda it: producer.pair(producer.schema("i", "vu"), producer.indices([0], "i", it))):
                given = make(producer.views(["a", "b"], parts=[long], views=written))
                self.refuse(ValueError, f"^text 1 of an array of Arrow is a view of {said}, which are not there$", given)
        for sizes, said in ((array("q", [-1]), "a buffer of views whose size cannot be"),
                            (None, "buffers of views, and no sizes of them")):
            given = producer.array(["a"], 0, (struct.pack("<i12s", 1, b"a"), long, sizes))
            self.refuse(ValueError, f"^an array of Arrow has {said}$", producer.pair(producer.schema("vu"), given))
        given = producer.array(["a"], 0, (struct.pack("<i12s", 1, b"a"), None, array("q", [1])))
        self.refuse(ValueError, "whose size cannot be$", producer.pair(producer.schema("vu"), given))
        given = producer.views(["a"], parts=[long], views=struct.pack("<i4sii", 13, b"0124", 0, 0))
        self.refuse(ValueError, "^text 0 of an array of Arrow begins otherwise than its view says$",
                    producer.pair(producer.schema("vu"), given))
        given = producer.views(["a", "b"], parts=[], views=struct.pack("<i12si12s", 1, b"a", 1, b"\xff"))
        self.refuse(ValueError, "^text 1 of an array of Arrow is not UTF-8$", producer.pair(producer.schema("vu"), given))
        for changes in ({"length": -1}, {"offset": 2**63 - 1}, {"n_buffers": 2}, {"buffers": None}, {"null_count": 2},
                        {"n_buffers": 2**62}):
            self.refuse(ValueError, "^an array of Arrow has ",
                        producer.pair(producer.schema("vu"), producer.views(["a", None], **changes)))
        given = producer.array(["a"], 0, (None, array("q", [])))
        self.refuse(ValueError, "rows, and no buffer for them", producer.pair(producer.schema("vu"), given))

    def test_nulls_alone(self):
        producer = self.producer
        for changes in ({}, {"null_count": -1}, {"offset": 7}, {"n_buffers": 1, "buffers": producer.buffers(None)}):
            column = Column.from_arrow(producer.pair(producer.schema("n"), producer.nulls(3, **changes)))
            self.assertEqual((list(column), column.dictionary), ([None] * 3, []))
        given = producer.pair(producer.schema("i", "n"), producer.indices([0, None, 1], "i", producer.nulls(2)))
        self.assertEqual(list(Column.from_arrow(given)), [None] * 3)
        for changes in ({"length": -1}, {"offset": -1}, {"length": 2**62}, {"dictionary": ctypes.pointer(producer.nulls(1))}):
            self.refuse(ValueError, "^an array of Arrow has ", producer.pair(producer.schema("n"), producer.nulls(1, **changes)))

    def test_tables(self):
        producer = self.producer

        def pair(column, *rows, **changes):
            return producer.pair(producer.table_schema([producer.schema("u")]), producer.table(column, *rows, **changes))

        self.assertEqual(list(Column.from_arrow(pair(producer.texts(["a", "b", None, "a"]), [0, None, 0], 1))), ["b", None, "a"])
        columns = [producer.schema("u"), producer.schema("u")]
        for schema in (producer.table_schema(columns), producer.table_schema([]),
                       producer.table_schema([producer.table_schema([columns[0]])])):
            given = producer.pair(schema, producer.texts(["a"]))
            said = "(a table or a record batch has several columns: take one of its columns|utf8)"
            self.refuse(TypeError, rf"^Arrow's type '\+s' is not read: {said}", given)
        nothing = (ctypes.c_void_p * 1)()
        schema = producer.own(Schema(format=b"+s", name=b"", n_children=1, children=ctypes.addressof(nothing)), release_schema)
        self.refuse(TypeError, r"^Arrow's type '\+s' is not read: ", producer.pair(schema, producer.texts(["a"])))
        for rows, changes, said in (
            ([0, 0], {}, "a column with fewer rows than there are"),
            ([0], {"offset": 1}, "a column with fewer rows than there are"),
            ([0], {"n_children": 2}, "another number of columns than its type"),
            ([0], {"children": None}, "another number of columns than its type"),
            ([0], {"n_buffers": 2}, "another number of buffers than its type"), ([0], {"length": -1}, "a length or an offset"),
            ([0], {"offset": 2**63 - 1}, "a length or an offset"), ([0], {"null_count": 1}, "another number of nulls"),
            ([], {"offset": 2}, "a column with fewer rows than there are"),
        ):
            self.refuse(ValueError, f"^an array of Arrow has {said}", pair(producer.texts(["a"]), rows, **changes))
        for changes in ({"length": -1}, {"offset": 2**63 - 1}, {"n_buffers": 2}, {"null_count": 1}):
            self.refuse(ValueError, "^an array of Arrow has ", pair(producer.texts(["a"], **changes), [0]))

    def test_it_asks_for_a_dictionary(self):
        """As producers do that cannot cast, do not know the wish, or follow it."""
        producer, asked = self.producer, []

        def follow(self, requested_schema=None):
            asked.append(requested_schema and check_schema(requested_schema))
            rows = producer.indices([1, 0], "i", producer.texts(["a", "b"], "U"))
            return producer.capsule(producer.schema("i", "U")), producer.capsule(rows)

        def refuse_with(error):
            def refuse(self, requested_schema=None):
                if requested_schema is not None:
                    raise error
                return follow(self)
            return refuse

        for method, wishes in ((follow, [b"i"]), (refuse_with(NotImplementedError), [None]),
                               (refuse_with(ValueError("no")), [None]),
                               (refuse_with(TypeError), [None]), (lambda self: follow(self), [None])):
            asked.clear()
            self.assertEqual(list(Column.from_arrow(type("Has", (), {"__arrow_c_array__": method})())), ["b", "a"])
            self.assertEqual(asked, wishes)
        self.refuse(ZeroDivisionError, "", type("Has", (), {"__arrow_c_array__": refuse_with(ZeroDivisionError)})())

    def test_there_and_back(self):
        class HasStream:
            def __init__(self, column):
                self.__arrow_c_stream__ = column.__arrow_c_stream__

        class Named(Column):
            def __init__(self):
                raise ZeroDivisionError

        for rows in ([], [None], ["a"], ["b", None, "a", "b", "é"], [*map(str, range(2000)), None]):
            column = Column(["unused", *rows])[1:]
            for given in (column, HasStream(column), column[:]):
                back = Column.from_arrow(given)
                self.assertEqual((list(back), back.dictionary, type(back)), (rows, column.dictionary, Column))
                back.append("other")
                self.assertEqual((list(column), list(Named.from_arrow(given))), (rows, rows))
                self.assertIs(type(Named.from_arrow(given)), Named)

    def test_other_types(self):
        producer = self.producer
        for form, texts, said in (("i", None, "i"), ("z", None, "z"), ("", None, ""), ("uu", None, "uu"), ("+s", None, r"\+s"),
                                  ("tdD", None, "tdD"), ("vz", None, "vz"), ("i", "z", "z"), ("n", "vu", "n"), ("i", "nn", "nn"),
                                  ("i", "+l", r"\+l"), ("f", "u", "f"),
                                  ("u", "u", "u"), ("", "u", ""), ("ii", "U", "ii")):
            for give in (lambda schema: producer.pair(schema, producer.texts(["a"])), lambda schema: producer.stream(schema, [])):
                self.refuse(TypeError, f"^Arrow's type '{said}' is not read: ", give(producer.schema(form, texts)))
        schema = producer.schema("i", "i")
        schema.dictionary.contents.dictionary = ctypes.pointer(producer.schema("u"))
        self.refuse(TypeError, "^Arrow's type 'i' is not read: ", producer.pair(schema, producer.texts(["a"])))
        schema = producer.schema("i")
        schema.format = None
        self.refuse(TypeError, "^Arrow's type '' is not read: ", producer.pair(schema, producer.texts(["a"])))

    def test_numbers_that_cannot_be(self):
        producer = self.producer
        great = 2**63 - 1
        rows = ["a", None, "b"]
        for changes in ({"length": -1}, {"offset": -1}, {"length": great}, {"offset": great}, {"length": -great - 1, "offset": 9},
                        {"n_buffers": 1}, {"n_buffers": 4}, {"n_buffers": 0}, {"n_buffers": -1}, {"buffers": None}, {"null_count": 2},
                        {"null_count": -2}, {"null_count": 0}):
            for given in (producer.pair(producer.schema("u"), producer.texts(rows, **changes)),
                          producer.stream(producer.schema("u"), [producer.texts(["a", "b"]), producer.texts(rows, **changes)]),
                          producer.pair(producer.schema("i", "u"), producer.indices([0, None, 1], "i", producer.texts(["a", "b"]), **changes)),
                          producer.pair(producer.schema("i", "u"), producer.indices([0, None, 1], "i", producer.texts(rows, **changes)))):
                self.refuse(ValueError, "^an array of Arrow has ", given)
        known = producer.texts(["a", "b"])
        self.refuse(ValueError, "another number of nulls", producer.pair(producer.schema("u"), producer.texts(["a"], null_count=1)))
        for schema, given, said in (
            (producer.schema("u"), producer.array(["a"], 0, (b"\0" * 8, b"a"), known), "a dictionary, and its type none"),
            (producer.schema("i", "u"), producer.array([0], 0, (b"\0" * 4,)), "a dictionary, and its type none"),
            (producer.schema("u"), producer.array(["a"], 0, (None, b"a")), "rows, and no buffer for them"),
            (producer.schema("i", "u"), producer.array([0], 0, (None,), known), "rows, and no buffer for them"),
        ):
            self.refuse(ValueError, said, producer.pair(schema, given))

    def test_offsets_that_cannot_be(self):
        producer = self.producer
        for offsets, said in (([0, 2, 1], "text 1 of an array of Arrow is from byte 2 to 1"),
                              ([-1, 1, 2], "text 0 of an array of Arrow is from byte -1 to 1"),
                              ([0, -5, 2], "text 0 of an array of Arrow is from byte 0 to -5")):
            for form in "uU":
                bad = producer.texts(["a", "b"], form, offsets=offsets)
                self.refuse(ValueError, f"^{said}$", producer.pair(producer.schema(form), bad))
                bad = producer.texts(["a", "b"], form, offsets=offsets)
                self.refuse(ValueError, f"^{said}$", producer.pair(producer.schema("i", form), producer.indices([0], "i", bad)))
        given = producer.array(["a"], 0, (array("i", [0, 1]), None))
        self.refuse(ValueError, "^text 0 of an array of Arrow is from byte 0 to 1, and there are no bytes$", producer.pair(producer.schema("u"), given))
        # Bytes may be left out if all texts are empty, and all if there is no text.
        for rows, buffers in ((["", ""], (array("i", [7, 7, 7]), None)), ([], (None, None))):
            self.assertEqual(list(Column.from_arrow(producer.pair(producer.schema("u"), producer.array(rows, 0, buffers)))), rows)

    def test_what_is_not_utf8(self):
        producer = self.producer
        for rows, bad in ((["b", None, None, "c"], 3), ([*"abcdefg" * 100, None, "z"], 701)):
            joined = "".join(row or "" for row in rows).encode()[:-1] + b"\xff"
            offsets = [*accumulate((row is not None for row in rows), initial=0)]
            for skip in (0, 3):
                given = producer.texts(rows, "U", skip, b"..." + joined, [*range(skip), *(3 + offset for offset in offsets)])
                self.refuse(ValueError, f"^text {bad} of an array of Arrow is not UTF-8$", producer.pair(producer.schema("U"), given))

    def test_indices_that_are_outside(self):
        producer = self.producer
        for form, bad in (("c", 2), ("c", -1), ("C", 255), ("s", -2), ("S", 2), ("i", -(2**31)), ("I", 2**32 - 1), ("l", 2**40),
                          ("L", 2**64 - 1), ("L", 2**63)):
            for known in (["a", "b"], ["a", None]):
                given = producer.pair(producer.schema(form, "u"), producer.indices([0, None, bad], form, producer.texts(known)))
                self.refuse(ValueError, f"^row 2 of an array of Arrow has index {bad}, and its dictionary 2 texts$", given)
        given = producer.pair(producer.schema("i", "u"), producer.indices([None, 0], "i", producer.texts([])))
        self.refuse(ValueError, "^row 1 of an array of Arrow has index 0, and its dictionary 0 texts$", given)

    def test_no_array(self):
        class Has:
            pass

        for given, name in ((1, "int"), (["a"], "list"), (None, "NoneType"), (Has(), "Has")):
            self.refuse(TypeError, f"^an array of Arrow has __arrow_c_array__ or __arrow_c_stream__, and a {name} has neither$", given)
        producer = self.producer
        schema, other = producer.capsule(producer.schema("u")), producer.capsule(producer.texts(["a"]))
        for result in (None, (), (schema,), (schema, other, other), [schema, other]):
            Has.__arrow_c_array__ = lambda _, wish=None, result=result: result
            self.refuse(TypeError, "^__arrow_c_array__ returns a tuple of two, not ", Has())
        for result in ((1, 2), (other, schema), (schema, None), (None, other)):
            Has.__arrow_c_array__ = lambda _, wish=None, result=result: result
            self.refuse((TypeError, ValueError), "PyCapsule_GetPointer called with|was released", Has())
        del Has.__arrow_c_array__
        for result in (None, schema):
            Has.__arrow_c_stream__ = lambda _, wish=None, result=result: result
            self.refuse((TypeError, ValueError), "PyCapsule_GetPointer called with", Has())
        for name, error in (("__arrow_c_array__", ZeroDivisionError), ("__arrow_c_stream__", KeyError)):
            Has.__arrow_c_array__ = property(lambda _: 1 // 0) if name == "__arrow_c_array__" else lambda _: {}[1]
            with self.assertRaises(error):
                Column.from_arrow(Has())

    def test_what_was_taken_before(self):
        producer = self.producer
        for given in (producer.pair(producer.schema("u"), producer.texts(["a"])), producer.stream(producer.schema("u"), [])):
            Column.from_arrow(given)
            self.refuse(ValueError, "^what a capsule of Arrow had was released$", given)
        # The array only.
        taken, schema = producer.texts(["a"]), producer.schema("u")
        Column.from_arrow(producer.pair(producer.schema("u"), taken))
        self.refuse(ValueError, "^what a capsule of Arrow had was released$", producer.pair(schema, taken))

    def test_a_stream_that_fails(self):
        for status, said, error, text in (
            (12, b"no", MemoryError, "^$"), (22, b"bad \xff\xc3\xa9", OSError, "^.Errno 22. bad \ufffdé$"),
            (5, None, OSError, "Input/output error$"), (-3, b"", OSError, "^.Errno -3. $"), (2, b"gone", FileNotFoundError, "gone"),
        ):
            producer = self.producer
            arrays = [producer.texts(["a"]), producer.texts(["b"])]
            for schema, arrays in ((None, []), (producer.schema("u"), []), (producer.schema("u"), arrays)):
                self.refuse(error, text, producer.stream(schema, arrays, status, said))

    def test_a_schema_that_is_not_to_be_released(self):
        producer = self.producer
        for form, said in (("u", None), ("z", "^Arrow's type 'z' is not read: ")):
            given = producer.stream(Schema(format=form.encode()), [producer.texts(["a", None])])
            if said:
                self.refuse(TypeError, said, given)
            else:
                self.assertEqual(list(Column.from_arrow(given)), ["a", None])

    def test_other_threads_run_while_a_stream_is_asked(self):
        has_begun, may_end = threading.Event(), threading.Event()
        producer = self.producer

        def wait():
            has_begun.set()
            may_end.wait(60)

        def help():
            has_begun.wait(60)
            may_end.set()

        thread = threading.Thread(target=help)
        thread.start()
        self.assertEqual(list(Column.from_arrow(producer.stream(producer.schema("u"), [producer.texts(["a", None])], act=wait))), ["a", None])
        thread.join()

    def test_a_stream_that_uses_all_that_it_finds(self):
        producer, found = self.producer, []

        def act():
            gc.collect()
            found.extend(it for it in gc.get_objects() if type(it) is Column)

        rows = [f"text {number}" for number in range(3000)]
        column = Column.from_arrow(producer.stream(producer.schema("U"), [producer.texts(rows, "U"), producer.texts(rows[::-1], "U")], act=act))
        self.assertEqual((list(column), found), (rows + rows[::-1], []))


class Streams(unittest.TestCase):
    def test_a_stream_has_one_array(self):
        for rows in ([], [None], ["a", None, "é", "a"]):
            capsule = Column(rows).__arrow_c_stream__()
            held = Stream.from_address(pointer_of(capsule, b"arrow_array_stream"))
            stream = Stream.from_buffer_copy(held)
            held.release = None
            del capsule
            schema, arrays = Schema(), [Array() for _ in range(3)]
            for _ in range(2):
                self.assertEqual(get_schema(stream.get_schema)(ctypes.byref(stream), ctypes.byref(schema)), 0)
                form = schema.format
                self.assertIn(form, (b"i", b"l"))
                self.assertEqual((schema.dictionary.contents.format, schema.flags), (b"U", NULLABLE))
                release_schema(schema.release)(ctypes.byref(schema))
            for each in arrays:
                self.assertEqual(get_next(stream.get_next)(ctypes.byref(stream), ctypes.byref(each)), 0)
            self.assertEqual([bool(each.release) for each in arrays], [True, False, False])
            self.assertIsNone(get_last_error(stream.get_last_error)(ctypes.byref(stream)))
            release_stream(stream.release)(ctypes.byref(stream))
            self.assertIsNone(stream.release)
            # It outlives its stream.
            self.assertEqual(read_rows(arrays[0], form)[0], rows)
            release_array(arrays[0].release)(ctypes.byref(arrays[0]))

    def test_what_nobody_takes_is_freed(self):
        column = Column(map(str, range(100_000)))
        for turn in range(30):
            column.__arrow_c_stream__()
            Column.from_arrow(column)
            if turn == 5:
                before = resource.getrusage(resource.RUSAGE_SELF).ru_maxrss
        self.assertLess(resource.getrusage(resource.RUSAGE_SELF).ru_maxrss - before, 10_000)


class Offsets(unittest.TestCase):
    """Where Arrow says that texts begin and end: one number more than texts, of which the first need not be 0."""

    def read(self, joined, offsets):
        """The texts, as both calls that take offsets read them."""
        count = max(0, len(offsets) - 1)
        interner = Interner()
        column = Column.from_buffers(joined, offsets=offsets, codes=range(count))
        numbers = interner.intern_column(joined, offsets=offsets)
        self.assertEqual((list(column), column.dictionary), ([*interner], [*interner]))
        return [interner[number] for number in numbers]

    def test_random_texts(self):
        source = random.Random(1)
        for _ in range(1000):
            texts = list({source.choice(("é", "a", "", "語")) * source.randrange(9) for _ in range(source.randrange(9))})
            raws = [b"before" * source.randrange(3), *(text.encode() for text in texts)]
            joined, offsets = b"".join(raws) + b"behind", list(accumulate(map(len, raws)))
            for form in (list, tuple, *(lambda it, code=code: array(code, it) for code in "hiIqQ")):
                self.assertEqual(self.read(source.choice((bytes, bytearray, memoryview))(joined), form(offsets)), texts)

    def test_one_of_both(self):
        for words in ({}, {"ends": None}, {"offsets": None}, {"ends": [1], "offsets": [0, 1]}, {"ends": None, "offsets": None}):
            for call in (lambda: Column.from_buffers(b"a", codes=[0], **words), lambda: Interner().intern_column(b"a", **words)):
                with self.assertRaisesRegex(TypeError, "^exactly one of ends and offsets is wanted$"):
                    call()
        self.assertEqual(list(Column.from_buffers(b"a", ends=[1], offsets=None, codes=[0])), ["a"])
        for words in ({"offsets": [0, 1]}, {"ends": [1]}):
            with self.assertRaisesRegex(TypeError, "^from_buffers wants codes$"):
                Column.from_buffers(b"a", **words)

    def test_numbers_are_passed_by_name(self):
        """Offsets in the place of ends are the ends of other texts."""
        interner = Interner()
        for call in (lambda: Column.from_buffers(b"redgreen", [0, 3, 8], [0, 1, 0]), lambda: Column.from_buffers(b"redgreen", [3, 8], codes=[0, 1]),
                     lambda: Column.from_buffers(*Column(["a"]).to_buffers()), lambda: Column.from_buffers(b"a", None, [], offsets=[0, 1]),
                     lambda: interner.intern_column(b"redgreen", [0, 3, 8]), lambda: interner.intern_column(b"redgreen", array("Q", [3, 8]))):
            with self.assertRaisesRegex(TypeError, "^all but the bytes is passed by its name: ends= .* offsets= "):
                call()
        self.assertEqual(len(interner), 0)
        with self.assertRaises(TypeError):
            Column.from_buffers()
        joined, ends, codes = Column(["", "red", None]).to_buffers()
        self.assertEqual(list(Column.from_buffers(joined, ends=ends, codes=codes)), ["", "red", None])
        self.assertEqual(list(Column.from_buffers(joined, offsets=[0, *ends], codes=codes)), ["", "red", None])

    def test_no_text(self):
        for offsets in ([], [0], [2], array("q"), array("i", [2])):
            self.assertEqual(self.read(b"ab", offsets), [])

    def test_the_first_is_outside(self):
        for offsets in ([3], [-1, 0], [2**63, 1], [-(2**63)], [2**70, 2**70], [-(2**70), 1], array("Q", [2**64 - 1, 1]), array("b", [-1])):
            for call in (lambda: Column.from_buffers(b"ab", offsets=offsets, codes=[]), lambda: Interner().intern_column(b"ab", offsets=offsets)):
                with self.assertRaisesRegex(ValueError, f"^the first offset is {offsets[0]}, and there are 2 bytes$"):
                    call()

    def test_others_are_outside_or_less(self):
        for bad in (0, -1, 4, 2**63, 2**63 - 1, -(2**63), 2**64 - 1, 2**70, -(2**70)):
            for offsets in ([1, 2, bad], [1, 2, bad, 3]):
                interner = Interner()
                with self.assertRaisesRegex(ValueError, "^an end"):
                    interner.intern_column(b"abc", offsets=offsets)
                self.assertEqual(list(interner), ["b"])
                with self.assertRaisesRegex(ValueError, "^an end"):
                    Column.from_buffers(b"abc", offsets=offsets, codes=[])
        for offsets, said in (([0, 1, 2], "a text repeats"), ([0, 1, 3], "text 1 is not UTF-8")):
            with self.assertRaisesRegex(ValueError, f"^{said}"):
                Column.from_buffers(b"aa\xff", offsets=offsets, codes=[])


if __name__ == "__main__":
    unittest.main()
