/* Column: a list of rows that stores each distinct text once. */
#include "native.h"

bool is_made(const Column *self) {
  if (!self->dictionary) PyErr_SetString(PyExc_ValueError, "the column was not initialized");
  return self->dictionary != NULL;
}

int column_width(const Column *self) { return self->n ? self->block->width : width_of(interner_len(self->dictionary->h)); }

/* Making */

static PyObject *column_new(PyTypeObject *type, PyObject *args, PyObject *keywords) {
  (void)args, (void)keywords;
  State *state = state_of_type(type);
  Column *self = state ? (Column *)PyType_GenericAlloc(type, 0) : NULL;
  if (self) self->state = state;
  return (PyObject *)self;
}

void begin_column(Column *self, Dictionary *dictionary, Block *block, Py_ssize_t n) {
  Dictionary *dictionary_before = self->dictionary;
  Block *block_before = self->block;
  self->dictionary = dictionary, self->block = block, self->n = n;
  self->is_part = false;
  self->begins++;
  drop_dictionary(dictionary_before);
  drop_block(block_before);
}

Column *make_column(State *state, PyTypeObject *type) {
  Column *column = (Column *)PyObject_CallMethod((PyObject *)type, "__new__", "O", (PyObject *)type);
  if (!column || PyObject_TypeCheck((PyObject *)column, state->column)) return column;
  Py_DECREF(column);
  PyErr_SetString(PyExc_TypeError, "__new__ returned no Column");
  return NULL;
}

Column *make_plain(Column *like) {
  PyTypeObject *type = Py_TYPE((PyObject *)like), *base = type;
  /* The class that derives from the one of this module. */
  while (base && base != like->state->column) type = base, base = PyType_GetSlot(base, Py_tp_base);
  return (Column *)column_new(type, NULL, NULL);
}

Encoded hold_rows(const Column *self) { return (Encoded){share_dictionary(self->dictionary), share_block(self->block), self->n}; }

void drop_rows(Encoded *rows) {
  drop_dictionary(rows->dictionary);
  drop_block(rows->block);
  *rows = (Encoded){0};
}

static int init_column(Column *self, PyObject *args, PyObject *keywords) {
  static char *words[] = {"values", "hasher", NULL};
  PyObject *values = NULL, *hasher = NULL;
  Options options = {.kind = INTERNER_STRING};
  if (!PyArg_ParseTupleAndKeywords(args, keywords, "|O$O:Column", words, &values, &hasher)) return -1;
  if (!read_hasher(self->state, hasher, &options)) return -1;
  Dictionary *dictionary = new_dictionary(&options);
  if (!dictionary) return -1;
  begin_column(self, dictionary, NULL, 0);
  PyObject *done = values ? column_extend(self, values) : Py_NewRef(Py_None);
  Py_XDECREF(done);
  return done ? 0 : -1;
}

static int column_init(Column *self, PyObject *args, PyObject *keywords) {
  Words words = hold_words(keywords);
  int status = init_column(self, args, keywords);
  drop_words(&words);
  return status;
}

static void column_dealloc(Column *self) {
  PyTypeObject *type = Py_TYPE((PyObject *)self);
  PyObject_GC_UnTrack(self);
  if (self->weak) PyObject_ClearWeakRefs((PyObject *)self);
  drop_dictionary(self->dictionary);
  drop_block(self->block);
  ((freefunc)PyType_GetSlot(type, Py_tp_free))(self);
  Py_DECREF(type);
}

static int column_traverse(PyObject *self, visitproc visit, void *arg) {
  Py_VISIT(Py_TYPE(self)); /* Strings need no visit. */
  return 0;
}

/* Reading */

static PyObject *column_dictionary(Column *self, void *unused) {
  (void)unused;
  return is_made(self) ? list_strings(self->dictionary) : NULL;
}

PyObject *column_codes(Column *self, void *unused) {
  (void)unused;
  return is_made(self) ? view_codes(self->state, self->block, self->n, column_width(self)) : NULL;
}

static PyObject *column_distinct(Column *self, void *unused) {
  (void)unused;
  return is_made(self) ? PyLong_FromSize_t(interner_len(self->dictionary->h)) : NULL;
}

static PyObject *column_is_part(Column *self, void *unused) {
  (void)unused;
  return is_made(self) ? PyBool_FromLong(self->is_part) : NULL;
}

static PyObject *column_has_few_rows(Column *self, void *unused) {
  (void)unused;
  return is_made(self) ? PyBool_FromLong(has_few_rows(self)) : NULL;
}

/* About how many bytes the strings take that were made of its texts. */
static PyObject *column_kept(Column *self, void *unused) {
  (void)unused;
  if (!is_made(self)) return NULL;
  return PyLong_FromSize_t(self->dictionary->texts_room * sizeof *self->dictionary->texts + self->dictionary->texts_bytes);
}

static PyObject *column_hasher(Column *self, void *unused) {
  (void)unused;
  return is_made(self) ? PyUnicode_FromString(hasher_name(self->dictionary->hasher)) : NULL;
}

/* The UTF-8 form of a value, or null for what has none. Returns whether nothing was raised. */
static bool convert(PyObject *value, const char **bytes, Py_ssize_t *length) {
  *bytes = NULL, *length = 0;
  if (!PyUnicode_Check(value) || (*bytes = PyUnicode_AsUTF8AndSize(value, length))) return true;
  if (!PyErr_ExceptionMatches(PyExc_UnicodeEncodeError)) return false;
  PyErr_Clear();
  return true;
}

/* Finds the code of the rows with a value, whose UTF-8 form this is. */
static bool find_value(const Dictionary *dictionary, PyObject *value, const char *bytes, Py_ssize_t length, int64_t *code) {
  interner_symbol number;
  *code = -1;
  if (value == Py_None) return true;
  if (!bytes || interner_get_utf8(dictionary->h, bytes, length, &number) != INTERNER_OK) return false;
  *code = (int64_t)number;
  return true;
}

/* The code of the rows with a value. 1: found, 0: there is none, -1: raised. */
static int find_code(Column *self, PyObject *value, int64_t *code) {
  Py_ssize_t length;
  const char *bytes;
  if (!convert(value, &bytes, &length) || !is_made(self)) return -1;
  return find_value(self->dictionary, value, bytes, length, code);
}

static PyObject *column_code(Column *self, PyObject *text) {
  int64_t code;
  if (!PyUnicode_Check(text)) return raise_type("a text is a str, not ", text, "");
  switch (find_code(self, text, &code)) {
  case 1:
    self->dictionary->uses++;
    return PyLong_FromLongLong(code);
  case 0: Py_RETURN_NONE;
  default: return NULL;
  }
}

static int column_contains(Column *self, PyObject *value) {
  int64_t code;
  int found = find_code(self, value, &code);
  if (found != 1) return found;
  for (Py_ssize_t row = 0; row < self->n; row++)
    if (code_at(self->block, row) == code) return 1;
  return 0;
}

static PyObject *column_count(Column *self, PyObject *value) {
  int64_t code;
  Py_ssize_t count = 0;
  int found = find_code(self, value, &code);
  if (found < 0) return NULL;
  for (Py_ssize_t row = 0; found && row < self->n; row++) count += code_at(self->block, row) == code;
  return PyLong_FromSsize_t(count);
}

static PyObject *column_index(Column *self, PyObject *args, PyObject *keywords) {
  static char *words[] = {"value", "start", "stop", NULL};
  PyObject *value, *given_start = Py_None, *given_stop = Py_None;
  Py_ssize_t start = 0, stop = PY_SSIZE_T_MAX;
  int64_t code;
  if (!PyArg_ParseTupleAndKeywords(args, keywords, "O|OO:index", words, &value, &given_start, &given_stop)) return NULL;
  if (given_start != Py_None) start = PyNumber_AsSsize_t(given_start, NULL);
  if (start == -1 && PyErr_Occurred()) return NULL;
  if (given_stop != Py_None) stop = PyNumber_AsSsize_t(given_stop, NULL);
  if (stop == -1 && PyErr_Occurred()) return NULL;
  int found = find_code(self, value, &code);
  if (found < 0) return NULL;
  start = start < -self->n ? 0 : start < 0 ? start + self->n : start;
  stop = stop < 0 ? stop + self->n : stop < self->n ? stop : self->n;
  for (Py_ssize_t row = start; found && row < stop; row++)
    if (code_at(self->block, row) == code) return PyLong_FromSsize_t(row);
  PyErr_SetString(PyExc_ValueError, "no row has this value");
  return NULL;
}

/* Marks the codes of values, and before the first whether None is among them. */
static bool mark_codes(const Dictionary *dictionary, PyObject *values, bool *is_wanted) {
  for (Py_ssize_t at = 0; at < PyTuple_Size(values); at++) {
    const char *bytes;
    Py_ssize_t length;
    int64_t code;
    if (!heed_signals(at)) return false;
    PyObject *value = PyTuple_GetItem(values, at);
    if (!value) return PyErr_Format(PyExc_SystemError, "row %zd is not filled yet", at), false;
    if (!convert(value, &bytes, &length)) return false;
    if (find_value(dictionary, value, bytes, length, &code)) is_wanted[code + 1] = true;
  }
  return true;
}

/* A mask of the rows that have one of the values. */
static PyObject *find_rows(State *state, const Encoded *rows, PyObject *values) {
  PyObject *mask = NULL;
  bool *booleans, *is_wanted = PyMem_Calloc(interner_len(rows->dictionary->h) + 1, sizeof *is_wanted);
  if (!is_wanted) return PyErr_NoMemory();
  if (mark_codes(rows->dictionary, values, is_wanted) && (mask = new_mask(state, rows->n, &booleans)))
    for (Py_ssize_t row = 0; row < rows->n; row++) booleans[row] = is_wanted[code_at(rows->block, row) + 1];
  PyMem_Free(is_wanted);
  return mask;
}

static PyObject *column_isin(Column *self, PyObject *given) {
  PyObject *unmasked = are_many(given) ? without_mask(given, Py_None) : NULL, *values = unmasked ? read_tuple(unmasked) : NULL;
  PyObject *found = NULL;
  Py_XDECREF(unmasked);
  if (values && is_made(self)) {
    Encoded rows = hold_rows(self);
    found = find_rows(self->state, &rows, values);
    drop_rows(&rows);
  }
  Py_XDECREF(values);
  return found;
}

static Py_ssize_t column_length(Column *self) { return is_made(self) ? self->n : -1; }

PyObject *column_item(Column *self, Py_ssize_t row) {
  if (!is_made(self)) return NULL;
  if (row >= 0 && row < self->n) return value_of(self->dictionary, code_at(self->block, row));
  PyErr_SetString(PyExc_IndexError, "there is no such row");
  return NULL;
}

/* Begins a column of some rows of another. */
static void begin_part(Column *part, const Column *of, Block *block, Py_ssize_t n) {
  begin_column(part, share_dictionary(of->dictionary), block, n);
  part->is_part = of->is_part || n < of->n;
}

PyObject *column_slice(Column *self, PyObject *slice) {
  Py_ssize_t start, stop, step;
  if (PySlice_Unpack(slice, &start, &stop, &step)) return NULL;
  Column *part = make_plain(self);
  if (!part || !is_made(self)) goto failed;
  Py_ssize_t n = PySlice_AdjustIndices(self->n, &start, &stop, step);
  Block *block = NULL;
  if (step == 1 && start == 0) block = share_block(n ? self->block : NULL);
  else if (n) {
    if (!(block = new_block(n, self->block->width))) goto failed;
    for (Py_ssize_t row = 0; row < n; row++) set_code(block, row, code_at(self->block, start + row * step));
    block->used = n;
  }
  begin_part(part, self, block, n);
  return (PyObject *)part;
failed:
  Py_XDECREF((PyObject *)part);
  return NULL;
}

int64_t *compare_texts(const Dictionary *here, const Dictionary *other) {
  size_t count = interner_len(other->h);
  interner_symbol number;
  int64_t *table = PyMem_Malloc((count + 1) * sizeof *table);
  if (!table) return PyErr_NoMemory(), NULL;
  *table = -1;
  for (size_t code = 0; code < count; code++) {
    interner_text text;
    if (!heed_signals(code)) return PyMem_Free(table), NULL;
    interner_resolve(other->h, code, &text);
    table[code + 1] = interner_get_utf8(here->h, text.bytes, text.len, &number) == INTERNER_OK ? (int64_t)number : -2;
  }
  return table;
}

/* 1: the rows are equal, 0: they differ, -1: raised. */
static int compare_rows(const Encoded *self, const Encoded *other) {
  if (self->n != other->n) return 0;
  bool is_same = self->dictionary == other->dictionary || interner_equal(self->dictionary->h, other->dictionary->h);
  int64_t *table = is_same ? NULL : compare_texts(self->dictionary, other->dictionary);
  if (!is_same && !table) return -1;
  Py_ssize_t row = 0;
  for (; row < self->n; row++) {
    int64_t code = code_at(other->block, row);
    if (code_at(self->block, row) != (table ? table[code + 1] : code)) break;
  }
  PyMem_Free(table);
  return row == self->n;
}

/* A mask of the rows that are the same in both columns. */
static PyObject *match_rows(State *state, const Encoded *rows, const Encoded *others) {
  bool *booleans;
  PyObject *mask = NULL;
  if (rows->n != others->n) return PyErr_Format(PyExc_ValueError, "one column has %zd rows, and the other %zd", rows->n, others->n);
  int64_t *table = compare_texts(rows->dictionary, others->dictionary);
  if (table && (mask = new_mask(state, rows->n, &booleans)))
    for (Py_ssize_t row = 0; row < rows->n; row++)
      booleans[row] = code_at(rows->block, row) == table[code_at(others->block, row) + 1];
  PyMem_Free(table);
  return mask;
}

/* A mask of the rows with a code, or if there is none, of no row. */
static PyObject *match_code(State *state, const Encoded *rows, bool is_there, int64_t code) {
  bool *booleans;
  PyObject *mask = new_mask(state, rows->n, &booleans);
  for (Py_ssize_t row = 0; mask && row < rows->n; row++) booleans[row] = is_there && code_at(rows->block, row) == code;
  return mask;
}

static PyObject *column_eq(Column *self, PyObject *value) {
  int64_t code = -1;
  int found = 0;
  const bool is_column = PyObject_TypeCheck(value, self->state->column);
  if (!is_column && value != Py_None && !PyUnicode_Check(value))
    return raise_type("rows are compared with a text, None or a column, not with ", value, ": column.isin(values) takes several");
  if (is_column ? !is_made(self) || !is_made((Column *)value) : (found = find_code(self, value, &code)) < 0) return NULL;
  Encoded rows = hold_rows(self), others = is_column ? hold_rows((Column *)value) : (Encoded){0};
  PyObject *mask = is_column ? match_rows(self->state, &rows, &others) : match_code(self->state, &rows, found, code);
  drop_rows(&rows);
  if (is_column) drop_rows(&others);
  return mask;
}

static PyObject *column_richcompare(Column *self, PyObject *other, int operator) {
  if ((operator != Py_EQ && operator != Py_NE) || !PyObject_TypeCheck(other, self->state->column)) Py_RETURN_NOTIMPLEMENTED;
  if (!is_made(self) || !is_made((Column *)other)) return NULL;
  Encoded rows = hold_rows(self), others = hold_rows((Column *)other);
  int equal = compare_rows(&rows, &others);
  drop_rows(&rows);
  drop_rows(&others);
  return equal < 0 ? NULL : PyBool_FromLong(equal == (operator == Py_EQ));
}

HOLDING(column_from_parts)
HOLDING(column_from_buffers)
HOLDING(column_from_arrow)
HOLDING(column_from_file)
HOLDING(column_counts)
HOLDING(column_nunique)
HOLDING(column_index)
HOLDING(column_sort_dictionary)
HOLDING(column_remap)
HOLDING(column_arrow_array)
HOLDING(column_arrow_stream)

static PyMethodDef column_methods[] = {
    {"append", (PyCFunction)column_append, METH_O, "append($self, value, /)\n--\n\nAppends a row. Raises what `extend` raises."},
    {"extend", (PyCFunction)column_extend, METH_O,
     "extend($self, values, /)\n--\n\n"
     "Appends values, in order. If they are a column, merges it.\n\n"
     "Reads a list, a tuple and an array of objects in place. Reads an iterator in parts, so that its texts are not all in\n"
     "memory. A masked element of a masked array of numpy becomes None. Raises TypeError for what is neither a text nor None, and\n"
     "names its row, which counts from 0 in `values`. A NaN is a float, so it raises TypeError, too; `from_pandas` makes it None.\n"
     "Raises UnicodeEncodeError for a text without a UTF-8 form, OverflowError if no number is left for a text, and MemoryError.\n\n"
     "It is all or nothing, unless the iterator or a handler of a signal uses the column meanwhile: then texts may be added to\n"
     "the dictionary. It raises RuntimeError if these give the column other rows."},
    {"merge", (PyCFunction)column_merge, METH_O,
     "merge($self, other, /)\n--\n\n"
     "Appends the rows of another column, with codes of this column's dictionary.\n\n"
     "Looks up each text of the other dictionary once. Appends those that are new, in their order there, also if no row has\n"
     "them. So you may merge several columns in pairs, in any grouping."},
    {"from_parts", (PyCFunction)(void (*)(void))column_from_parts_holding, METH_VARARGS | METH_KEYWORDS | METH_CLASS,
     "from_parts($type, /, dictionary, codes, *, hasher='seeded')\n--\n\n"
     "Makes a column of distinct texts, such as those of an `Interner`, and a code for each row. Copies both.\n\n"
     "The dictionary stays as it is, with texts that no row has. A masked code of numpy is a row that is None. Raises ValueError\n"
     "at the first text that repeats an earlier one, and if there is none, at the first code that is neither -1 nor an index of\n"
     "the dictionary. The message says where. Raises TypeError for booleans."},
    {"from_buffers", (PyCFunction)(void (*)(void))column_from_buffers_holding, METH_VARARGS | METH_KEYWORDS | METH_CLASS,
     "from_buffers($type, /, joined, *, ends=None, offsets=None, codes=None, hasher='seeded')\n--\n\n"
     "Makes a column of what `to_buffers` returns. Copies all, and checks what `from_parts` checks, and that texts are UTF-8.\n\n"
     "The texts are end to end in `joined`: text `i` ends before byte `ends[i]`. Arrow and others have offsets, one number more:\n"
     "text `i` begins at byte `offsets[i]`, and ends before byte `offsets[i + 1]`. Pass one of the two, and always codes, by name."},
    {"from_arrow", (PyCFunction)(void (*)(void))column_from_arrow_holding, METH_VARARGS | METH_KEYWORDS | METH_CLASS,
     "from_arrow($type, /, values, *, hasher='seeded')\n--\n\n"
     "Makes a column of an array of Arrow, of anything that has `__arrow_c_array__` or `__arrow_c_stream__`, as what pyarrow and\n"
     "polars have. Copies all. Of a table, as those of DuckDB are, reads the column, if it has only one.\n\n"
     "Reads utf8, large_utf8, string views, nulls, and dictionaries of them with any integers as indices; a null is a row that is\n"
     "None. Texts of a dictionary become the column's in their order, also those that no row has. One that repeats becomes one\n"
     "text. Asks for a dictionary of large_utf8, and reads what it gets.\n\n"
     "Raises TypeError for any other type, ValueError at a text that is not UTF-8, at an offset, a view or an index that is\n"
     "outside, and for numbers that do not agree, and OSError if a stream fails. Only of string views the interface tells how\n"
     "long their buffers are. So only whoever made the array knows that all other buffers are as long as its numbers say."},
    {"from_file", (PyCFunction)(void (*)(void))column_from_file_holding, METH_VARARGS | METH_KEYWORDS | METH_CLASS,
     "from_file($type, /, file, *, encoding='utf-8', newline='\\n', hasher='seeded', field=None, separator=',', progress=None)"
     "\n--\n\n"
     "Makes a column of the lines of a file: a path; the number of an open file; or an open file of Python in binary mode, such as\n"
     "that of `gzip.open`. Reads from where it is to its end, and an open file stays open. Makes no str of a line.\n\n"
     "A line ends at a newline, which is not part of it, or at the end of the file. With `newline=None` it ends at \"\\r\\n\" and\n"
     "\"\\r\", too, and with `encoding='utf-8-sig'` a byte order mark at the front is no part of it: `open` has both words.\n\n"
     "With a field, a row is that part of a line between separators, counted from 0. It knows no quotes. The separator is a text\n"
     "or bytes. `progress` is called after each read of up to a MiB and at the end, with how many bytes were read so far, and how\n"
     "many rows that are.\n\n"
     "Raises ValueError for a line that has no such field, and for a line, or with a field that field, that is not UTF-8, and\n"
     "says which, counted from 1; OSError; and what reading a file and `progress` raise."},
    {"counts", (PyCFunction)(void (*)(void))column_counts_holding, METH_VARARGS | METH_KEYWORDS,
     "counts($self, /, weights=None)\n--\n\n"
     "Returns the number of rows with each text of the dictionary, in its order. Does not count rows that are None.\n\n"
     "With weights, one number for each row, returns the sum of the weights of these rows in an array of 8-byte floats, as\n"
     "`numpy.bincount` does. Raises ValueError for another number of weights than rows, and TypeError for what is no number.\n"
     "Takes one pass over the rows."},
    {"nunique", (PyCFunction)(void (*)(void))column_nunique_holding, METH_VARARGS | METH_KEYWORDS,
     "nunique($self, /, *, dropna=True)\n--\n\n"
     "Returns the number of distinct values that rows have. Counts None as one only if `dropna` is false. Takes one pass over the\n"
     "rows. The number of texts in the dictionary, of which some may have no row, is `distinct`."},
    {"code", (PyCFunction)column_code, METH_O,
     "code($self, text, /)\n--\n\n"
     "Returns the code of a text, or None if the dictionary lacks it. Looks it up once, and reads no row.\n\n"
     "The dictionary may have texts that no row has. To ask for a row with a text, write `text in column`."},
    {"count", (PyCFunction)column_count, METH_O, "count($self, value, /)\n--\n\nReturns the number of rows with a value."},
    {"index", (PyCFunction)(void (*)(void))column_index_holding, METH_VARARGS | METH_KEYWORDS,
     "index($self, /, value, start=0, stop=None)\n--\n\n"
     "Returns the first row with a value, from row `start` up to and without row `stop`. Raises ValueError if there is none."},
    {"compact", (PyCFunction)column_compact, METH_NOARGS,
     "compact($self, /)\n--\n\n"
     "Returns a column of the same rows, whose dictionary has only the texts that rows have, in the order that they have here.\n\n"
     "So a few rows of a long column do not hold all of its texts. The new column has the same hasher and keys."},
    {"shrink", (PyCFunction)column_shrink, METH_NOARGS,
     "shrink($self, /)\n--\n\n"
     "Releases memory that no row needs, if it can: the strings that iteration and `dictionary` made, and spare capacity."},
    {"take", (PyCFunction)column_take, METH_O,
     "take($self, rows, /)\n--\n\n"
     "Returns a column of the rows with these numbers, in their order, with the whole dictionary. A negative number counts from\n"
     "the end. Raises IndexError for a row that there is not, and TypeError for a mask of booleans: write `column[mask]`."},
    {"map_texts", (PyCFunction)column_map_texts, METH_O,
     "map_texts($self, function, /)\n--\n\n"
     "Returns a column with `function(text)` in the place of each text. Texts that become equal become one, and a row whose text\n"
     "becomes None is None.\n\n"
     "Calls the function once for each text of the dictionary, in its order, also for those that no row has: of a few rows of a\n"
     "long column take `compact()` first. Rows that are None stay so. Raises TypeError if a text becomes neither str nor None,\n"
     "UnicodeEncodeError if it has no UTF-8 form, and what the function raises."},
    {"sort_dictionary", (PyCFunction)(void (*)(void))column_sort_dictionary_holding, METH_VARARGS | METH_KEYWORDS,
     "sort_dictionary($self, /, key=None)\n--\n\n"
     "Returns a column of the same rows whose dictionary is sorted: codes have the order of the texts, or of `key(text)`, which\n"
     "is called once for each text. Without a key the order is that of str. Texts with equal keys stay in their order.\n\n"
     "Sorts the n texts of the dictionary in about n log n steps, and goes over the rows once. Raises what the key and the\n"
     "comparison of keys raise."},
    {"remap", (PyCFunction)(void (*)(void))column_remap_holding, METH_VARARGS | METH_KEYWORDS,
     "remap($self, /, categories, unknown=None)\n--\n\n"
     "Returns a column of the same rows whose dictionary is `categories`: distinct texts in their order, or a column, whose\n"
     "dictionary it shares. A row with another text becomes `unknown`, which is None or one of the categories.\n\n"
     "Looks up each text of the dictionary once. Raises ValueError for a category that repeats an earlier one, and if `unknown`\n"
     "is no category, and TypeError for what is no text."},
    {"fillna", (PyCFunction)column_fillna, METH_O,
     "fillna($self, value, /)\n--\n\n"
     "Returns a column in which rows that are None have a text. If the dictionary lacks it and a row needs it, copies the\n"
     "dictionary, and has the text at the end. Looks it up once, and goes over the rows. Raises TypeError for what is no text."},
    {"dropna", (PyCFunction)column_dropna, METH_NOARGS,
     "dropna($self, /)\n--\n\n"
     "Returns a column of the rows that are not None, with the whole dictionary, which both share. Goes over the rows."},
    {"_buffers", (PyCFunction)column_buffers, METH_NOARGS, NULL},
    {"_isin", (PyCFunction)column_isin, METH_O, NULL},
    {"_unique", (PyCFunction)column_unique, METH_NOARGS, NULL},
    {"_value_counts", (PyCFunction)column_value_counts, METH_VARARGS, NULL},
    {"_frequencies", (PyCFunction)column_frequencies, METH_VARARGS, NULL},
    {"_write", (PyCFunction)column_write, METH_O, NULL},
    {"eq", (PyCFunction)column_eq, METH_O,
     "eq($self, value, /)\n--\n\n"
     "Returns a mask of the rows that are `value`: a text, None, or a column with as many rows, which are compared one by one.\n"
     "Two rows that are None are equal. `column == other` is one boolean: whether all rows are equal.\n\n"
     "Looks up each distinct text of the other column once, and goes over the rows. Raises ValueError for a column with another\n"
     "number of rows, and TypeError for anything else."},
    {"_in_order", (PyCFunction)column_in_order, METH_NOARGS, NULL},
    {"_checksum", (PyCFunction)column_checksum, METH_O | METH_STATIC, NULL},
    {"_lines", (PyCFunction)column_lines, METH_NOARGS, NULL},
    {"_with_dictionary", (PyCFunction)column_with_dictionary, METH_VARARGS | METH_CLASS, NULL},
    {"__reversed__", (PyCFunction)column_reversed, METH_NOARGS, "The rows in reverse order, as they are now."},
    {"__arrow_c_schema__", (PyCFunction)column_arrow_schema, METH_NOARGS,
     "__arrow_c_schema__($self, /)\n--\n\nThe type of the column for Arrow: a dictionary of large_utf8."},
    {"__arrow_c_array__", (PyCFunction)(void (*)(void))column_arrow_array_holding, METH_VARARGS | METH_KEYWORDS,
     "__arrow_c_array__($self, /, requested_schema=None)\n--\n\n"
     "The column for Arrow, by its PyCapsule interface. Lends the codes, and copies the dictionary: of a slice with few rows, less than\n"
     "one for eight texts, only the texts that they have."},
    {"__arrow_c_stream__", (PyCFunction)(void (*)(void))column_arrow_stream_holding, METH_VARARGS | METH_KEYWORDS,
     "__arrow_c_stream__($self, /, requested_schema=None)\n--\n\nThe same as a stream of one array."},
    {NULL, NULL, 0, NULL}};

static PyGetSetDef column_getset[] = {
    {"dictionary", (getter)column_dictionary, NULL,
     "The distinct texts, in a new list. A code is an index of it.\n\n"
     "New texts are appended in order of first appearance. Texts that no row has come from `from_parts`, `from_pandas`, a merged\n"
     "column, or a longer column of which this one is a slice. The column keeps these strings in memory until `shrink`.",
     NULL},
    {"codes", (getter)column_codes, NULL,
     "The code of each row, as they are now: a view of the column's memory that never changes.\n\n"
     "A code takes 4 bytes, or 8 if the dictionary has more than 2 ** 31 - 1 texts. `numpy.asarray` reads them without a copy.",
     NULL},
    {"distinct", (getter)column_distinct, NULL, "The number of texts in the dictionary.", NULL},
    {"hasher", (getter)column_hasher, NULL, "How texts are hashed: `seeded`, `siphash` or `fixed`.", NULL},
    {"_has_few_rows", (getter)column_has_few_rows, NULL, NULL, NULL},
    {"_is_part", (getter)column_is_part, NULL, NULL, NULL},
    {"_kept", (getter)column_kept, NULL, NULL, NULL},
    {"_parts", (getter)column_parts, (setter)column_set_parts, NULL, NULL},
    {NULL, NULL, NULL, NULL, NULL}};

static PyMemberDef column_members[] = {
    {"__weaklistoffset__", T_PYSSIZET, offsetof(Column, weak), READONLY, NULL}, {NULL, 0, 0, 0, NULL}};

static PyType_Slot column_slots[] = {
    {Py_tp_doc, "Column(values=(), *, hasher='seeded')\n--\n\nA list of rows that stores each distinct text once."},
    {Py_tp_new, column_new}, {Py_tp_init, column_init}, {Py_tp_dealloc, column_dealloc}, {Py_tp_traverse, column_traverse},
    {Py_tp_methods, column_methods}, {Py_tp_members, column_members}, {Py_tp_getset, column_getset}, {Py_tp_repr, column_repr},
    {Py_tp_iter, column_iter}, {Py_tp_hash, PyObject_HashNotImplemented}, {Py_tp_richcompare, column_richcompare},
    {Py_sq_concat, column_concat}, {Py_sq_inplace_concat, column_inplace_concat}, {Py_sq_contains, column_contains},
    {Py_sq_length, column_length}, {Py_sq_item, column_item}, {Py_mp_length, column_length}, {Py_mp_subscript, column_subscript},
    {0, NULL}};
PyType_Spec column_spec = {"string_interner._native.Column", sizeof(Column), 0,
                           Py_TPFLAGS_DEFAULT | Py_TPFLAGS_BASETYPE | Py_TPFLAGS_HAVE_GC, column_slots};
