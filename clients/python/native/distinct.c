/* Columns of the same rows with other texts or in another order of texts: work on the distinct texts alone, and one pass over the
 * codes.
 *
 * Functions that are given may run any code. So rows are held first, and the new dictionary is one that nobody else has. */
#include "native.h"

/* A place for the new code of each text, and before the first for that of None. */
static int64_t *new_table(const Encoded *rows) {
  int64_t *table = PyMem_Malloc((interner_len(rows->dictionary->h) + 1) * sizeof *table);
  if (table) *table = -1;
  else PyErr_NoMemory();
  return table;
}

/* Whether a table gives each text the code that it has. */
static bool is_same_order(const Encoded *rows, const int64_t *table) {
  const int64_t count = (int64_t)interner_len(rows->dictionary->h);
  int64_t code = 0;
  while (code < count && table[code + 1] == code) code++;
  return code == count;
}

/* The rows under the codes of a table. */
static Block *recode(const Encoded *rows, const int64_t *table, int width) {
  if (rows->n && rows->block->width == width && is_same_order(rows, table)) return share_block(rows->block);
  Block *block = new_block(rows->n, width);
  if (!block) return NULL;
  if (rows->n && width == 4 && rows->block->width == 4) {
    const int32_t *from = (const int32_t *)rows->block->data;
    for (Py_ssize_t row = 0; row < rows->n; row++) ((int32_t *)block->data)[row] = (int32_t)table[from[row] + 1];
  } else
    for (Py_ssize_t row = 0; row < rows->n; row++) set_code(block, row, table[code_at(rows->block, row) + 1]);
  block->used = rows->n;
  return block;
}

/* A column of rows under a table, with a dictionary, which it takes over. */
static PyObject *make_recoded(Column *like, const Encoded *rows, Dictionary *dictionary, const int64_t *table) {
  Column *column = make_plain(like);
  Block *block = column ? recode(rows, table, width_of(interner_len(dictionary->h))) : NULL;
  if (block) begin_column(column, dictionary, block, rows->n);
  else {
    Py_CLEAR(column);
    drop_dictionary(dictionary);
  }
  return (PyObject *)column;
}

/* Adds what a text became to a dictionary, and finds its code: -1 if it is None. */
static bool add_mapped(Dictionary *to, PyObject *mapped, size_t code, int64_t *number) {
  interner_symbol found;
  Py_ssize_t length;
  *number = -1;
  if (mapped == Py_None) return true;
  if (!PyUnicode_Check(mapped)) {
    PyObject *name = PyType_GetName(Py_TYPE(mapped));
    if (name) PyErr_Format(PyExc_TypeError, "text %zu became of type %U, not str or None", code, name);
    Py_XDECREF(name);
    return false;
  }
  const char *bytes = PyUnicode_AsUTF8AndSize(mapped, &length);
  if (!bytes) return false;
  interner_status status = interner_get_or_intern_utf8(to->h, bytes, length, &found);
  if (status != INTERNER_OK) return raise_status(status) != NULL;
  *number = (int64_t)found;
  return true;
}

/* Fills a table with the codes of what a function makes of each text. */
static bool map_all(const Dictionary *from, Dictionary *to, PyObject *function, int64_t *table) {
  const size_t count = interner_len(from->h);
  for (size_t code = 0; code < count; code++) {
    PyObject *text = heed_signals(code) ? value_of(from, (int64_t)code) : NULL;
    PyObject *mapped = text ? PyObject_CallFunctionObjArgs(function, text, NULL) : NULL;
    bool is_done = mapped && add_mapped(to, mapped, code, &table[code + 1]);
    Py_XDECREF(mapped);
    Py_XDECREF(text);
    if (!is_done) return false;
  }
  return true;
}

PyObject *column_map_texts(Column *self, PyObject *function) {
  if (!is_made(self)) return NULL;
  Encoded rows = hold_rows(self);
  Dictionary *dictionary = new_dictionary_like(rows.dictionary);
  int64_t *table = dictionary ? new_table(&rows) : NULL;
  PyObject *column = NULL;
  if (table && map_all(rows.dictionary, dictionary, function, table)) column = make_recoded(self, &rows, dictionary, table);
  else drop_dictionary(dictionary);
  PyMem_Free(table);
  drop_rows(&rows);
  return column;
}

/* A text of a dictionary that is sorted. */
typedef struct Entry {
  uint64_t front; /* 8 bytes behind those that all texts begin with, the first one as the highest */
  size_t code;
} Entry;

typedef struct Sorter {
  const Dictionary *dictionary;
  PyObject **keys; /* of each text, or null */
  Entry *entries, *spare;
  size_t count, steps;
} Sorter;

/* Whether the text, or the key, of one entry is less than that of another. -1: raised. */
static int is_less(const Sorter *sorter, const Entry *one, const Entry *other) {
  interner_text text, than;
  if (sorter->keys) return PyObject_RichCompareBool(sorter->keys[one->code], sorter->keys[other->code], Py_LT);
  if (one->front != other->front) return one->front < other->front;
  interner_resolve(sorter->dictionary->h, one->code, &text);
  interner_resolve(sorter->dictionary->h, other->code, &than);
  const size_t common = text.len < than.len ? text.len : than.len;
  const int order = common ? memcmp(text.bytes, than.bytes, common) : 0;
  return order ? order < 0 : text.len < than.len;
}

/* Merges two runs of entries, of which each is in order. Equal ones stay in theirs. */
static bool merge_runs(Sorter *sorter, size_t begin, size_t middle, size_t end) {
  const Entry *from = sorter->entries;
  const int is_mixed = middle < end ? is_less(sorter, &from[middle], &from[middle - 1]) : 0;
  size_t left = begin, right = middle;
  if (is_mixed < 0) return false;
  if (!is_mixed) return memcpy(sorter->spare + begin, from + begin, (end - begin) * sizeof *from), heed_signals(++sorter->steps);
  for (size_t at = begin; at < end; at++) {
    const int takes_right = left == middle ? 1 : right == end ? 0 : is_less(sorter, &from[right], &from[left]);
    if (takes_right < 0 || !heed_signals(++sorter->steps)) return false;
    sorter->spare[at] = from[takes_right ? right++ : left++];
  }
  return true;
}

/* Sorts by merging: a key may be compared by any code, whose answers need not agree with each other, and a handler may end it. */
static bool sort_entries(Sorter *sorter) {
  for (size_t width = 1; width < sorter->count; width *= 2) {
    for (size_t begin = 0; begin < sorter->count; begin += 2 * width) {
      const size_t middle = begin + width < sorter->count ? begin + width : sorter->count;
      const size_t end = middle + width < sorter->count ? middle + width : sorter->count;
      if (!merge_runs(sorter, begin, middle, end)) return false;
    }
    Entry *sorted = sorter->spare;
    sorter->spare = sorter->entries, sorter->entries = sorted;
  }
  return true;
}

/* How many bytes all texts begin with. */
static size_t common_front(const Dictionary *dictionary) {
  interner_text first, text;
  const size_t count = interner_len(dictionary->h);
  if (!count) return 0;
  interner_resolve(dictionary->h, 0, &first);
  size_t common = first.len;
  for (size_t code = 1; common && code < count; code++) {
    size_t at = 0;
    interner_resolve(dictionary->h, code, &text);
    while (at < common && at < text.len && text.bytes[at] == first.bytes[at]) at++;
    common = at;
  }
  return common;
}

static uint64_t front_of(const Dictionary *dictionary, size_t code, size_t skipped) {
  interner_text text;
  uint64_t front = 0;
  interner_resolve(dictionary->h, code, &text);
  for (size_t at = skipped; at < skipped + sizeof front; at++)
    front = front << 8 | (at < text.len ? (unsigned char)text.bytes[at] : 0);
  return front;
}

/* The key of each text. */
static bool make_keys(Sorter *sorter, PyObject *key) {
  if (!(sorter->keys = PyMem_Calloc(sorter->count + 1, sizeof *sorter->keys))) return PyErr_NoMemory(), false;
  for (size_t code = 0; code < sorter->count; code++) {
    PyObject *text = heed_signals(code) ? value_of(sorter->dictionary, (int64_t)code) : NULL;
    sorter->keys[code] = text ? PyObject_CallFunctionObjArgs(key, text, NULL) : NULL;
    Py_XDECREF(text);
    if (!sorter->keys[code]) return false;
  }
  return true;
}

/* Has an entry for each text, with a key if there is one. */
static bool make_entries(Sorter *sorter, PyObject *key) {
  sorter->entries = PyMem_Malloc((sorter->count + 1) * sizeof *sorter->entries);
  sorter->spare = PyMem_Malloc((sorter->count + 1) * sizeof *sorter->spare);
  if (!sorter->entries || !sorter->spare) return PyErr_NoMemory(), false;
  if (key && !make_keys(sorter, key)) return false;
  const size_t skipped = key ? 0 : common_front(sorter->dictionary);
  for (size_t code = 0; code < sorter->count; code++) {
    if (!heed_signals(code)) return false;
    sorter->entries[code] = (Entry){key ? 0 : front_of(sorter->dictionary, code, skipped), code};
  }
  return true;
}

static void drop_sorter(Sorter *sorter) {
  for (size_t code = 0; sorter->keys && code < sorter->count; code++) Py_XDECREF(sorter->keys[code]);
  PyMem_Free(sorter->keys);
  PyMem_Free(sorter->entries);
  PyMem_Free(sorter->spare);
}

/* Adds the texts to a dictionary, in the order of the entries, and fills a table with their codes there. */
static bool copy_sorted(const Sorter *sorter, Dictionary *to, int64_t *table) {
  for (size_t at = 0; at < sorter->count; at++) {
    interner_symbol number;
    const size_t code = sorter->entries[at].code;
    if (!heed_signals(at) || !copy_text(to, sorter->dictionary, code, &number)) return false;
    table[code + 1] = (int64_t)number;
  }
  return true;
}

PyObject *column_sort_dictionary(Column *self, PyObject *args, PyObject *keywords) {
  static char *words[] = {"key", NULL};
  PyObject *key = Py_None, *column = NULL;
  if (!PyArg_ParseTupleAndKeywords(args, keywords, "|O:sort_dictionary", words, &key) || !is_made(self)) return NULL;
  Encoded rows = hold_rows(self);
  Sorter sorter = {.dictionary = rows.dictionary, .count = interner_len(rows.dictionary->h)};
  const bool is_sorted = make_entries(&sorter, key == Py_None ? NULL : key) && sort_entries(&sorter);
  Dictionary *dictionary = is_sorted ? new_dictionary_like(rows.dictionary) : NULL;
  int64_t *table = dictionary ? new_table(&rows) : NULL;
  if (table && copy_sorted(&sorter, dictionary, table)) column = make_recoded(self, &rows, dictionary, table);
  else drop_dictionary(dictionary);
  PyMem_Free(table);
  drop_sorter(&sorter);
  drop_rows(&rows);
  return column;
}

/* The dictionary of given categories: that of a column, shared, or one of distinct texts. */
static Dictionary *read_categories(const Column *self, const Dictionary *like, PyObject *given) {
  if (PyObject_TypeCheck(given, self->state->column)) {
    const Column *other = (const Column *)given;
    return is_made(other) ? share_dictionary(other->dictionary) : NULL;
  }
  Dictionary *dictionary = new_dictionary_like(like);
  if (!dictionary || add_distinct(dictionary->h, given)) return dictionary;
  drop_dictionary(dictionary);
  return NULL;
}

/* The code for texts that are no category. */
static bool read_unknown(const Dictionary *categories, PyObject *unknown, int64_t *code) {
  Py_ssize_t length;
  interner_symbol number;
  *code = -1;
  if (unknown == Py_None) return true;
  const char *bytes = utf8_of(unknown, &length);
  if (!bytes) return false;
  if (interner_get_utf8(categories->h, bytes, length, &number) != INTERNER_OK)
    return PyErr_SetString(PyExc_ValueError, "what stands for unknown texts is no category"), false;
  *code = (int64_t)number;
  return true;
}

/* The rows under categories, which it takes over. */
static PyObject *remap_rows(Column *like, const Encoded *rows, Dictionary *categories, int64_t unknown) {
  const size_t count = interner_len(rows->dictionary->h);
  int64_t *table = compare_texts(categories, rows->dictionary);
  for (size_t code = 0; table && code < count; code++)
    if (table[code + 1] < 0) table[code + 1] = unknown;
  PyObject *column = table ? make_recoded(like, rows, categories, table) : NULL;
  if (!table) drop_dictionary(categories);
  PyMem_Free(table);
  return column;
}

PyObject *column_remap(Column *self, PyObject *args, PyObject *keywords) {
  static char *words[] = {"categories", "unknown", NULL};
  PyObject *given, *unknown = Py_None, *column = NULL;
  int64_t code;
  if (!PyArg_ParseTupleAndKeywords(args, keywords, "O|O:remap", words, &given, &unknown) || !is_made(self)) return NULL;
  Encoded rows = hold_rows(self);
  Dictionary *categories = read_categories(self, rows.dictionary, given);
  if (categories && read_unknown(categories, unknown, &code)) column = remap_rows(self, &rows, categories, code);
  else drop_dictionary(categories);
  drop_rows(&rows);
  return column;
}

/* How many rows are None. */
static Py_ssize_t count_missing(const Encoded *rows) {
  Py_ssize_t missing = 0;
  if (rows->n && rows->block->width == 4) {
    const int32_t *codes = (const int32_t *)rows->block->data;
    for (Py_ssize_t row = 0; row < rows->n; row++) missing += codes[row] < 0;
  } else
    for (Py_ssize_t row = 0; row < rows->n; row++) missing += rows->block->data[row] < 0;
  return missing;
}

/* The codes of rows, with another one for None. */
static Block *fill_missing(const Encoded *rows, int64_t filler, int width) {
  Block *block = new_block(rows->n, width);
  if (!block) return NULL;
  if (width == 4 && rows->block->width == 4) {
    const int32_t *from = (const int32_t *)rows->block->data, narrow = (int32_t)filler;
    for (Py_ssize_t row = 0; row < rows->n; row++) ((int32_t *)block->data)[row] = from[row] < 0 ? narrow : from[row];
  } else
    for (Py_ssize_t row = 0; row < rows->n; row++) {
      const int64_t code = code_at(rows->block, row);
      set_code(block, row, code < 0 ? filler : code);
    }
  block->used = rows->n;
  return block;
}

/* Has a column begin with rows, and a text for those that are None, which its dictionary gets if it lacks it. */
static bool fill_column(Column *column, const Encoded *rows, const char *bytes, Py_ssize_t length) {
  interner_symbol number;
  begin_column(column, share_dictionary(rows->dictionary), share_block(rows->block), rows->n);
  if (!count_missing(rows)) return true;
  interner_status status = add_text(column, bytes, length, &number);
  if (status != INTERNER_OK) return raise_status(status) != NULL;
  Block *block = fill_missing(rows, (int64_t)number, width_of(interner_len(column->dictionary->h)));
  if (block) begin_column(column, share_dictionary(column->dictionary), block, rows->n);
  return block != NULL;
}

PyObject *column_fillna(Column *self, PyObject *value) {
  Py_ssize_t length;
  const char *bytes = utf8_of(value, &length);
  if (!bytes || !is_made(self)) return NULL;
  Encoded rows = hold_rows(self);
  const bool is_part = self->is_part;
  Column *column = make_plain(self);
  if (column && !fill_column(column, &rows, bytes, length)) Py_CLEAR(column);
  if (column) column->is_part = is_part;
  drop_rows(&rows);
  return (PyObject *)column;
}

/* The codes of the rows that are not None. */
static Block *drop_missing(const Encoded *rows, Py_ssize_t missing) {
  if (!missing) return share_block(rows->block);
  /* A place more, because each code is written, and stays if it is of a text. */
  Block *block = new_block(rows->n - missing + 1, rows->block->width);
  if (!block) return NULL;
  Py_ssize_t kept = 0;
  if (block->width == 4) {
    const int32_t *from = (const int32_t *)rows->block->data;
    for (Py_ssize_t row = 0; row < rows->n; row++) {
      ((int32_t *)block->data)[kept] = from[row];
      kept += from[row] >= 0;
    }
  } else
    for (Py_ssize_t row = 0; row < rows->n; row++) {
      block->data[kept] = rows->block->data[row];
      kept += rows->block->data[row] >= 0;
    }
  block->used = kept;
  return block;
}

PyObject *column_dropna(Column *self, PyObject *unused) {
  (void)unused;
  if (!is_made(self)) return NULL;
  Encoded rows = hold_rows(self);
  const Py_ssize_t missing = count_missing(&rows);
  const bool is_part = self->is_part || missing;
  Column *column = make_plain(self);
  Block *block = column ? drop_missing(&rows, missing) : NULL;
  if (block || (column && !rows.n)) {
    begin_column(column, share_dictionary(rows.dictionary), block, rows.n - missing);
    column->is_part = is_part;
  } else Py_CLEAR(column);
  drop_rows(&rows);
  return (PyObject *)column;
}

PyObject *column_nunique(Column *self, PyObject *args, PyObject *keywords) {
  static char *words[] = {"dropna", NULL};
  int drops = true;
  Used used;
  if (!PyArg_ParseTupleAndKeywords(args, keywords, "|$p:nunique", words, &drops) || !is_made(self)) return NULL;
  if (!find_used(self->dictionary, self->block, self->n, &used)) return NULL;
  const Encoded rows = {self->dictionary, self->block, self->n};
  const size_t count = used.count + (!drops && count_missing(&rows));
  drop_used(&used);
  return PyLong_FromSize_t(count);
}

PyObject *column_concat(Column *self, PyObject *other) {
  if (!PyObject_TypeCheck(other, self->state->column)) return raise_type("a column is added to a column, not to ", other, "");
  if (!is_made(self)) return NULL;
  Encoded rows = hold_rows(self);
  Column *column = make_plain(self);
  if (column) begin_column(column, rows.dictionary, rows.block, rows.n);
  else drop_rows(&rows);
  PyObject *done = column ? column_merge(column, other) : NULL;
  if (!done) Py_CLEAR(column);
  Py_XDECREF(done);
  return (PyObject *)column;
}

PyObject *column_inplace_concat(Column *self, PyObject *other) {
  PyObject *done = column_merge(self, other);
  Py_XDECREF(done);
  return done ? Py_NewRef((PyObject *)self) : NULL;
}
