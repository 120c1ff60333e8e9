/* The values of rows as objects of Python: the distinct ones, these with their counts, and all in an array of numpy; and counts of
 * values without objects. */
#include "native.h"

/* Values that a list or a dict is made of, in memory of C: they are there before what others might find. */
typedef struct Values {
  int64_t *codes; /* -1 for None */
  PyObject **objects;
  size_t n, made;
} Values;

static bool reserve_values(Values *values, size_t most) {
  *values = (Values){PyMem_Malloc(most * sizeof *values->codes + 1), PyMem_Malloc(most * sizeof *values->objects + 1), 0, 0};
  if (!values->codes || !values->objects) PyErr_NoMemory();
  return values->codes && values->objects;
}

static void drop_values(Values *values) {
  for (size_t at = 0; at < values->made; at++) Py_DECREF(values->objects[at]);
  PyMem_Free(values->codes);
  PyMem_Free(values->objects);
}

/* So many rows before its turn a str is fetched from memory, because texts that follow each other lie anywhere. */
enum { AHEAD = 12 };

static void fetch_string(const Dictionary *dictionary, int64_t code) {
  if (code >= 0) __builtin_prefetch(kept_string(dictionary, code), 1);
}

/* Makes the objects, which the dictionary keeps. */
static bool make_values(const Encoded *rows, Values *values) {
  if (!reserve_strings(rows->dictionary)) return false;
  for (; values->made < values->n; values->made++) {
    const int64_t code = values->codes[values->made];
    if (!heed_signals(values->made)) return false;
    if (values->made + AHEAD < values->n) fetch_string(rows->dictionary, values->codes[values->made + AHEAD]);
    PyObject *object = code < 0 ? Py_NewRef(Py_None) : keep_string(rows->dictionary, code);
    if (!object) return false;
    values->objects[values->made] = object;
  }
  return true;
}

/* The codes of rows in order of first appearance. */
static bool find_distinct(const Encoded *rows, Values *values) {
  const size_t distinct = interner_len(rows->dictionary->h) + 1, most = distinct < (size_t)rows->n ? distinct : (size_t)rows->n;
  bool *is_seen = PyMem_Calloc(distinct, sizeof *is_seen);
  const bool is_done = reserve_values(values, most) && is_seen;
  if (!is_seen) PyErr_NoMemory();
  for (Py_ssize_t row = 0; is_done && values->n < distinct && row < rows->n; row++) {
    const int64_t code = code_at(rows->block, row);
    if (is_seen[code + 1]) continue;
    is_seen[code + 1] = true;
    values->codes[values->n++] = code;
  }
  PyMem_Free(is_seen);
  return is_done;
}

/* A list of the values, which it takes over. Nothing runs while it has places without one. */
static PyObject *list_values(Values *values) {
  PyObject *list = PyList_New(values->n);
  for (size_t at = 0; list && at < values->n; at++) PyList_SetItem(list, at, values->objects[at]);
  if (list) values->made = 0;
  return list;
}

PyObject *column_unique(Column *self, PyObject *unused) {
  (void)unused;
  if (!is_made(self)) return NULL;
  Encoded rows = hold_rows(self);
  Values values = {0};
  PyObject *list = find_distinct(&rows, &values) && make_values(&rows, &values) ? list_values(&values) : NULL;
  drop_values(&values);
  drop_rows(&rows);
  return list;
}

/* How many rows have each text, and at the end how many are None. */
static size_t *count_codes(const Encoded *rows) {
  const size_t distinct = interner_len(rows->dictionary->h);
  size_t *counts = PyMem_Calloc(distinct + 1, sizeof *counts);
  if (!counts) return PyErr_NoMemory(), NULL;
  for (Py_ssize_t row = 0; row < rows->n; row++) {
    const int64_t code = code_at(rows->block, row);
    counts[code < 0 ? distinct : (size_t)code]++;
  }
  return counts;
}

/* A text that many rows have. */
typedef struct Frequent {
  size_t count, code;
} Frequent;

static int compare_frequent(const void *one, const void *other) {
  const Frequent *left = one, *right = other;
  if (left->count != right->count) return left->count > right->count ? -1 : 1;
  return left->code < right->code ? -1 : left->code > right->code;
}

/* The places where codes with each count below `many` begin, the most frequent first; at 0 how many have more. */
static void place_counts(const size_t *counts, size_t end, size_t many, size_t *places) {
  for (size_t code = 0; code < end; code++)
    if (counts[code]) places[counts[code] < many ? counts[code] : 0]++;
  size_t place = places[0];
  for (size_t count = many - 1; count; count--) {
    const size_t number = places[count];
    places[count] = place;
    place += number;
  }
}

/* Orders the codes below an end by their counts. Equal ones stay in their order. */
static bool order_codes(const size_t *counts, size_t end, Py_ssize_t rows, Values *values) {
  /* From so many rows on counts are sorted by comparing: at most one text in so many rows has one. */
  enum { MOST = 1 << 14 };
  const size_t many = rows < MOST ? (size_t)rows + 1 : MOST;
  size_t *places = PyMem_Calloc(many, sizeof *places), found = 0;
  if (!places) return PyErr_NoMemory(), false;
  place_counts(counts, end, many, places);
  Frequent *frequent = PyMem_Malloc(places[0] * sizeof *frequent + 1);
  for (size_t code = 0; frequent && code < end; code++) {
    if (!counts[code]) continue;
    if (counts[code] >= many) frequent[found++] = (Frequent){counts[code], code};
    else values->codes[places[counts[code]]++] = (int64_t)code;
    values->n++;
  }
  if (frequent) qsort(frequent, found, sizeof *frequent, compare_frequent);
  else PyErr_NoMemory();
  for (size_t at = 0; at < found; at++) values->codes[at] = (int64_t)frequent[at].code;
  PyMem_Free(places);
  PyMem_Free(frequent);
  return frequent != NULL;
}

/* A dict of the values and their counts. */
static PyObject *pair_values(const Values *values, const size_t *counts) {
  PyObject *dict = PyDict_New();
  for (size_t at = 0; dict && at < values->n; at++) {
    if (at + AHEAD < values->n) __builtin_prefetch(values->objects[at + AHEAD], 1);
    PyObject *count = heed_signals(at) ? PyLong_FromSize_t(counts[values->codes[at]]) : NULL;
    if (!count || PyDict_SetItem(dict, values->objects[at], count)) Py_CLEAR(dict);
    Py_XDECREF(count);
  }
  return dict;
}

/* How often each text and None occur, with the codes of the most frequent values, at most so many. The code of None is behind those of
 * the texts. */
static size_t *rank_values(const Encoded *rows, bool drops_none, size_t most, Values *values) {
  const size_t end = interner_len(rows->dictionary->h) + !drops_none;
  size_t *counts = count_codes(rows);
  if (counts && reserve_values(values, end < (size_t)rows->n ? end : (size_t)rows->n) && order_codes(counts, end, rows->n, values)) {
    if (values->n > most) values->n = most;
    return counts;
  }
  PyMem_Free(counts);
  return NULL;
}

/* A dict of the most frequent values, at most so many, and their counts. */
static PyObject *count_values(const Encoded *rows, bool drops_none, size_t most) {
  const size_t distinct = interner_len(rows->dictionary->h);
  Values values = {0};
  size_t *counts = rank_values(rows, drops_none, most, &values);
  PyObject *dict = NULL;
  if (counts) {
    /* The code of None is -1 to whoever makes the objects. */
    size_t none = 0;
    while (none < values.n && values.codes[none] != (int64_t)distinct) none++;
    if (none < values.n) values.codes[none] = -1;
    const bool is_done = make_values(rows, &values);
    if (none < values.n) values.codes[none] = (int64_t)distinct;
    if (is_done) dict = pair_values(&values, counts);
  }
  PyMem_Free(counts);
  drop_values(&values);
  return dict;
}

/* Reads what both calls take: whether None is left out, and how many values are wanted at most. */
static bool read_wanted(PyObject *args, bool *drops_none, size_t *most) {
  PyObject *drops, *given;
  if (!PyArg_ParseTuple(args, "OO", &drops, &given)) return false;
  const int is_true = PyObject_IsTrue(drops);
  if (is_true < 0) return false;
  /* A number that is too great means all, too. */
  const Py_ssize_t number = given == Py_None ? PY_SSIZE_T_MAX : PyNumber_AsSsize_t(given, NULL);
  if (number < 0 && !PyErr_Occurred()) PyErr_SetString(PyExc_ValueError, "most is less than 0");
  *drops_none = is_true, *most = (size_t)number;
  return !PyErr_Occurred();
}

PyObject *column_value_counts(Column *self, PyObject *args) {
  bool drops_none;
  size_t most;
  if (!read_wanted(args, &drops_none, &most) || !is_made(self)) return NULL;
  Encoded rows = hold_rows(self);
  PyObject *dict = count_values(&rows, drops_none, most);
  drop_rows(&rows);
  return dict;
}

/* A column of values, under the dictionary of the rows. */
static Column *make_ranked(Column *like, const Encoded *rows, const Values *values) {
  const int64_t none = (int64_t)interner_len(rows->dictionary->h);
  Column *column = make_plain(like);
  Block *block = column ? new_block(values->n, width_of(none)) : NULL;
  if (!block) return Py_XDECREF((PyObject *)column), NULL;
  for (size_t at = 0; at < values->n; at++) set_code(block, at, values->codes[at] == none ? -1 : values->codes[at]);
  block->used = values->n;
  begin_column(column, share_dictionary(rows->dictionary), block, values->n);
  column->is_part = like->is_part || column->n < rows->n;
  return column;
}

/* The counts of values, in an array. */
static PyObject *list_counts(const State *state, const Values *values, const size_t *counts) {
  Py_buffer view;
  PyObject *array = new_array(state, "Q", values->n, &view);
  for (size_t at = 0; array && at < values->n; at++) ((uint64_t *)view.buf)[at] = counts[values->codes[at]];
  if (array) PyBuffer_Release(&view);
  return array;
}

PyObject *column_frequencies(Column *self, PyObject *args) {
  bool drops_none;
  size_t most;
  if (!read_wanted(args, &drops_none, &most) || !is_made(self)) return NULL;
  Encoded rows = hold_rows(self);
  Values values = {0};
  size_t *counts = rank_values(&rows, drops_none, most, &values);
  Column *column = counts ? make_ranked(self, &rows, &values) : NULL;
  PyObject *array = column ? list_counts(self->state, &values, counts) : NULL, *pair = array ? PyTuple_Pack(2, column, array) : NULL;
  Py_XDECREF((PyObject *)column);
  Py_XDECREF(array);
  PyMem_Free(counts);
  drop_values(&values);
  drop_rows(&rows);
  return pair;
}

/* Writes a row into a place, and lets go of what was there, which may run any code. */
static bool write_row(const Encoded *rows, Py_ssize_t row, PyObject **place) {
  const int64_t code = code_at(rows->block, row);
  PyObject *kept = code < 0 ? Py_None : kept_string(rows->dictionary, code), *before = *place;
  if (!(*place = kept ? Py_NewRef(kept) : keep_string(rows->dictionary, code))) return *place = before, false;
  Py_XDECREF(before);
  return true;
}

/* Writes rows into places from one on, up to the first that has no str yet, or is None, or whose place has another object than None.
 * So no code runs, and the strings stay where they are. */
static inline __attribute__((always_inline)) Py_ssize_t write_some(const Encoded *rows, Py_ssize_t row, PyObject **places, bool is_narrow) {
  PyObject *const *texts = rows->dictionary->texts;
  const size_t count = rows->dictionary->texts_count;
  const int32_t *narrow = (const int32_t *)rows->block->data;
  const int64_t *wide = rows->block->data;
  for (; row < rows->n; row++) {
    const size_t code = (size_t)(is_narrow ? narrow[row] : wide[row]);
    const size_t ahead = row + AHEAD < rows->n ? (size_t)(is_narrow ? narrow[row + AHEAD] : wide[row + AHEAD]) : count;
    if (ahead < count) __builtin_prefetch(texts[ahead], 1);
    if (code >= count || !texts[code] || places[row] != Py_None) return row;
    places[row] = Py_NewRef(texts[code]);
    Py_DECREF(Py_None);
  }
  return row;
}

/* Writes the rows into the places of objects. */
static bool write_rows(const Encoded *rows, PyObject **places) {
  for (Py_ssize_t row = 0; row < rows->n; row++) {
    row = rows->block->width == 4 ? write_some(rows, row, places, true) : write_some(rows, row, places, false);
    if (row < rows->n && !write_row(rows, row, &places[row])) return false;
  }
  return true;
}

PyObject *column_write(Column *self, PyObject *array) {
  Py_buffer view;
  if (!is_made(self) || PyObject_GetBuffer(array, &view, PyBUF_CONTIG | PyBUF_FORMAT)) return NULL;
  Encoded rows = hold_rows(self);
  bool is_done = view.ndim == 1 && view.format && !strcmp(view.format, "O") && view.len / (Py_ssize_t)sizeof(PyObject *) == rows.n;
  if (!is_done) PyErr_SetString(PyExc_TypeError, "rows are written into an array of as many objects");
  is_done = is_done && keep_strings(rows.dictionary) && write_rows(&rows, view.buf);
  PyBuffer_Release(&view);
  drop_rows(&rows);
  return is_done ? Py_NewRef(Py_None) : NULL;
}
