/* Many texts or numbers of an interner at once. */
#include "native.h"

PyObject *intern_objects(Interner *self, PyObject *texts, const char *typecode) {
  Rows rows;
  Py_buffer view;
  if (!open_rows(texts, &rows)) return NULL;
  PyObject *array = new_array(self->state, typecode, rows.n, &view);
  if (array) {
    Batch *batch = is_open(self) ? new_batch(self, NULL, self->h, rows.n) : NULL;
    bool is_done = false;
    if (batch) {
      batch->out = view.buf, batch->width = *typecode == 'I' ? 4 : 8;
      is_done = encode_rows(batch, &rows);
    }
    free_batch(batch);
    PyBuffer_Release(&view);
    if (!is_done) Py_CLEAR(array);
  }
  close_rows(&rows);
  return array;
}

static const char *read_typecode(PyObject *given) {
  if (!given || (PyUnicode_Check(given) && !PyUnicode_CompareWithASCIIString(given, "I"))) return "I";
  if (PyUnicode_Check(given) && !PyUnicode_CompareWithASCIIString(given, "Q")) return "Q";
  PyErr_SetString(PyExc_ValueError, "a typecode is 'I' or 'Q'");
  return NULL;
}

/* Interns the parts of bytes, and writes their symbols. The texts before one that fails stay. */
static bool intern_parts(Interner *self, const Joined *joined, interner_symbol *numbers) {
  Batch *batch = is_open(self) ? new_batch(self, NULL, self->h, 0) : NULL;
  if (!batch) return false;
  self->uses++;
  bool is_done = encode_joined(batch, &joined->bytes, ends_of(joined), joined->ends.n, numbers);
  free_batch(batch);
  return is_done;
}

/* The numbers in an array. */
static PyObject *pack_numbers(const State *state, const char *typecode, const interner_symbol *numbers, Py_ssize_t n) {
  Py_buffer view;
  PyObject *array = new_array(state, typecode, n, &view);
  if (!array) return NULL;
  for (Py_ssize_t row = 0; row < n; row++)
    if (*typecode == 'I') ((uint32_t *)view.buf)[row] = numbers[row];
    else ((uint64_t *)view.buf)[row] = numbers[row];
  PyBuffer_Release(&view);
  return array;
}

PyObject *method_intern_column(Interner *self, PyObject *args, PyObject *keywords) {
  static char *words[] = {"joined", "ends", "typecode", "offsets", NULL};
  PyObject *given, *ends = NULL, *given_typecode = NULL, *offsets = NULL, *array = NULL;
  Joined joined;
  if (!are_named(args)) return NULL;
  if (!PyArg_ParseTupleAndKeywords(args, keywords, "O|$OOO:intern_column", words, &given, &ends, &given_typecode, &offsets)) return NULL;
  const char *typecode = read_typecode(given_typecode);
  if (!typecode || !read_joined(given, ends, offsets, &joined)) return NULL;
  interner_symbol *numbers = PyMem_Malloc(joined.ends.n * sizeof *numbers + 1);
  if (!numbers) PyErr_NoMemory();
  else if (intern_parts(self, &joined, numbers)) array = pack_numbers(self->state, typecode, numbers, joined.ends.n);
  PyMem_Free(numbers);
  drop_joined(&joined);
  return array;
}

static PyObject *pack_signed(const State *state, const int64_t *numbers, Py_ssize_t n) {
  Py_buffer view;
  bool is_narrow = true;
  for (Py_ssize_t row = 0; row < n; row++) is_narrow &= numbers[row] == (int32_t)numbers[row];
  PyObject *array = new_array(state, is_narrow ? "i" : "q", n, &view);
  if (!array) return NULL;
  if (!is_narrow) memcpy(view.buf, numbers, n * sizeof *numbers);
  else
    for (Py_ssize_t row = 0; row < n; row++) ((int32_t *)view.buf)[row] = (int32_t)numbers[row];
  PyBuffer_Release(&view);
  return array;
}

/* Encodes texts of which some may be missing, with a batch. The texts stay only if there is memory for their numbers. */
static PyObject *encode_some(Batch *batch, Rows *rows, int64_t missing) {
  int64_t *numbers = PyMem_Malloc(rows->n * sizeof *numbers + 1);
  PyObject *array = NULL;
  if (!numbers) return PyErr_NoMemory();
  batch->takes_none = true, batch->missing = missing;
  batch->out = numbers, batch->width = 8;
  if (encode_rows(batch, rows)) {
    note_changes(batch);
    array = pack_signed(batch->interner->state, numbers, rows->n);
    if (!array) {
      adopt_changes(batch);
      undo_batch(batch);
    }
  }
  PyMem_Free(numbers);
  return array;
}

/* The number of each text, with a sign, and another number for what is missing. */
static PyObject *encode_signed(Interner *self, PyObject *texts, bool only_looks, int64_t missing) {
  Rows rows;
  PyObject *array = NULL;
  if (!open_rows(texts, &rows)) return NULL;
  Batch *batch = is_open(self) ? new_batch(self, NULL, self->h, rows.n) : NULL;
  if (batch) {
    batch->only_looks = only_looks;
    array = encode_some(batch, &rows, missing);
  }
  free_batch(batch);
  close_rows(&rows);
  return array;
}

/* A number that stands for what is missing. */
static bool read_missing(PyObject *given, int64_t *missing) {
  *missing = PyLong_AsLongLong(given);
  return *missing != -1 || !PyErr_Occurred();
}

PyObject *method_get_all(Interner *self, PyObject *args, PyObject *keywords) {
  static char *words[] = {"texts", "missing", NULL};
  PyObject *texts;
  long long missing = -1;
  if (!PyArg_ParseTupleAndKeywords(args, keywords, "O|L:get_all", words, &texts, &missing)) return NULL;
  return encode_signed(self, texts, true, missing);
}

PyObject *method_intern_all(Interner *self, PyObject *args, PyObject *keywords) {
  static char *words[] = {"texts", "typecode", "missing", NULL};
  PyObject *texts, *given = NULL, *given_missing = Py_None;
  int64_t missing;
  if (!PyArg_ParseTupleAndKeywords(args, keywords, "O|$OO:intern_all", words, &texts, &given, &given_missing)) return NULL;
  if (given_missing != Py_None) {
    if (given) return PyErr_SetString(PyExc_ValueError, "a typecode and missing: with missing the numbers have a sign"), NULL;
    return read_missing(given_missing, &missing) && is_open(self) ? encode_signed(self, texts, false, missing) : NULL;
  }
  const char *typecode = read_typecode(given);
  return typecode && is_open(self) ? intern_objects(self, texts, typecode) : NULL;
}

/* Texts by their numbers, so that equal numbers give one str. */
typedef struct Found {
  int64_t number;
  PyObject *text;
} Found;

/* A table of more than twice as many places as different numbers. */
typedef struct Table {
  Found *found;
  size_t mask;
  int64_t limit; /* all numbers are below this */
} Table;

static bool make_table(const Interner *self, Py_ssize_t numbers, Table *table) {
  size_t most = (size_t)numbers < interner_len(self->h) || self->kind == INTERNER_BUFFER ? (size_t)numbers : interner_len(self->h);
  table->limit = self->kind == INTERNER_BUFFER ? INT64_MAX : (int64_t)interner_len(self->h);
  table->mask = 1;
  while (table->mask < 2 * most) table->mask = 2 * table->mask + 1;
  table->found = PyMem_Calloc(table->mask + 1, sizeof *table->found);
  if (!table->found) PyErr_NoMemory();
  return table->found != NULL;
}

static void drop_table(Table *table) {
  for (size_t place = 0; table->found && place <= table->mask; place++) Py_XDECREF(table->found[place].text);
  PyMem_Free(table->found);
}

/* The text of a number, borrowed from the table. */
static PyObject *find_once(const Interner *self, Table *table, int64_t number) {
  size_t place = (uint64_t)number * 0x9E3779B97F4A7C15u >> 20 & table->mask;
  interner_text text;
  if (number < 0 || number >= table->limit) return NULL;
  while (table->found[place].text && table->found[place].number != number) place = (place + 1) & table->mask;
  Found *found = &table->found[place];
  if (!found->text && number <= UINT32_MAX && interner_resolve(self->h, number, &text) == INTERNER_OK)
    found->number = number, found->text = PyUnicode_DecodeUTF8(text.bytes, text.len, NULL);
  return found->text;
}

/* Whether the number of a row is this one. One that does not fit in 8 bytes is none. */
static bool is_number(const Numbers *numbers, Py_ssize_t row, int64_t number) {
  int overflow = 0;
  if (numbers->at[row] != number) return false;
  if (!numbers->exact) return number >= 0 || !numbers->is_unsigned;
  PyObject *exact = exact_number(numbers, row);
  if (exact) PyLong_AsLongLongAndOverflow(exact, &overflow);
  Py_XDECREF(exact);
  return !overflow;
}

/* The text of each number, borrowed from the table, and None for one that stands for what is missing. Returns the first row without
 * one. */
static Py_ssize_t find_texts(Interner *self, const Numbers *numbers, const int64_t *missing, Table *table, PyObject **texts) {
  size_t cuts = self->cuts;
  self->uses++;
  for (Py_ssize_t row = 0; row < numbers->n; row++) {
    if (row && row % ROWS_OF_A_PART == 0) {
      if (PyErr_CheckSignals() || !is_open(self)) return row;
      if (self->cuts != cuts) return PyErr_SetString(PyExc_RuntimeError, "the interner changed during the call"), row;
    }
    if (missing && is_number(numbers, row, *missing)) texts[row] = Py_None;
    else if (!(texts[row] = find_once(self, table, numbers->at[row]))) return row;
  }
  return numbers->n;
}

static PyObject *list_texts(PyObject *const *texts, Py_ssize_t n) {
  PyObject *list = PyList_New(n);
  for (Py_ssize_t row = 0; list && row < n; row++) PyList_SetItem(list, row, Py_NewRef(texts[row]));
  return list;
}

PyObject *method_resolve_all(Interner *self, PyObject *args, PyObject *keywords) {
  static char *words[] = {"", "missing", NULL};
  PyObject *given, *given_missing = Py_None;
  int64_t missing = 0;
  Numbers numbers;
  Table table = {0};
  PyObject *list = NULL;
  if (!PyArg_ParseTupleAndKeywords(args, keywords, "O|$O:resolve_all", words, &given, &given_missing)) return NULL;
  if (given_missing != Py_None && !read_missing(given_missing, &missing)) return NULL;
  if (!read_indices(given, &numbers)) return NULL;
  PyObject **texts = PyMem_Malloc(numbers.n * sizeof *texts + 1);
  if (!texts) PyErr_NoMemory();
  else if (is_open(self) && make_table(self, numbers.n, &table)) {
    Py_ssize_t row = find_texts(self, &numbers, given_missing != Py_None ? &missing : NULL, &table, texts);
    if (row == numbers.n) list = list_texts(texts, row);
    else if (!PyErr_Occurred()) {
      PyObject *number = exact_number(&numbers, row);
      if (number) PyErr_SetObject(PyExc_KeyError, number);
      Py_XDECREF(number);
    }
  }
  drop_table(&table);
  PyMem_Free(texts);
  drop_numbers(&numbers);
  return list;
}
