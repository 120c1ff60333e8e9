/* Columns of a dictionary and codes, and what a column is taken apart into. */
#include "native.h"

bool add_distinct(interner *h, PyObject *texts) {
  Rows rows;
  if (!open_rows(texts, &rows)) return false;
  Batch *batch = new_batch(NULL, NULL, h, rows.n);
  uint32_t *numbers = PyMem_Malloc(rows.n * sizeof *numbers + 1);
  if (batch && !numbers) PyErr_NoMemory();
  bool is_done = false;
  if (batch && numbers) {
    batch->out = numbers, batch->width = 4;
    is_done = encode_rows(batch, &rows);
  }
  if (is_done && interner_len(h) < (size_t)rows.n) {
    Py_ssize_t row = 0;
    while (numbers[row] == row) row++;
    PyErr_Format(PyExc_ValueError, "entry %zd of the dictionary repeats entry %zu", row, (size_t)numbers[row]);
    is_done = false;
  }
  PyMem_Free(numbers);
  free_batch(batch);
  close_rows(&rows);
  return is_done;
}

/* A column of a class with a dictionary, which it takes over, and codes. */
static PyObject *make_of_parts(State *state, PyTypeObject *type, Dictionary *dictionary, PyObject *given) {
  Numbers numbers;
  Column *column = NULL;
  PyObject *minus_one = PyLong_FromLong(-1), *codes = minus_one ? without_mask(given, minus_one) : NULL;
  Py_XDECREF(minus_one);
  if (codes && read_integers(codes, &numbers)) {
    Block *block = check_codes(&numbers, interner_len(dictionary->h));
    if (block && (column = make_column(state, type))) begin_column(column, dictionary, block, numbers.n);
    else drop_block(block);
    drop_numbers(&numbers);
  }
  Py_XDECREF(codes);
  if (!column) drop_dictionary(dictionary);
  return (PyObject *)column;
}

PyObject *column_from_parts(PyTypeObject *type, PyObject *args, PyObject *keywords) {
  static char *words[] = {"dictionary", "codes", "hasher", NULL};
  PyObject *texts, *codes, *hasher = NULL;
  Options options = {.kind = INTERNER_STRING};
  State *state = state_of_type(type);
  if (!state || !PyArg_ParseTupleAndKeywords(args, keywords, "OO|$O:from_parts", words, &texts, &codes, &hasher)) return NULL;
  Dictionary *dictionary = read_hasher(state, hasher, &options) ? new_dictionary(&options) : NULL;
  if (!dictionary) return NULL;
  if (add_distinct(dictionary->h, texts)) return make_of_parts(state, type, dictionary, codes);
  drop_dictionary(dictionary);
  return NULL;
}

/* Adds distinct texts, which are end to end in a buffer, to a handle that nobody else has. */
static bool add_joined(interner *h, PyObject *given, PyObject *ends, PyObject *offsets) {
  Joined joined;
  if (!read_joined(given, ends, offsets, &joined)) return false;
  bool is_done = split_texts(h, &joined.bytes, ends_of(&joined), joined.ends.n);
  drop_joined(&joined);
  return is_done;
}

PyObject *column_from_buffers(PyTypeObject *type, PyObject *args, PyObject *keywords) {
  static char *words[] = {"joined", "ends", "codes", "hasher", "offsets", NULL};
  PyObject *joined, *ends = NULL, *codes = NULL, *hasher = NULL, *offsets = NULL;
  Options options = {.kind = INTERNER_STRING};
  State *state = state_of_type(type);
  if (!state || !are_named(args)) return NULL;
  if (!PyArg_ParseTupleAndKeywords(args, keywords, "O|$OOOO:from_buffers", words, &joined, &ends, &codes, &hasher, &offsets)) return NULL;
  if (!codes) return PyErr_SetString(PyExc_TypeError, "from_buffers wants codes"), NULL;
  Dictionary *dictionary = read_hasher(state, hasher, &options) ? new_dictionary(&options) : NULL;
  if (!dictionary) return NULL;
  if (add_joined(dictionary->h, joined, ends, offsets)) return make_of_parts(state, type, dictionary, codes);
  drop_dictionary(dictionary);
  return NULL;
}

PyObject *column_with_dictionary(PyTypeObject *type, PyObject *args) {
  PyObject *other, *codes;
  State *state = state_of_type(type);
  if (!state || !PyArg_ParseTuple(args, "O!O:_with_dictionary", state->column, &other, &codes) || !is_made((Column *)other)) return NULL;
  return make_of_parts(state, type, share_dictionary(((Column *)other)->dictionary), codes);
}

PyObject *column_buffers(Column *self, PyObject *unused) {
  (void)unused;
  PyObject *joined = NULL, *ends = NULL, *all = NULL;
  if (!is_made(self)) return NULL;
  /* The dictionary first, because a collection may give the column another while the view is made. */
  Dictionary *dictionary = share_dictionary(self->dictionary);
  dictionary->uses++;
  PyObject *codes = column_codes(self, NULL);
  if (codes && join_texts(dictionary, NULL, &joined, &ends)) all = PyTuple_Pack(3, joined, ends, codes);
  drop_dictionary(dictionary);
  Py_XDECREF(joined);
  Py_XDECREF(ends);
  Py_XDECREF(codes);
  return all;
}

/* The texts of a dictionary, each with a newline. Raises ValueError for a text that has one itself. */
static PyObject *join_lines(const Dictionary *dictionary) {
  size_t count = interner_len(dictionary->h), length = count;
  interner_text text;
  for (size_t code = 0; code < count; code++) {
    interner_resolve(dictionary->h, code, &text);
    if (text.len && memchr(text.bytes, '\n', text.len)) return PyErr_Format(PyExc_ValueError, "text %zu has a newline", code);
    length += text.len;
  }
  PyObject *joined = PyBytes_FromStringAndSize(NULL, length);
  char *at = joined ? PyBytes_AsString(joined) : NULL;
  for (size_t code = 0; joined && code < count; code++) {
    interner_resolve(dictionary->h, code, &text);
    memcpy(at, text.bytes, text.len);
    at += text.len;
    *at++ = '\n';
  }
  return joined;
}

PyObject *column_lines(Column *self, PyObject *unused) {
  (void)unused;
  if (!is_made(self)) return NULL;
  /* The dictionary first, because a collection may give the column another while the view is made. */
  Dictionary *dictionary = share_dictionary(self->dictionary);
  dictionary->uses++;
  PyObject *codes = column_codes(self, NULL), *lines = codes ? join_lines(dictionary) : NULL;
  PyObject *both = lines ? PyTuple_Pack(2, lines, codes) : NULL;
  drop_dictionary(dictionary);
  Py_XDECREF(codes);
  Py_XDECREF(lines);
  return both;
}

/* The checksum of numbers of 4 bytes each that a folder of dictcol has: FNV-1a over numbers. */
PyObject *column_checksum(PyObject *unused, PyObject *given) {
  Bytes bytes;
  uint64_t checksum = 14695981039346656037u;
  (void)unused;
  if (!read_bytes(given, &bytes)) return NULL;
  for (Py_ssize_t at = 0; bytes.length - at >= (Py_ssize_t)sizeof(uint32_t); at += sizeof(uint32_t)) {
    uint32_t number;
    memcpy(&number, bytes.at + at, sizeof number);
    checksum = (checksum ^ number) * 1099511628211u;
  }
  drop_bytes(&bytes);
  return PyLong_FromUnsignedLongLong(checksum);
}

PyObject *column_parts(Column *self, void *unused) {
  (void)unused;
  Parts *parts = (Parts *)new_parts(self->state, NULL, NULL, 0);
  if (parts && is_made(self)) {
    parts->dictionary = share_dictionary(self->dictionary);
    parts->dictionary->uses++;
    parts->block = share_block(self->block), parts->n = self->n, parts->is_part = self->is_part;
  } else Py_CLEAR(parts);
  return (PyObject *)parts;
}

int column_set_parts(Column *self, PyObject *value, void *unused) {
  (void)unused;
  Parts *parts = (Parts *)value;
  if (!value || !PyObject_TypeCheck(value, self->state->parts) || parts->n < 0)
    return PyErr_SetString(PyExc_TypeError, "no parts of a column"), -1;
  begin_column(self, share_dictionary(parts->dictionary), share_block(parts->block), parts->n);
  self->is_part = parts->is_part;
  return 0;
}
