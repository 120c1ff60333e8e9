/* What copies and pickles of interners and columns hold. */
#include "native.h"

PyObject *new_parts(State *state, Dictionary *dictionary, Block *block, Py_ssize_t n) {
  Parts *parts = (Parts *)PyType_GenericAlloc(state->parts, 0);
  if (parts) parts->state = state, parts->dictionary = dictionary, parts->block = block, parts->n = n;
  return (PyObject *)parts;
}

/* All texts, where the library has them end to end. */
static bool copy_joined(const interner_joined *all, PyObject **joined, PyObject **ends) {
  if (!(*ends = PyBytes_FromStringAndSize(NULL, (all->ends_len + all->long_ends_len) * sizeof(uint64_t)))) return false;
  uint64_t *end = (uint64_t *)PyBytes_AsString(*ends);
  for (size_t text = 0; text < all->ends_len; text++) *end++ = all->ends[text];
  for (size_t text = 0; text < all->long_ends_len; text++) *end++ = all->long_ends[text];
  return (*joined = PyBytes_FromStringAndSize(all->bytes, all->bytes_len)) != NULL;
}

bool join_texts(const Dictionary *dictionary, const Used *used, PyObject **joined, PyObject **ends) {
  size_t count = interner_len(dictionary->h), length = 0, number = 0;
  interner_joined all;
  interner_text text;
  if (!used && interner_string_joined(dictionary->h, &all) == INTERNER_OK) return copy_joined(&all, joined, ends);
  if (!(*ends = PyBytes_FromStringAndSize(NULL, (used ? used->count : count) * sizeof(uint64_t)))) return false;
  uint64_t *end = (uint64_t *)PyBytes_AsString(*ends);
  for (size_t row = next_used(used, 0, count); row < count; row = next_used(used, row + 1, count)) {
    if (used) number = row; /* Only a dictionary of a column has texts that are not used: there a number is a row. */
    interner_resolve(dictionary->h, number, &text);
    number = number_after(dictionary->kind, number, text.len);
    *end++ = length += text.len;
  }
  if (!(*joined = PyBytes_FromStringAndSize(NULL, length))) return false;
  char *at = PyBytes_AsString(*joined);
  number = 0;
  for (size_t row = next_used(used, 0, count); row < count; row = next_used(used, row + 1, count)) {
    if (used) number = row;
    interner_resolve(dictionary->h, number, &text);
    number = number_after(dictionary->kind, number, text.len);
    memcpy(at, text.bytes, text.len);
    at += text.len;
  }
  return true;
}

void raise_place(interner_status status, size_t place) {
  if (status == INTERNER_BAD_TEXT) PyErr_Format(PyExc_ValueError, "text %zu is not UTF-8", place);
  else if (status == INTERNER_BAD_ENDS) PyErr_Format(PyExc_ValueError, "%s: end %zu", interner_status_text(status), place);
  else raise_status(status);
}

/* Names the first text that repeats an earlier one: its number is not greater than all before. */
static void raise_repeat(const interner_symbol *numbers, Py_ssize_t n) {
  Py_ssize_t row = 1, first = 0;
  while (row < n && numbers[row] > numbers[row - 1]) row++;
  while (first < row && numbers[first] != numbers[row]) first++;
  PyErr_Format(PyExc_ValueError, "a text repeats an earlier one: text %zd is text %zd again", row, first);
}

bool split_texts(interner *h, const Bytes *joined, const size_t *ends, Py_ssize_t n) {
  interner_symbol *numbers = PyMem_Malloc(n * sizeof *numbers + 1);
  Batch *batch = numbers ? new_batch(NULL, NULL, h, 0) : NULL;
  bool is_done = batch && encode_joined(batch, joined, ends, n, numbers);
  if (!numbers) PyErr_NoMemory();
  if (is_done && interner_len(h) < (size_t)n) {
    raise_repeat(numbers, n);
    is_done = false;
  }
  free_batch(batch);
  PyMem_Free(numbers);
  return is_done;
}

/* A number that a pickle does not have. */
enum { UNKNOWN = -1 };

static bool is_code(int64_t code, size_t distinct) { return code >= -1 && (code < 0 || (size_t)code < distinct); }

Block *check_codes(const Numbers *numbers, size_t distinct) {
  Block *block = new_block(numbers->n, width_of(distinct));
  for (Py_ssize_t row = 0; block && row < numbers->n; row++) {
    int64_t code = numbers->at[row];
    if (is_code(code, distinct) && (code >= 0 || !numbers->is_unsigned)) set_code(block, row, code);
    else {
      PyObject *name = name_number(numbers, row);
      if (name) PyErr_Format(PyExc_ValueError, "row %zd has code %U, and the dictionary has %zu texts", row, name, distinct);
      Py_XDECREF(name);
      drop_block(block);
      return NULL;
    }
  }
  if (block) block->used = numbers->n;
  return block;
}

/* Codes of `width` bytes each. */
static Block *read_codes(const Bytes *bytes, int width, size_t distinct, Py_ssize_t *n) {
  if ((width != 4 && width != 8) || bytes->length % width)
    return PyErr_SetString(PyExc_ValueError, "the codes have another width"), NULL;
  *n = bytes->length / width;
  Block *block = new_block(*n, width);
  if (!block) return NULL;
  memcpy(block->data, bytes->at, bytes->length);
  block->used = *n;
  for (Py_ssize_t row = 0; row < *n; row++)
    if (!is_code(code_at(block, row), distinct)) {
      PyErr_Format(PyExc_ValueError, "row %zd has code %lld, and the dictionary has %zu texts", row, (long long)code_at(block, row), distinct);
      drop_block(block);
      return NULL;
    }
  return block;
}

/* Whether buffers hold as many as the pickle says. One out of band may have been cut short. Former releases wrote no number. */
static bool check_count(const char *what, Py_ssize_t written, Py_ssize_t found) {
  if (written == UNKNOWN || written == found) return true;
  PyErr_Format(PyExc_ValueError, "the pickle is of %zd %s, and its buffers hold %zd", written, what, found);
  return false;
}

/* Reads what `parts_reduce` wrote into parts without anything. */
static bool fill_parts(Parts *self, const Options *options, PyObject *const *given, int width, Py_ssize_t texts, Py_ssize_t rows) {
  Bytes joined = {0}, ends = {0}, codes = {0};
  bool is_done = (self->dictionary = new_dictionary(options)) && read_bytes(given[0], &joined) && read_bytes(given[1], &ends);
  if (is_done && ends.length % sizeof(size_t)) {
    PyErr_SetString(PyExc_ValueError, "the ends have another width");
    is_done = false;
  }
  const Py_ssize_t count = ends.length / sizeof(size_t);
  is_done = is_done && check_count("texts", texts, count) && split_texts(self->dictionary->h, &joined, (const size_t *)ends.at, count);
  if (is_done && given[2] != Py_None) {
    is_done = read_bytes(given[2], &codes) &&
              (self->block = read_codes(&codes, width, interner_len(self->dictionary->h), &self->n)) && check_count("rows", rows, self->n);
    if (is_done && options->kind != INTERNER_STRING) {
      PyErr_SetString(PyExc_ValueError, "the codes have another backend");
      is_done = false;
    }
  }
  drop_bytes(&joined);
  drop_bytes(&ends);
  drop_bytes(&codes);
  return is_done;
}

static PyObject *parts_new(PyTypeObject *type, PyObject *args, PyObject *keywords) {
  PyObject *backend, *hasher, *given[3];
  int width;
  Py_ssize_t texts = UNKNOWN, rows = UNKNOWN;
  Options options;
  State *state = state_of_type(type);
  (void)keywords;
  if (!state || !PyArg_ParseTuple(args, "OOOOOi|nn:_Parts", &backend, &hasher, &given[0], &given[1], &given[2], &width, &texts, &rows))
    return NULL;
  if (!read_backend(backend, &options.kind) || !read_hasher(state, hasher, &options)) return NULL;
  Parts *self = (Parts *)new_parts(state, NULL, NULL, -1);
  if (self && !fill_parts(self, &options, given, width, texts, rows)) Py_CLEAR(self);
  return (PyObject *)self;
}

static void parts_dealloc(Parts *self) {
  PyTypeObject *type = Py_TYPE((PyObject *)self);
  drop_dictionary(self->dictionary);
  drop_block(self->block);
  ((freefunc)PyType_GetSlot(type, Py_tp_free))(self);
  Py_DECREF(type);
}

/* The same texts and codes, shared: whoever changes them copies them first. */
static PyObject *parts_deepcopy(Parts *self, PyObject *memo) {
  (void)memo;
  if (!self->dictionary) return PyErr_SetString(PyExc_ValueError, "these parts were taken"), NULL;
  Parts *copy = (Parts *)new_parts(self->state, share_dictionary(self->dictionary), share_block(self->block), self->n);
  if (copy) copy->is_part = self->is_part;
  return (PyObject *)copy;
}

/* Something with a buffer, as a pickle of a protocol holds it: from 5 on it may be out of band. */
static PyObject *wrap_buffer(PyObject *buffer, long protocol) {
  if (PyErr_Occurred()) return NULL; /* One that was wrapped before failed. */
  if (!buffer || buffer == Py_None) return Py_XNewRef(buffer);
  if (protocol < 5) return PyBytes_FromObject(buffer);
  PyObject *type = import_from("pickle", "PickleBuffer");
  PyObject *wrapped = type ? PyObject_CallFunctionObjArgs(type, buffer, NULL) : NULL;
  Py_XDECREF(type);
  return wrapped;
}

/* Without keys, which are secret: what reads this hashes by the keys of its own process. */
static PyObject *reduce_as(const Parts *self, const Dictionary *dictionary, const Used *used, Block *block, long protocol) {
  PyObject *joined = NULL, *ends = NULL, *reduced = NULL;
  int width = self->n > 0 ? block->width : 4;
  PyObject *codes = self->n < 0 ? Py_NewRef(Py_None) : view_codes(self->state, block, self->n, width);
  if (codes && join_texts(dictionary, used, &joined, &ends))
    reduced = Py_BuildValue("O(ssNNNinn)", (PyObject *)Py_TYPE((PyObject *)self), backend_name(dictionary->kind),
                            hasher_name(dictionary->hasher), wrap_buffer(joined, protocol), wrap_buffer(ends, protocol),
                            wrap_buffer(codes, protocol), width, (Py_ssize_t)(PyBytes_Size(ends) / sizeof(uint64_t)), self->n);
  Py_XDECREF(joined);
  Py_XDECREF(ends);
  Py_XDECREF(codes);
  return reduced;
}

/* Of a part of a longer column only the texts that its rows have. */
static PyObject *reduce_part(const Parts *self, const Dictionary *dictionary, long protocol) {
  Used used;
  if (!find_used(dictionary, self->block, self->n, &used)) return NULL;
  bool has_all = used.count == interner_len(dictionary->h);
  Block *block = has_all ? share_block(self->block) : renumber_used(&used, self->block, self->n);
  PyObject *reduced = block || !self->n ? reduce_as(self, dictionary, has_all ? NULL : &used, block, protocol) : NULL;
  drop_block(block);
  drop_used(&used);
  return reduced;
}

static PyObject *parts_reduce(Parts *self, PyObject *given) {
  long protocol = PyLong_AsLong(given);
  if (protocol == -1 && PyErr_Occurred()) return NULL;
  if (!self->dictionary) return PyErr_SetString(PyExc_ValueError, "these parts were taken"), NULL;
  Dictionary *dictionary = share_dictionary(self->dictionary);
  PyObject *reduced = self->is_part ? reduce_part(self, dictionary, protocol) : reduce_as(self, dictionary, NULL, self->block, protocol);
  drop_dictionary(dictionary);
  return reduced;
}

static PyMethodDef parts_methods[] = {
    {"__deepcopy__", (PyCFunction)parts_deepcopy, METH_O, NULL},
    {"__reduce_ex__", (PyCFunction)parts_reduce, METH_O, NULL},
    {NULL, NULL, 0, NULL}};
static PyType_Slot parts_slots[] = {
    {Py_tp_doc, "What copies and pickles hold."}, {Py_tp_new, parts_new}, {Py_tp_methods, parts_methods}, {Py_tp_dealloc, parts_dealloc}, {0, NULL}};
PyType_Spec parts_spec = {"string_interner._native._Parts", sizeof(Parts), 0, Py_TPFLAGS_DEFAULT, parts_slots};
