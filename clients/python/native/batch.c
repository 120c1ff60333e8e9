/* Encoding many texts. */
#include "native.h"

bool open_rows_in_place(PyObject *given, Rows *rows) {
  *rows = (Rows){0};
  if (PyList_CheckExact(given) || PyTuple_CheckExact(given)) {
    rows->sequence = Py_NewRef(given), rows->n = PySequence_Size(given);
    return true;
  }
  if (!PyObject_CheckBuffer(given)) return false;
  if (PyObject_GetBuffer(given, &rows->view, PyBUF_FULL_RO)) {
    PyErr_Clear();
    return false;
  }
  if (rows->view.ndim == 1 && rows->view.format && !strcmp(rows->view.format, "O") && !rows->view.suboffsets) {
    rows->n = rows->view.shape[0];
    return true;
  }
  PyBuffer_Release(&rows->view);
  return false;
}

bool are_many(PyObject *given) {
  /* No table is an iterator, and to look for a name that is not there takes longer than a few texts do. */
  if (PyList_CheckExact(given) || PyTuple_CheckExact(given) || PyIter_Check(given)) return true;
  if (PyUnicode_Check(given))
    PyErr_SetString(PyExc_TypeError, "a str is one text, and no rows: write [text], or list(text) for its letters");
  /* A class has these, as those of pandas, polars and Arrow do. A Series may have a row with such a name. */
  else if (PyObject_HasAttrString((PyObject *)Py_TYPE(given), "columns"))
    raise_type("a ", given, " has columns, of which one has rows that are texts: choose it, as table[name]");
  else if (PyObject_HasAttrString((PyObject *)Py_TYPE(given), "levels"))
    raise_type("a ", given, " has levels, of which one has rows that are texts: choose it, as index.get_level_values(0)");
  return !PyErr_Occurred();
}

PyObject *read_values(PyObject *walk, Py_ssize_t most) {
  PyObject *values = PyList_New(0), *value;
  while (values && PyList_Size(values) < most && (value = PyIter_Next(walk))) {
    if (PyList_Append(values, value) || !heed_signals(PyList_Size(values))) Py_CLEAR(values);
    Py_DECREF(value);
  }
  if (values && PyErr_Occurred()) Py_CLEAR(values);
  return values;
}

static PyObject *read_all(PyObject *given) {
  PyObject *walk = PyObject_GetIter(given), *values = walk ? read_values(walk, PY_SSIZE_T_MAX) : NULL;
  Py_XDECREF(walk);
  return values;
}

PyObject *read_tuple(PyObject *given) {
  if (PyTuple_CheckExact(given) || PyList_CheckExact(given)) return PySequence_Tuple(given);
  PyObject *values = read_all(given), *tuple = values ? PyList_AsTuple(values) : NULL;
  Py_XDECREF(values);
  return tuple;
}

bool open_rows(PyObject *given, Rows *rows) {
  PyObject *values = are_many(given) ? without_mask(given, Py_None) : NULL;
  bool is_open = values && open_rows_in_place(values, rows);
  if (values && !is_open) {
    PyObject *list = read_all(values);
    is_open = list && open_rows_in_place(list, rows);
    Py_XDECREF(list);
  }
  Py_XDECREF(values);
  return is_open;
}

void close_rows(Rows *rows) {
  if (rows->sequence) Py_CLEAR(rows->sequence);
  else PyBuffer_Release(&rows->view);
}

/* Whether a handler of a signal left the rows as long as they were. */
static bool has_its_length(const Rows *rows) {
  if (!rows->sequence || PySequence_Size(rows->sequence) == rows->n) return true;
  PyErr_SetString(PyExc_RuntimeError, "the list changed its length during the call");
  return false;
}

/* Some rows. Each is borrowed, and stays until Python code runs. It is null in a list or tuple that others are still filling. */
static void read_part(const Rows *rows, Py_ssize_t at, Py_ssize_t n, PyObject **part) {
  if (!rows->sequence) {
    const char *from = rows->view.buf;
    for (Py_ssize_t row = 0; row < n; row++) {
      memcpy(&part[row], from + (at + row) * rows->view.strides[0], sizeof *part);
      if (!part[row]) part[row] = Py_None; /* as numpy reads it */
    }
  } else if (PyList_Check(rows->sequence))
    for (Py_ssize_t row = 0; row < n; row++) part[row] = PyList_GetItem(rows->sequence, at + row);
  else
    for (Py_ssize_t row = 0; row < n; row++) part[row] = PyTuple_GetItem(rows->sequence, at + row);
}

/* How many bits the place of an object has in a table for so many rows. */
static int bits_for(Py_ssize_t rows) {
  enum { LEAST = 3, MOST = 12 };
  int bits = LEAST;
  while (bits < MOST && (Py_ssize_t)1 << bits < rows) bits++;
  return bits;
}

/* Empties the part of the table that is in use. All of it would take longer than a few rows. */
static void clear_seen(Batch *batch) { memset(batch->seen, 0, sizeof *batch->seen << batch->seen_bits); }

Batch *new_batch(Interner *owner, Column *column, interner *h, Py_ssize_t rows) {
  int bits = bits_for(rows);
  Batch *batch = PyMem_Malloc(sizeof *batch + (sizeof *batch->seen << bits));
  if (!batch) return PyErr_NoMemory(), NULL;
  *batch = (Batch){.interner = owner, .column = column, .h = h, .most_bits = bits};
  batch->kept = batch->count = interner_len(h);
  return batch;
}

void free_batch(Batch *batch) {
  if (batch) drop_block(batch->block);
  PyMem_Free(batch);
}

bool reserve_batch(Batch *batch, Py_ssize_t more) {
  int width = width_of(interner_len(batch->h)) > batch->width ? width_of(interner_len(batch->h)) : batch->width;
  if (!reserve_codes(&batch->block, batch->first, more, width)) return false;
  batch->out = batch->block->data, batch->width = width;
  return true;
}

/* How often others added texts. */
static size_t uses_of(const Batch *batch) {
  if (batch->interner) return batch->interner->uses;
  return batch->column ? batch->column->dictionary->uses : 0;
}

void note_changes(Batch *batch) {
  batch->count = interner_len(batch->h);
  batch->uses = uses_of(batch);
  if (batch->interner) batch->cuts = batch->interner->cuts;
  if (batch->column) batch->begins = batch->column->begins;
}

/* Whether all that was encoded still holds. */
static bool still_holds(const Batch *batch) {
  if (batch->interner) return batch->interner->h && batch->interner->cuts == batch->cuts;
  return !batch->column || batch->column->begins == batch->begins;
}

bool adopt_changes(Batch *batch) {
  if (!still_holds(batch)) {
    batch->h = NULL;
    if (PyErr_Occurred() || (batch->interner && !is_open(batch->interner))) return false;
    PyErr_SetString(PyExc_RuntimeError, "a thread, a handler or an iterator changed this during the call");
    return false;
  }
  if (batch->column) batch->h = batch->column->dictionary->h;
  bool is_seen = batch->interner ? shows_more(batch->interner, batch->kept)
                                 : batch->column && batch->column->dictionary->texts_count > batch->kept;
  if (is_seen || uses_of(batch) != batch->uses || interner_len(batch->h) != batch->count) batch->kept = interner_len(batch->h);
  return !PyErr_Occurred();
}

void begin_batch(Batch *batch) { batch->collects = PyGC_Disable(); }

void end_batch(Batch *batch) {
  if (batch->collects) PyGC_Enable();
  batch->collects = false;
}

/* Lets other threads run. That is for what nobody else has, and for what they have been told of: to them all else is one step. */
static void let_others_run(void) {
  Py_BEGIN_ALLOW_THREADS
  Py_END_ALLOW_THREADS
}

bool resume_batch(Batch *batch) {
  /* Another batch, which others began, must not undo texts whose numbers this one has. */
  if (batch->interner) batch->interner->uses++;
  note_changes(batch);
  end_batch(batch);
  PyErr_CheckSignals(); /* What it raises is found by adopt_changes. */
  if (batch->is_shared || (!batch->interner && !batch->column)) let_others_run();
  begin_batch(batch);
  clear_seen(batch);
  return adopt_changes(batch);
}

void undo_batch(Batch *batch) {
  if (!batch->h || batch->only_looks || (batch->column && batch->column->dictionary->references > 1)) return;
  interner_truncate(batch->h, batch->kept);
}

bool put_number(Batch *batch, Py_ssize_t row, int64_t number) {
  if (batch->width == 4 && batch->block && number >= MOST_NARROW) {
    /* The dictionary has more texts now than codes of 4 bytes. */
    if (!reserve_codes(&batch->block, row, batch->block->room - row, 8)) return false;
    batch->out = batch->block->data, batch->width = 8;
  }
  if (batch->width == 4) ((uint32_t *)batch->out)[row] = (uint32_t)number;
  else ((int64_t *)batch->out)[row] = number;
  return true;
}

/* Interns some of the texts between ends, with room for as many ends. */
static bool encode_ends(Batch *batch, const Bytes *joined, const size_t *ends, size_t at, size_t n, interner_symbol *numbers,
                        size_t *room) {
  size_t begin = at ? ends[at - 1] : 0, done;
  /* An end that is less than the first byte becomes a great one, which the library rejects. */
  for (size_t text = 0; text < n; text++) room[text] = ends[at + text] - begin;
  interner_status status =
      interner_intern_joined(batch->h, joined->at + begin, joined->length - begin, room, n, numbers + at, n, &done);
  if (status != INTERNER_OK) raise_place(status, at + done);
  return status == INTERNER_OK;
}

bool encode_joined(Batch *batch, const Bytes *joined, const size_t *ends, size_t n, interner_symbol *numbers) {
  const size_t most = n < ROWS_OF_A_PART ? n : ROWS_OF_A_PART;
  size_t *room = PyMem_Malloc(most * sizeof *room + 1);
  if (!room) return PyErr_NoMemory(), false;
  bool is_done = true;
  begin_batch(batch);
  for (size_t at = 0; is_done && at < n; at += most) {
    if (!at || (is_done = resume_batch(batch)))
      is_done = encode_ends(batch, joined, ends, at, n - at < most ? n - at : most, numbers, room);
    else undo_batch(batch);
  }
  end_batch(batch);
  PyMem_Free(room);
  return is_done;
}

/* What a value is that pandas counts as missing, or null. */
static const char *name_missing(PyObject *object) {
  if (PyFloat_Check(object)) return PyFloat_AsDouble(object) != PyFloat_AsDouble(object) ? "NaN" : NULL;
  PyObject *name = PyType_GetName(Py_TYPE(object));
  const char *missing = !name                                                  ? NULL
                        : !PyUnicode_CompareWithASCIIString(name, "NAType")  ? "NA"
                        : !PyUnicode_CompareWithASCIIString(name, "NaTType") ? "NaT"
                                                                               : NULL;
  Py_XDECREF(name);
  return missing;
}

static bool raise_row(const Batch *batch, Py_ssize_t row, PyObject *object) {
  const char *missing = name_missing(object), *maker = batch->column ? "Column.from_pandas" : "values.where(values.notna(), None)";
  PyObject *name = PyErr_Occurred() ? NULL : PyType_GetName(Py_TYPE(object));
  PyObject *advice = !name ? NULL : missing ? PyUnicode_FromFormat(": it is %s, which %s makes None", missing, maker) : PyUnicode_FromString("");
  if (advice)
    PyErr_Format(PyExc_TypeError, "%s %zd is of type %U, not str%s%U", batch->column ? "row" : "text", row, name,
                 batch->takes_none ? " or None" : "", advice);
  Py_XDECREF(advice);
  Py_XDECREF(name);
  return false;
}

/* Finds the number of a text, or adds the text. */
static bool encode_text(Batch *batch, Utf8 *utf8, Py_ssize_t row, PyObject *text, int64_t *number) {
  Py_ssize_t length;
  interner_symbol found;
  if (!PyUnicode_Check(text)) return raise_row(batch, row, text);
  const char *bytes = read_utf8(utf8, text, &length);
  *number = batch->missing;
  if (!bytes) {
    if (!batch->only_looks || !PyErr_ExceptionMatches(PyExc_UnicodeEncodeError)) return false;
    PyErr_Clear();
    return true;
  }
  interner_status status = batch->only_looks ? interner_get_utf8(batch->h, bytes, length, &found)
                     : batch->column   ? add_text(batch->column, bytes, length, &found)
                                       : interner_get_or_intern_utf8(batch->h, bytes, length, &found);
  if (status == INTERNER_OK) *number = (int64_t)found;
  else if (status != INTERNER_NOT_FOUND) raise_status(status);
  return status == INTERNER_OK || status == INTERNER_NOT_FOUND;
}

/* Encodes some objects. A small table has the number of the last object at each place. That is sound because the caller holds the
 * objects, so an address means one text until Python code runs. */
static bool encode_part(Batch *batch, Utf8 *utf8, PyObject *const *part, Py_ssize_t at, Py_ssize_t n) {
  enum { AHEAD = 8 };
  for (Py_ssize_t row = 0; row < n; row++) {
    PyObject *text = part[row];
    int64_t number;
    if (!text) return PyErr_Format(PyExc_SystemError, "row %zd is not there yet", at + row), false;
    if (row + AHEAD < n) __builtin_prefetch((const char *)part[row + AHEAD] + 48);
    Seen *seen = &batch->seen[((uintptr_t)text >> 4) * 0x9E3779B97F4A7C15u >> (64 - batch->seen_bits)];
    if (seen->object == text) number = seen->number;
    else if (batch->takes_none && text == Py_None) number = batch->missing;
    else {
      if (!encode_text(batch, utf8, at + row, text, &number)) return false;
      if (number == (uint32_t)number) *seen = (Seen){text, (uint32_t)number};
    }
    if (!put_number(batch, at + row, number)) return false;
  }
  return true;
}

bool encode_rows(Batch *batch, Rows *rows) {
  enum { AT_ONCE = 1024 };
  PyObject *part[AT_ONCE];
  Utf8 utf8;
  utf8.likely = 0;
  bool is_done = has_its_length(rows);
  int bits = bits_for(rows->n);
  batch->seen_bits = bits < batch->most_bits ? bits : batch->most_bits;
  clear_seen(batch);
  begin_batch(batch);
  for (Py_ssize_t at = 0; is_done && at < rows->n; at += AT_ONCE) {
    if (at && at % ROWS_OF_A_PART == 0) is_done = resume_batch(batch) && has_its_length(rows);
    if (!is_done) break;
    Py_ssize_t n = rows->n - at < AT_ONCE ? rows->n - at : AT_ONCE;
    read_part(rows, at, n, part);
    utf8.is_asked = utf8.is_kept = false;
    is_done = encode_part(batch, &utf8, part, batch->first + at, n);
    if (batch->column) batch->h = batch->column->dictionary->h;
  }
  if (!is_done) undo_batch(batch);
  else if (batch->interner) batch->interner->uses++;
  else if (batch->column) batch->column->dictionary->uses++;
  end_batch(batch);
  return is_done;
}
