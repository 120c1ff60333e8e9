/* What a column shows of itself. */
#include "native.h"

/* How many rows are shown at each end, and how many bytes of a text at most. */
enum { ROWS_OF_AN_END = 5, MOST_BYTES = 60 };

/* How many bytes at the front of a long text are whole characters. */
static size_t front_of_text(const interner_text *text) {
  size_t length = MOST_BYTES;
  while (((unsigned char)text->bytes[length] & 0xC0) == 0x80) length--;
  return length;
}

/* The value of a row as Python writes it, and of a long text its front. Runs no Python code. */
static PyObject *show_row(const Encoded *rows, Py_ssize_t row) {
  const int64_t code = code_at(rows->block, row);
  interner_text text;
  if (code < 0) return PyUnicode_FromString("None");
  interner_resolve(rows->dictionary->h, code, &text);
  const bool is_long = text.len > MOST_BYTES;
  PyObject *front = PyUnicode_DecodeUTF8(text.bytes, is_long ? front_of_text(&text) : text.len, NULL);
  PyObject *shown = front ? PyUnicode_FromFormat(is_long ? "%R.." : "%R", front) : NULL;
  Py_XDECREF(front);
  return shown;
}

/* Appends something to a text, which is null after an error. Takes over both. */
static PyObject *join(PyObject *shown, PyObject *more) {
  PyObject *joined = shown && more ? PyUnicode_Concat(shown, more) : NULL;
  Py_XDECREF(shown);
  Py_XDECREF(more);
  return joined;
}

/* The first and the last rows, behind a colon if there are any. */
static PyObject *show_rows(const Encoded *rows) {
  const bool shows_all = rows->n <= 2 * ROWS_OF_AN_END;
  PyObject *shown = PyUnicode_FromString("");
  for (Py_ssize_t row = 0; shown && row < rows->n; row++) {
    if (!shows_all && row == ROWS_OF_AN_END) {
      shown = join(shown, PyUnicode_FromString(", .."));
      row = rows->n - ROWS_OF_AN_END;
    }
    shown = join(shown, PyUnicode_FromString(row ? ", " : ": "));
    shown = shown ? join(shown, show_row(rows, row)) : NULL;
  }
  return shown;
}

PyObject *column_repr(Column *self) {
  PyObject *name = PyType_GetName(Py_TYPE((PyObject *)self)), *repr = NULL;
  if (name && self->dictionary) {
    Encoded rows = hold_rows(self);
    PyObject *shown = show_rows(&rows);
    const size_t distinct = interner_len(rows.dictionary->h);
    if (shown) repr = PyUnicode_FromFormat("<%U of %zd rows, %zu distinct texts%U>", name, rows.n, distinct, shown);
    Py_XDECREF(shown);
    drop_rows(&rows);
  } else if (name) repr = PyUnicode_FromFormat("<%U that was not initialized>", name);
  Py_XDECREF(name);
  return repr;
}
