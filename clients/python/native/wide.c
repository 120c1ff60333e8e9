/* Rows of an array of numpy whose characters have 4 bytes each, without a str of each. */
#include "native.h"

enum { WIDTH = 4 };

/* Such an array. Each character is read once, because others may change it. */
typedef struct Wide {
  Py_buffer view;
  Py_ssize_t n, length; /* rows, and characters of each: those that are missing at its end are 0 */
  bool is_swapped;
} Wide;

/* Whether a format is that of so many characters, as `3w`, which may stand behind a byte order. */
static bool is_wide(const char *format, Py_ssize_t length) {
  size_t number = 0;
  if (*format && strchr("@=<>", *format)) format++;
  while (*format >= '0' && *format <= '9' && number <= INT32_MAX) number = 10 * number + (*format++ - '0');
  return *format == 'w' && !format[1] && number == (size_t)length;
}

static bool open_wide(PyObject *given, Wide *wide) {
  Py_buffer *view = &wide->view;
  if (!PyObject_CheckBuffer(given)) return false;
  if (PyObject_GetBuffer(given, view, PyBUF_FULL_RO)) return PyErr_Clear(), false;
  wide->length = view->itemsize / WIDTH;
  if (view->ndim == 1 && view->format && view->shape && view->strides && !view->suboffsets && is_wide(view->format, wide->length)) {
    wide->n = view->shape[0], wide->is_swapped = *view->format == '>';
    return true;
  }
  PyBuffer_Release(view);
  return false;
}

/* Raises what a str of such characters raises where it becomes UTF-8. */
static bool raise_characters(const char *at, Py_ssize_t length, bool is_swapped) {
  int order = is_swapped ? 1 : -1;
  PyObject *text = PyUnicode_DecodeUTF32(at, length * WIDTH, "surrogatepass", &order);
  Py_ssize_t bytes;
  if (text && utf8_of(text, &bytes)) PyErr_SetString(PyExc_RuntimeError, "the array changed during the call");
  Py_XDECREF(text);
  return false;
}

/* Writes the text of a row as UTF-8. Returns how many bytes it has, or -1 with an exception. */
static Py_ssize_t write_row(const Wide *wide, const char *at, char *to) {
  Py_ssize_t written = 0, end = 0;
  for (Py_ssize_t place = 0; place < wide->length; place++) {
    uint32_t character;
    memcpy(&character, at + place * WIDTH, sizeof character);
    if (wide->is_swapped) character = __builtin_bswap32(character);
    const int bytes = write_character(character, to + written);
    if (!bytes) return raise_characters(at, wide->length, wide->is_swapped), -1;
    written += bytes;
    if (character) end = written;
  }
  return end;
}

/* Encodes a row of a batch. */
static bool encode_row(Batch *batch, const Wide *wide, Py_ssize_t row, char *bytes) {
  interner_symbol number;
  const Py_ssize_t length = write_row(wide, (const char *)wide->view.buf + row * wide->view.strides[0], bytes);
  if (length < 0) return false;
  const interner_status status = add_text(batch->column, bytes, length, &number);
  batch->h = batch->column->dictionary->h;
  if (status != INTERNER_OK) return raise_status(status) != NULL;
  return put_number(batch, row, (int64_t)number);
}

/* Encodes all rows, or undoes the batch. */
static bool encode_wide(Batch *batch, const Wide *wide) {
  char *bytes = PyMem_Malloc(wide->length * WIDTH + 1);
  bool is_done = bytes != NULL;
  if (!bytes) PyErr_NoMemory();
  begin_batch(batch);
  for (Py_ssize_t row = 0; is_done && row < wide->n; row++) {
    if (row && row % ROWS_OF_A_PART == 0) is_done = resume_batch(batch);
    is_done = is_done && encode_row(batch, wide, row, bytes);
  }
  if (!is_done) undo_batch(batch);
  else batch->column->dictionary->uses++;
  end_batch(batch);
  PyMem_Free(bytes);
  return is_done;
}

bool extend_wide(Column *self, PyObject *given, PyObject **done) {
  Wide wide;
  if (!open_wide(given, &wide)) return false;
  Batch *batch = batch_of(self, wide.n);
  if (batch) {
    const bool is_done = reserve_batch(batch, wide.n) && encode_wide(batch, &wide);
    batch->first = wide.n;
    *done = finish_batch(batch, is_done);
  } else *done = NULL;
  PyBuffer_Release(&wide.view);
  return true;
}
