/* How many rows have each text, and sums over them. */
#include "native.h"

/* Numbers that are summed, copied. */
typedef struct Weights {
  double *at;
  Py_ssize_t n;
} Weights;

static bool reserve_weights(Weights *weights, Py_ssize_t n) {
  weights->at = PyMem_Malloc(n * sizeof *weights->at + 1), weights->n = n;
  if (!weights->at) PyErr_NoMemory();
  return weights->at != NULL;
}

/* Copies a buffer of floating-point numbers. */
static bool copy_floats(const Py_buffer *view, Weights *weights) {
  const bool is_single = *view->format == 'f';
  if (!reserve_weights(weights, view->len / (is_single ? sizeof(float) : sizeof(double)))) return false;
  /* Singles are at the end, where they are read before it is written. */
  char *raw = (char *)weights->at + (is_single ? view->len : 0);
  if (PyBuffer_ToContiguous(raw, view, view->len, 'C')) return false;
  for (Py_ssize_t row = 0; is_single && row < weights->n; row++) {
    float number;
    memcpy(&number, raw + row * sizeof number, sizeof number);
    weights->at[row] = number;
  }
  return true;
}

/* Copies a buffer of integers or booleans. */
static bool copy_integers(PyObject *given, Weights *weights) {
  Numbers numbers;
  if (!read_numbers(given, &numbers)) return false;
  bool is_done = reserve_weights(weights, numbers.n);
  for (Py_ssize_t row = 0; is_done && row < numbers.n; row++)
    weights->at[row] = numbers.is_unsigned ? (double)(uint64_t)numbers.at[row] : (double)numbers.at[row];
  drop_numbers(&numbers);
  return is_done;
}

static bool read_floats(PyObject *given, Weights *weights) {
  PyObject *items = read_tuple(given);
  bool is_done = items && reserve_weights(weights, PyTuple_Size(items));
  for (Py_ssize_t row = 0; is_done && row < weights->n; row++) {
    if (heed_signals(row)) weights->at[row] = PyFloat_AsDouble(PyTuple_GetItem(items, row));
    is_done = !PyErr_Occurred();
  }
  Py_XDECREF(items);
  return is_done;
}

/* Whether an object is a buffer of one dimension whose items have one of these formats. */
static bool has_format(const Py_buffer *view, const char *formats) {
  return view->ndim == 1 && view->format && *view->format && !view->format[1] && strchr(formats, *view->format);
}

/* Reads weights, of which it has to be told even if this fails. */
static bool read_weights(PyObject *given, Weights *weights) {
  Py_buffer view;
  *weights = (Weights){0};
  if (!PyObject_CheckBuffer(given) || PyObject_GetBuffer(given, &view, PyBUF_FULL_RO)) {
    PyErr_Clear();
    return read_floats(given, weights);
  }
  const bool is_float = has_format(&view, "df"), is_integer = has_format(&view, "?bBhHiIlLqQ");
  const bool is_done = is_float && copy_floats(&view, weights);
  PyBuffer_Release(&view);
  return is_float ? is_done : is_integer ? copy_integers(given, weights) : read_floats(given, weights);
}

/* The sum of the weights of the rows with each text. */
static PyObject *sum_weights(const State *state, const Encoded *rows, const Weights *weights) {
  Py_buffer view;
  if (weights->n != rows->n) return PyErr_Format(PyExc_ValueError, "there are %zd weights, and %zd rows", weights->n, rows->n);
  PyObject *array = new_array(state, "d", interner_len(rows->dictionary->h), &view);
  for (Py_ssize_t row = 0; array && row < rows->n; row++) {
    int64_t code = code_at(rows->block, row);
    if (code >= 0) ((double *)view.buf)[code] += weights->at[row];
  }
  if (array) PyBuffer_Release(&view);
  return array;
}

static PyObject *count_rows(const State *state, const Encoded *rows) {
  Py_buffer view;
  PyObject *array = new_array(state, "Q", interner_len(rows->dictionary->h), &view);
  for (Py_ssize_t row = 0; array && row < rows->n; row++) {
    int64_t code = code_at(rows->block, row);
    if (code >= 0) ((uint64_t *)view.buf)[code]++;
  }
  if (array) PyBuffer_Release(&view);
  return array;
}

PyObject *column_counts(Column *self, PyObject *args, PyObject *keywords) {
  static char *words[] = {"weights", NULL};
  PyObject *given = Py_None, *counts = NULL;
  Weights weights = {0};
  if (!PyArg_ParseTupleAndKeywords(args, keywords, "|O:counts", words, &given) || !is_made(self)) return NULL;
  /* The rows first, because others may add some while weights are read and the array is made. */
  Encoded rows = hold_rows(self);
  if (given == Py_None) counts = count_rows(self->state, &rows);
  else if (read_weights(given, &weights)) counts = sum_weights(self->state, &rows, &weights);
  PyMem_Free(weights.at);
  drop_rows(&rows);
  return counts;
}
