/* Integers and bytes of buffers, copied: others may change a buffer without the GIL. */
#include "native.h"

/* The width of a format of integers in this machine's byte order, or of booleans, or 0. */
static Py_ssize_t width_of_format(const char *format) {
  if (!format || !*format || format[1]) return 0;
  switch (*format) {
  case 'b': case 'B': return 1;
  case '?': return sizeof(bool);
  case 'h': case 'H': return sizeof(short);
  case 'i': case 'I': return sizeof(int);
  case 'l': case 'L': return sizeof(long);
  case 'q': case 'Q': return sizeof(long long);
  default: return 0;
  }
}

/* Reads a buffer of integers or booleans. */
static bool copy_view(const Py_buffer *view, Numbers *numbers) {
  Py_ssize_t width = width_of_format(view->format), n = view->len / width;
  char *raw = PyMem_Malloc(view->len + 1);
  int64_t *at = PyMem_Malloc(n * sizeof *at + 1);
  bool is_done = raw && at && !PyBuffer_ToContiguous(raw, view, view->len, 'C');
  bool is_unsigned = *view->format < 'a', is_mask = *view->format == '?';
  for (Py_ssize_t row = 0; is_done && row < n; row++) at[row] = widen(raw + row * width, width, is_unsigned);
  PyMem_Free(raw);
  if (is_done) {
    *numbers = (Numbers){.n = n, .at = at, .is_unsigned = is_unsigned, .booleans = is_mask ? n : 0, .is_mask = is_mask,
                         .has_flags = is_mask};
    return true;
  }
  PyMem_Free(at);
  if (!PyErr_Occurred()) PyErr_NoMemory();
  return false;
}

bool is_flag(PyObject *item) {
  Py_buffer view;
  if (!item || PyLong_Check(item) || !PyObject_CheckBuffer(item)) return false;
  if (PyObject_GetBuffer(item, &view, PyBUF_FULL_RO)) return PyErr_Clear(), false;
  bool is_one = !view.ndim && view.format && !strcmp(view.format, "?");
  PyBuffer_Release(&view);
  return is_one;
}

/* The integer that an item is: 0 or 1 of a boolean. */
static PyObject *read_item(PyObject *item, Numbers *numbers) {
  const bool is_one = is_flag(item);
  if (is_one || (item && PyBool_Check(item))) numbers->booleans++;
  if (!is_one) return PyNumber_Index(item);
  numbers->has_flags = true;
  int is_true = PyObject_IsTrue(item);
  return is_true < 0 ? NULL : PyBool_FromLong(is_true);
}

/* Reads the integers or booleans that the items of a tuple are, and clips them to 8 bytes. */
static bool read_items(PyObject *items, Numbers *numbers) {
  const Py_ssize_t n = PyTuple_Size(items);
  *numbers = (Numbers){.at = PyMem_Malloc(n * sizeof *numbers->at + 1), .exact = PyMem_Malloc(n * sizeof *numbers->exact + 1)};
  bool is_done = numbers->at && numbers->exact;
  if (!is_done) PyErr_NoMemory();
  for (Py_ssize_t row = 0; is_done && row < n; row++) {
    int overflow;
    PyObject *number = heed_signals(row) ? read_item(PyTuple_GetItem(items, row), numbers) : NULL;
    if (!(is_done = number != NULL)) break;
    numbers->exact[numbers->n++] = number;
    numbers->at[row] = PyLong_AsLongLongAndOverflow(number, &overflow);
    if (overflow) numbers->at[row] = overflow < 0 ? INT64_MIN : INT64_MAX;
  }
  numbers->is_mask = n && numbers->booleans == n;
  if (!is_done) drop_numbers(numbers);
  return is_done;
}

void refuse_booleans(void) {
  PyErr_SetString(PyExc_TypeError, "booleans, where numbers belong: numpy.flatnonzero(mask) has the numbers of a mask's rows");
}

/* The same for numbers, which it drops. */
static bool refuse_flags(Numbers *numbers) {
  drop_numbers(numbers);
  refuse_booleans();
  return false;
}

bool read_integers(PyObject *given, Numbers *numbers) {
  return read_numbers(given, numbers) && ((!numbers->booleans && !numbers->is_mask) || refuse_flags(numbers));
}

bool read_indices(PyObject *given, Numbers *numbers) {
  return read_numbers(given, numbers) && (!numbers->has_flags || refuse_flags(numbers));
}

Py_ssize_t open_numbers(PyObject *given, Py_buffer *view) {
  if (!PyObject_CheckBuffer(given)) return 0;
  if (PyObject_GetBuffer(given, view, PyBUF_FULL_RO)) return PyErr_Clear(), 0;
  const Py_ssize_t width = view->ndim == 1 && !view->suboffsets ? width_of_format(view->format) : 0;
  if (!width) PyBuffer_Release(view);
  return width;
}

bool read_numbers(PyObject *given, Numbers *numbers) {
  Py_buffer view;
  if (open_numbers(given, &view)) {
    bool is_done = copy_view(&view, numbers);
    PyBuffer_Release(&view);
    return is_done;
  }
  PyObject *items = read_tuple(given);
  bool is_done = items && read_items(items, numbers);
  Py_XDECREF(items);
  return is_done;
}

static void drop_exact(Numbers *numbers) {
  for (Py_ssize_t row = 0; numbers->exact && row < numbers->n; row++) Py_DECREF(numbers->exact[row]);
  PyMem_Free(numbers->exact);
  numbers->exact = NULL;
}

void drop_numbers(Numbers *numbers) {
  drop_exact(numbers);
  PyMem_Free(numbers->at);
}

PyObject *exact_number(const Numbers *numbers, Py_ssize_t row) {
  if (numbers->exact) return Py_NewRef(numbers->exact[row]);
  if (numbers->is_unsigned) return PyLong_FromUnsignedLongLong((uint64_t)numbers->at[row]);
  return PyLong_FromLongLong(numbers->at[row]);
}

PyObject *name_number(const Numbers *numbers, Py_ssize_t row) {
  PyObject *exact = exact_number(numbers, row), *name = exact ? PyObject_Str(exact) : NULL;
  if (exact && !name && PyErr_ExceptionMatches(PyExc_ValueError)) {
    /* Python writes no more than some thousand decimal digits. */
    PyErr_Clear();
    name = PyNumber_ToBase(exact, 16);
  }
  Py_XDECREF(exact);
  return name;
}

/* A copy of a masked array with a filler in each masked place. */
static PyObject *fill_masked(PyObject *module, PyObject *values, PyObject *filler) {
  PyObject *data = PyObject_GetAttrString(values, "data"), *mask = NULL, *filled = NULL;
  if (data && (filled = PyObject_CallMethod(data, "astype", "O", (PyObject *)&PyBaseObject_Type)))
    mask = PyObject_CallMethod(module, "getmaskarray", "O", values);
  if (!mask || PyObject_SetItem(filled, mask, filler)) Py_CLEAR(filled);
  Py_XDECREF(data);
  Py_XDECREF(mask);
  return filled;
}

PyObject *without_mask(PyObject *values, PyObject *filler) {
  if (PyList_CheckExact(values) || PyTuple_CheckExact(values)) return Py_NewRef(values);
  PyObject *name = PyUnicode_FromString("numpy.ma"), *module = name ? PyImport_GetModule(name) : NULL;
  PyObject *type = module ? PyObject_GetAttrString(module, "MaskedArray") : NULL, *filled = NULL;
  int is_masked = type ? PyObject_IsInstance(values, type) : 0;
  if (is_masked > 0) filled = fill_masked(module, values, filler);
  else if (!is_masked && !PyErr_Occurred()) filled = Py_NewRef(values);
  Py_XDECREF(name);
  Py_XDECREF(module);
  Py_XDECREF(type);
  return filled;
}

bool read_bytes(PyObject *given, Bytes *bytes) {
  Py_buffer view;
  *bytes = (Bytes){0};
  if (PyBytes_CheckExact(given)) {
    *bytes = (Bytes){.at = PyBytes_AsString(given), .length = PyBytes_Size(given), .held = Py_NewRef(given)};
    return true;
  }
  if (PyObject_GetBuffer(given, &view, PyBUF_FULL_RO)) return false;
  bytes->copy = PyMem_Malloc(view.len + 1);
  if (!bytes->copy) PyErr_NoMemory();
  else if (!PyBuffer_ToContiguous(bytes->copy, &view, view.len, 'C')) bytes->at = bytes->copy, bytes->length = view.len;
  PyBuffer_Release(&view);
  if (bytes->at) return true;
  drop_bytes(bytes);
  return false;
}

void drop_bytes(Bytes *bytes) {
  Py_CLEAR(bytes->held);
  PyMem_Free(bytes->copy);
  bytes->copy = NULL;
}

/* Has texts begin at the first of the offsets, and makes ends of the others. */
static bool take_offsets(Joined *joined) {
  Bytes *bytes = &joined->bytes;
  Numbers *ends = &joined->ends;
  if (!ends->n) return true; /* Arrow may leave out the only offset of no text. */
  const size_t begin = ends->at[0];
  if (begin > (size_t)bytes->length) {
    PyObject *name = name_number(ends, 0);
    if (name) PyErr_Format(PyExc_ValueError, "the first offset is %U, and there are %zd bytes", name, bytes->length);
    Py_XDECREF(name);
    return false;
  }
  bytes->at += begin, bytes->length -= begin;
  drop_exact(ends);
  /* One that is less than the first becomes a great one, which the library rejects. */
  for (Py_ssize_t text = 1; text < ends->n; text++) ends->at[text - 1] = (int64_t)((size_t)ends->at[text] - begin);
  ends->n--;
  return true;
}

bool are_named(PyObject *args) {
  if (PyTuple_Size(args) <= 1) return true;
  PyErr_SetString(PyExc_TypeError,
                  "all but the bytes is passed by its name: ends= for where each text ends, or offsets= as Arrow has them");
  return false;
}

bool read_joined(PyObject *given, PyObject *ends, PyObject *offsets, Joined *joined) {
  const bool has_ends = ends && ends != Py_None, has_offsets = offsets && offsets != Py_None;
  if (has_ends == has_offsets) return PyErr_SetString(PyExc_TypeError, "exactly one of ends and offsets is wanted"), false;
  if (!read_bytes(given, &joined->bytes)) return false;
  if (read_indices(has_ends ? ends : offsets, &joined->ends)) {
    if (has_ends || take_offsets(joined)) return true;
    drop_numbers(&joined->ends);
  }
  drop_bytes(&joined->bytes);
  return false;
}

void drop_joined(Joined *joined) {
  drop_numbers(&joined->ends);
  drop_bytes(&joined->bytes);
}
