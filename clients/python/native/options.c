/* What several calls convert: options, texts, and errors of the library. */
#include "native.h"

static const char *const names[] = {"string", "bucket", "buffer"};

const char *backend_name(interner_kind kind) { return names[kind]; }

static const char *const hashers[] = {"fixed", "siphash", "seeded"};

const char *hasher_name(interner_hasher hasher) { return hashers[hasher]; }

PyObject *import_from(const char *name, const char *attribute) {
  PyObject *module = PyImport_ImportModule(name), *found = module ? PyObject_GetAttrString(module, attribute) : NULL;
  Py_XDECREF(module);
  return found;
}

PyObject *raise_status(interner_status status) {
  switch (status) {
  case INTERNER_NO_MEMORY: return PyErr_NoMemory();
  case INTERNER_NO_SYMBOL: PyErr_SetString(PyExc_OverflowError, "no number is left"); break;
  case INTERNER_BAD_TEXT: PyErr_SetString(PyExc_ValueError, "not JSON"); break;
  case INTERNER_NOT_A_LIST: PyErr_SetString(PyExc_ValueError, "not an array"); break;
  default: PyErr_SetString(PyExc_ValueError, interner_status_text(status));
  }
  return NULL;
}

PyObject *raise_type(const char *before, PyObject *object, const char *after) {
  PyObject *name = PyType_GetName(Py_TYPE(object));
  if (name) PyErr_Format(PyExc_TypeError, "%s%U%s", before, name, after);
  Py_XDECREF(name);
  return NULL;
}

bool read_backend(PyObject *given, interner_kind *kind) {
  if (given && !PyUnicode_Check(given) && given != Py_None) return raise_type("a backend is a str, not ", given, "");
  for (*kind = INTERNER_STRING; *kind < sizeof names / sizeof *names; ++*kind)
    if (!given || (given != Py_None && !PyUnicode_CompareWithASCIIString(given, names[*kind]))) return true;
  if (given == Py_None) PyErr_SetString(PyExc_ValueError, "no backend None");
  else PyErr_Format(PyExc_ValueError, "no backend '%U'", given);
  return false;
}

static bool read_key(PyObject *given, uint64_t *key) {
  PyObject *number = PyNumber_Index(given);
  if (!number) return false;
  *key = PyLong_AsUnsignedLongLong(number);
  Py_DECREF(number);
  if (*key != UINT64_MAX || !PyErr_Occurred()) return true;
  /* Without the keys, which are secret. */
  PyErr_Clear();
  PyErr_SetString(PyExc_ValueError, "a key of the hasher is not in 0 .. 2 ** 64 - 1");
  return false;
}

/* Reads the name of a hasher. Former releases called the default one 'keyed'. */
static bool read_hasher_name(PyObject *given, interner_hasher *hasher) {
  for (*hasher = INTERNER_FIXED; *hasher <= INTERNER_SEEDED; ++*hasher)
    if (!PyUnicode_CompareWithASCIIString(given, hashers[*hasher])) return true;
  *hasher = INTERNER_SEEDED;
  if (!PyUnicode_CompareWithASCIIString(given, "keyed")) return true;
  PyErr_Format(PyExc_ValueError, "no hasher '%U'", given);
  return false;
}

bool read_hasher(const State *state, PyObject *given, Options *options) {
  options->hasher = INTERNER_SEEDED;
  if (!given || PyUnicode_Check(given)) {
    if (given && !read_hasher_name(given, &options->hasher)) return false;
    memcpy(options->keys, state->keys[options->hasher == INTERNER_SEEDED], sizeof options->keys);
    return true;
  }
  if (!PyTuple_Check(given)) {
    PyErr_SetString(PyExc_TypeError, "a hasher is 'seeded', 'siphash', 'fixed' or a tuple of two keys");
    return false;
  }
  if (PyTuple_Size(given) != 2) {
    PyErr_SetString(PyExc_ValueError, "a hasher has two keys");
    return false;
  }
  options->hasher = INTERNER_SIPHASH;
  return read_key(PyTuple_GetItem(given, 0), &options->keys[0]) && read_key(PyTuple_GetItem(given, 1), &options->keys[1]);
}

interner_options library_options(const Options *options, size_t capacity) {
  return (interner_options){options->kind, options->hasher, capacity, options->keys[0], options->keys[1]};
}

interner *make_handle(const Options *options, size_t capacity) {
  interner *h = NULL;
  const interner_options made_by = library_options(options, capacity);
  interner_status status = interner_new_with(&made_by, &h);
  if (status == INTERNER_OK) return h;
  raise_status(status);
  return NULL;
}

const char *utf8_of(PyObject *text, Py_ssize_t *length) {
  if (PyUnicode_Check(text)) return PyUnicode_AsUTF8AndSize(text, length);
  raise_type("a text is a str, not ", text, "");
  return NULL;
}

size_t number_after(interner_kind kind, size_t number, size_t length) {
  if (kind != INTERNER_BUFFER) return number + 1;
  number += length + 1;
  for (size_t rest = length >> 7; rest; rest >>= 7) number++;
  return number;
}

PyObject *new_array(const State *state, const char *typecode, Py_ssize_t n, Py_buffer *view) {
  static const char zeros[8];
  const Py_ssize_t width = strchr("qQd", *typecode) ? 8 : 4;
  int collects = PyGC_Disable();
  PyObject *one = PyObject_CallFunction(state->array, "sy#", typecode, zeros, width);
  PyObject *array = one ? PySequence_Repeat(one, n) : NULL;
  Py_XDECREF(one);
  if (array && PyObject_GetBuffer(array, view, PyBUF_WRITABLE)) Py_CLEAR(array);
  else if (array && view->len / width != n) {
    /* Another program may have put something else in the place of array.array. */
    PyBuffer_Release(view);
    Py_CLEAR(array);
    PyErr_SetString(PyExc_RuntimeError, "array.array makes no array of this length");
  }
  if (collects) PyGC_Enable();
  return array;
}
