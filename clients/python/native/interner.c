/* Interner: a list of distinct texts, each with a number. */
#include "native.h"

bool is_open(const Interner *self) {
  if (!self->h) PyErr_SetString(PyExc_ValueError, "the interner is closed");
  return self->h != NULL;
}

/* Making and closing */

static PyObject *method_new(PyTypeObject *type, PyObject *args, PyObject *keywords) {
  (void)args, (void)keywords;
  State *state = state_of_type(type);
  Interner *self = state ? (Interner *)PyType_GenericAlloc(type, 0) : NULL;
  if (self) self->state = state;
  return (PyObject *)self;
}

/* Has the interner begin again with a handle, which it takes over, or close if that is null. */
static bool replace_handle(Interner *self, interner *h, interner_kind kind, interner_hasher hasher) {
  if (!read_walks(self)) {
    interner_free(h);
    return false;
  }
  interner *before = self->h;
  self->h = h, self->kind = kind, self->hasher = hasher;
  self->cuts++;
  interner_free(before);
  return true;
}

static bool read_capacity(PyObject *given, size_t *capacity) {
  PyObject *number = given ? PyNumber_Index(given) : PyLong_FromLong(0);
  if (!number) return false;
  *capacity = PyLong_AsSize_t(number);
  Py_DECREF(number);
  if (*capacity != SIZE_MAX || !PyErr_Occurred()) return true;
  PyErr_Clear();
  PyErr_SetString(PyExc_ValueError, "the capacity is negative or too large");
  return false;
}

static int init_interner(Interner *self, PyObject *args, PyObject *keywords) {
  static char *words[] = {"texts", "backend", "capacity", "hasher", NULL};
  PyObject *texts = NULL, *backend = NULL, *room = NULL, *hasher = NULL;
  size_t capacity;
  Options options;
  if (!PyArg_ParseTupleAndKeywords(args, keywords, "|O$OOO:Interner", words, &texts, &backend, &room, &hasher)) return -1;
  if (!read_capacity(room, &capacity) || !read_backend(backend, &options.kind) || !read_hasher(self->state, hasher, &options)) return -1;
  interner *h = make_handle(&options, capacity);
  if (!h || !replace_handle(self, h, options.kind, options.hasher)) return -1;
  PyObject *numbers = texts ? intern_objects(self, texts, "I") : Py_NewRef(Py_None);
  Py_XDECREF(numbers);
  return numbers ? 0 : -1;
}

static int method_init(Interner *self, PyObject *args, PyObject *keywords) {
  Words words = hold_words(keywords);
  int status = init_interner(self, args, keywords);
  drop_words(&words);
  return status;
}

static PyObject *method_from_json(PyTypeObject *type, PyObject *args, PyObject *keywords) {
  static char *words[] = {"text", "backend", "exact", "hasher", NULL};
  PyObject *text, *backend = NULL, *hasher = NULL;
  int is_exact = 0;
  Options options;
  Py_ssize_t length;
  State *state = state_of_type(type);
  if (!state || !PyArg_ParseTupleAndKeywords(args, keywords, "O|$OpO:from_json", words, &text, &backend, &is_exact, &hasher)) return NULL;
  if (!read_backend(backend, &options.kind) || !read_hasher(state, hasher, &options)) return NULL;
  Interner *self = (Interner *)PyObject_CallMethod((PyObject *)type, "__new__", "O", (PyObject *)type);
  const char *json = self ? utf8_of(text, &length) : NULL;
  if (json && !PyObject_TypeCheck((PyObject *)self, state->interner)) {
    PyErr_SetString(PyExc_TypeError, "__new__ returned no Interner");
    json = NULL;
  }
  interner *h = json ? read_json(&options, is_exact, json, length) : NULL;
  if (h && replace_handle(self, h, options.kind, options.hasher)) return (PyObject *)self;
  Py_XDECREF((PyObject *)self);
  return NULL;
}

static PyObject *method_close(Interner *self, PyObject *unused) {
  (void)unused;
  if (self->h && !replace_handle(self, NULL, self->kind, self->hasher)) return NULL;
  Py_RETURN_NONE;
}

static PyObject *method_enter(Interner *self, PyObject *unused) {
  (void)unused;
  return is_open(self) ? Py_NewRef((PyObject *)self) : NULL;
}

static PyObject *method_exit(Interner *self, PyObject *args) {
  (void)args;
  return PyObject_CallMethod((PyObject *)self, "close", NULL);
}

static void method_dealloc(Interner *self) {
  PyTypeObject *type = Py_TYPE((PyObject *)self);
  PyObject_GC_UnTrack(self);
  if (self->weak) PyObject_ClearWeakRefs((PyObject *)self);
  interner_free(self->h); /* Live iterators refer to it, so there are none. */
  ((freefunc)PyType_GetSlot(type, Py_tp_free))(self);
  Py_DECREF(type);
}

static int method_traverse(PyObject *self, visitproc visit, void *arg) {
  Py_VISIT(Py_TYPE(self));
  return 0;
}

/* One text, one number */

static PyObject *method_intern(Interner *self, PyObject *text) {
  Py_ssize_t length;
  interner_symbol number;
  const char *bytes = utf8_of(text, &length);
  if (!bytes || !is_open(self)) return NULL;
  self->uses++;
  size_t before = interner_len(self->h);
  interner_status status = interner_get_or_intern_utf8(self->h, bytes, length, &number);
  if (status != INTERNER_OK) return raise_status(status);
  PyObject *result = PyLong_FromSize_t(number);
  if (!result) interner_truncate(self->h, before);
  return result;
}

/* 1: found, 0: not known, -1: raised. A text without a UTF-8 form is not known. */
static int look_up(Interner *self, PyObject *text, interner_symbol *number) {
  Py_ssize_t length;
  const char *bytes = utf8_of(text, &length);
  if (!bytes) {
    if (!PyErr_ExceptionMatches(PyExc_UnicodeEncodeError)) return -1;
    PyErr_Clear();
  }
  if (!is_open(self)) return -1;
  if (!bytes || interner_get_utf8(self->h, bytes, length, number) != INTERNER_OK) return 0;
  self->uses++;
  return 1;
}

static PyObject *method_get(Interner *self, PyObject *const *args, Py_ssize_t given, PyObject *names) {
  PyObject *otherwise = given > 1 ? args[1] : Py_None;
  Py_ssize_t named = names ? PyTuple_Size(names) : 0;
  interner_symbol number;
  if (named == 1 && given == 1 && !PyUnicode_CompareWithASCIIString(PyTuple_GetItem(names, 0), "default")) otherwise = args[1];
  else if (named || given < 1 || given > 2) {
    PyErr_SetString(PyExc_TypeError, "get takes a text and at most a default");
    return NULL;
  }
  switch (look_up(self, args[0], &number)) {
  case 1: return PyLong_FromSize_t(number);
  case 0: return Py_NewRef(otherwise);
  default: return NULL;
  }
}

static int method_contains(Interner *self, PyObject *text) {
  interner_symbol number;
  if (!PyUnicode_Check(text)) return is_open(self) ? 0 : -1;
  return look_up(self, text, &number);
}

/* The text with a number. Null without an exception if there is none. */
static PyObject *find_text(Interner *self, PyObject *given) {
  interner_text text;
  if (PyUnicode_Check(given)) {
    PyErr_SetString(PyExc_TypeError, "a text is found by its number; the number of a text is what get(text) or intern(text) returns");
    return NULL;
  }
  Py_ssize_t number = PyNumber_AsSsize_t(given, NULL);
  if (number == -1 && PyErr_Occurred()) return NULL;
  if (!is_open(self) || number < 0 || number > UINT32_MAX || interner_resolve(self->h, number, &text) != INTERNER_OK) return NULL;
  self->uses++;
  return PyUnicode_DecodeUTF8(text.bytes, text.len, NULL);
}

static PyObject *method_resolve(Interner *self, PyObject *number) {
  PyObject *text = find_text(self, number);
  return text || PyErr_Occurred() ? text : Py_NewRef(Py_None);
}

static PyObject *method_subscript(Interner *self, PyObject *number) {
  PyObject *text = find_text(self, number);
  if (!text && !PyErr_Occurred()) PyErr_SetObject(PyExc_KeyError, number);
  return text;
}

static Py_ssize_t method_length(Interner *self) { return is_open(self) ? (Py_ssize_t)interner_len(self->h) : -1; }

/* All texts */

static PyObject *method_truncate(Interner *self, PyObject *length) {
  Py_ssize_t kept = PyNumber_AsSsize_t(length, NULL);
  if (kept == -1 && PyErr_Occurred()) return NULL;
  if (kept < 0) return PyErr_Format(PyExc_ValueError, "length %zd", kept);
  if (!is_open(self) || !read_walks(self)) return NULL;
  self->cuts++;
  interner_truncate(self->h, kept);
  Py_RETURN_NONE;
}

static PyObject *method_shrink(Interner *self, PyObject *unused) {
  (void)unused;
  if (!is_open(self)) return NULL;
  interner_shrink(self->h);
  Py_RETURN_NONE;
}

static PyObject *method_to_json(Interner *self, PyObject *unused) {
  (void)unused;
  if (!is_open(self)) return NULL;
  /* The library makes all of it before it says that room is short. So a guess that holds most texts saves that time. */
  size_t room = 1024 + 24 * interner_len(self->h), length = 0;
  char *json = NULL;
  interner_status status = INTERNER_NO_MEMORY;
  self->uses++;
  for (int tries = 0; tries < 2; tries++) {
    PyMem_Free(json);
    if (!(json = PyMem_Malloc(room))) return PyErr_NoMemory();
    status = interner_to_json(self->h, json, room, &length);
    if (status != INTERNER_NO_ROOM) break;
    room = length;
  }
  PyObject *text = status == INTERNER_OK ? PyUnicode_DecodeUTF8(json, length, NULL) : raise_status(status);
  PyMem_Free(json);
  return text;
}

static PyObject *method_richcompare(Interner *self, PyObject *other, int operator) {
  if ((operator != Py_EQ && operator != Py_NE) || !PyObject_TypeCheck(other, self->state->interner)) Py_RETURN_NOTIMPLEMENTED;
  Interner *second = (Interner *)other;
  if (self == second) return PyBool_FromLong(operator == Py_EQ);
  if (!is_open(self) || !is_open(second)) return NULL;
  return PyBool_FromLong(interner_equal(self->h, second->h) == (operator == Py_EQ));
}

static PyObject *method_repr(Interner *self) {
  PyObject *name = PyType_GetName(Py_TYPE((PyObject *)self)), *repr = NULL;
  if (name && self->h) repr = PyUnicode_FromFormat("<%U of %zu texts, backend '%s'>", name, interner_len(self->h), backend_name(self->kind));
  else if (name) repr = PyUnicode_FromFormat("<%U that is closed>", name);
  Py_XDECREF(name);
  return repr;
}

static PyObject *method_backend(Interner *self, void *unused) {
  (void)unused;
  return PyUnicode_FromString(backend_name(self->kind));
}

static PyObject *method_hasher(Interner *self, void *unused) {
  (void)unused;
  return PyUnicode_FromString(hasher_name(self->hasher));
}

/* How many texts there are; none if it is closed. */
static PyObject *method_count(Interner *self, void *unused) {
  (void)unused;
  return PyLong_FromSize_t(self->h ? interner_len(self->h) : 0);
}

/* What copies and pickles hold. */
static PyObject *method_parts(Interner *self, void *unused) {
  (void)unused;
  interner *h = NULL;
  Parts *parts = (Parts *)new_parts(self->state, NULL, NULL, -1);
  if (!parts || !is_open(self)) goto failed;
  self->uses++;
  if (interner_clone(self->h, &h) != INTERNER_OK) {
    PyErr_NoMemory();
    goto failed;
  }
  if ((parts->dictionary = wrap_handle(h, self->kind, self->hasher))) return (PyObject *)parts;
failed:
  Py_XDECREF((PyObject *)parts);
  return NULL;
}

static int method_set_parts(Interner *self, PyObject *value, void *unused) {
  (void)unused;
  if (!value || !PyObject_TypeCheck(value, self->state->parts) || ((Parts *)value)->n >= 0)
    return PyErr_SetString(PyExc_TypeError, "no parts of an interner"), -1;
  Dictionary *dictionary = ((Parts *)value)->dictionary;
  if (!dictionary) return PyErr_SetString(PyExc_ValueError, "these parts were taken"), -1;
  interner *h = NULL;
  if (dictionary->references > 1) {
    if (interner_clone(dictionary->h, &h) != INTERNER_OK) return PyErr_NoMemory(), -1;
  } else h = dictionary->h, dictionary->h = NULL;
  interner_kind kind = dictionary->kind;
  interner_hasher hasher = dictionary->hasher;
  ((Parts *)value)->dictionary = NULL;
  drop_dictionary(dictionary);
  return replace_handle(self, h, kind, hasher) ? 0 : -1;
}

HOLDING(method_from_json)
HOLDING(method_intern_all)
HOLDING(method_intern_column)
HOLDING(method_get_all)
HOLDING(method_resolve_all)

static PyMethodDef method_methods[] = {
    {"from_json", (PyCFunction)(void (*)(void))method_from_json_holding, METH_VARARGS | METH_KEYWORDS | METH_CLASS,
     "from_json($type, /, text, *, backend='string', exact=False, hasher='seeded')\n--\n\n"
     "Makes an interner of the texts of a JSON array of strings. Does not call the `__init__` of a subclass.\n\n"
     "A repeated string adds no text; if `exact` is true, it raises ValueError. Raises ValueError for a text that is no such\n"
     "array, OverflowError if no number is left for a text, and MemoryError."},
    {"intern", (PyCFunction)method_intern, METH_O,
     "intern($self, text, /)\n--\n\n"
     "Returns the number of a text. Appends a text that is not known.\n\n"
     "Raises OverflowError if no number is left for it, and MemoryError. The interner is then unchanged."},
    {"intern_all", (PyCFunction)(void (*)(void))method_intern_all_holding, METH_VARARGS | METH_KEYWORDS,
     "intern_all($self, /, texts, *, typecode='I', missing=None)\n--\n\n"
     "Returns the number of each text, in order, in an array: 4 bytes for each, or 8 if the typecode is \"Q\".\n\n"
     "With a number for `missing`, as -1, None is no error, and has this number. The array is then as that of `get_all`.\n\n"
     "It is all or nothing: if a value is no text, or has no UTF-8 form, or if no number or memory is left, nothing changes. For\n"
     "what is no text, the TypeError says which. Reads a list, a tuple and an array of objects in place. numpy reads the result\n"
     "without a copy."},
    {"intern_column", (PyCFunction)(void (*)(void))method_intern_column_holding, METH_VARARGS | METH_KEYWORDS,
     "intern_column($self, /, joined, *, ends=None, offsets=None, typecode='I')\n--\n\n"
     "Does the same for texts that are end to end in `joined`: text `i` ends before byte `ends[i]`. Arrow and others have offsets,\n"
     "one number more: text `i` begins at byte `offsets[i]`, and ends before byte `offsets[i + 1]`. Pass one of the two, by name.\n\n"
     "`joined` may be anything with a buffer; all but `bytes` is copied. `ends` is copied, too. That is fastest for a buffer of\n"
     "numbers, such as an array or what numpy and Arrow have. Raises ValueError at a text that is not UTF-8, and at an end that\n"
     "is less than the one before it or passes the bytes. The texts before it stay."},
    {"intern_lines", (PyCFunction)intern_lines, METH_O,
     "intern_lines($self, joined, /)\n--\n\n"
     "Returns the number of each line of some bytes, in an array of 4 bytes for each. Makes no str of a line.\n\n"
     "A line ends at a newline, which is not part of it, or at the end of the bytes. Raises ValueError for a line that is not\n"
     "UTF-8, and says which, counted from 1; then nothing changes.\n\n"
     "Other threads run after each MiB. If one interns or looks up texts then, the lines up to there stay, even if a later one is\n"
     "wrong. If one closes the interner, this raises ValueError, and if it truncates it, RuntimeError."},
    {"get", (PyCFunction)(void (*)(void))method_get, METH_FASTCALL | METH_KEYWORDS,
     "get($self, text, /, default=None)\n--\n\nReturns the number of a text, or the default if it is not known."},
    {"get_all", (PyCFunction)(void (*)(void))method_get_all_holding, METH_VARARGS | METH_KEYWORDS,
     "get_all($self, /, texts, missing=-1)\n--\n\n"
     "Returns the number of each text, in order, and `missing` for None and for a text that is not known. Adds no text.\n\n"
     "The array has 4 bytes for each, with a sign, or 8 if a number does not fit."},
    {"resolve", (PyCFunction)method_resolve, METH_O,
     "resolve($self, number, /)\n--\n\n"
     "Returns the text with a number, or None if there is none.\n\n"
     "With the backend `buffer`, a number that belongs to no text may return a piece of other texts."},
    {"resolve_all", (PyCFunction)(void (*)(void))method_resolve_all_holding, METH_VARARGS | METH_KEYWORDS,
     "resolve_all($self, numbers, /, *, missing=None)\n--\n\n"
     "Returns the text with each number, in order. Raises KeyError at a number without one.\n\n"
     "Undoes `intern_all`. With a number for `missing`, as -1, it returns None for this number, and so undoes `get_all`. With the\n"
     "backend `buffer`, a number that belongs to no text may return a piece of other texts, or raise KeyError."},
    {"entries", (PyCFunction)method_entries, METH_NOARGS,
     "entries($self, /)\n--\n\nReturns an iterator of each number with its text, in insertion order, as they are now."},
    {"items", (PyCFunction)method_entries, METH_NOARGS,
     "items($self, /)\n--\n\nReturns the same as `entries`: each number and `interner[number]`, as `dict.items` does."},
    {"truncate", (PyCFunction)method_truncate, METH_O,
     "truncate($self, length, /)\n--\n\nKeeps the first texts with their numbers, and drops the others."},
    {"shrink", (PyCFunction)method_shrink, METH_NOARGS, "shrink($self, /)\n--\n\nReleases memory that no text needs, if it can."},
    {"to_json", (PyCFunction)method_to_json, METH_NOARGS, "to_json($self, /)\n--\n\nReturns the JSON array of the texts."},
    {"close", (PyCFunction)method_close, METH_NOARGS,
     "close($self, /)\n--\n\nFrees the texts. A second `close` does nothing, and any other call then raises ValueError."},
    {"__enter__", (PyCFunction)method_enter, METH_NOARGS, NULL},
    {"__exit__", (PyCFunction)method_exit, METH_VARARGS, NULL},
    {"__reversed__", (PyCFunction)method_reversed, METH_NOARGS, "The texts in reverse order, as they are now."},
    {NULL, NULL, 0, NULL}};

static PyGetSetDef method_getset[] = {
    {"backend", (getter)method_backend, NULL, "How texts are stored.", NULL},
    {"hasher", (getter)method_hasher, NULL, "How texts are hashed: `seeded`, `siphash` or `fixed`.", NULL},
    {"_count", (getter)method_count, NULL, NULL, NULL},
    {"_parts", (getter)method_parts, (setter)method_set_parts, NULL, NULL},
    {NULL, NULL, NULL, NULL, NULL}};

static PyMemberDef method_members[] = {
    {"__weaklistoffset__", T_PYSSIZET, offsetof(Interner, weak), READONLY, NULL}, {NULL, 0, 0, 0, NULL}};

static PyType_Slot method_slots[] = {
    {Py_tp_doc, "Interner(texts=(), *, backend='string', capacity=0, hasher='seeded')\n--\n\nA list of distinct texts, each with a number."},
    {Py_tp_new, method_new}, {Py_tp_init, method_init}, {Py_tp_dealloc, method_dealloc}, {Py_tp_traverse, method_traverse},
    {Py_tp_methods, method_methods}, {Py_tp_members, method_members}, {Py_tp_getset, method_getset},
    {Py_tp_repr, method_repr}, {Py_tp_iter, method_iter}, {Py_tp_hash, PyObject_HashNotImplemented},
    {Py_tp_richcompare, method_richcompare}, {Py_sq_contains, method_contains}, {Py_mp_length, method_length},
    {Py_mp_subscript, method_subscript}, {0, NULL}};
PyType_Spec method_spec = {"string_interner._native.Interner", sizeof(Interner), 0,
                             Py_TPFLAGS_DEFAULT | Py_TPFLAGS_BASETYPE | Py_TPFLAGS_HAVE_GC, method_slots};
