/* Iterators of the texts of an interner. */
#include "native.h"

/** An iterator of the texts that there were, which reads one at a time. */
struct Walk {
  PyObject_HEAD
  Interner *of; /* null once all is read */
  Walk *next;   /* of the same interner */
  size_t index, end, number;
  bool has_numbers; /* whether it yields a number with each text */
  PyObject *rest;   /* what is left, once the interner is about to change; yielded from its end */
};

static void forget_interner(Walk *walk) {
  Interner *of = walk->of;
  if (!of) return;
  for (Walk **link = &of->walks; *link; link = &(*link)->next)
    if (*link == walk) {
      *link = walk->next;
      break;
    }
  walk->of = NULL;
  Py_DECREF(of);
}

/* The next text, or with its number. Null without an exception if there is no other. */
static PyObject *read_next(Walk *walk) {
  interner_text text;
  size_t number = walk->number;
  if (walk->index == walk->end || number > UINT32_MAX || interner_resolve(walk->of->h, number, &text) != INTERNER_OK) return NULL;
  walk->index++, walk->number = number_after(walk->of->kind, number, text.len);
  PyObject *string = PyUnicode_DecodeUTF8(text.bytes, text.len, NULL);
  return string && walk->has_numbers ? Py_BuildValue("(nN)", (Py_ssize_t)number, string) : string;
}

/* Reads all that is left into a list, in reverse order. */
static PyObject *read_rest(Walk *walk) {
  Walk start = *walk;
  PyObject *rest = PyList_New(0), *item;
  while (rest && (item = read_next(walk))) {
    if (PyList_Append(rest, item)) Py_CLEAR(rest);
    Py_DECREF(item);
  }
  if (rest && !PyErr_Occurred() && !PyList_Reverse(rest)) return rest;
  walk->index = start.index, walk->number = start.number;
  Py_XDECREF(rest);
  return NULL;
}

bool shows_more(const Interner *self, size_t count) {
  for (const Walk *walk = self->walks; walk; walk = walk->next)
    if (walk->end > count) return true;
  return false;
}

bool read_walks(Interner *self) {
  if (!self->walks) return true;
  int collects = PyGC_Disable();
  bool is_done = true;
  while (is_done && self->walks) {
    Walk *walk = self->walks;
    is_done = (walk->rest = read_rest(walk)) != NULL;
    if (is_done) forget_interner(walk);
  }
  if (collects) PyGC_Enable();
  return is_done;
}

static PyObject *walk_next(Walk *walk) {
  if (!heed_signals(walk->index)) return NULL;
  if (walk->rest) {
    Py_ssize_t left = PyList_Size(walk->rest);
    PyObject *item = left > 0 ? Py_NewRef(PyList_GetItem(walk->rest, left - 1)) : NULL;
    if (!item || PyList_SetSlice(walk->rest, left - 1, left, NULL)) Py_CLEAR(walk->rest);
    return item;
  }
  if (!walk->of) return NULL;
  PyObject *item = read_next(walk);
  if (!item && !PyErr_Occurred()) forget_interner(walk);
  return item;
}

static PyObject *walk_length_hint(Walk *walk, PyObject *unused) {
  (void)unused;
  if (walk->rest) return PyLong_FromSsize_t(PyList_Size(walk->rest));
  return PyLong_FromSize_t(walk->of ? walk->end - walk->index : 0);
}

static int walk_traverse(Walk *walk, visitproc visit, void *arg) {
  Py_VISIT(Py_TYPE((PyObject *)walk));
  Py_VISIT((PyObject *)walk->of);
  Py_VISIT(walk->rest);
  return 0;
}

static int walk_clear(Walk *walk) {
  forget_interner(walk);
  Py_CLEAR(walk->rest);
  return 0;
}

static void walk_dealloc(Walk *walk) {
  PyTypeObject *type = Py_TYPE((PyObject *)walk);
  PyObject_GC_UnTrack(walk);
  walk_clear(walk);
  ((freefunc)PyType_GetSlot(type, Py_tp_free))(walk);
  Py_DECREF(type);
}

static PyMethodDef walk_methods[] = {{"__length_hint__", (PyCFunction)walk_length_hint, METH_NOARGS, NULL}, {NULL, NULL, 0, NULL}};
static PyType_Slot walk_slots[] = {
    {Py_tp_iter, PyObject_SelfIter}, {Py_tp_iternext, walk_next}, {Py_tp_methods, walk_methods}, {Py_tp_traverse, walk_traverse},
    {Py_tp_clear, walk_clear}, {Py_tp_dealloc, walk_dealloc}, {0, NULL}};
PyType_Spec walk_spec = {"string_interner._native._Walk", sizeof(Walk), 0,
                         Py_TPFLAGS_DEFAULT | Py_TPFLAGS_HAVE_GC | Py_TPFLAGS_DISALLOW_INSTANTIATION, walk_slots};

static PyObject *make_walk(Interner *self, bool has_numbers) {
  Walk *walk = (Walk *)PyType_GenericAlloc(self->state->walk, 0);
  if (!walk || !is_open(self)) {
    Py_XDECREF((PyObject *)walk);
    return NULL;
  }
  Py_INCREF((PyObject *)self);
  walk->of = self, walk->end = interner_len(self->h), walk->has_numbers = has_numbers;
  walk->next = self->walks, self->walks = walk;
  return (PyObject *)walk;
}

PyObject *method_iter(Interner *self) { return make_walk(self, false); }

PyObject *method_entries(Interner *self, PyObject *unused) {
  (void)unused;
  return make_walk(self, true);
}

PyObject *method_reversed(Interner *self, PyObject *unused) {
  (void)unused;
  PyObject *walk = make_walk(self, false), *texts = walk ? PySequence_List(walk) : NULL, *backwards = NULL;
  if (texts && !PyList_Reverse(texts)) backwards = PyObject_GetIter(texts);
  Py_XDECREF(walk);
  Py_XDECREF(texts);
  return backwards;
}
