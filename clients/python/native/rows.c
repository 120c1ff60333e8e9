/* Iterators of the rows of a column. */
#include "native.h"

typedef struct RowsWalk {
  PyObject_HEAD
  Dictionary *dictionary;
  Block *block;
  Py_ssize_t at, step, left;
} RowsWalk;

static PyObject *walk_rows(Column *self, bool is_reversed) {
  RowsWalk *walk = (RowsWalk *)PyType_GenericAlloc(self->state->rows_walk, 0);
  if (walk && is_made(self)) {
    walk->dictionary = read_dictionary(self->dictionary);
    walk->block = share_block(self->block), walk->left = self->n;
    walk->at = is_reversed ? self->n - 1 : 0, walk->step = is_reversed ? -1 : 1;
    if (has_few_rows(self) || reserve_strings(self->dictionary)) return (PyObject *)walk;
  }
  Py_XDECREF((PyObject *)walk);
  return NULL;
}

PyObject *column_iter(Column *self) { return walk_rows(self, false); }

PyObject *column_reversed(Column *self, PyObject *unused) {
  (void)unused;
  return walk_rows(self, true);
}

static PyObject *rows_walk_next(RowsWalk *walk) {
  if (!heed_signals(walk->left) || !walk->left) return NULL;
  int64_t code = code_at(walk->block, walk->at);
  PyObject *row = code < 0 ? Py_None : kept_string(walk->dictionary, code);
  row = row ? Py_NewRef(row) : keep_string(walk->dictionary, code);
  if (row) walk->at += walk->step, walk->left--;
  return row;
}

static PyObject *rows_walk_length_hint(RowsWalk *walk, PyObject *unused) {
  (void)unused;
  return PyLong_FromSsize_t(walk->left);
}

static int rows_walk_traverse(RowsWalk *walk, visitproc visit, void *arg) {
  (void)walk;
  Py_VISIT(Py_TYPE((PyObject *)walk)); /* Strings need no visit. */
  return 0;
}

static void rows_walk_dealloc(RowsWalk *walk) {
  PyTypeObject *type = Py_TYPE((PyObject *)walk);
  PyObject_GC_UnTrack(walk);
  leave_dictionary(walk->dictionary);
  drop_block(walk->block);
  ((freefunc)PyType_GetSlot(type, Py_tp_free))(walk);
  Py_DECREF(type);
}

static PyMethodDef rows_walk_methods[] = {
    {"__length_hint__", (PyCFunction)rows_walk_length_hint, METH_NOARGS, NULL}, {NULL, NULL, 0, NULL}};
static PyType_Slot rows_walk_slots[] = {
    {Py_tp_iter, PyObject_SelfIter}, {Py_tp_iternext, rows_walk_next}, {Py_tp_methods, rows_walk_methods},
    {Py_tp_traverse, rows_walk_traverse}, {Py_tp_dealloc, rows_walk_dealloc}, {0, NULL}};
PyType_Spec rows_walk_spec = {"string_interner._native._RowsWalk", sizeof(RowsWalk), 0,
                              Py_TPFLAGS_DEFAULT | Py_TPFLAGS_HAVE_GC | Py_TPFLAGS_DISALLOW_INSTANTIATION, rows_walk_slots};
