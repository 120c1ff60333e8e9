/* Masks: a boolean for each row. */
#include "native.h"

/* The booleans are in bytes of Python, which never change. */
typedef struct Mask {
  PyObject_HEAD
  State *state;
  PyObject *bytes;
  Py_ssize_t n;
} Mask;

PyObject *new_mask(State *state, Py_ssize_t n, bool **booleans) {
  PyObject *bytes = PyBytes_FromStringAndSize(NULL, n);
  Mask *mask = bytes ? (Mask *)PyType_GenericAlloc(state->mask, 0) : NULL;
  if (!mask) return Py_XDECREF(bytes), NULL;
  mask->state = state, mask->bytes = bytes, mask->n = n;
  *booleans = (bool *)PyBytes_AsString(bytes);
  return (PyObject *)mask;
}

static const bool *booleans_of(const Mask *mask) { return (const bool *)PyBytes_AsString(mask->bytes); }

static void mask_dealloc(Mask *self) {
  PyTypeObject *type = Py_TYPE((PyObject *)self);
  Py_XDECREF(self->bytes);
  ((freefunc)PyType_GetSlot(type, Py_tp_free))(self);
  Py_DECREF(type);
}

static int mask_get_buffer(Mask *self, Py_buffer *view, int flags) {
  if (PyBuffer_FillInfo(view, (PyObject *)self, (void *)booleans_of(self), self->n, true, flags)) return -1;
  if (flags & PyBUF_FORMAT) view->format = (char *)"?";
  return 0;
}

/* No other class has this, because none derives from a mask. */
static bool is_mask(PyObject *object) { return PyType_GetSlot(Py_TYPE(object), Py_tp_dealloc) == (void *)mask_dealloc; }

bool read_mask(PyObject *given, Bytes *booleans) {
  Py_buffer view;
  if (!PyObject_CheckBuffer(given)) return false;
  if (PyObject_GetBuffer(given, &view, PyBUF_FULL_RO)) return PyErr_Clear(), false;
  const bool is_mask = view.ndim == 1 && view.format && !strcmp(view.format, "?");
  PyBuffer_Release(&view);
  return is_mask && read_bytes(given, booleans);
}

/* Reads two masks. Returns whether both are; if not, an exception may be set. */
static bool read_both(PyObject *one, PyObject *other, Bytes *left, Bytes *right) {
  if (!read_mask(one, left)) return false;
  if (read_mask(other, right)) {
    if (left->length == right->length) return true;
    PyErr_Format(PyExc_ValueError, "one mask is for %zd rows, and the other for %zd", left->length, right->length);
    drop_bytes(right);
  }
  drop_bytes(left);
  return false;
}

typedef enum Operator { AND, OR, XOR } Operator;

/* What an operator makes of two masks, of which either may be another buffer of booleans. */
static PyObject *combine(PyObject *one, PyObject *other, Operator operator) {
  State *state = ((const Mask *)(is_mask(one) ? one : other))->state;
  Bytes left, right;
  bool *booleans;
  /* An array of numpy makes one of both itself. */
  if (PyObject_HasAttrString(is_mask(one) ? other : one, "__array_ufunc__")) return Py_NewRef(Py_NotImplemented);
  if (!read_both(one, other, &left, &right)) return PyErr_Occurred() ? NULL : Py_NewRef(Py_NotImplemented);
  PyObject *mask = new_mask(state, left.length, &booleans);
  for (Py_ssize_t row = 0; mask && row < left.length; row++) {
    const bool first = left.at[row] != 0, second = right.at[row] != 0;
    booleans[row] = operator == AND ? first & second : operator == OR ? first | second : first ^ second;
  }
  drop_bytes(&left);
  drop_bytes(&right);
  return mask;
}

static PyObject *mask_and(PyObject *one, PyObject *other) { return combine(one, other, AND); }
static PyObject *mask_or(PyObject *one, PyObject *other) { return combine(one, other, OR); }
static PyObject *mask_xor(PyObject *one, PyObject *other) { return combine(one, other, XOR); }

static PyObject *mask_invert(Mask *self) {
  bool *booleans;
  PyObject *mask = new_mask(self->state, self->n, &booleans);
  for (Py_ssize_t row = 0; mask && row < self->n; row++) booleans[row] = !booleans_of(self)[row];
  return mask;
}

static int mask_bool(Mask *self) {
  (void)self;
  PyErr_SetString(PyExc_ValueError, "a mask has many booleans: write any(mask) or all(mask), and &, | and ~ for and, or and not");
  return -1;
}

static PyObject *mask_richcompare(PyObject *self, PyObject *other, int operator) {
  Bytes left, right;
  if (operator != Py_EQ && operator != Py_NE) Py_RETURN_NOTIMPLEMENTED;
  if (!read_mask(self, &left)) return NULL;
  if (!read_mask(other, &right)) {
    drop_bytes(&left);
    return PyErr_Occurred() ? NULL : Py_NewRef(Py_NotImplemented);
  }
  bool is_equal = left.length == right.length;
  for (Py_ssize_t row = 0; is_equal && row < left.length; row++) is_equal = !left.at[row] == !right.at[row];
  drop_bytes(&left);
  drop_bytes(&right);
  return PyBool_FromLong(is_equal == (operator == Py_EQ));
}

static Py_ssize_t mask_length(Mask *self) { return self->n; }

static PyObject *mask_item(Mask *self, Py_ssize_t row) {
  if (row >= 0 && row < self->n) return PyBool_FromLong(booleans_of(self)[row]);
  PyErr_SetString(PyExc_IndexError, "there is no such row");
  return NULL;
}

static PyObject *mask_slice(Mask *self, PyObject *slice) {
  Py_ssize_t start, stop, step;
  bool *booleans;
  if (PySlice_Unpack(slice, &start, &stop, &step)) return NULL;
  const Py_ssize_t n = PySlice_AdjustIndices(self->n, &start, &stop, step);
  PyObject *mask = new_mask(self->state, n, &booleans);
  for (Py_ssize_t row = 0; mask && row < n; row++) booleans[row] = booleans_of(self)[start + row * step];
  return mask;
}

static PyObject *mask_subscript(Mask *self, PyObject *key) {
  if (PySlice_Check(key)) return mask_slice(self, key);
  if (!PyIndex_Check(key)) return raise_type("a row of a mask is chosen by a number or a slice, not by ", key, "");
  const Py_ssize_t row = PyNumber_AsSsize_t(key, PyExc_IndexError);
  if (row == -1 && PyErr_Occurred()) return NULL;
  return mask_item(self, row < 0 ? row + self->n : row);
}

static Py_ssize_t count_true(const Mask *self) {
  Py_ssize_t count = 0;
  for (Py_ssize_t row = 0; row < self->n; row++) count += booleans_of(self)[row];
  return count;
}

static PyObject *mask_sum(Mask *self, PyObject *unused) {
  (void)unused;
  return PyLong_FromSsize_t(count_true(self));
}

static PyObject *mask_tolist(PyObject *self, PyObject *unused) {
  (void)unused;
  return PySequence_List(self);
}

static PyObject *mask_tobytes(Mask *self, PyObject *unused) {
  (void)unused;
  return Py_NewRef(self->bytes);
}

static PyObject *mask_format(Mask *self, void *unused) {
  (void)self, (void)unused;
  return PyUnicode_FromString("?");
}

static PyObject *mask_readonly(Mask *self, void *unused) {
  (void)self, (void)unused;
  Py_RETURN_TRUE;
}

static PyObject *mask_nbytes(Mask *self, void *unused) {
  (void)unused;
  return PyLong_FromSsize_t(self->n);
}

static PyObject *mask_repr(Mask *self) { return PyUnicode_FromFormat("<Mask of %zd rows, %zd true>", self->n, count_true(self)); }

static PyMethodDef mask_methods[] = {
    {"sum", (PyCFunction)mask_sum, METH_NOARGS, "sum($self, /)\n--\n\nReturns for how many rows it is true."},
    {"tolist", (PyCFunction)mask_tolist, METH_NOARGS, "tolist($self, /)\n--\n\nReturns the booleans in a list."},
    {"tobytes", (PyCFunction)mask_tobytes, METH_NOARGS, "tobytes($self, /)\n--\n\nReturns the booleans as bytes, each 0 or 1."},
    {NULL, NULL, 0, NULL}};

/* As a memoryview of booleans has them. */
static PyGetSetDef mask_getset[] = {
    {"format", (getter)mask_format, NULL, "What an item is for `struct`: `?`.", NULL},
    {"readonly", (getter)mask_readonly, NULL, "That nobody changes it: True.", NULL},
    {"nbytes", (getter)mask_nbytes, NULL, "How many bytes it takes: one for each row.", NULL},
    {NULL, NULL, NULL, NULL, NULL}};

static PyType_Slot mask_slots[] = {
    {Py_tp_doc, "A boolean for each row of a column, of those that `isin`, `isna` and `eq` return. It never changes.\n\n"
                "`~`, `&`, `|` and `^` make other masks, also of one with another buffer of booleans. They raise ValueError for\n"
                "one of another length. With an array of numpy they make such an array. `column[mask]` is the rows for which it\n"
                "is true. numpy reads it without a copy. `==` tells whether all booleans are the same. It has no truth of its\n"
                "own, so `and`, `or`, `not` and `if` raise ValueError."},
    {Py_tp_dealloc, mask_dealloc}, {Py_tp_methods, mask_methods}, {Py_tp_getset, mask_getset}, {Py_tp_repr, mask_repr},
    {Py_tp_iter, PySeqIter_New}, {Py_tp_richcompare, mask_richcompare}, {Py_tp_hash, PyObject_HashNotImplemented},
    {Py_bf_getbuffer, mask_get_buffer}, {Py_nb_invert, mask_invert}, {Py_nb_and, mask_and},
    {Py_nb_or, mask_or}, {Py_nb_xor, mask_xor}, {Py_nb_bool, mask_bool}, {Py_sq_length, mask_length}, {Py_sq_item, mask_item},
    {Py_mp_length, mask_length}, {Py_mp_subscript, mask_subscript}, {0, NULL}};
PyType_Spec mask_spec = {"string_interner.Mask", sizeof(Mask), 0,
                         Py_TPFLAGS_DEFAULT | Py_TPFLAGS_DISALLOW_INSTANTIATION, mask_slots};
