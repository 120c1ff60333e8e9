/* Blocks of codes, and views of them. */
#include "native.h"

#include <stdlib.h>

int width_of(size_t distinct) { return distinct <= MOST_NARROW ? 4 : 8; }

static bool fits(Py_ssize_t rows, int width) { return rows <= (PY_SSIZE_T_MAX - (Py_ssize_t)sizeof(Block)) / width; }

Block *new_block(Py_ssize_t room, int width) {
  Block *block = fits(room, width) ? malloc(sizeof *block + room * width) : NULL;
  if (!block) return PyErr_NoMemory(), NULL;
  atomic_init(&block->references, 1);
  block->used = 0, block->room = room, block->width = width;
  return block;
}

Block *share_block(Block *block) {
  if (block) atomic_fetch_add(&block->references, 1);
  return block;
}

void drop_block(Block *block) {
  if (block && atomic_fetch_sub(&block->references, 1) == 1) free(block);
}

static void copy_codes(Block *to, const Block *from, Py_ssize_t n) {
  if (to->width == from->width) memcpy(to->data, from->data, n * to->width);
  else
    for (Py_ssize_t row = 0; row < n; row++) set_code(to, row, code_at(from, row));
}

bool reserve_codes(Block **at, Py_ssize_t n, Py_ssize_t more, int width) {
  Block *block = *at, *grown;
  bool is_same = block && block->width == width;
  /* Behind the used codes of a block the first who comes may write. */
  if (is_same && n == block->used && more <= block->room - n) return true;
  if (more > PY_SSIZE_T_MAX / 2 - n) return PyErr_NoMemory(), false;
  Py_ssize_t room = n + more > n + n / 8 + 6 ? n + more : n + n / 8 + 6;
  if (is_same && atomic_load(&block->references) == 1) {
    if (!fits(room, width) || !(grown = realloc(block, sizeof *block + room * width))) return PyErr_NoMemory(), false;
    grown->room = room;
  } else {
    if (!(grown = new_block(room, width))) return false;
    if (block) copy_codes(grown, block, n);
    drop_block(block);
  }
  grown->used = n;
  *at = grown;
  return true;
}

void shrink_block(Block **at, Py_ssize_t n) {
  Block *block = *at;
  if (!block || block->room == n || atomic_load(&block->references) > 1) return;
  Block *shrunk = realloc(block, sizeof *block + n * block->width);
  if (!shrunk) return;
  shrunk->used = shrunk->room = n;
  *at = shrunk;
}

/* What a view of codes refers to. */
typedef struct Codes {
  PyObject_HEAD
  Block *block;
  Py_ssize_t n, width;
} Codes;

static int codes_get_buffer(Codes *self, Py_buffer *view, int flags) {
  static const int64_t nothing;
  view->obj = NULL;
  if ((flags & PyBUF_WRITABLE) == PyBUF_WRITABLE) return PyErr_SetString(PyExc_BufferError, "codes are read-only"), -1;
  view->buf = self->block ? (void *)self->block->data : (void *)&nothing;
  view->obj = Py_NewRef((PyObject *)self);
  view->len = self->n * self->width, view->itemsize = self->width, view->readonly = 1, view->ndim = 1;
  view->format = !(flags & PyBUF_FORMAT) ? NULL : self->width == 4 ? (char *)"i" : (char *)"q";
  view->shape = flags & PyBUF_ND ? &self->n : NULL;
  view->strides = (flags & PyBUF_STRIDES) == PyBUF_STRIDES ? &self->width : NULL;
  view->suboffsets = NULL, view->internal = NULL;
  return 0;
}

static void codes_dealloc(Codes *self) {
  PyTypeObject *type = Py_TYPE((PyObject *)self);
  drop_block(self->block);
  ((freefunc)PyType_GetSlot(type, Py_tp_free))(self);
  Py_DECREF(type);
}

PyObject *view_codes(State *state, Block *block, Py_ssize_t n, int width) {
  Codes *codes = (Codes *)PyType_GenericAlloc(state->codes, 0);
  if (!codes) return NULL;
  codes->block = share_block(n ? block : NULL), codes->n = n, codes->width = n ? block->width : width;
  PyObject *view = PyMemoryView_FromObject((PyObject *)codes);
  Py_DECREF(codes);
  return view;
}

static PyType_Slot codes_slots[] = {
    {Py_tp_dealloc, codes_dealloc}, {Py_bf_getbuffer, codes_get_buffer}, {Py_tp_doc, "What a view of codes refers to."}, {0, NULL}};
PyType_Spec codes_spec = {"string_interner._native._Codes", sizeof(Codes), 0,
                          Py_TPFLAGS_DEFAULT | Py_TPFLAGS_DISALLOW_INSTANTIATION, codes_slots};
