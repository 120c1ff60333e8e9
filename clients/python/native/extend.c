/* Adding rows to a column. */
#include "native.h"

bool add_codes(Column *self, Block *codes, Py_ssize_t n) {
  int width = width_of(interner_len(self->dictionary->h));
  if (!self->n && codes && codes->width == width) {
    codes->used = n;
    share_block(codes);
    drop_block(self->block);
    self->block = codes;
  } else {
    if (!reserve_codes(&self->block, self->n, n, width)) return false;
    for (Py_ssize_t row = 0; row < n; row++) set_code(self->block, self->n + row, code_at(codes, row));
    self->block->used = self->n + n;
  }
  self->n += n;
  return true;
}

Batch *batch_of(Column *self, Py_ssize_t rows) {
  Batch *batch = is_made(self) ? new_batch(NULL, self, self->dictionary->h, rows) : NULL;
  if (batch) batch->takes_none = true, batch->missing = -1;
  return batch;
}

PyObject *finish_batch(Batch *batch, bool is_done) {
  if (is_done && !add_codes(batch->column, batch->block, batch->first)) {
    undo_batch(batch);
    is_done = false;
  }
  free_batch(batch);
  return is_done ? Py_NewRef(Py_None) : NULL;
}

static PyObject *extend_in_place(Column *self, Rows *rows) {
  Batch *batch = batch_of(self, rows->n);
  if (!batch) return NULL;
  bool is_done = reserve_batch(batch, rows->n) && encode_rows(batch, rows);
  batch->first = rows->n;
  return finish_batch(batch, is_done);
}

/* Encodes the next values. The iterator may use the column, too, and so may what a value runs when it is dropped. Returns whether
 * there may be more: an iterator that ended is not asked again. */
static bool extend_by_part(Batch *batch, PyObject *walk, bool *is_done) {
  Rows rows;
  PyObject *values = read_values(walk, VALUES_AT_ONCE);
  *is_done = adopt_changes(batch) && values && open_rows_in_place(values, &rows);
  Py_XDECREF(values);
  if (!*is_done || !reserve_batch(batch, rows.n)) {
    undo_batch(batch);
    if (*is_done) close_rows(&rows);
    return *is_done = false;
  }
  bool is_last = rows.n < VALUES_AT_ONCE;
  if ((*is_done = encode_rows(batch, &rows))) {
    batch->first += rows.n;
    batch->block->used = batch->first;
    note_changes(batch);
  }
  close_rows(&rows);
  if (*is_done && is_last && !(*is_done = adopt_changes(batch))) undo_batch(batch);
  return *is_done && !is_last;
}

static PyObject *extend_by_parts(Column *self, PyObject *values) {
  PyObject *walk = PyObject_GetIter(values), *done = NULL;
  Batch *batch = walk ? batch_of(self, VALUES_AT_ONCE) : NULL;
  if (batch) {
    bool is_done;
    note_changes(batch);
    while (extend_by_part(batch, walk, &is_done)) continue;
    done = finish_batch(batch, is_done);
  }
  Py_XDECREF(walk);
  return done;
}

PyObject *column_extend(Column *self, PyObject *given) {
  Rows rows;
  PyObject *done = NULL;
  if (PyObject_TypeCheck(given, self->state->column)) return column_merge(self, given);
  PyObject *values = are_many(given) ? without_mask(given, Py_None) : NULL;
  if (!values) return NULL;
  if (open_rows_in_place(values, &rows)) {
    done = extend_in_place(self, &rows);
    close_rows(&rows);
  } else if (!extend_wide(self, values, &done)) done = extend_by_parts(self, values);
  Py_DECREF(values);
  return done;
}

PyObject *column_append(Column *self, PyObject *value) {
  Py_ssize_t length = 0;
  interner_symbol number = 0;
  const char *bytes = value == Py_None ? "" : utf8_of(value, &length);
  if (!bytes || !is_made(self)) return NULL;
  size_t before = interner_len(self->dictionary->h);
  interner_status status = value == Py_None ? INTERNER_OK : add_text(self, bytes, length, &number);
  if (status != INTERNER_OK) return raise_status(status);
  Dictionary *dictionary = self->dictionary;
  dictionary->uses++;
  if (!reserve_codes(&self->block, self->n, 1, width_of(interner_len(dictionary->h)))) {
    if (dictionary->references == 1) interner_truncate(dictionary->h, before);
    return NULL;
  }
  set_code(self->block, self->n, value == Py_None ? -1 : (int64_t)number);
  self->block->used = ++self->n;
  Py_RETURN_NONE;
}

/* The code in a batch's column of each text of another dictionary, with -1 before the first. Adds those that are new. */
static int64_t *translate(Batch *batch, const Dictionary *from) {
  size_t count = interner_len(from->h);
  interner_symbol number;
  int64_t *table = PyMem_Malloc((count + 1) * sizeof *table);
  if (!table) return PyErr_NoMemory(), NULL;
  *table = -1;
  begin_batch(batch);
  bool is_done = true;
  for (size_t code = 0; is_done && code < count; code++) {
    interner_text text;
    if (code && code % ROWS_OF_A_PART == 0 && !(is_done = resume_batch(batch))) break;
    interner_status status = interner_resolve(from->h, code, &text);
    if (status == INTERNER_OK) status = add_text(batch->column, text.bytes, text.len, &number);
    table[code + 1] = (int64_t)number;
    batch->h = batch->column->dictionary->h;
    if (status != INTERNER_OK) is_done = raise_status(status) != NULL;
  }
  end_batch(batch);
  if (is_done) return table;
  PyMem_Free(table);
  return NULL;
}

/* Appends n codes under a table. Without a table they are the same. */
static bool add_translated(Column *self, const Block *codes, Py_ssize_t n, const int64_t *table) {
  if (!reserve_codes(&self->block, self->n, n, width_of(interner_len(self->dictionary->h)))) return false;
  for (Py_ssize_t row = 0; row < n; row++) {
    int64_t code = code_at(codes, row);
    set_code(self->block, self->n + row, table ? table[code + 1] : code);
  }
  self->block->used = self->n += n;
  return true;
}

PyObject *column_merge(Column *self, PyObject *values) {
  if (!PyObject_TypeCheck(values, self->state->column)) return raise_type("a column is merged with a column, not ", values, "");
  Column *other = (Column *)values;
  if (!is_made(self) || !is_made(other)) return NULL;
  /* Shared, because both columns may be one, and a handler of a signal may change them. */
  Dictionary *from = share_dictionary(other->dictionary);
  Block *codes = share_block(other->block);
  Py_ssize_t n = other->n;
  Batch *batch = new_batch(NULL, self, self->dictionary->h, 0);
  bool is_same = from == self->dictionary;
  int64_t *table = batch && !is_same ? translate(batch, from) : NULL;
  bool is_done = batch && (is_same || table) && add_translated(self, codes, n, table);
  if (is_done) self->dictionary->uses++;
  else if (batch) undo_batch(batch);
  PyMem_Free(table);
  free_batch(batch);
  drop_block(codes);
  drop_dictionary(from);
  return is_done ? Py_NewRef(Py_None) : NULL;
}
