/* Columns without the texts that no row has, and the memory that they let go of. */
#include "native.h"

bool find_used(const Dictionary *dictionary, const Block *block, Py_ssize_t n, Used *used) {
  size_t distinct = interner_len(dictionary->h), words = distinct / 64 + 1;
  *used = (Used){PyMem_Calloc(words, sizeof *used->bits), PyMem_Calloc(words, sizeof *used->before), 0};
  if (!used->bits || !used->before) {
    drop_used(used);
    return PyErr_NoMemory(), false;
  }
  for (Py_ssize_t row = 0; used->count < distinct && row < n; row++) {
    int64_t code = code_at(block, row);
    if (code < 0) continue;
    uint64_t bit = (uint64_t)1 << (code & 63);
    used->count += !(used->bits[code >> 6] & bit);
    used->bits[code >> 6] |= bit;
  }
  for (size_t word = 1; word < words; word++) used->before[word] = used->before[word - 1] + __builtin_popcountll(used->bits[word - 1]);
  return true;
}

void drop_used(Used *used) {
  PyMem_Free(used->bits);
  PyMem_Free(used->before);
  *used = (Used){0};
}

static int64_t renumber(const Used *used, int64_t code) {
  if (code < 0) return code;
  uint64_t below = used->bits[code >> 6] & (((uint64_t)1 << (code & 63)) - 1);
  return (int64_t)used->before[code >> 6] + __builtin_popcountll(below);
}

Block *renumber_used(const Used *used, const Block *block, Py_ssize_t n) {
  Block *numbered = new_block(n, width_of(used->count));
  for (Py_ssize_t row = 0; numbered && row < n; row++) set_code(numbered, row, renumber(used, code_at(block, row)));
  if (numbered) numbered->used = n;
  return numbered;
}

bool copy_text(Dictionary *to, const Dictionary *from, size_t code, interner_symbol *number) {
  interner_text text;
  interner_resolve(from->h, code, &text);
  interner_status status = interner_get_or_intern_utf8(to->h, text.bytes, text.len, number);
  if (status != INTERNER_OK) raise_status(status);
  return status == INTERNER_OK;
}

/* A dictionary of the used texts of another. */
static Dictionary *copy_used(const Dictionary *from, const Used *used) {
  Dictionary *to = new_dictionary_like(from);
  interner_symbol number;
  size_t count = interner_len(from->h);
  for (size_t code = next_used(used, 0, count); to && code < count; code = next_used(used, code + 1, count)) {
    if (heed_signals(interner_len(to->h)) && copy_text(to, from, code, &number)) continue;
    drop_dictionary(to);
    return NULL;
  }
  return to;
}

/* The same rows, under a dictionary of the texts that they have. */
static bool compact_rows(const Encoded *rows, Encoded *compact) {
  Used used;
  if (!find_used(rows->dictionary, rows->block, rows->n, &used)) return false;
  bool has_all = used.count == interner_len(rows->dictionary->h);
  Dictionary *dictionary = has_all ? share_dictionary(rows->dictionary) : copy_used(rows->dictionary, &used);
  Block *block = !dictionary || !rows->n ? NULL : has_all ? share_block(rows->block) : renumber_used(&used, rows->block, rows->n);
  drop_used(&used);
  *compact = (Encoded){dictionary, block, rows->n};
  if (dictionary && (block || !rows->n)) return true;
  drop_rows(compact);
  return false;
}

PyObject *column_compact(Column *self, PyObject *unused) {
  (void)unused;
  if (!is_made(self)) return NULL;
  Encoded rows = hold_rows(self), compact;
  Column *column = NULL;
  if (compact_rows(&rows, &compact)) {
    if ((column = make_plain(self))) begin_column(column, compact.dictionary, compact.block, compact.n);
    else drop_rows(&compact);
  }
  drop_rows(&rows);
  return (PyObject *)column;
}

Column *without_the_rest(Column *self) {
  if (!is_made(self)) return NULL;
  return (Column *)(self->is_part && has_few_rows(self) ? column_compact(self, NULL) : Py_NewRef((PyObject *)self));
}

/* Encodes rows under a dictionary without texts, with codes for which there is room in a block. */
static bool add_in_order(const Encoded *rows, Dictionary *dictionary, Block *block) {
  size_t distinct = interner_len(rows->dictionary->h);
  interner_symbol number;
  int64_t *table = PyMem_Malloc(distinct * sizeof *table + 1);
  if (!table) return PyErr_NoMemory(), false;
  for (size_t code = 0; code < distinct; code++) table[code] = -1;
  bool is_done = true;
  for (Py_ssize_t row = 0; is_done && row < rows->n; row++) {
    int64_t code = code_at(rows->block, row);
    is_done = heed_signals(row);
    if (is_done && code >= 0 && table[code] < 0) {
      is_done = copy_text(dictionary, rows->dictionary, code, &number);
      table[code] = (int64_t)number;
    }
    if (is_done) set_code(block, row, code < 0 ? -1 : table[code]);
  }
  PyMem_Free(table);
  return is_done;
}

PyObject *column_in_order(Column *self, PyObject *unused) {
  (void)unused;
  if (!is_made(self)) return NULL;
  Encoded rows = hold_rows(self);
  Dictionary *dictionary = new_dictionary_like(rows.dictionary);
  Block *block = dictionary ? new_block(rows.n, width_of(interner_len(rows.dictionary->h))) : NULL;
  Column *ordered = block && add_in_order(&rows, dictionary, block) ? make_plain(self) : NULL;
  if (ordered) begin_column(ordered, dictionary, NULL, 0);
  else drop_dictionary(dictionary);
  if (ordered && !add_codes(ordered, block, rows.n)) Py_CLEAR(ordered);
  drop_block(block);
  drop_rows(&rows);
  return (PyObject *)ordered;
}

PyObject *column_shrink(Column *self, PyObject *unused) {
  (void)unused;
  if (!is_made(self)) return NULL;
  forget_strings(self->dictionary);
  self->dictionary->uses++; /* Strings were texts that somebody saw. */
  interner_shrink(self->dictionary->h);
  shrink_block(&self->block, self->n);
  Py_RETURN_NONE;
}
