/* Columns of some rows of another. */
#include "native.h"

/* Raises IndexError for a number of a buffer without a row. */
static Block *refuse_row(Block *block, int64_t row, bool is_unsigned) {
  drop_block(block);
  if (is_unsigned) PyErr_Format(PyExc_IndexError, "there is no row %llu", (unsigned long long)row);
  else PyErr_Format(PyExc_IndexError, "there is no row %lld", (long long)row);
  return NULL;
}

/* Takes rows whose numbers begin at a place and lie `step` bytes apart, and whose codes are of a type. Returns how many it took: less
 * than n if the next has no row, which it writes to `wrong`. Each number is read once, because others may change it. One below 0, which
 * counts from the end, is great without a sign. */
#define TAKE(name, From, To) \
  static inline __attribute__((always_inline)) Py_ssize_t name(const From *codes, Py_ssize_t rows, const char *at, Py_ssize_t n, \
                                                               Py_ssize_t step, Py_ssize_t width, bool is_unsigned, Block *block, \
                                                               int64_t *wrong) { \
    To *to = (To *)block->data; \
    for (Py_ssize_t place = 0; place < n; place++, at += step) { \
      const int64_t given = widen(at, width, is_unsigned); \
      uint64_t row = (uint64_t)given; \
      if (__builtin_expect(row >= (uint64_t)rows, 0)) { \
        if (given < 0 && !is_unsigned) row += rows; \
        if (row >= (uint64_t)rows) return *wrong = given, place; \
      } \
      to[place] = codes[row]; \
    } \
    return n; \
  }

TAKE(take_bytes, int8_t, int32_t)
TAKE(take_shorts, int16_t, int32_t)
TAKE(take_narrow, int32_t, int32_t)
TAKE(take_wide, int64_t, int64_t)

/* Copies codes into fewer bytes each, in which all of them fit. The compiler makes instructions of the inner loop that copy several. */
#define SQUEEZE(name, To) \
  static void name(const int32_t *restrict codes, Py_ssize_t n, To *restrict to) { \
    enum { AT_ONCE = 16 }; \
    Py_ssize_t row = 0; \
    for (; n - row >= AT_ONCE; row += AT_ONCE) \
      for (int at = 0; at < AT_ONCE; at++) to[row + at] = (To)codes[row + at]; \
    for (; row < n; row++) to[row] = (To)codes[row]; \
  }

SQUEEZE(squeeze_to_bytes, int8_t)
SQUEEZE(squeeze_to_shorts, int16_t)

/* Whether rows are in no order: the numbers of most that are looked at are far from the next ones. There are more than are looked at. */
static inline __attribute__((always_inline)) bool are_scattered(const char *at, Py_ssize_t n, Py_ssize_t step, Py_ssize_t width) {
  enum { LOOKS = 32, FAR = 1024 };
  int far = 0;
  for (Py_ssize_t look = 0; look < LOOKS; look++, at += n / LOOKS * step) {
    const uint64_t apart = (uint64_t)widen(at + step, width, false) - (uint64_t)widen(at, width, false);
    far += apart + FAR > 2 * FAR;
  }
  return far > LOOKS / 2;
}

/* How few bytes a code may have in a copy for n rows in no order. A copy takes one pass, which so many rows are worth: fewer bytes are
 * in a nearer cache. */
static int squeezed_width(const Encoded *from, Py_ssize_t n) {
  enum { FEW_ROWS = 1 << 18, FEW_OF_THEM = 4 };
  const size_t distinct = interner_len(from->dictionary->h);
  if (from->n < FEW_ROWS || n < from->n / FEW_OF_THEM || from->block->width != 4) return 4;
  return distinct <= INT8_MAX + 1 ? 1 : distinct <= INT16_MAX + 1 ? 2 : 4;
}

/* A copy of the codes in 1 or 2 bytes each, or null if there is no memory for it. */
static void *squeeze_codes(const Encoded *from, int width) {
  void *codes = malloc(from->n * width);
  if (!codes) return NULL;
  if (width == 1) squeeze_to_bytes((const int32_t *)from->block->data, from->n, codes);
  else squeeze_to_shorts((const int32_t *)from->block->data, from->n, codes);
  return codes;
}

/* The codes of rows whose numbers are in a buffer. */
static inline __attribute__((always_inline)) Block *take_view(const Encoded *from, const Py_buffer *view, Py_ssize_t step,
                                                              Py_ssize_t width, bool is_unsigned) {
  const Py_ssize_t n = view->len / width, rows = from->n;
  const char *at = view->buf;
  int64_t wrong = 0;
  Block *block = new_block(n, rows ? from->block->width : 4);
  if (!block) return NULL;
  const int squeezed = squeezed_width(from, n);
  void *few = squeezed < 4 && are_scattered(at, n, step, width) ? squeeze_codes(from, squeezed) : NULL;
  const void *codes = few ? few : rows ? from->block->data : NULL;
  if (few && squeezed == 1) block->used = take_bytes(codes, rows, at, n, step, width, is_unsigned, block, &wrong);
  else if (few) block->used = take_shorts(codes, rows, at, n, step, width, is_unsigned, block, &wrong);
  else if (block->width == 4) block->used = take_narrow(codes, rows, at, n, step, width, is_unsigned, block, &wrong);
  else block->used = take_wide(codes, rows, at, n, step, width, is_unsigned, block, &wrong);
  free(few);
  return block->used == n ? block : refuse_row(block, wrong, is_unsigned);
}

/* The same for the widths that arrays of numbers have by default, end to end, so that the loop knows them. */
static Block *take_numbers(const Encoded *from, const Py_buffer *view, Py_ssize_t width, bool is_unsigned) {
  const Py_ssize_t step = view->strides ? view->strides[0] : width;
  if (width == 8 && step == 8 && !is_unsigned) return take_view(from, view, 8, 8, false);
  if (width == 4 && step == 4 && !is_unsigned) return take_view(from, view, 4, 4, false);
  return take_view(from, view, step, width, is_unsigned);
}

static Block *refuse_mask(Py_ssize_t of_mask, Py_ssize_t rows) {
  PyErr_Format(PyExc_IndexError, "the mask is for %zd rows, and the column has %zd", of_mask, rows);
  return NULL;
}

/* The codes of the rows for which a mask is true. Each boolean is read once, as above. */
static Block *mask_view(const Encoded *from, const Py_buffer *view) {
  const char *at = view->buf;
  const Py_ssize_t n = view->len, step = view->strides ? view->strides[0] : 1;
  if (n != from->n) return refuse_mask(n, from->n);
  /* A place more, because each code is written, and stays if its boolean is true. */
  Block *block = new_block(n + 1, n ? from->block->width : 4);
  if (!block) return NULL;
  Py_ssize_t kept = 0;
  if (block->width == 4)
    for (Py_ssize_t row = 0; row < n; row++, at += step) {
      ((int32_t *)block->data)[kept] = ((const int32_t *)from->block->data)[row];
      kept += *at != 0;
    }
  else
    for (Py_ssize_t row = 0; row < n; row++, at += step) {
      block->data[kept] = from->block->data[row];
      kept += *at != 0;
    }
  block->used = kept;
  shrink_block(&block, kept);
  return block;
}

/* The codes of rows whose numbers are not in a buffer. */
static Block *take_copied(const Encoded *from, const Numbers *rows) {
  Block *block = new_block(rows->n, from->n ? from->block->width : 4);
  for (Py_ssize_t at = 0; block && at < rows->n; at++) {
    const int64_t row = rows->at[at] < 0 ? rows->at[at] + from->n : rows->at[at];
    if (row >= 0 && row < from->n) set_code(block, at, code_at(from->block, row));
    else {
      PyObject *name = name_number(rows, at);
      if (name) PyErr_Format(PyExc_IndexError, "there is no row %U", name);
      Py_XDECREF(name);
      drop_block(block);
      return NULL;
    }
  }
  if (block) block->used = rows->n;
  return block;
}

/* The same for booleans. */
static Block *mask_copied(const Encoded *from, const Numbers *mask) {
  Py_ssize_t n = 0;
  if (mask->n != from->n) return refuse_mask(mask->n, from->n);
  for (Py_ssize_t row = 0; row < mask->n; row++) n += mask->at[row] != 0;
  Block *block = new_block(n, from->n ? from->block->width : 4);
  for (Py_ssize_t row = 0; block && row < mask->n; row++)
    if (mask->at[row]) set_code(block, block->used++, code_at(from->block, row));
  return block;
}

/* The codes of rows whose numbers, or a mask if one is allowed, are in a buffer. */
static Block *choose_view(const Encoded *from, const Py_buffer *view, Py_ssize_t width, bool takes_mask) {
  const char kind = *view->format;
  if (kind != '?') return take_numbers(from, view, width, kind < 'a');
  return takes_mask ? mask_view(from, view) : (refuse_booleans(), NULL);
}

static Block *choose_copied(const Encoded *from, const Numbers *rows, bool takes_mask) {
  if (!takes_mask && (rows->booleans || rows->is_mask)) return refuse_booleans(), NULL;
  if (rows->is_mask) return mask_copied(from, rows);
  if (!rows->booleans) return take_copied(from, rows);
  return PyErr_SetString(PyExc_TypeError, "some are booleans, and some are numbers"), NULL;
}

/* A column of a block of codes. */
static PyObject *make_part(Column *taken, const Column *self, const Encoded *from, Block *block) {
  if (block) begin_column(taken, share_dictionary(from->dictionary), block, block->used);
  else Py_CLEAR(taken);
  if (taken) taken->is_part = self->is_part || taken->n < from->n;
  return (PyObject *)taken;
}

/* The rows are those that the column has once the numbers are read. */
static PyObject *choose_rows(Column *self, PyObject *given, bool takes_mask) {
  Py_buffer view;
  Numbers rows;
  const Py_ssize_t width = open_numbers(given, &view);
  if (!width && !read_numbers(given, &rows)) return NULL;
  Column *taken = make_plain(self);
  PyObject *part = NULL;
  if (taken && is_made(self)) {
    Encoded from = hold_rows(self);
    Block *block = width ? choose_view(&from, &view, width, takes_mask) : choose_copied(&from, &rows, takes_mask);
    part = make_part(taken, self, &from, block);
    drop_rows(&from);
  } else Py_XDECREF((PyObject *)taken);
  if (width) PyBuffer_Release(&view);
  else drop_numbers(&rows);
  return part;
}

PyObject *column_take(Column *self, PyObject *given) { return choose_rows(self, given, false); }

/* Whether a key chooses many rows: a list, or an array with dimensions. A tuple chooses none: for numpy it has a number for each
 * dimension. */
static bool is_for_many(PyObject *key) {
  Py_buffer view;
  if (PyLong_Check(key) || PyTuple_Check(key) || PyUnicode_Check(key)) return false;
  if (PyObject_CheckBuffer(key)) {
    if (PyObject_GetBuffer(key, &view, PyBUF_FULL_RO)) return PyErr_Clear(), true;
    bool is_array = view.ndim > 0;
    PyBuffer_Release(&view);
    return is_array;
  }
  return PySequence_Check(key) && !PyIndex_Check(key);
}

PyObject *column_subscript(Column *self, PyObject *key) {
  if (PySlice_Check(key)) return column_slice(self, key);
  if (!PyLong_CheckExact(key)) {
    if (is_for_many(key)) return choose_rows(self, key, true);
    /* `column == value` is one boolean, which as a number would choose row 0 or 1. */
    const char *rest = PyBool_Check(key) || is_flag(key) ? ": column.isin([value]) makes a mask" : "";
    if (*rest || !PyIndex_Check(key))
      return raise_type("rows are chosen by a number, a slice, a list, an array or a mask, not by ", key, rest);
  }
  Py_ssize_t row = PyNumber_AsSsize_t(key, PyExc_IndexError);
  if (row == -1 && PyErr_Occurred()) return NULL;
  return column_item(self, row < 0 ? row + self->n : row);
}
