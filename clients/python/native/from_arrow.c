/* Columns of what others hand over by Arrow's C data interface, in capsules.
 *
 * A struct is moved out of its capsule, so that nobody else has it, and is released once, whatever happens. Python code may run
 * while a stream is asked for its next array, and in handlers of signals. It does not find the dictionary and the codes, which
 * become a column's only at the end. All numbers are checked. How long a buffer is, the interface does not tell. */
#include "arrow.h"

#include <errno.h>

/* How an array stores texts, as the bytes that it has of each besides those of the text. */
typedef enum Layout { NO_TEXTS = 0, NARROW_OFFSETS = 4, WIDE_OFFSETS = 8, VIEWS = 16 } Layout;

/* How an array stores its rows: as texts, or as indices of those of its dictionary. */
typedef struct Form {
  Layout layout;
  int index_width;  /* 0 if there is no dictionary */
  bool is_unsigned; /* whether indices are */
  bool is_table;    /* whether these are of its only column */
} Form;

/* Rows that were read. */
typedef struct Taken {
  Dictionary *dictionary;
  Block *block;
  Py_ssize_t n;
} Taken;

/* Stands for null among symbols: no text has it. */
static const interner_symbol NO_TEXT = UINT32_MAX;

static bool raise_format(const char *format) {
  const char *advice = format && !strcmp(format, "+s") ? "a table or a record batch has several columns: take one of its columns"
                                                       : "utf8, large_utf8, string views, nulls and dictionaries of them are";
  PyErr_Format(PyExc_TypeError, "Arrow's type '%s' is not read: %s", format ? format : "", advice);
  return false;
}

/* The place of a format of one letter among letters, or -1. */
static int place_of(const char *format, const char *letters) {
  const char *at = format && *format && !format[1] ? strchr(letters, *format) : NULL;
  return at ? (int)(at - letters) : -1;
}

static bool read_layout(const char *format, Layout *layout) {
  static const struct { const char *format; Layout layout; } known[] = {
      {"u", NARROW_OFFSETS}, {"U", WIDE_OFFSETS}, {"vu", VIEWS}, {"n", NO_TEXTS}};
  for (size_t at = 0; format && at < sizeof known / sizeof *known; at++)
    if (!strcmp(format, known[at].format)) return *layout = known[at].layout, true;
  return raise_format(format);
}

static bool read_form(const struct ArrowSchema *schema, Form *form) {
  const bool has_child = schema->n_children == 1 && schema->children && schema->children[0];
  *form = (Form){.is_table = has_child && schema->format && !strcmp(schema->format, "+s")};
  if (form->is_table) schema = schema->children[0];
  const struct ArrowSchema *texts = schema->dictionary ? schema->dictionary : schema;
  if (texts != schema && texts->dictionary) return raise_format(texts->format);
  if (!read_layout(texts->format, &form->layout)) return false;
  if (texts == schema) return true;
  int index_place = place_of(schema->format, "cCsSiIlL");
  if (index_place < 0) return raise_format(schema->format);
  form->index_width = 1 << index_place / 2, form->is_unsigned = index_place % 2;
  return true;
}

static bool is_null(const struct ArrowArray *array, int64_t row) {
  const uint8_t *valid = array->buffers[0];
  row += array->offset;
  return valid && !(valid[row >> 3] >> (row & 7) & 1);
}

/* What is wrong with the length and the place of an array, or null. */
static const char *fault_of_range(const struct ArrowArray *array) {
  enum { WIDEST = 16 };
  return array->length < 0 || array->offset < 0 || array->length > PY_SSIZE_T_MAX / (2 * WIDEST) - array->offset
             ? "a length or an offset that cannot be"
             : NULL;
}

/* What is wrong with the numbers of an array that has `least` buffers, or up to `most`; or null. */
static const char *fault_of(const struct ArrowArray *array, int64_t least, int64_t most, bool has_dictionary) {
  const char *fault = fault_of_range(array);
  if (fault) return fault;
  if (array->n_buffers < least || array->n_buffers > most || !array->buffers) return "another number of buffers than its type";
  if ((array->dictionary != NULL) != has_dictionary) return "a dictionary, and its type none, or the other way round";
  if (array->length && least > 1 && !array->buffers[1]) return "rows, and no buffer for them";
  if (array->null_count < -1) return "a number of nulls that cannot be";
  int64_t nulls = 0;
  for (int64_t row = 0; array->buffers[0] && row < array->length; row++) nulls += is_null(array, row);
  return array->null_count >= 0 && array->null_count != nulls ? "another number of nulls than it says" : NULL;
}

/* How many bytes a buffer has that views are of. The last buffer tells it. */
static int64_t size_of_buffer(const struct ArrowArray *array, int64_t index) {
  return widen((const char *)array->buffers[array->n_buffers - 1] + index * sizeof(int64_t), sizeof(int64_t), false);
}

/* What is wrong with the buffers that views are of, or null. */
static const char *fault_of_buffers(const struct ArrowArray *array) {
  const int64_t count = array->n_buffers - 3;
  if (count && !array->buffers[array->n_buffers - 1]) return "buffers of views, and no sizes of them";
  for (int64_t index = 0; index < count; index++) {
    const int64_t size = size_of_buffer(array, index);
    if (size < 0 || (size && !array->buffers[index + 2])) return "a buffer of views whose size cannot be";
  }
  return NULL;
}

/* What is wrong with the numbers of an array of texts, or null. */
static const char *fault_of_texts(const struct ArrowArray *array, Layout layout) {
  const char *fault;
  switch (layout) {
  /* Nulls need no buffer, and some producers hand over one that has nothing. */
  case NO_TEXTS: return array->dictionary ? "a dictionary, and its type none" : fault_of_range(array);
  case VIEWS: return (fault = fault_of(array, 3, INT32_MAX, false)) ? fault : fault_of_buffers(array);
  default: return fault_of(array, 3, 3, false);
  }
}

/* Raises a fault, if there is one. Returns whether there is none. */
static bool check_array(const char *fault) {
  if (fault) PyErr_Format(PyExc_ValueError, "an array of Arrow has %s", fault);
  return !fault;
}

static int64_t number_at(const struct ArrowArray *array, int64_t row, int width, bool is_unsigned) {
  return widen((const char *)array->buffers[1] + (array->offset + row) * width, width, is_unsigned);
}

/* Finds the text between two offsets. */
static bool find_between(const struct ArrowArray *array, int64_t row, int64_t begin, int64_t end, interner_text *text) {
  const char *bytes = array->buffers[2];
  if (begin < 0 || end < begin || (end > begin && !bytes)) {
    PyErr_Format(PyExc_ValueError, "text %lld of an array of Arrow is from byte %lld to %lld%s", (long long)row, (long long)begin,
                 (long long)end, bytes ? "" : ", and there are no bytes");
    return false;
  }
  *text = (interner_text){end > begin ? bytes + begin : "", end - begin};
  return true;
}

/* Finds the text of a view: its length, and either the text itself, or its first bytes, a buffer, and a place there. */
static bool find_viewed(const struct ArrowArray *array, int64_t row, interner_text *text) {
  enum { LONGEST_WITHIN = 12, FRONT = 4 };
  const char *view = (const char *)array->buffers[1] + (array->offset + row) * VIEWS, *bytes;
  const int64_t length = widen(view, 4, false), index = widen(view + 8, 4, false), offset = widen(view + 12, 4, false);
  if (length >= 0 && length <= LONGEST_WITHIN) return *text = (interner_text){view + 4, length}, true;
  if (length < 0 || index < 0 || index >= array->n_buffers - 3 || offset < 0 || length > size_of_buffer(array, index) - offset) {
    PyErr_Format(PyExc_ValueError,
                 "text %lld of an array of Arrow is a view of %lld bytes from byte %lld of buffer %lld, which are not there",
                 (long long)row, (long long)length, (long long)offset, (long long)index);
    return false;
  }
  bytes = (const char *)array->buffers[index + 2] + offset;
  if (memcmp(bytes, view + 4, FRONT)) {
    PyErr_Format(PyExc_ValueError, "text %lld of an array of Arrow begins otherwise than its view says", (long long)row);
    return false;
  }
  *text = (interner_text){bytes, length};
  return true;
}

/* Finds the texts of some rows, and marks the rows that are null. Each number is read once, because others may change a buffer. */
static bool find_texts(const struct ArrowArray *array, Layout layout, int64_t first, size_t n, interner_text *texts,
                       interner_symbol *symbols) {
  interner_text text;
  int64_t begin, end = layout == VIEWS ? 0 : number_at(array, first, layout, false);
  for (size_t row = 0; row < n; row++) {
    symbols[row] = is_null(array, first + row) ? NO_TEXT : 0;
    if (layout == VIEWS) {
      if (symbols[row] != NO_TEXT && !find_viewed(array, first + row, &text)) return false;
    } else {
      begin = end, end = number_at(array, first + row + 1, layout, false);
      if (!find_between(array, first + row, begin, end, &text)) return false;
    }
    if (symbols[row] != NO_TEXT) *texts++ = text;
  }
  return true;
}

enum { AT_ONCE = 512 };

/* The symbols of the texts of some rows. */
static bool intern_some(interner *h, const struct ArrowArray *array, Layout layout, int64_t first, size_t n,
                        interner_symbol *symbols) {
  if (layout == NO_TEXTS) return memset(symbols, 0xFF, n * sizeof *symbols), true; /* NO_TEXT each */
  interner_text texts[AT_ONCE];
  interner_symbol found[AT_ONCE];
  size_t places[AT_ONCE], count = 0, done;
  if (!find_texts(array, layout, first, n, texts, symbols)) return false;
  for (size_t row = 0; row < n; row++)
    if (symbols[row] != NO_TEXT) places[count++] = row;
  interner_status status = interner_intern_texts(h, texts, count, found, &done);
  for (size_t text = 0; status == INTERNER_OK && text < count; text++) symbols[places[text]] = found[text];
  if (status == INTERNER_BAD_TEXT)
    PyErr_Format(PyExc_ValueError, "text %lld of an array of Arrow is not UTF-8", (long long)(first + places[done]));
  else if (status != INTERNER_OK) raise_status(status);
  return status == INTERNER_OK;
}

/* The symbol of each text of an array, or of null. */
static interner_symbol *intern_texts(interner *h, const struct ArrowArray *array, Layout layout) {
  if (!check_array(fault_of_texts(array, layout))) return NULL;
  interner_symbol *symbols = PyMem_Malloc(array->length * sizeof *symbols + 1);
  if (!symbols) return PyErr_NoMemory(), NULL;
  for (int64_t row = 0; row < array->length; row += AT_ONCE) {
    size_t n = array->length - row < AT_ONCE ? array->length - row : AT_ONCE;
    if ((!row || row % ROWS_OF_A_PART || !PyErr_CheckSignals()) && intern_some(h, array, layout, row, n, symbols + row)) continue;
    PyMem_Free(symbols);
    return NULL;
  }
  return symbols;
}

/* The place of a row's text among those of the dictionary, or -1 for null. Raises ValueError if there is no such text. */
static bool read_index(const struct ArrowArray *array, const Form *form, int64_t row, int64_t texts, int64_t *index) {
  *index = -1;
  if (is_null(array, row)) return true;
  *index = number_at(array, row, form->index_width, form->is_unsigned);
  if (*index >= 0 && *index < texts) return true;
  PyErr_Format(PyExc_ValueError, form->is_unsigned ? "row %lld of an array of Arrow has index %llu, and its dictionary %lld texts"
                                                   : "row %lld of an array of Arrow has index %lld, and its dictionary %lld texts",
               (long long)row, (long long)*index, (long long)texts);
  return false;
}

/* Adds the rows of an array. */
static bool add_column(Taken *taken, const struct ArrowArray *array, const Form *form) {
  if (form->index_width && !check_array(fault_of(array, 2, 2, true))) return false;
  const struct ArrowArray texts = form->index_width ? *array->dictionary : *array;
  interner *h = taken->dictionary->h;
  interner_symbol *symbols = intern_texts(h, &texts, form->layout);
  bool is_done = symbols && reserve_codes(&taken->block, taken->n, array->length, width_of(interner_len(h)));
  for (int64_t row = 0, index; is_done && row < array->length; row++) {
    if (!form->index_width) index = row;
    else if (!(is_done = read_index(array, form, row, texts.length, &index))) break;
    set_code(taken->block, taken->n + row, index < 0 || symbols[index] == NO_TEXT ? -1 : (int64_t)symbols[index]);
  }
  if (is_done) taken->block->used = taken->n += array->length;
  PyMem_Free(symbols);
  return is_done;
}

/* What is wrong with the numbers of a table of one column, or null. */
static const char *fault_of_table(const struct ArrowArray *table) {
  const char *fault = fault_of(table, 1, 1, false);
  if (fault) return fault;
  if (table->n_children != 1 || !table->children || !table->children[0]) return "another number of columns than its type";
  const struct ArrowArray *column = table->children[0];
  return (fault = fault_of_range(column)) ? fault
         : column->length - table->length < table->offset ? "a column with fewer rows than there are"
                                                          : NULL;
}

/* Adds the rows of an array, or of the only column of a table. A row of a table that is null is None. */
static bool add_rows(Taken *taken, const struct ArrowArray *array, const Form *form) {
  if (!form->is_table) return add_column(taken, array, form);
  if (!check_array(fault_of_table(array))) return false;
  struct ArrowArray column = *array->children[0];
  const Py_ssize_t first = taken->n;
  if (column.length != array->length) column.null_count = -1; /* It counts those of other rows, too. */
  column.offset += array->offset, column.length = array->length;
  if (!add_column(taken, &column, form)) return false;
  for (int64_t row = 0; array->buffers[0] && row < array->length; row++)
    if (is_null(array, row)) set_code(taken->block, first + row, -1);
  return true;
}

/* Whether a capsule has a struct that nobody moved out of it. */
static bool is_there(const void *at, bool has_release) {
  if (at && !has_release) PyErr_SetString(PyExc_ValueError, "what a capsule of Arrow had was released");
  return has_release;
}

static bool move_schema(PyObject *capsule, struct ArrowSchema *schema) {
  struct ArrowSchema *from = PyCapsule_GetPointer(capsule, "arrow_schema");
  if (!is_there(from, from && from->release)) return false;
  *schema = *from;
  from->release = NULL;
  return true;
}

static bool move_array(PyObject *capsule, struct ArrowArray *array) {
  struct ArrowArray *from = PyCapsule_GetPointer(capsule, "arrow_array");
  if (!is_there(from, from && from->release)) return false;
  *array = *from;
  from->release = NULL;
  return true;
}

static bool move_stream(PyObject *capsule, struct ArrowArrayStream *stream) {
  struct ArrowArrayStream *from = PyCapsule_GetPointer(capsule, "arrow_array_stream");
  if (!is_there(from, from && from->release)) return false;
  *stream = *from;
  from->release = NULL;
  return true;
}

/* Releases a struct. Its function may run Python code, which must not find an exception. A schema of a stream may lack it. */
#define RELEASE(it) \
  do { \
    PyObject *type, *value, *trace; \
    PyErr_Fetch(&type, &value, &trace); \
    if ((it)->release) (it)->release(it); \
    PyErr_Restore(type, value, trace); \
  } while (0)

static bool take_array(Taken *taken, PyObject *both) {
  struct ArrowSchema schema;
  struct ArrowArray array;
  Form form;
  if (!PyTuple_Check(both) || PyTuple_Size(both) != 2) return raise_type("__arrow_c_array__ returns a tuple of two, not ", both, ""), false;
  if (!move_schema(PyTuple_GetItem(both, 0), &schema)) return false;
  bool is_done = false;
  if (move_array(PyTuple_GetItem(both, 1), &array)) {
    is_done = read_form(&schema, &form) && add_rows(taken, &array, &form);
    RELEASE(&array);
  }
  RELEASE(&schema);
  return is_done;
}

static bool raise_error(struct ArrowArrayStream *stream, int error) {
  if (error == ENOMEM) return PyErr_NoMemory(), false;
  const char *said = stream->get_last_error ? stream->get_last_error(stream) : NULL;
  if (!said) said = strerror(error);
  PyObject *arguments = Py_BuildValue("(iN)", error, PyUnicode_DecodeUTF8(said, strlen(said), "replace"));
  if (arguments) PyErr_SetObject(PyExc_OSError, arguments);
  Py_XDECREF(arguments);
  return false;
}

/* The other threads run meanwhile, because the stream may wait for one. */
static bool ask_for_schema(struct ArrowArrayStream *stream, struct ArrowSchema *schema) {
  int error;
  Py_BEGIN_ALLOW_THREADS
  error = stream->get_schema(stream, schema);
  Py_END_ALLOW_THREADS
  return !error || raise_error(stream, error);
}

static bool ask_for_array(struct ArrowArrayStream *stream, struct ArrowArray *array) {
  int error;
  Py_BEGIN_ALLOW_THREADS
  error = stream->get_next(stream, array);
  Py_END_ALLOW_THREADS
  return !error || raise_error(stream, error);
}

static bool take_arrays(Taken *taken, struct ArrowArrayStream *stream, const Form *form) {
  for (;;) {
    struct ArrowArray array = {0};
    if (!ask_for_array(stream, &array)) return false;
    if (!array.release) return true; /* the end */
    bool is_done = add_rows(taken, &array, form) && !PyErr_CheckSignals();
    RELEASE(&array);
    if (!is_done) return false;
  }
}

static bool take_stream(Taken *taken, PyObject *capsule) {
  struct ArrowArrayStream stream;
  struct ArrowSchema schema = {0};
  Form form;
  if (!move_stream(capsule, &stream)) return false;
  bool is_done = ask_for_schema(&stream, &schema);
  if (is_done) {
    is_done = read_form(&schema, &form);
    RELEASE(&schema);
  }
  is_done = is_done && take_arrays(taken, &stream, &form);
  RELEASE(&stream);
  return is_done;
}

/* What a method returns that is asked for a dictionary of large_utf8, which is read fastest. Some do not know how to make one, or
 * do not take the wish: then what it returns without. */
static PyObject *call_for_dictionary(PyObject *method) {
  PyObject *wish = make_schema(4), *result = wish ? PyObject_CallFunctionObjArgs(method, wish, NULL) : NULL;
  Py_XDECREF(wish);
  if (result || !wish) return result;
  if (!PyErr_ExceptionMatches(PyExc_TypeError) && !PyErr_ExceptionMatches(PyExc_ValueError) &&
      !PyErr_ExceptionMatches(PyExc_NotImplementedError))
    return NULL;
  PyErr_Clear();
  return PyObject_CallNoArgs(method);
}

/* What a method returns, or null without an exception if there is none. */
static PyObject *call_if_there(PyObject *given, const char *name) {
  PyObject *method = PyObject_GetAttrString(given, name);
  if (!method) {
    if (PyErr_ExceptionMatches(PyExc_AttributeError)) PyErr_Clear();
    return NULL;
  }
  PyObject *result = call_for_dictionary(method);
  Py_DECREF(method);
  return result;
}

static bool take_rows(Taken *taken, PyObject *given) {
  PyObject *both = call_if_there(given, "__arrow_c_array__"), *stream = NULL;
  bool is_done = both && take_array(taken, both);
  if (!both && !PyErr_Occurred()) {
    stream = call_if_there(given, "__arrow_c_stream__");
    if (stream) is_done = take_stream(taken, stream);
    else if (!PyErr_Occurred())
      raise_type("an array of Arrow has __arrow_c_array__ or __arrow_c_stream__, and a ", given, " has neither");
  }
  Py_XDECREF(both);
  Py_XDECREF(stream);
  return is_done;
}

PyObject *column_from_arrow(PyTypeObject *type, PyObject *args, PyObject *keywords) {
  static char *words[] = {"values", "hasher", NULL};
  PyObject *given, *hasher = NULL;
  Options options = {.kind = INTERNER_STRING};
  Taken taken = {0};
  State *state = state_of_type(type);
  if (!state || !PyArg_ParseTupleAndKeywords(args, keywords, "O|$O:from_arrow", words, &given, &hasher)) return NULL;
  if (!read_hasher(state, hasher, &options) || !(taken.dictionary = new_dictionary(&options))) return NULL;
  Column *column = take_rows(&taken, given) ? make_column(state, type) : NULL;
  if (column) begin_column(column, taken.dictionary, taken.block, taken.n);
  else {
    drop_dictionary(taken.dictionary);
    drop_block(taken.block);
  }
  return (PyObject *)column;
}
