/* Encoding lines of bytes, without a str of each. */
#include "native.h"

#include <errno.h>
#include <fcntl.h>
#include <unistd.h>

/* At most how many lines there are, without the last one that does not end. */
static Py_ssize_t count_ends(const char *at, const char *end, bool any_newline) {
  Py_ssize_t count = 0;
  for (; at < end; at++) count += *at == '\n' || (any_newline && *at == '\r');
  return count;
}

/* Which part of a line is a row. */
typedef struct Cut {
  Py_ssize_t field; /* -1 if it is the whole line */
  const char *separator;
  Py_ssize_t length;
} Cut;

static const Cut NO_CUT = {-1, NULL, 0};

static const char *find_separator(const Cut *cut, const char *at, const char *end) {
  while (at < end && (at = memchr(at, *cut->separator, end - at))) {
    if (end - at < cut->length) return NULL;
    if (cut->length == 1 || !memcmp(at, cut->separator, cut->length)) return at;
    at++;
  }
  return NULL;
}

/* Finds the field of a line. Returns whether there is one. */
static bool find_field(const Cut *cut, const char **at, size_t *length) {
  const char *end = *at + *length, *begin = *at, *stop = find_separator(cut, begin, end);
  for (Py_ssize_t field = cut->field; field; field--) {
    if (!stop) return false;
    begin = stop + cut->length;
    stop = find_separator(cut, begin, end);
  }
  *at = begin, *length = (stop ? stop : end) - begin;
  return true;
}

/* Encodes a line, or a field of it. */
static bool encode_line(Batch *batch, const Cut *cut, const char *at, size_t length) {
  interner_symbol number;
  if (cut->field >= 0 && !find_field(cut, &at, &length))
    return PyErr_Format(PyExc_ValueError, "line %zd has no field %zd", batch->first + 1, cut->field), false;
  interner_status status = interner_get_or_intern(batch->h, at, length, &number);
  if (status != INTERNER_OK) {
    if (status == INTERNER_BAD_TEXT)
      PyErr_Format(PyExc_ValueError, "%sline %zd is not UTF-8", cut->field < 0 ? "" : "the field of ", batch->first + 1);
    else raise_status(status);
    return false;
  }
  if (!put_number(batch, batch->first, (int64_t)number)) return false;
  batch->first++;
  return true;
}

/* Encodes lines that end before `end`; the last need not end in a newline. There is room for their numbers. */
static bool encode_lines(Batch *batch, const Cut *cut, const char *at, const char *end) {
  while (at < end) {
    const char *newline = memchr(at, '\n', end - at), *stop = newline ? newline : end;
    if (!encode_line(batch, cut, at, stop - at)) return false;
    at = stop + (stop < end);
  }
  return true;
}

/* The same for lines that "\n", "\r" or "\r\n" ends. */
static bool encode_any_lines(Batch *batch, const Cut *cut, const char *at, const char *end) {
  const char *newline = at < end ? memchr(at, '\n', end - at) : NULL;
  while (at < end) {
    if (newline && newline < at) newline = memchr(at, '\n', end - at);
    const char *stop = newline ? newline : end, *carriage = memchr(at, '\r', stop - at);
    if (!encode_line(batch, cut, at, (carriage ? carriage : stop) - at)) return false;
    at = carriage && carriage + 1 < stop ? carriage + 1 : stop + (stop < end);
  }
  return true;
}

/* The end of a part of some lines: behind a newline. */
static const char *end_part(const char *at, const char *end) {
  if (end - at <= BYTES_OF_A_PART) return end;
  const char *newline = memchr(at + BYTES_OF_A_PART, '\n', end - at - BYTES_OF_A_PART);
  return newline ? newline + 1 : end;
}

/* Encodes all lines of bytes, part by part, or undoes the batch. */
static bool encode_bytes(Batch *batch, const Bytes *bytes) {
  const char *at = bytes->at, *end = at + bytes->length;
  bool is_done = true;
  begin_batch(batch);
  while (is_done && at < end) {
    const char *stop = end_part(at, end);
    is_done = (at == bytes->at || resume_batch(batch)) && encode_lines(batch, &NO_CUT, at, stop);
    at = stop;
  }
  if (!is_done) undo_batch(batch);
  else batch->interner->uses++;
  end_batch(batch);
  return is_done;
}

/* How many lines bytes have that nobody changes. Other threads run meanwhile, if there are many. */
static Py_ssize_t count_lines(const Bytes *bytes) {
  const char *end = bytes->at + bytes->length;
  Py_ssize_t ends;
  if (bytes->length <= BYTES_OF_A_PART) ends = count_ends(bytes->at, end, false);
  else {
    Py_BEGIN_ALLOW_THREADS
    ends = count_ends(bytes->at, end, false);
    Py_END_ALLOW_THREADS
  }
  return ends + (bytes->length && end[-1] != '\n');
}

PyObject *intern_lines(Interner *self, PyObject *given) {
  Bytes bytes;
  Py_buffer view;
  if (!read_bytes(given, &bytes)) return NULL;
  PyObject *array = new_array(self->state, "I", count_lines(&bytes), &view);
  if (array) {
    Batch *batch = is_open(self) ? new_batch(self, NULL, self->h, 0) : NULL;
    bool is_done = false;
    if (batch) {
      batch->out = view.buf, batch->width = 4, batch->is_shared = true;
      is_done = encode_bytes(batch, &bytes);
    }
    free_batch(batch);
    PyBuffer_Release(&view);
    if (!is_done) Py_CLEAR(array);
  }
  drop_bytes(&bytes);
  return array;
}

/* A file that is read, and what is read of it and not encoded yet. */
typedef struct Reader {
  PyObject *name;   /* what was given */
  PyObject *object; /* an open file of Python, or null */
  int file;         /* if there is no object */
  bool skips_mark;  /* whether a byte order mark at the front is no part of the first line */
  bool any_newline; /* whether "\r" and "\r\n" end a line, too */
  bool ended;       /* whether there is no more */
  Cut cut;
  PyObject *progress; /* what is told how far it is, or null */
  size_t done;      /* bytes that were read */
  char *bytes;
  size_t used, room;
} Reader;

/* Has room for more bytes. */
static bool reserve_bytes(Reader *reader, size_t more) {
  if (reader->room - reader->used >= more) return true;
  size_t room = 2 * reader->room + more;
  char *bytes = PyMem_Realloc(reader->bytes, room);
  if (!bytes) return PyErr_NoMemory(), false;
  reader->bytes = bytes, reader->room = room;
  return true;
}

/* Reads more bytes of a descriptor. Returns how many, or -1 with an exception. Other threads run meanwhile: nobody else has the
 * reader. */
static Py_ssize_t read_descriptor(Reader *reader) {
  if (!reserve_bytes(reader, BYTES_OF_A_PART)) return -1;
  for (;;) {
    Py_ssize_t count;
    int error;
    Py_BEGIN_ALLOW_THREADS
    count = read(reader->file, reader->bytes + reader->used, BYTES_OF_A_PART);
    error = errno;
    Py_END_ALLOW_THREADS
    if (PyErr_CheckSignals()) return -1;
    if (count >= 0) return count;
    errno = error;
    if (error != EINTR) return PyErr_SetFromErrnoWithFilenameObject(PyExc_OSError, reader->name), -1;
  }
}

/* The same of an open file of Python, which may run any code: nobody else has the reader. */
static Py_ssize_t read_object(Reader *reader) {
  Bytes bytes;
  Py_ssize_t count = -1;
  PyObject *given = PyErr_CheckSignals() ? NULL : PyObject_CallMethod(reader->object, "read", "n", (Py_ssize_t)BYTES_OF_A_PART);
  if (!given) return -1;
  if (given == Py_None) PyErr_SetString(PyExc_BlockingIOError, "the file does not wait for its bytes");
  else if (PyUnicode_Check(given)) PyErr_SetString(PyExc_TypeError, "the file is open as text: open it in the mode 'rb'");
  else if (read_bytes(given, &bytes)) {
    if (reserve_bytes(reader, bytes.length)) {
      if (bytes.length) memcpy(reader->bytes + reader->used, bytes.at, bytes.length);
      count = bytes.length;
    }
    drop_bytes(&bytes);
  }
  Py_DECREF(given);
  return count;
}

static Py_ssize_t read_more(Reader *reader) {
  Py_ssize_t count = reader->ended ? 0 : reader->object ? read_object(reader) : read_descriptor(reader);
  reader->ended |= !count;
  if (count > 0) reader->used += count, reader->done += count;
  return count;
}

/* Drops bytes at the front. There is no memory for them before the first are read. */
static void drop_front(Reader *reader, size_t count) {
  reader->used -= count;
  if (reader->used) memmove(reader->bytes, reader->bytes + count, reader->used);
}

/* Encodes the lines that are read to their ends, or at the end of the file all. Only the last `count` bytes may have newlines. */
static bool encode_read(Batch *batch, Reader *reader, size_t count) {
  size_t whole = reader->used, searched = reader->used - count;
  while (whole > searched && reader->bytes[whole - 1] != '\n') whole--;
  if (!count) whole = reader->used;
  else if (whole == searched) return true;
  const char *end = reader->bytes + whole;
  if (!reserve_batch(batch, count_ends(reader->bytes, end, reader->any_newline) + 1)) return false;
  if (!(reader->any_newline ? encode_any_lines : encode_lines)(batch, &reader->cut, reader->bytes, end)) return false;
  batch->block->used = batch->first;
  drop_front(reader, whole);
  return true;
}

/* Reads the first bytes, at least 3 if there are as many. Returns how many there are, or -1. */
static Py_ssize_t read_front(Reader *reader) {
  static const char mark[] = "\xEF\xBB\xBF";
  enum { MARK = 3 };
  while (!reader->ended && reader->used < MARK)
    if (read_more(reader) < 0) return -1;
  if (reader->skips_mark && reader->used >= MARK && !memcmp(reader->bytes, mark, MARK)) drop_front(reader, MARK);
  return reader->used;
}

/* Says what to do with a file that is compressed. */
static bool explain_compression(bool is_compressed) {
  if (!is_compressed || !PyErr_ExceptionMatches(PyExc_ValueError)) return false;
  PyErr_SetString(PyExc_ValueError, "line 1 is not UTF-8: the file is compressed by gzip; give what gzip.open(path) returns");
  return false;
}

/* Tells how far it is, to any code: nobody else has the reader and the batch. */
static bool tell_progress(const Batch *batch, const Reader *reader) {
  if (!reader->progress) return true;
  PyObject *told = PyObject_CallFunction(reader->progress, "nn", (Py_ssize_t)reader->done, batch->first);
  Py_XDECREF(told);
  return told != NULL;
}

static bool encode_file(Batch *batch, Reader *reader) {
  Py_ssize_t count = read_front(reader);
  bool is_compressed = count >= 2 && reader->bytes[0] == '\x1F' && reader->bytes[1] == '\x8B';
  bool is_done = count >= 0 && encode_read(batch, reader, count);
  for (bool is_last = false; is_done && !is_last; is_last = !count)
    is_done = (count = read_more(reader)) >= 0 && encode_read(batch, reader, count) && tell_progress(batch, reader);
  return is_done || explain_compression(is_compressed && !batch->first);
}

/* Opens a path. Returns a negative number with an exception. */
static int open_file(PyObject *path) {
  PyObject *raw = NULL;
  int file = -1, error = 0;
  if (!PyUnicode_FSConverter(path, &raw)) return -1;
  do {
    Py_BEGIN_ALLOW_THREADS
    file = open(PyBytes_AsString(raw), O_RDONLY | O_CLOEXEC);
    error = errno;
    Py_END_ALLOW_THREADS
  } while (file < 0 && error == EINTR && !PyErr_CheckSignals());
  errno = error;
  if (file < 0 && !PyErr_Occurred()) PyErr_SetFromErrnoWithFilenameObject(PyExc_OSError, path);
  Py_DECREF(raw);
  return file;
}

/* The number of an open file. */
static int read_file_number(PyObject *given) {
  long file = PyLong_AsLong(given);
  if (file != (int)file && !PyErr_Occurred()) PyErr_SetString(PyExc_OverflowError, "no file has this number");
  return (int)file;
}

/* Whether this is an open file of Python. */
static bool is_open_file(PyObject *given) {
  return !PyUnicode_Check(given) && !PyBytes_Check(given) && !PyObject_HasAttrString(given, "__fspath__") &&
         PyObject_HasAttrString(given, "read");
}

/* Encodes the lines of a file in a dictionary that nobody else has. */
static Block *encode_named(Dictionary *dictionary, Reader *reader, Py_ssize_t *rows) {
  bool is_number = PyLong_Check(reader->name);
  if (is_open_file(reader->name)) reader->object = reader->name;
  else reader->file = is_number ? read_file_number(reader->name) : open_file(reader->name);
  if (PyErr_Occurred()) return NULL;
  Batch *batch = new_batch(NULL, NULL, dictionary->h, 0);
  Block *block = NULL;
  if (batch && encode_file(batch, reader)) {
    block = share_block(batch->block);
    *rows = batch->first;
  }
  free_batch(batch);
  PyMem_Free(reader->bytes);
  if (!is_number && !reader->object) close(reader->file);
  return block;
}

static bool is_word(PyObject *given, const char *word) {
  return PyUnicode_Check(given) && !PyUnicode_CompareWithASCIIString(given, word);
}

/* How to read a file, in the words that `open` of Python has. */
static bool read_format(PyObject *encoding, PyObject *newline, Reader *reader) {
  reader->skips_mark = encoding && is_word(encoding, "utf-8-sig");
  reader->any_newline = newline == Py_None;
  if (encoding && !reader->skips_mark && !is_word(encoding, "utf-8"))
    PyErr_SetString(PyExc_ValueError, "an encoding is 'utf-8' or 'utf-8-sig'");
  else if (newline && !reader->any_newline && !is_word(newline, "\n"))
    PyErr_SetString(PyExc_ValueError, "a newline is '\\n' or None");
  return !PyErr_Occurred();
}

/* The separator of fields, whose bytes the caller holds. */
static bool read_separator(PyObject *given, Bytes *separator) {
  Py_ssize_t length;
  if (given && !PyUnicode_Check(given)) return read_bytes(given, separator);
  const char *bytes = given ? PyUnicode_AsUTF8AndSize(given, &length) : ",";
  if (bytes) *separator = (Bytes){.at = bytes, .length = given ? length : 1};
  return bytes != NULL;
}

/* Which field of each line is meant, if one is. */
static bool read_cut(PyObject *field, PyObject *given, Bytes *separator, Reader *reader) {
  reader->cut = NO_CUT;
  if (!field || field == Py_None) {
    if (given) PyErr_SetString(PyExc_TypeError, "a separator, and no field");
    return !given;
  }
  const Py_ssize_t number = PyNumber_AsSsize_t(field, PyExc_OverflowError);
  if (PyErr_Occurred() || !read_separator(given, separator)) return false;
  reader->cut = (Cut){number, separator->at, separator->length};
  const bool has_newline = memchr(separator->at, '\n', separator->length);
  if (number < 0) PyErr_SetString(PyExc_ValueError, "fields are counted from 0");
  else if (!separator->length) PyErr_SetString(PyExc_ValueError, "a separator is empty");
  else if (has_newline || (reader->any_newline && memchr(separator->at, '\r', separator->length)))
    PyErr_SetString(PyExc_ValueError, "a separator has what ends a line");
  return !PyErr_Occurred();
}

/* A column of what a reader reads. */
static PyObject *read_column(State *state, PyTypeObject *type, const Options *options, Reader *reader) {
  Py_ssize_t rows = 0;
  Dictionary *dictionary = new_dictionary(options);
  Block *block = dictionary ? encode_named(dictionary, reader, &rows) : NULL;
  Column *column = block ? make_column(state, type) : NULL;
  if (column) begin_column(column, dictionary, block, rows);
  else {
    drop_block(block);
    drop_dictionary(dictionary);
  }
  return (PyObject *)column;
}

PyObject *column_from_file(PyTypeObject *type, PyObject *args, PyObject *keywords) {
  static char *words[] = {"file", "encoding", "newline", "hasher", "field", "separator", "progress", NULL};
  PyObject *encoding = NULL, *newline = NULL, *hasher = NULL, *field = NULL, *separator = NULL, *column = NULL;
  Options options = {.kind = INTERNER_STRING};
  Reader reader = {0};
  Bytes bytes = {0};
  State *state = state_of_type(type);
  if (!state || !PyArg_ParseTupleAndKeywords(args, keywords, "O|$OOOOOO:from_file", words, &reader.name, &encoding, &newline,
                                             &hasher, &field, &separator, &reader.progress))
    return NULL;
  if (reader.progress == Py_None) reader.progress = NULL;
  if (read_format(encoding, newline, &reader) && read_hasher(state, hasher, &options) &&
      read_cut(field, separator, &bytes, &reader))
    column = read_column(state, type, &options, &reader);
  drop_bytes(&bytes);
  return column;
}
