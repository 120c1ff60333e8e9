/* Columns for Arrow, by its C data interface in capsules: dictionary<int32 or int64, large_utf8>. */
#include "arrow.h"

#include <errno.h>
#include <stdlib.h>

enum { ARROW_FLAG_NULLABLE = 2 };

static void release_schema(struct ArrowSchema *schema) {
  if (schema->dictionary) {
    if (schema->dictionary->release) schema->dictionary->release(schema->dictionary);
    free(schema->dictionary);
  }
  schema->release = NULL;
}

static void free_schema(PyObject *capsule) {
  struct ArrowSchema *schema = PyCapsule_GetPointer(capsule, "arrow_schema");
  if (schema->release) schema->release(schema);
  free(schema);
}

/* What an array has: its buffers, those of them that are its own, and codes that it shares. */
typedef struct Held {
  const void *buffers[3];
  void *owned[2];
  Block *block;
} Held;

static void drop_held(Held *held) {
  free(held->owned[0]);
  free(held->owned[1]);
  drop_block(held->block);
  free(held);
}

/* May be called without the GIL. */
static void release_array(struct ArrowArray *array) {
  if (array->dictionary) {
    if (array->dictionary->release) array->dictionary->release(array->dictionary);
    free(array->dictionary);
  }
  drop_held(array->private_data);
  array->release = NULL;
}

static void free_array(PyObject *capsule) {
  struct ArrowArray *array = PyCapsule_GetPointer(capsule, "arrow_array");
  if (array->release) array->release(array);
  free(array);
}

/* Writes the type of a column with codes of a width. */
static bool fill_schema(struct ArrowSchema *schema, int width) {
  struct ArrowSchema *texts = calloc(1, sizeof *texts);
  if (!texts) return false;
  *texts = (struct ArrowSchema){.format = "U", .name = "", .flags = ARROW_FLAG_NULLABLE, .release = release_schema};
  *schema = (struct ArrowSchema){
      .format = width == 4 ? "i" : "l", .name = "", .flags = ARROW_FLAG_NULLABLE, .dictionary = texts, .release = release_schema};
  return true;
}

PyObject *make_schema(int width) {
  struct ArrowSchema *schema = calloc(1, sizeof *schema);
  if (!schema || !fill_schema(schema, width)) {
    free(schema);
    return PyErr_NoMemory();
  }
  PyObject *capsule = PyCapsule_New(schema, "arrow_schema", free_schema);
  if (!capsule) {
    release_schema(schema);
    free(schema);
  }
  return capsule;
}

PyObject *column_arrow_schema(Column *self, PyObject *unused) {
  (void)unused;
  return is_made(self) ? make_schema(column_width(self)) : NULL;
}

/* An array that has what is held, which it takes over. */
static struct ArrowArray *make_array(int64_t length, int64_t buffers, Held *held) {
  struct ArrowArray *array = calloc(1, sizeof *array);
  if (array)
    *array = (struct ArrowArray){
        .length = length, .n_buffers = buffers, .buffers = held->buffers, .release = release_array, .private_data = held};
  return array;
}

/* A copy of the dictionary. */
static struct ArrowArray *make_texts(const interner *h) {
  size_t count = interner_len(h), length = 0;
  interner_text text;
  Held *held = calloc(1, sizeof *held);
  int64_t *offsets = malloc((count + 1) * sizeof *offsets);
  for (size_t row = 0; offsets && row < count; row++) {
    interner_resolve(h, row, &text);
    offsets[row] = length;
    length += text.len;
  }
  char *bytes = offsets && held ? malloc(length + 1) : NULL;
  if (bytes) {
    offsets[count] = length;
    for (size_t row = 0; row < count; row++) {
      interner_resolve(h, row, &text);
      memcpy(bytes + offsets[row], text.bytes, text.len);
    }
    *held = (Held){{NULL, offsets, bytes}, {offsets, bytes}, NULL};
    struct ArrowArray *array = make_array(count, 3, held);
    if (array) return array;
    drop_held(held);
  } else {
    free(held);
    free(offsets);
  }
  return NULL;
}

/* The codes, and which of them are of texts, if not all are. */
static struct ArrowArray *make_codes(const Column *self) {
  static const int64_t nothing;
  int64_t missing = 0;
  uint8_t *valid = NULL;
  Held *held = calloc(1, sizeof *held);
  if (!held) return NULL;
  for (Py_ssize_t row = 0; row < self->n; row++) missing += code_at(self->block, row) < 0;
  if (missing && !(valid = calloc(self->n / 8 + 1, 1))) {
    free(held);
    return NULL;
  }
  for (Py_ssize_t row = 0; missing && row < self->n; row++)
    valid[row >> 3] |= (uint8_t)((code_at(self->block, row) >= 0) << (row & 7));
  const void *codes = self->n ? (const void *)self->block->data : &nothing;
  *held = (Held){{valid, codes, NULL}, {valid, NULL}, share_block(self->block)};
  struct ArrowArray *array = make_array(self->n, 2, held);
  if (array) array->null_count = missing;
  else drop_held(held);
  return array;
}

/* Null without an exception if there is no memory. */
static struct ArrowArray *make_rows(const Column *self) {
  self->dictionary->uses++;
  struct ArrowArray *texts = make_texts(self->dictionary->h), *array = texts ? make_codes(self) : NULL;
  if (array) array->dictionary = texts;
  else if (texts) {
    texts->release(texts);
    free(texts);
  }
  return array;
}

static PyObject *make_capsule(const Column *self) {
  struct ArrowArray *array = make_rows(self);
  if (!array) return PyErr_NoMemory();
  PyObject *capsule = PyCapsule_New(array, "arrow_array", free_array);
  if (!capsule) {
    array->release(array);
    free(array);
  }
  return capsule;
}

PyObject *column_arrow_array(Column *self, PyObject *args, PyObject *keywords) {
  static char *words[] = {"requested_schema", NULL};
  PyObject *requested = NULL, *schema, *array, *both = NULL;
  /* A schema that is asked for is a wish, which the specification lets a producer pass over. */
  if (!PyArg_ParseTupleAndKeywords(args, keywords, "|O:__arrow_c_array__", words, &requested)) return NULL;
  Column *lent = without_the_rest(self);
  if (lent && (schema = make_schema(column_width(lent)))) {
    if ((array = make_capsule(lent))) both = PyTuple_Pack(2, schema, array);
    Py_XDECREF(array);
    Py_DECREF(schema);
  }
  Py_XDECREF((PyObject *)lent);
  return both;
}

/* What a stream has: one array, or after that none. Its functions may be called without the GIL. */
typedef struct Chunk {
  struct ArrowArray *array;
  int width;
} Chunk;

static int stream_schema(struct ArrowArrayStream *stream, struct ArrowSchema *schema) {
  const Chunk *chunk = stream->private_data;
  return fill_schema(schema, chunk->width) ? 0 : ENOMEM;
}

static int stream_next(struct ArrowArrayStream *stream, struct ArrowArray *array) {
  Chunk *chunk = stream->private_data;
  if (chunk->array) *array = *chunk->array;
  else array->release = NULL; /* the end */
  free(chunk->array);
  chunk->array = NULL;
  return 0;
}

static const char *stream_error(struct ArrowArrayStream *stream) {
  (void)stream;
  return NULL;
}

static void release_stream(struct ArrowArrayStream *stream) {
  Chunk *chunk = stream->private_data;
  if (chunk->array) chunk->array->release(chunk->array);
  free(chunk->array);
  free(chunk);
  stream->release = NULL;
}

static void free_stream(PyObject *capsule) {
  struct ArrowArrayStream *stream = PyCapsule_GetPointer(capsule, "arrow_array_stream");
  if (stream->release) stream->release(stream);
  free(stream);
}

/* Null without an exception if there is no memory. */
static struct ArrowArrayStream *make_stream(const Column *self) {
  struct ArrowArrayStream *stream = calloc(1, sizeof *stream);
  Chunk *chunk = calloc(1, sizeof *chunk);
  if (stream && chunk && (chunk->array = make_rows(self))) {
    chunk->width = column_width(self);
    *stream = (struct ArrowArrayStream){stream_schema, stream_next, stream_error, release_stream, chunk};
    return stream;
  }
  free(stream);
  free(chunk);
  return NULL;
}

PyObject *column_arrow_stream(Column *self, PyObject *args, PyObject *keywords) {
  static char *words[] = {"requested_schema", NULL};
  PyObject *requested = NULL;
  if (!PyArg_ParseTupleAndKeywords(args, keywords, "|O:__arrow_c_stream__", words, &requested)) return NULL;
  Column *lent = without_the_rest(self);
  if (!lent) return NULL;
  struct ArrowArrayStream *stream = make_stream(lent);
  Py_DECREF((PyObject *)lent);
  if (!stream) return PyErr_NoMemory();
  PyObject *capsule = PyCapsule_New(stream, "arrow_array_stream", free_stream);
  if (!capsule) {
    stream->release(stream);
    free(stream);
  }
  return capsule;
}
