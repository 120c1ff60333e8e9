/* Dictionaries of columns: lists of distinct texts, which columns share. */
#include "native.h"

Dictionary *wrap_handle(interner *h, interner_kind kind, interner_hasher hasher) {
  Dictionary *dictionary = h ? PyMem_Calloc(1, sizeof *dictionary) : NULL;
  if (dictionary) {
    dictionary->references = 1, dictionary->h = h;
    dictionary->kind = kind, dictionary->hasher = hasher;
  } else if (h) {
    interner_free(h);
    PyErr_NoMemory();
  }
  return dictionary;
}

Dictionary *new_dictionary(const Options *options) {
  Dictionary *dictionary = wrap_handle(make_handle(options, 0), options->kind, options->hasher);
  if (dictionary) memcpy(dictionary->keys, options->keys, sizeof dictionary->keys);
  return dictionary;
}

Dictionary *new_dictionary_like(const Dictionary *dictionary) {
  Options options = {.kind = dictionary->kind, .hasher = dictionary->hasher};
  memcpy(options.keys, dictionary->keys, sizeof options.keys);
  return new_dictionary(&options);
}

Dictionary *share_dictionary(Dictionary *dictionary) {
  dictionary->references++;
  return dictionary;
}

void forget_strings(Dictionary *dictionary) {
  for (size_t text = 0; text < dictionary->texts_count; text++) Py_XDECREF(dictionary->texts[text]);
  PyMem_Free(dictionary->texts);
  dictionary->texts = NULL;
  dictionary->texts_count = dictionary->texts_room = dictionary->texts_bytes = 0;
}

static void free_unless_held(Dictionary *dictionary) {
  if (dictionary->references || dictionary->readers) return;
  forget_strings(dictionary);
  interner_free(dictionary->h);
  PyMem_Free(dictionary);
}

void drop_dictionary(Dictionary *dictionary) {
  if (!dictionary) return;
  dictionary->references--;
  free_unless_held(dictionary);
}

Dictionary *read_dictionary(Dictionary *dictionary) {
  dictionary->readers++;
  return dictionary;
}

void leave_dictionary(Dictionary *dictionary) {
  if (!dictionary) return;
  dictionary->readers--;
  free_unless_held(dictionary);
}

/* Gives the column a dictionary of its own, with the same texts. */
static bool own_dictionary(Column *self) {
  Dictionary *shared = self->dictionary, *own;
  interner *h = NULL;
  if (interner_clone(shared->h, &h) != INTERNER_OK || !(own = wrap_handle(h, shared->kind, shared->hasher))) return false;
  own->uses = shared->uses + 1;
  memcpy(own->keys, shared->keys, sizeof own->keys);
  self->dictionary = own;
  drop_dictionary(shared);
  return true;
}

interner_status add_text(Column *self, const char *bytes, size_t length, interner_symbol *number) {
  if (self->dictionary->references > 1) {
    if (interner_get_utf8(self->dictionary->h, bytes, length, number) == INTERNER_OK) return INTERNER_OK;
    if (!own_dictionary(self)) return INTERNER_NO_MEMORY;
  }
  return interner_get_or_intern_utf8(self->dictionary->h, bytes, length, number);
}

bool reserve_strings(Dictionary *dictionary) {
  size_t count = interner_len(dictionary->h), room = count + count / 8;
  if (dictionary->texts_room < count) {
    /* Zeroed memory, of which the system gives only what is written to. */
    PyObject **texts = PyMem_Calloc(room, sizeof *texts);
    if (!texts) return PyErr_NoMemory(), false;
    if (dictionary->texts_count) memcpy(texts, dictionary->texts, dictionary->texts_count * sizeof *texts);
    PyMem_Free(dictionary->texts);
    dictionary->texts = texts, dictionary->texts_room = room;
  }
  if (dictionary->texts_count < count) dictionary->texts_count = count;
  return true;
}

static PyObject *read_string(const Dictionary *dictionary, size_t code, size_t *length) {
  interner_text text;
  interner_resolve(dictionary->h, code, &text);
  *length = text.len;
  return PyUnicode_DecodeUTF8(text.bytes, text.len, NULL);
}

PyObject *keep_string(Dictionary *dictionary, size_t code) {
  enum { ABOUT_A_STR = 48 };
  PyObject *string = kept_string(dictionary, code);
  size_t length;
  if (string) return Py_NewRef(string);
  string = read_string(dictionary, code, &length);
  if (string && code < dictionary->texts_count) {
    dictionary->texts[code] = Py_NewRef(string);
    dictionary->texts_bytes += ABOUT_A_STR + length;
  }
  return string;
}

bool keep_strings(Dictionary *dictionary) {
  bool is_done = reserve_strings(dictionary);
  const size_t count = interner_len(dictionary->h);
  for (size_t code = 0; is_done && code < count; code++) {
    if (!(is_done = heed_signals(code)) || kept_string(dictionary, code)) continue;
    PyObject *string = keep_string(dictionary, code);
    is_done = string != NULL;
    Py_XDECREF(string);
  }
  return is_done;
}

PyObject *list_strings(Dictionary *dictionary) {
  PyObject *list = NULL;
  share_dictionary(dictionary); /* so that it stays as it is while Python code runs */
  /* First all strings, because no Python code may run while the list has places without one. */
  if (keep_strings(dictionary) && (list = PyList_New(interner_len(dictionary->h)))) {
    size_t count = PyList_Size(list);
    for (size_t code = 0; list && code < count; code++) {
      PyObject *string = Py_XNewRef(kept_string(dictionary, code));
      if (!string) string = keep_string(dictionary, code);
      if (!string || PyList_SetItem(list, code, string)) Py_CLEAR(list);
    }
  }
  drop_dictionary(dictionary);
  return list;
}

PyObject *value_of(const Dictionary *dictionary, int64_t code) {
  size_t length;
  if (code < 0) Py_RETURN_NONE;
  PyObject *string = kept_string(dictionary, code);
  return string ? Py_NewRef(string) : read_string(dictionary, code, &length);
}
