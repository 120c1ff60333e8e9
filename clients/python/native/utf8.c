/* The UTF-8 form of texts, in memory of the caller. */
#include "native.h"

/* Writes the form of a short text. Returns how many bytes it has, or -1 if CPython has to make it, or to raise what is wrong. */
static Py_ssize_t write_short(Utf8 *utf8, PyObject *text, Py_ssize_t n) {
  enum { AT_ONCE = 4 }; /* most texts have some characters of ASCII */
  Py_ssize_t written = 0;
  if (n > MOST_CHARACTERS) return -1;
  if (!PyUnicode_AsUCS4(text, utf8->characters, MOST_CHARACTERS, 0)) return PyErr_Clear(), -1;
  for (const Py_UCS4 *at = utf8->characters, *end = at + n; at < end;) {
    char *to = utf8->bytes + written;
    if (end - at >= AT_ONCE && (at[0] | at[1] | at[2] | at[3]) < 0x80) {
      for (int next = 0; next < AT_ONCE; next++) to[next] = (char)at[next];
      at += AT_ONCE, written += AT_ONCE;
    } else {
      const int bytes = write_character(*at++, to);
      if (!bytes) return -1;
      written += bytes;
    }
  }
  return written;
}

/* How many bytes an exact str takes, with the form that CPython keeps, or -1. */
static Py_ssize_t size_of(PyObject *text) {
  PyObject *size = PyObject_CallMethod(text, "__sizeof__", NULL);
  const Py_ssize_t bytes = size ? PyLong_AsSsize_t(size) : -1;
  Py_XDECREF(size);
  return bytes;
}

/* Whether CPython has kept the form of an exact str that is not ASCII, with these characters: then it takes more than the characters
 * do. To ask CPython for the form would make it. */
static bool has_form(PyObject *text, const Py_UCS4 *characters, Py_ssize_t n) {
  PyObject *two = PyUnicode_FromString("\xC3\xBF\xC3\xBF"); /* ends with a zero, too; each takes a byte */
  const Py_ssize_t head = two ? size_of(two) - 3 : -1, size = size_of(text);
  Py_UCS4 all = 0;
  for (Py_ssize_t at = 0; at < n; at++) all |= characters[at];
  Py_XDECREF(two);
  PyErr_Clear();
  return head > 0 && size > head + (all < 0x100 ? 1 : all < 0x10000 ? 2 : 4) * (n + 1);
}

const char *read_utf8(Utf8 *utf8, PyObject *text, Py_ssize_t *length) {
  /* So many ASCII texts behind one that is not let it count no longer. */
  enum { LIKELY = 16 };
  const char *bytes = utf8->bytes;
  const Py_ssize_t n = PyUnicode_GetLength(text);
  if (n < 0) return NULL;
  /* What others hold, as another row does, may be read again: then the form that CPython keeps is there. */
  const bool is_alone = utf8->likely && Py_REFCNT(text) == 1;
  *length = is_alone && !utf8->is_kept ? write_short(utf8, text, n) : -1;
  if (*length > n && !utf8->is_asked && PyUnicode_CheckExact(text)) {
    utf8->is_asked = true, utf8->is_kept = has_form(text, utf8->characters, n);
  }
  if (*length < 0 && !(bytes = PyUnicode_AsUTF8AndSize(text, length))) return NULL;
  if (*length != n) utf8->likely = LIKELY;
  else if (utf8->likely) utf8->likely--;
  return bytes;
}
