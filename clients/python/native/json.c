/* Reading JSON part by part. The library reads each part: here strings are only skipped. */
#include "native.h"

static bool is_space(char byte) { return byte == ' ' || byte == '\t' || byte == '\n' || byte == '\r'; }

/* The quote that ends a string which began before, or the end of all. */
static const char *end_string(const char *at, const char *end) {
  const char *quote, *escapes;
  for (; (quote = memchr(at, '"', end - at)); at = quote + 1) {
    for (escapes = quote; escapes > at && escapes[-1] == '\\'; escapes--) continue;
    if ((quote - escapes) % 2 == 0) return quote;
  }
  return end;
}

/* The end of a part of an array's strings: the first comma between two of them behind many bytes, or the end of all. Null if there is
 * anything but strings, commas and white space. */
static const char *end_strings(const char *at, const char *end) {
  const char *least = end - at > BYTES_OF_A_PART ? at + BYTES_OF_A_PART : end;
  for (; at < end; at++) {
    if (*at == '"' && (at = end_string(at + 1, end)) == end) return NULL;
    if (*at == ',' && at >= least) return at;
    if (*at != '"' && *at != ',' && !is_space(*at)) return NULL;
  }
  return end;
}

/* Makes an interner of the strings of a part. */
static interner_status read_part(const interner_options *made_by, bool is_exact, const char *at, size_t length, interner **strings) {
  char *array = PyMem_Malloc(length + 2);
  if (!array) return INTERNER_NO_MEMORY;
  *array = '[', array[length + 1] = ']';
  memcpy(array + 1, at, length);
  interner_status status = interner_from_json_with(made_by, array, length + 2, is_exact, strings);
  PyMem_Free(array);
  /* In an array of several parts none is empty: that has a comma too many. */
  return status == INTERNER_OK && !interner_len(*strings) ? INTERNER_BAD_TEXT : status;
}

/* Adds the strings of a part to an interner. */
static interner_status add_part(interner *h, const interner_options *made_by, bool is_exact, const char *at, size_t length) {
  interner *strings = NULL;
  interner_symbol number;
  interner_text text;
  size_t before = interner_len(h);
  interner_status status = read_part(made_by, is_exact, at, length, &strings);
  size_t count = status == INTERNER_OK ? interner_len(strings) : 0;
  for (size_t row = 0; status == INTERNER_OK && row < count; row++) {
    interner_resolve(strings, row, &text);
    status = interner_get_or_intern_utf8(h, text.bytes, text.len, &number);
  }
  interner_free(strings);
  return status == INTERNER_OK && is_exact && interner_len(h) - before < count ? INTERNER_REPEATED : status;
}

/* Reads a long array of strings. Returns null without an exception for anything else, and for a repeat that may not be. */
static interner *read_parts(const Options *options, bool is_exact, const char *at, const char *end) {
  interner_options made_by = library_options(options, 0);
  interner_status status = INTERNER_OK;
  const char *stop;
  made_by.kind = INTERNER_STRING; /* whose numbers are rows */
  while (at < end && is_space(*at)) at++;
  while (at < end && is_space(end[-1])) end--;
  if (end - at <= BYTES_OF_A_PART || *at != '[' || *--end != ']') return NULL;
  interner *h = make_handle(options, 0);
  if (!h) return NULL;
  do {
    at++;
    stop = end_strings(at, end);
    if (!PyErr_CheckSignals()) status = stop ? add_part(h, &made_by, is_exact, at, stop - at) : INTERNER_NOT_A_TEXT;
    at = stop;
  } while (status == INTERNER_OK && !PyErr_Occurred() && stop < end);
  if (status == INTERNER_NO_MEMORY) raise_status(status);
  if (status == INTERNER_OK && !PyErr_Occurred()) return h;
  interner_free(h);
  return NULL;
}

interner *read_json(const Options *options, bool is_exact, const char *json, size_t length) {
  const interner_options made_by = library_options(options, 0);
  interner *h = length > BYTES_OF_A_PART ? read_parts(options, is_exact, json, json + length) : NULL;
  if (h || PyErr_Occurred()) return h;
  /* A short one; or the library says what is wrong with it. */
  interner_status status = interner_from_json_with(&made_by, json, length, is_exact, &h);
  if (status != INTERNER_OK) raise_status(status);
  return h;
}
