/* readers [intern]: three threads read one handle at the same time, and find what it holds. A race detector must report
 * nothing; with `intern` one of the threads interns a text, which it must report. */
#include "string_interner.h"
#include <pthread.h>
#include <stdio.h>
#include <stdlib.h>
#include <string.h>

enum { THREADS = 3, TEXTS = 600, LONGEST = 32, JSON = TEXTS * (LONGEST + 3) };

static interner_symbol symbols[TEXTS];

/* The calls for one kind. */
static const struct {
  interner_status (*resolve)(const interner *, interner_symbol, interner_text *);
  uint64_t (*find_utf8)(const interner *, const char *, size_t);
} calls[] = {
    {interner_string_resolve, interner_string_find_utf8},
    {interner_bucket_resolve, interner_bucket_find_utf8},
    {interner_buffer_resolve, interner_buffer_find_utf8},
};

static interner_kind kind; /* The one that the handle has. */

static bool reads_by_kind(const interner *h, const char *text, size_t len, interner_symbol symbol) {
  unsigned each;
  for (each = INTERNER_STRING; each < sizeof calls / sizeof *calls; each++) {
    interner_text lent = {"", 0};
    interner_status told = each == kind ? INTERNER_OK : INTERNER_BAD_KIND;
    if (calls[each].resolve(h, symbol, &lent) != told) return false;
    if (calls[each].find_utf8(h, text, len) != (told ? ((uint64_t)1 << 32) + told : symbol)) return false;
    if (each != kind && lent.len > 0) return false;
    if (each == kind && (lent.len != len || memcmp(lent.bytes, text, len))) return false;
  }
  return true;
}

static size_t spell(size_t i, char *text) {
  return (size_t)sprintf(text, "text number %zu", i);
}

static bool reads_text(const interner *h, size_t i) {
  char text[LONGEST];
  char room[LONGEST];
  size_t len = spell(i, text), copied;
  interner_symbol symbol, again;
  interner_text lent;
  return interner_get(h, text, len, &symbol) == INTERNER_OK && symbol == symbols[i] &&
         interner_get_utf8(h, text, len, &again) == INTERNER_OK && again == symbol && interner_contains(h, text, len) &&
         interner_resolve(h, symbol, &lent) == INTERNER_OK && lent.len == len && !memcmp(lent.bytes, text, len) &&
         interner_get_utf8(h, lent.bytes, lent.len, &again) == INTERNER_OK && again == symbol &&
         reads_by_kind(h, text, len, symbol) && interner_copy_text(h, symbol, room, LONGEST, &copied) == INTERNER_OK &&
         copied == len && !memcmp(room, text, len);
}

/* The joined texts are all of them, one after another. */
static bool reads_joined(const interner *h) {
  interner_joined joined;
  interner_status told = interner_string_joined(h, &joined);
  char text[LONGEST];
  size_t at = 0, i;
  if (kind != INTERNER_STRING) return told == INTERNER_BAD_KIND;
  if (told != INTERNER_OK || joined.ends_len != TEXTS) return false;
  for (i = 0; i < TEXTS; at = joined.ends[i++]) {
    if (joined.ends[i] - at != spell(i, text) || memcmp(joined.bytes + at, text, joined.ends[i] - at)) return false;
  }
  return at == joined.bytes_len;
}

static bool reads_all(const interner *h) {
  interner_entry *entries = malloc(TEXTS * sizeof *entries);
  char *json = malloc(JSON);
  interner *copy = NULL;
  interner_cursor at = {0, 0};
  size_t len;
  bool good = entries && json;
  good = good && interner_len(h) == TEXTS && interner_entries(h, &at, entries, TEXTS) == TEXTS;
  good = good && entries[TEXTS - 1].symbol == symbols[TEXTS - 1] && interner_to_json(h, json, JSON, &len) == INTERNER_OK;
  good = good && reads_joined(h) && interner_clone(h, &copy) == INTERNER_OK && interner_equal(h, copy);
  interner_free(copy);
  free(entries);
  free(json);
  return good;
}

/* Returns the handle if all that it read was right. */
static void *read_handle(void *handle) {
  size_t i;
  for (i = 0; i < TEXTS; i++) {
    if (!reads_text(handle, i)) return 0;
  }
  return reads_all(handle) ? handle : 0;
}

/* Interns a text for which there is room, so that no memory is given back. */
static void *intern_text(void *handle) {
  interner_symbol symbol;
  return interner_get_or_intern(handle, "new", 3, &symbol) == INTERNER_OK ? handle : 0;
}

/* Fills the handle, and reads it from all threads, of which the last one interns if that is asked for. */
static bool run(bool interns) {
  const interner_options options = {kind, INTERNER_SIPHASH, 8 * TEXTS, 3, 4};
  interner *h;
  pthread_t threads[THREADS];
  char text[LONGEST];
  size_t i;
  bool good = interner_new_with(&options, &h) == INTERNER_OK;
  for (i = 0; good && i < TEXTS; i++) good = interner_get_or_intern(h, text, spell(i, text), &symbols[i]) == INTERNER_OK;
  if (!good) return false;
  for (i = 0; i < THREADS; i++) {
    if (pthread_create(&threads[i], 0, interns && i == THREADS - 1 ? intern_text : read_handle, h) != 0) return false;
  }
  for (i = 0; i < THREADS; i++) {
    void *told = 0;
    pthread_join(threads[i], &told);
    good = good && told == h;
  }
  interner_free(h);
  return good;
}

int main(int count, char **arguments) {
  static const interner_kind kinds[] = {INTERNER_STRING, INTERNER_BUCKET, INTERNER_BUFFER};
  bool interns = count > 1 && !strcmp(arguments[1], "intern");
  size_t i;
  for (i = 0; i < 3; i++) {
    kind = kinds[i];
    if (!run(interns) && !interns) {
      printf("readers.c: a thread read something wrong, kind %u\n", (unsigned)kind);
      return 1;
    }
  }
  printf("%d threads read the same\n", THREADS);
  return 0;
}
