/* sizes: parts and JSON of each size are interned and read, also many texts, and copied, so that none fails but for memory; and
 * shrinking a truncated handle releases what the texts took that are gone. */
#include "string_interner.h"
#include <malloc.h>
#include <stdio.h>
#include <stdlib.h>
#include <string.h>

#define MUST(claim) ((claim) ? (void)0 : fail(#claim, __LINE__))

enum { TEXTS = 20000, KEPT = 100, MANY_TEXTS = (1 << 20) + 5, MOST_TEXTS = (1 << 22) + 5, LENGTH = 30, LARGEST = 4 << 20 };

static const interner_kind kinds[] = {INTERNER_STRING, INTERNER_BUCKET, INTERNER_BUFFER};
static interner_kind kind;

static void fail(const char *claim, int line) {
  printf("sizes.c:%d: kind %u, not so: %s\n", line, (unsigned)kind, claim);
  exit(1);
}

/* Interns a text of this size, and its second half as a part. */
static void intern_part_of(interner *h, char *text, size_t size) {
  interner_symbol whole, part, found;
  memset(text, 'x', size);
  if (size > 0) text[0] = 'a', text[size / 2] = 'b';
  MUST(interner_get_or_intern(h, text, size, &whole) == INTERNER_OK);
  MUST(interner_get_or_intern_part(h, whole, size / 2, size, &part) == INTERNER_OK);
  MUST(interner_get(h, text + size / 2, size - size / 2, &found) == INTERNER_OK && found == part);
}

/* The JSON of an interner is written, and read again by both calls. */
static void write_and_read(const interner *h) {
  const interner_options options = {kind, INTERNER_SIPHASH, 0, 3, 4};
  interner *loose, *exact;
  size_t len = 0, written;
  char *json;
  MUST(interner_to_json(h, NULL, 0, &len) == INTERNER_NO_ROOM && (json = malloc(len)) != NULL);
  MUST(interner_to_json(h, json, len, &written) == INTERNER_OK && written == len);
  MUST(interner_from_json(kind, json, len, &loose) == INTERNER_OK && interner_equal(h, loose));
  MUST(interner_from_json_with(&options, json, len, true, &exact) == INTERNER_OK && interner_equal(h, exact));
  interner_free(loose), interner_free(exact), free(json);
}

static void intern_each_size(void) {
  static char text[LARGEST];
  interner *h;
  size_t size;
  MUST(interner_new(kind, &h) == INTERNER_OK);
  for (size = 0; size < 300; size++) intern_part_of(h, text, size);
  for (; size <= LARGEST; size += size / 2) {
    intern_part_of(h, text, size);
    write_and_read(h);
  }
  interner_free(h);
}

/* How many bytes malloc has given out, by itself and by mapping pages. */
static size_t held(void) {
  struct mallinfo2 counts = mallinfo2();
  return counts.uordblks + counts.hblkhd;
}

/* Of so many texts so many are kept. */
static void shrink_after_truncation(size_t texts, size_t kept) {
  /* What a text takes: its bytes and its end; its entry, since buckets stay; its bytes and its length. */
  static const size_t taken[] = {LENGTH + 4, 16, LENGTH + 1};
  interner *h;
  interner_symbol symbol;
  size_t i, full;
  char text[LENGTH + 1];
  MUST(interner_new(kind, &h) == INTERNER_OK);
  for (i = 0; i < texts; i++) {
    snprintf(text, sizeof text, "%0*zu", LENGTH, i);
    MUST(interner_get_or_intern(h, text, LENGTH, &symbol) == INTERNER_OK);
  }
  full = held();
  interner_truncate(h, kept);
  MUST(held() == full);
  interner_shrink(h);
  /* All but a hundredth, because pages are given back whole. */
  MUST(held() + (texts - kept) * taken[kind] / 100 * 99 <= full && interner_len(h) == kept);
  write_and_read(h);
  interner_free(h);
}

/* So many texts are copied, and of some of them JSON is written and read. */
static void hold_many(size_t texts) {
  interner *h, *copy;
  interner_symbol symbol;
  size_t i;
  char text[LENGTH + 1];
  MUST(interner_new(kind, &h) == INTERNER_OK);
  for (i = 0; i < texts; i++) {
    size_t len = (size_t)snprintf(text, sizeof text, "%zx", i);
    MUST(interner_get_or_intern(h, text, len, &symbol) == INTERNER_OK);
  }
  MUST(interner_clone(h, &copy) == INTERNER_OK && interner_equal(h, copy) && interner_len(copy) == texts);
  interner_free(copy);
  interner_truncate(h, MANY_TEXTS);
  interner_shrink(h);
  write_and_read(h);
  interner_free(h);
}

int main(void) {
  size_t i;
  for (i = 0; i < 3; i++) {
    kind = kinds[i];
    intern_each_size();
    shrink_after_truncation(TEXTS, KEPT);
    shrink_after_truncation(MANY_TEXTS, MANY_TEXTS / 2);
    hold_many(kind == INTERNER_STRING ? MOST_TEXTS : MANY_TEXTS);
  }
  printf("parts and JSON have any size, many texts are held, and shrinking gives back what is gone\n");
  return 0;
}
