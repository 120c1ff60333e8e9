/* Refuses each request for memory of a run of all calls in turn, a run for each. The call that asked must say so and leave
 * everything as it was, and succeed when it is made again. Linked with -Wl,--wrap=malloc,--wrap=realloc. */
#include "string_interner.h"
#include <stdio.h>
#include <stdlib.h>
#include <string.h>

#define MUST(claim) ((claim) ? (void)0 : fail(#claim, __LINE__))

enum { MANY = 200, ROOM = 8192 };

void *__real_malloc(size_t size);
void *__real_realloc(void *block, size_t size);

static const char *const kinds[] = {"INTERNER_STRING", "INTERNER_BUCKET", "INTERNER_BUFFER"};
static unsigned long requests, refused_request, refusals;
static interner_kind kind;

static void fail(const char *claim, int line) {
  printf("refuse.c:%d: %s, request %lu refused, not so: %s\n", line, kinds[kind], refused_request, claim);
  exit(1);
}

static bool is_refused(void) {
  return ++requests == refused_request;
}

void *__wrap_malloc(size_t size) {
  return is_refused() ? 0 : __real_malloc(size);
}

void *__wrap_realloc(void *block, size_t size) {
  return is_refused() ? 0 : __real_realloc(block, size);
}

/* Whether the call before was refused, so that it is to be made again. Its request was this run's. */
static bool again(interner_status told) {
  if (told == INTERNER_OK) return false;
  MUST(told == INTERNER_NO_MEMORY && requests >= refused_request);
  refusals++;
  return true;
}

static size_t spell(size_t i, char *text) {
  return (size_t)sprintf(text, "text number %zu", i);
}

/* The handle has this many texts, text number 0 and so on, and says so by symbol and by text. */
static void has_texts(interner *h, size_t count) {
  static interner_entry entries[MANY];
  interner_cursor at = {0, 0};
  size_t i;
  interner_symbol symbol;
  char text[40];
  MUST(interner_len(h) == count && interner_entries(h, &at, entries, MANY) == count);
  for (i = 0; i < count; i++) {
    size_t len = spell(i, text);
    MUST(entries[i].text.len == len && !memcmp(entries[i].text.bytes, text, len));
    MUST(interner_get(h, text, len, &symbol) == INTERNER_OK && symbol == entries[i].symbol);
  }
}

/* Interns a text by the call for the kind of the handle. */
static interner_status intern_utf8(interner *h, const char *text, size_t len, interner_symbol *symbol) {
  static uint64_t (*const calls[])(interner *, const char *, size_t) = {
      interner_string_intern_utf8, interner_bucket_intern_utf8, interner_buffer_intern_utf8};
  const uint64_t told = calls[kind](h, text, len);
  if (told >> 32) return (interner_status)(told & 0xffffffff);
  *symbol = (interner_symbol)told;
  return INTERNER_OK;
}

static void intern_texts(interner *h) {
  char text[40];
  size_t i;
  interner_symbol symbol;
  for (i = 0; i < MANY; i++) {
    size_t len = spell(i, text);
    symbol = 7777777;
    while (again(i % 2 ? intern_utf8(h, text, len, &symbol) : interner_get_or_intern(h, text, len, &symbol))) {
      MUST(symbol == 7777777 && !interner_contains(h, text, len));
      has_texts(h, i);
    }
  }
}

/* Interns the same texts end to end, after a truncation: what went in before the refusal stays. */
static void intern_all_texts(interner *h) {
  static char bytes[40 * MANY];
  static size_t ends[MANY];
  static interner_symbol symbols[MANY];
  size_t len = 0, from, done, i;
  for (i = 0; i < MANY; i++) ends[i] = len += spell(i, bytes + len);
  interner_truncate(h, 1);
  while (again(interner_intern_joined(h, bytes, len, ends, MANY, symbols, MANY, &done))) has_texts(h, done > 1 ? done : 1);
  MUST(done == MANY);
  has_texts(h, MANY);
  for (i = from = 0; i < MANY; from = ends[i++]) {
    interner_symbol symbol;
    MUST(interner_get(h, bytes + from, ends[i] - from, &symbol) == INTERNER_OK && symbol == symbols[i]);
  }
}

/* Interns the same texts in a list, after a truncation. */
static void intern_list_of_texts(interner *h) {
  static char bytes[MANY][40];
  static interner_text texts[MANY];
  static interner_symbol symbols[MANY];
  size_t done, i;
  for (i = 0; i < MANY; i++) texts[i].bytes = bytes[i], texts[i].len = spell(i, bytes[i]);
  interner_truncate(h, 1);
  while (again(interner_intern_texts(h, texts, MANY, symbols, &done))) has_texts(h, done > 1 ? done : 1);
  MUST(done == MANY);
  has_texts(h, MANY);
  for (i = 0; i < MANY; i++) {
    interner_symbol symbol;
    MUST(interner_get(h, texts[i].bytes, texts[i].len, &symbol) == INTERNER_OK && symbol == symbols[i]);
  }
}

/* Interns the front of each text, while the texts move as their memory grows: what it spells is the text that it stands for. */
static void intern_parts(interner *h) {
  static interner_entry entries[MANY];
  static interner_symbol symbols[MANY];
  interner_cursor at = {0, 0};
  size_t i;
  interner_symbol symbol, found;
  char text[40];
  MUST(interner_entries(h, &at, entries, MANY) == MANY);
  for (i = 0; i < MANY; i++) symbols[i] = entries[i].symbol;
  for (i = 0; i < MANY; i++) {
    size_t len = spell(i, text) - 1;
    while (again(interner_get_or_intern_part(h, symbols[i], 1, len + 1, &symbol))) MUST(!interner_contains(h, text + 1, len));
    MUST(interner_get(h, text + 1, len, &found) == INTERNER_OK && found == symbol);
  }
}

/* Calls that ask for nothing, as the header says. */
static void ask_nothing(interner *h) {
  unsigned long before = requests;
  interner_symbol symbol;
  MUST(interner_get(h, "text number 0", 13, &symbol) == INTERNER_OK);
  MUST(interner_get(h, "no text", 7, &symbol) == INTERNER_NOT_FOUND);
  MUST(interner_get_or_intern(h, "text number 1", 13, &symbol) == INTERNER_OK);
  interner_truncate(h, MANY);
  MUST(requests == before);
}

/* Ways to intern many texts. */
enum { ONE_BY_ONE, JOINED, LISTED, CALLS };

/* As many texts as an interner was made for ask for nothing, if they have the bytes that the header grants each. */
static void fill_room(int call) {
  static const size_t granted[] = {5, 1, 12}; /* On INTERNER_BUFFER one byte more for the length. */
  const interner_options options = {kind, INTERNER_SIPHASH, 100, 3, 4};
  interner *h = NULL;
  unsigned long before;
  interner_symbol symbols[100];
  interner_text texts[100];
  size_t ends[100], done = 100, i;
  char bytes[100 * 12];
  for (i = 0; i < 100; i++) {
    texts[i].bytes = memset(bytes + i * granted[kind], 'x', granted[kind]);
    bytes[i * granted[kind]] = (char)i;
    texts[i].len = granted[kind], ends[i] = (i + 1) * granted[kind];
  }
  while (again(interner_new_with(&options, &h))) MUST(!h);
  before = requests;
  switch (call) {
  case ONE_BY_ONE:
    for (i = 0; i < 100; i++) MUST(interner_get_or_intern(h, texts[i].bytes, texts[i].len, &symbols[i]) == INTERNER_OK);
    break;
  case JOINED: MUST(interner_intern_joined(h, bytes, ends[99], ends, 100, symbols, 100, &done) == INTERNER_OK); break;
  default: MUST(interner_intern_list(h, texts, 100, symbols, 100, &done) == INTERNER_OK);
  }
  MUST(requests == before && done == 100 && interner_len(h) == 100);
  interner_free(h);
}

/* INTERNER_BUCKET lends the caller's own bytes of a static text, which it did not copy. The other kinds copy it. */
static void lend_static_text(void) {
  static const char stays[] = {'s', 't', 'a', 'y', 's'};
  interner *h = NULL;
  interner_text lent;
  interner_symbol symbol;
  while (again(interner_new(kind, &h))) MUST(!h);
  while (again(interner_get_or_intern_static(h, stays, sizeof stays, &symbol))) MUST(interner_len(h) == 0);
  MUST(interner_resolve(h, symbol, &lent) == INTERNER_OK && lent.len == sizeof stays && !memcmp(lent.bytes, stays, sizeof stays));
  MUST((lent.bytes == stays) == (kind == INTERNER_BUCKET));
  interner_free(h);
}

static void copy_and_spell(interner *h) {
  static char json[ROOM];
  interner *copy = NULL, *made = NULL;
  const interner_options options = {kind, INTERNER_SIPHASH, 0, 3, 4};
  size_t len = 7777777;
  while (again(interner_clone(h, &copy))) MUST(!copy && interner_len(h) == MANY);
  MUST(interner_equal(h, copy));
  while (again(interner_to_json(h, json, sizeof json, &len))) MUST(len == 7777777);
  while (again(interner_from_json(kind, json, len, &made))) MUST(!made);
  MUST(interner_equal(h, made));
  interner_free(made);
  made = NULL;
  while (again(interner_from_json_with(&options, json, len, true, &made))) MUST(!made);
  MUST(interner_equal(h, made));
  interner_free(made);
  interner_free(copy);
}

/* A handle that was not shared is as it was. */
static interner *share(interner *h) {
  interner_shared *shared = NULL;
  char text[40];
  size_t len = spell(MANY, text);
  interner_symbol symbol = 7777777;
  while (again(interner_share(h, &shared))) {
    MUST(!shared);
    has_texts(h, MANY);
  }
  while (again(interner_shared_get_or_intern(shared, text, len, &symbol))) {
    MUST(symbol == 7777777 && interner_shared_len(shared) == MANY);
  }
  MUST(interner_unshare(shared) == h && interner_len(h) == MANY + 1);
  interner_truncate(h, MANY);
  return h;
}

/* A refused request of interner_shrink leaves the larger block. */
static void run(void) {
  interner *h = NULL;
  int call;
  for (call = ONE_BY_ONE; call < CALLS; call++) fill_room(call);
  lend_static_text();
  while (again(interner_new(kind, &h))) MUST(!h);
  intern_texts(h);
  ask_nothing(h);
  interner_shrink(h);
  has_texts(h, MANY);
  intern_all_texts(h);
  intern_list_of_texts(h);
  copy_and_spell(share(h));
  intern_parts(h);
  interner_free(h);
}

int main(void) {
  static const interner_kind all[] = {INTERNER_STRING, INTERNER_BUCKET, INTERNER_BUFFER};
  unsigned long runs = 0;
  size_t i;
  for (i = 0; i < 3; i++) {
    kind = all[i];
    refused_request = 0;
    do {
      refused_request++;
      requests = 0;
      run();
      runs++;
    } while (requests >= refused_request);
  }
  printf("%lu runs, %lu refusals told\n", runs, refusals);
  return refusals > 0 ? 0 : 1;
}
