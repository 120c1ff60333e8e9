/* addresses [string]: over INTERNER_BUCKET a text stays where it is until interner_truncate, interner_shrink or interner_free,
 * whatever else is called meanwhile, and although calls and allocations fail. For memcheck, too, which reports bytes that were
 * freed. Over INTERNER_STRING, which promises no such thing, texts move, and the program fails.
 * Linked with -Wl,--wrap=malloc,--wrap=realloc. */
#include "string_interner.h"
#include <stdio.h>
#include <stdlib.h>
#include <string.h>

#define MUST(claim) ((claim) ? (void)0 : fail(#claim, __LINE__))

enum { TEXTS = 20000, FIRST = 500, MANY = 100, SHORT = 600, LARGE = 300000 };

void *__real_malloc(size_t size);
void *__real_realloc(void *block, size_t size);

static interner_kind kind = INTERNER_BUCKET;
static bool refusing; /* Whether no memory is to be had. */
static size_t refusals, large_texts;

/* The texts, by symbol, and where each was when it came: the first `len` bytes of what the seed spells. */
static struct { const char *bytes; size_t len, seed; } known[2 * TEXTS];
static size_t count, next_seed;

static void fail(const char *claim, int line) {
  printf("addresses.c:%d: after %zu texts, not so: %s\n", line, count, claim);
  exit(1);
}

void *__wrap_malloc(size_t size) {
  return refusing ? NULL : __real_malloc(size);
}

void *__wrap_realloc(void *block, size_t size) {
  return refusing ? NULL : __real_realloc(block, size);
}

/* Whether the call before was refused memory. Then it is to be made again, with memory. */
static bool again(interner_status told) {
  const bool refused = told == INTERNER_NO_MEMORY;
  MUST(refused ? refusing : told == INTERNER_OK);
  refusing = false, refusals += refused;
  return refused;
}

/* Writes a text that is another one for each seed, mostly short, and now and then larger than a bucket. Returns its length. */
static size_t spell(size_t seed, char *text) {
  size_t len = (size_t)sprintf(text, "%zu:", seed), more = 1 + (seed % 50 ? seed % 20 : seed % (SHORT - 30));
  if (seed % 10000 == 7) more = LARGE - 30;
  memset(text + len, 'a' + (int)(seed % 26), more);
  return len + more;
}

/* Notes where the text with the next symbol is. */
static void note(const interner *h, interner_symbol symbol, size_t seed, size_t len) {
  interner_text text;
  MUST(symbol == count && interner_resolve(h, symbol, &text) == INTERNER_OK && text.len == len);
  known[count].bytes = text.bytes, known[count].len = len, known[count].seed = seed;
  large_texts += len > LARGE / 2;
  count++;
}

/* Interns a text by the call that returns the symbol. */
static interner_status intern_utf8(interner *h, const char *text, size_t len, interner_symbol *symbol) {
  const uint64_t told = (kind == INTERNER_BUCKET ? interner_bucket_intern_utf8 : interner_string_intern_utf8)(h, text, len);
  if (told >> 32) return (interner_status)(told & 0xffffffff);
  *symbol = (interner_symbol)told;
  return INTERNER_OK;
}

/* Interns the text of a seed, by one of five calls, once more if it was refused memory, and returns its length. */
static size_t intern(interner *h, size_t seed, interner_symbol *symbol) {
  static char text[LARGE], lasting[4 * TEXTS], *free_place = lasting;
  const size_t len = spell(seed, text);
  text[len] = 0;
  refusing = true;
  switch (seed % 16) {
  case 1: while (again(interner_get_or_intern_utf8(h, text, len, symbol))); break;
  case 2: while (again(interner_get_or_intern_c_string(h, text, symbol))); break;
  case 3:
    MUST(len <= (size_t)(lasting + sizeof lasting - free_place));
    memcpy(free_place, text, len);
    while (again(interner_get_or_intern_static(h, free_place, len, symbol)));
    free_place += len;
    break;
  case 4: while (again(intern_utf8(h, text, len, symbol))); break;
  default: while (again(interner_get_or_intern(h, text, len, symbol)));
  }
  return len;
}

/* Interns the next text, and all but its last byte as a part of it. */
static void intern_next(interner *h) {
  interner_symbol symbol;
  size_t len = intern(h, next_seed, &symbol);
  note(h, symbol, next_seed, len);
  if (next_seed % 20 == 0) {
    MUST(interner_get_or_intern_part(h, symbol, 0, len - 1, &symbol) == INTERNER_OK);
    note(h, symbol, next_seed, len - 1);
  }
  next_seed++;
}

/* Interns some texts by one call, and once more if that was refused memory behind some of them. */
static void intern_many(interner *h, bool joined) {
  static char bytes[MANY * SHORT + LARGE];
  interner_text texts[MANY];
  size_t ends[MANY], done = 0, noted = 0, len = 0, i;
  interner_symbol symbols[MANY];
  interner_status told;
  for (i = 0; i < MANY; i++) {
    texts[i].bytes = bytes + len, texts[i].len = spell(next_seed + i, bytes + len);
    ends[i] = len += texts[i].len;
  }
  refusing = true;
  do {
    told = joined ? interner_intern_joined(h, bytes, len, ends, MANY, symbols, MANY, &done)
                  : interner_intern_list(h, texts, MANY, symbols, MANY, &done);
    for (; noted < done; noted++) note(h, symbols[noted], next_seed + noted, texts[noted].len);
  } while (again(told));
  MUST(noted == MANY);
  next_seed += MANY;
}

/* Makes calls that add no text, of which some fail. */
static void call_others(interner *h) {
  static interner_entry entries[2 * TEXTS];
  static char json[4];
  size_t known_len = known[count / 2].len, found;
  char text[SHORT];
  interner_symbol symbol;
  interner_cursor at = {0, 0};
  interner *copy;
  if (known_len < SHORT) {
    MUST(spell(known[count / 2].seed, text) >= known_len);
    MUST(interner_get_or_intern(h, text, known_len, &symbol) == INTERNER_OK && symbol == count / 2);
  }
  MUST(interner_get_or_intern(h, "\xff", 1, &symbol) == INTERNER_BAD_TEXT);
  MUST(interner_get(h, "none", 4, &symbol) == INTERNER_NOT_FOUND);
  refusing = true;
  MUST(interner_clone(h, &copy) == INTERNER_NO_MEMORY && interner_to_json(h, json, 4, &found) == INTERNER_NO_MEMORY);
  MUST(interner_get_or_intern_part(h, 0, 0, 1, &symbol) == INTERNER_NO_MEMORY);
  refusing = false;
  MUST(interner_clone(h, &copy) == INTERNER_OK && interner_equal(h, copy));
  MUST(interner_get_or_intern(copy, "another", 7, &symbol) == INTERNER_OK && symbol == count);
  interner_truncate(copy, count / 2);
  interner_shrink(copy);
  interner_free(copy);
  MUST(interner_to_json(h, json, 4, &found) == INTERNER_NO_ROOM);
  MUST(interner_entries(h, &at, entries, 2 * TEXTS) == count && entries[count - 1].text.bytes == known[count - 1].bytes);
}

/* Each text is where it was, and its bytes are what they were. */
static void look(const interner *h) {
  static char wanted[LARGE];
  interner_text text;
  size_t i;
  for (i = 0; i < count; i++) {
    MUST(interner_resolve(h, (interner_symbol)i, &text) == INTERNER_OK && text.len == known[i].len);
    MUST(text.bytes == known[i].bytes);
    MUST(spell(known[i].seed, wanted) >= text.len && !memcmp(known[i].bytes, wanted, text.len));
  }
}

/* The calls that make a handle. */
enum { NEW, NEW_WITH, FROM_JSON, CLONE, CALLS };

/* Makes a handle of the first texts of another one, which is freed. */
static interner *make_of_first(int call) {
  static char json[FIRST * (SHORT + 3) + LARGE];
  interner *original, *h;
  interner_symbol symbol;
  size_t seed, len;
  MUST(interner_new(kind, &original) == INTERNER_OK);
  for (seed = 0; seed < FIRST; seed++) intern(original, seed, &symbol);
  if (call == FROM_JSON) {
    MUST(interner_to_json(original, json, sizeof json, &len) == INTERNER_OK);
    MUST(interner_from_json(kind, json, len, &h) == INTERNER_OK);
  } else {
    MUST(interner_clone(original, &h) == INTERNER_OK);
  }
  for (; next_seed < FIRST; next_seed++) note(h, (interner_symbol)next_seed, next_seed, spell(next_seed, json));
  interner_free(original);
  return h;
}

static interner *make_by(int call) {
  const interner_options options = {kind, INTERNER_SIPHASH, 1000, 3, 4};
  interner *h;
  if (call > NEW_WITH) return make_of_first(call);
  MUST((call == NEW ? interner_new(kind, &h) : interner_new_with(&options, &h)) == INTERNER_OK);
  return h;
}

int main(int words, char **arguments) {
  int call;
  if (words > 1 && !strcmp(arguments[1], "string")) kind = INTERNER_STRING;
  for (call = NEW; call < CALLS; call++) {
    size_t round = 0;
    interner *h;
    count = next_seed = refusals = large_texts = 0;
    h = make_by(call);
    look(h);
    while (count < TEXTS) {
      intern_next(h);
      if (next_seed / 500 == round) continue;
      round = next_seed / 500;
      intern_many(h, round % 2 == 0);
      look(h);
      call_others(h);
    }
    look(h);
    MUST(refusals > 5 && large_texts == 2);
    interner_free(h);
  }
  printf("%zu texts stay where they are\n", count);
  return 0;
}
