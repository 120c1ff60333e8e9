/* outputs [read]: hands memory that is not initialised to each call that writes, and memory full of some byte: a call uses
 * nothing of it, and what it does not write stays. For memcheck, which must report nothing; with `read` the program itself
 * uses what no call wrote, which memcheck must report. */
#include "string_interner.h"
#include <stdio.h>
#include <stdlib.h>
#include <string.h>

#define MUST(claim) ((claim) ? (void)0 : fail(#claim, __LINE__))

enum { TEXTS = 50, ROOM = 4096 };

static void fail(const char *claim, int line) {
  printf("outputs.c:%d: not so: %s\n", line, claim);
  exit(1);
}

/* A block that is not initialised. */
static void *fresh(size_t size) {
  void *block = malloc(size);
  MUST(block != NULL);
  return block;
}

/* Whether each byte of a block is this one. */
static bool is_full_of(const void *block, size_t size, int byte) {
  const unsigned char *at = block;
  while (size > 0 && at[size - 1] == byte) size--;
  return size == 0;
}

static size_t spell(size_t i, char *text) {
  return (size_t)sprintf(text, "text number %zu", i);
}

/* The calls for each kind that write what they find. */
static interner_status (*const resolve[])(const interner *, interner_symbol, interner_text *) = {
    interner_string_resolve, interner_bucket_resolve, interner_buffer_resolve};

/* Calls that look up and resolve. */
static void find_all(const interner *h, interner_kind kind) {
  interner_symbol *symbol = fresh(sizeof *symbol), *again = fresh(sizeof *again);
  interner_text *text = fresh(sizeof *text), *text_by_kind = fresh(sizeof *text_by_kind);
  MUST(interner_get(h, "text number 7", 13, symbol) == INTERNER_OK);
  MUST(interner_get_utf8(h, "text number 7", 13, again) == INTERNER_OK && *symbol == *again);
  MUST(interner_resolve(h, *symbol, text) == INTERNER_OK && text->len == 13 && !memcmp(text->bytes, "text number 7", 13));
  MUST(resolve[kind](h, *symbol, text_by_kind) == INTERNER_OK);
  MUST(text_by_kind->bytes == text->bytes && text_by_kind->len == text->len);
  free(symbol), free(again), free(text), free(text_by_kind);
}

/* Calls that intern: six texts. */
static void intern_all_ways(interner *h) {
  interner_symbol *symbol = fresh(sizeof *symbol), *part = fresh(sizeof *part), *symbols = fresh(4 * sizeof *symbols);
  size_t *done = fresh(sizeof *done), *done_next = fresh(sizeof *done_next), *len = fresh(sizeof *len);
  const size_t ends[] = {3, 6};
  const interner_text texts[] = {{"three", 5}, {"one", 3}};
  char *room = fresh(ROOM);
  MUST(interner_get_or_intern_part(h, 0, 0, 4, part) == INTERNER_OK);
  MUST(interner_copy_text(h, *part, room, ROOM, len) == INTERNER_OK && *len == 4 && !memcmp(room, "text", 4));
  MUST(interner_get_or_intern_static(h, "static", 6, symbol) == INTERNER_OK && *symbol > *part);
  free(symbol), symbol = fresh(sizeof *symbol);
  MUST(interner_get_or_intern_utf8(h, "utf8", 4, symbol) == INTERNER_OK && *symbol > *part);
  MUST(interner_intern_joined(h, "onetwo", 6, ends, 2, symbols, 2, done) == INTERNER_OK && *done == 2 && symbols[0] < symbols[1]);
  MUST(interner_intern_list(h, texts, 2, symbols + 2, 2, done_next) == INTERNER_OK && *done_next == 2);
  MUST(symbols[2] > symbols[1] && symbols[3] == symbols[0]);
  free(symbol), free(part), free(symbols), free(done), free(done_next), free(len), free(room);
}

/* Calls that write all texts, and those that make a handle. */
static void write_all(interner *h, interner_kind kind) {
  const interner_options options = {kind, INTERNER_SEEDED, 3, 4, 5};
  interner_cursor at = {0, 0};
  interner_entry *entries = fresh((TEXTS + 6) * sizeof *entries);
  size_t *len = fresh(sizeof *len);
  char *json = fresh(ROOM);
  interner **copy = fresh(sizeof *copy), **read = fresh(sizeof *read);
  interner **exact = fresh(sizeof *exact), **empty = fresh(sizeof *empty);
  interner_joined *joined = fresh(sizeof *joined);
  MUST(interner_entries(h, &at, entries, TEXTS + 6) == TEXTS + 6 && !memcmp(entries[TEXTS + 5].text.bytes, "three", 5));
  if (kind == INTERNER_STRING) {
    MUST(interner_string_joined(h, joined) == INTERNER_OK && joined->ends_len + joined->long_ends_len == TEXTS + 6);
    MUST(!memcmp(joined->bytes + joined->bytes_len - 5, "three", 5));
  }
  MUST(interner_to_json(h, json, ROOM, len) == INTERNER_OK && json[*len - 1] == ']');
  MUST(interner_clone(h, copy) == INTERNER_OK && interner_equal(h, *copy));
  MUST(interner_from_json(kind, json, *len, read) == INTERNER_OK && interner_equal(h, *read));
  MUST(interner_from_json_with(&options, json, *len, true, exact) == INTERNER_OK && interner_equal(h, *exact));
  MUST(interner_new_with(&options, empty) == INTERNER_OK && interner_len(*empty) == 0);
  interner_free(*copy), interner_free(*read), interner_free(*exact), interner_free(*empty);
  free(entries), free(len), free(json), free(copy), free(read), free(exact), free(empty), free(joined);
}

/* Calls that find nothing, for each kind. */
static void find_nothing(const interner *h, interner_kind kind, int byte) {
  size_t each;
  interner_symbol symbol;
  interner_text text;
  memset(&symbol, byte, sizeof symbol), memset(&text, byte, sizeof text);
  for (each = 0; each < 3; each++) {
    const interner_status told = each == kind ? INTERNER_NOT_FOUND : INTERNER_BAD_KIND;
    MUST(resolve[each](h, UINT32_MAX, &text) == told);
    if (each != kind) MUST(resolve[each](h, 0, &text) == told);
  }
  MUST(interner_get(h, "no text", 7, &symbol) == INTERNER_NOT_FOUND);
  MUST(interner_get_utf8(h, "no text", 7, &symbol) == INTERNER_NOT_FOUND);
  MUST(interner_get(h, "\xff", 1, &symbol) == INTERNER_BAD_TEXT && interner_resolve(h, UINT32_MAX, &text) == INTERNER_NOT_FOUND);
  MUST(is_full_of(&symbol, sizeof symbol, byte) && is_full_of(&text, sizeof text, byte));
}

/* Calls that intern nothing. */
static void intern_nothing(interner *h, int byte) {
  const size_t ends[] = {1, 0};
  const interner_text texts[] = {{"\xff", 1}, {"one", 3}};
  interner_symbol symbol, symbols[2];
  size_t done;
  memset(&symbol, byte, sizeof symbol), memset(symbols, byte, sizeof symbols), memset(&done, byte, sizeof done);
  MUST(interner_get_or_intern(h, "\xff", 1, &symbol) == INTERNER_BAD_TEXT);
  MUST(interner_get_or_intern_static(h, "\xff", 1, &symbol) == INTERNER_BAD_TEXT);
  MUST(interner_get_or_intern_part(h, 0, 3, 2, &symbol) == INTERNER_BAD_ENDS);
  MUST(interner_intern_joined(h, "\xff", 1, ends, 2, symbols, 2, &done) == INTERNER_BAD_TEXT && done == 0);
  memset(&done, byte, sizeof done);
  MUST(interner_intern_list(h, texts, 2, symbols, 2, &done) == INTERNER_BAD_TEXT && done == 0);
  memset(&done, byte, sizeof done);
  MUST(interner_intern_list(h, texts, 2, symbols, 1, &done) == INTERNER_NO_ROOM && done == 0 && interner_len(h) == TEXTS);
  MUST(is_full_of(&symbol, sizeof symbol, byte) && is_full_of(symbols, sizeof symbols, byte));
}

/* Calls that write no text, and those that make no handle. */
static void leave_all(const interner *h, interner_kind kind, int byte) {
  const interner_options no_kind = {(interner_kind)3, INTERNER_FIXED, 0, 0, 0}, no_hasher = {kind, (interner_hasher)3, 0, 0, 0};
  interner_cursor end = {TEXTS, 0};
  size_t len, copied;
  interner_entry entries[3];
  interner_joined joined;
  char room[3];
  interner *made;
  memset(&copied, byte, sizeof copied), memset(entries, byte, sizeof entries);
  memset(room, byte, sizeof room), memset(&made, byte, sizeof made), memset(&joined, byte, sizeof joined);
  if (kind != INTERNER_STRING) MUST(interner_string_joined(h, &joined) == INTERNER_BAD_KIND);
  MUST(is_full_of(&joined, sizeof joined, byte));
  MUST(interner_entries(h, &end, entries, 3) == 0 && end.index == TEXTS);
  MUST(interner_copy_text(h, 0, room, 3, &len) == INTERNER_NO_ROOM && len == 13);
  MUST(interner_to_json(h, room, 3, &len) == INTERNER_NO_ROOM && len > 13 * TEXTS);
  MUST(interner_copy_text(h, UINT32_MAX, room, 3, &copied) == INTERNER_NOT_FOUND && is_full_of(&copied, sizeof copied, byte));
  MUST(interner_new((interner_kind)3, &made) == INTERNER_BAD_KIND);
  MUST(interner_new_with(&no_kind, &made) == INTERNER_BAD_KIND && interner_new_with(&no_hasher, &made) == INTERNER_BAD_HASHER);
  MUST(interner_from_json(kind, "{}", 2, &made) == INTERNER_NOT_A_LIST);
  MUST(interner_from_json_with(&no_hasher, "[]", 2, false, &made) == INTERNER_BAD_HASHER);
  MUST(is_full_of(entries, sizeof entries, byte) && is_full_of(room, sizeof room, byte) && is_full_of(&made, sizeof made, byte));
}

int main(int count, char **arguments) {
  static const interner_kind kinds[] = {INTERNER_STRING, INTERNER_BUCKET, INTERNER_BUFFER};
  static const int bytes[] = {0, 0xa5, 0xff};
  size_t kind, i;
  for (kind = 0; kind < 3; kind++) {
    interner **h = fresh(sizeof *h);
    interner_symbol *symbol = fresh(sizeof *symbol);
    char text[32];
    MUST(interner_new(kinds[kind], h) == INTERNER_OK);
    for (i = 0; i < TEXTS; i++) MUST(interner_get_or_intern(*h, text, spell(i, text), symbol) == INTERNER_OK);
    for (i = 0; i < 3; i++) {
      find_nothing(*h, kinds[kind], bytes[i]), intern_nothing(*h, bytes[i]), leave_all(*h, kinds[kind], bytes[i]);
    }
    find_all(*h, kinds[kind]), intern_all_ways(*h), write_all(*h, kinds[kind]);
    interner_free(*h);
    free(symbol), free(h);
  }
  if (count > 1 && !strcmp(arguments[1], "read")) {
    interner_symbol *symbol = fresh(sizeof *symbol);
    if (*symbol > 7) printf("what no call wrote is above 7\n");
    free(symbol);
  }
  printf("no call uses what it writes to, and what it does not write stays\n");
  return 0;
}
