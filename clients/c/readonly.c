/* Calls that only read write neither to a handle nor to what it owns: all of that lies in one region of memory, which is made
 * read-only before they are made. Calls that change a handle are then seen to fault, so that this test can fail.
 * Linked with -Wl,--wrap=malloc,--wrap=realloc,--wrap=free. */
#define _DEFAULT_SOURCE
#include <signal.h>
#include <sys/wait.h>

#include "string_interner.h"
#include <setjmp.h>
#include <stdio.h>
#include <stdlib.h>
#include <string.h>
#include <sys/mman.h>

#define MUST(claim) ((claim) ? (void)0 : fail(#claim, __LINE__))

/* More than a million texts, so that what a call does to large interners alone is seen, too. */
enum { TEXTS = (1 << 20) + 1000, READ = 1000, LONGEST = 64, JSON = TEXTS * 24, REGION = 256 << 20, ALIGN = 16 };

void *__real_malloc(size_t size);
void *__real_realloc(void *block, size_t size);
void __real_free(void *block);

static uint8_t *region;
static size_t used;
static bool filling; /* Whether memory comes from the region. */
static interner_kind kind;
static const char *volatile reading; /* The call that is being made, if it only reads. */
static sigjmp_buf faulted;

static void fail(const char *claim, int line) {
  printf("readonly.c:%d: kind %u, not so: %s\n", line, (unsigned)kind, claim);
  exit(1);
}

/* Blocks lie end to end, each behind its size. */
void *__wrap_malloc(size_t size) {
  uint8_t *block;
  if (!filling) return __real_malloc(size);
  MUST(size < REGION && used + size + 2 * ALIGN < REGION);
  block = region + used + ALIGN;
  memcpy(block - ALIGN, &size, sizeof size);
  used += ALIGN + (size + ALIGN - 1) / ALIGN * ALIGN;
  return block;
}

/* A block of the region is asked for again only while memory comes from there. */
void *__wrap_realloc(void *block, size_t size) {
  size_t old;
  if (!filling) return __real_realloc(block, size);
  if (!block) return __wrap_malloc(size);
  memcpy(&old, (uint8_t *)block - ALIGN, sizeof old);
  return memcpy(__wrap_malloc(size), block, old < size ? old : size);
}

void __wrap_free(void *block) {
  if ((uintptr_t)block - (uintptr_t)region >= REGION) __real_free(block);
}

static void handle_fault(int signal) {
  if (!reading) siglongjmp(faulted, signal);
  fail(reading, __LINE__);
}

static size_t spell(size_t i, char *text) {
  return (size_t)sprintf(text, "%zu%s", i, i % 7 ? "" : " and a tail that makes it longer");
}

/* A call that only reads, and what it returns. */
#define READS(call, told) (reading = #call " writes nothing", MUST((call) == (told)), reading = 0)

/* What stands for no symbol where a call returns a symbol or a status. */
static const uint64_t NO_SYMBOL = (uint64_t)1 << 32;

/* The calls for each kind, of which those for another one than the handle's say so. */
static void read_by_kind(const interner *h, const interner_text *wanted, interner_symbol symbol) {
  interner_text lent;
  READS(interner_string_resolve(h, symbol, &lent), kind == INTERNER_STRING ? INTERNER_OK : INTERNER_BAD_KIND);
  READS(interner_bucket_resolve(h, symbol, &lent), kind == INTERNER_BUCKET ? INTERNER_OK : INTERNER_BAD_KIND);
  READS(interner_buffer_resolve(h, symbol, &lent), kind == INTERNER_BUFFER ? INTERNER_OK : INTERNER_BAD_KIND);
  MUST(lent.bytes == wanted->bytes && lent.len == wanted->len);
  READS(interner_string_find_utf8(h, lent.bytes, lent.len), kind == INTERNER_STRING ? symbol : NO_SYMBOL + INTERNER_BAD_KIND);
  READS(interner_bucket_find_utf8(h, lent.bytes, lent.len), kind == INTERNER_BUCKET ? symbol : NO_SYMBOL + INTERNER_BAD_KIND);
  READS(interner_buffer_find_utf8(h, lent.bytes, lent.len), kind == INTERNER_BUFFER ? symbol : NO_SYMBOL + INTERNER_BAD_KIND);
}

static void read_text(const interner *h, size_t i, interner_symbol symbol) {
  char text[LONGEST];
  char room[LONGEST];
  size_t len = spell(i, text);
  interner_symbol found;
  interner_text lent;
  READS(interner_get(h, text, len, &found), INTERNER_OK);
  READS(interner_get_utf8(h, text, len, &found), INTERNER_OK);
  MUST(found == symbol);
  READS(interner_get(h, "no text", 7, &found), INTERNER_NOT_FOUND);
  READS(interner_get(h, "\xff", 1, &found), INTERNER_BAD_TEXT);
  READS(interner_contains(h, text, len), true);
  READS(interner_resolve(h, symbol, &lent), INTERNER_OK);
  MUST(lent.len == len && !memcmp(lent.bytes, text, len));
  READS(interner_get_utf8(h, lent.bytes, lent.len, &found), INTERNER_OK);
  read_by_kind(h, &lent, symbol);
  READS(interner_copy_text(h, symbol, room, sizeof room, &len), INTERNER_OK);
  READS(interner_copy_text(h, symbol, room, 0, &len), INTERNER_NO_ROOM);
}

static void read_all(const interner *h, const interner *other) {
  static interner_entry entries[TEXTS];
  static char json[JSON];
  interner *copy;
  interner_text lent;
  interner_joined joined = {0, 0, 0, 0, 0, 0};
  interner_cursor at = {0, 0};
  size_t len, i;
  READS(interner_len(h), TEXTS);
  READS(interner_entries(h, &at, entries, TEXTS), TEXTS);
  READS(interner_string_joined(h, &joined), kind == INTERNER_STRING ? INTERNER_OK : INTERNER_BAD_KIND);
  MUST(joined.ends_len + joined.long_ends_len == (kind == INTERNER_STRING ? TEXTS : 0));
  READS(interner_resolve(h, UINT32_MAX, &lent), INTERNER_NOT_FOUND);
  READS(interner_string_resolve(h, UINT32_MAX, &lent), kind == INTERNER_STRING ? INTERNER_NOT_FOUND : INTERNER_BAD_KIND);
  READS(interner_bucket_resolve(h, UINT32_MAX, &lent), kind == INTERNER_BUCKET ? INTERNER_NOT_FOUND : INTERNER_BAD_KIND);
  READS(interner_buffer_resolve(h, UINT32_MAX, &lent), kind == INTERNER_BUFFER ? INTERNER_NOT_FOUND : INTERNER_BAD_KIND);
  for (i = 0; i < READ; i++) read_text(h, i, entries[i].symbol);
  READS(interner_equal(h, other), true);
  READS(interner_equal(h, h), true);
  READS(interner_to_json(h, json, JSON, &len), INTERNER_OK);
  READS(interner_to_json(h, json, 3, &len), INTERNER_NO_ROOM);
  READS(interner_clone(h, &copy), INTERNER_OK);
  MUST(interner_equal(h, copy));
  interner_free(copy);
}

#define CHANGES(call) do if (!sigsetjmp(faulted, 1)) (void)(call), fail(#call " faults", __LINE__); while (0)

static void change_all(interner *h) {
  const size_t ends[] = {3};
  const interner_text text = {"new", 3};
  size_t done;
  interner_symbol symbol;
  CHANGES(interner_get_or_intern(h, "new", 3, &symbol));
  CHANGES(interner_get_or_intern_part(h, 0, 0, 3, &symbol));
  CHANGES(interner_intern_joined(h, "new", 3, ends, 1, &symbol, 1, &done));
  CHANGES(interner_intern_texts(h, &text, 1, &symbol, &done));
  CHANGES(interner_truncate(h, 1));
}

/* Makes two equal handles in the region, which is read-only then. */
static void fill(interner *handles[2]) {
  char text[LONGEST];
  size_t i;
  interner_symbol symbol;
  MUST(!mprotect(region, REGION, PROT_READ | PROT_WRITE));
  used = 0;
  filling = true;
  MUST(interner_new(kind, &handles[0]) == INTERNER_OK);
  for (i = 0; i < TEXTS; i++) MUST(interner_get_or_intern(handles[0], text, spell(i, text), &symbol) == INTERNER_OK);
  MUST(interner_clone(handles[0], &handles[1]) == INTERNER_OK);
  filling = false;
  MUST(!mprotect(region, REGION, PROT_READ));
}

int main(void) {
  static const interner_kind kinds[] = {INTERNER_STRING, INTERNER_BUCKET, INTERNER_BUFFER};
  size_t i;
  signal(SIGSEGV, handle_fault);
  region = mmap(0, REGION, PROT_READ | PROT_WRITE, MAP_PRIVATE | MAP_ANONYMOUS, -1, 0);
  MUST(region != MAP_FAILED);
  for (i = 0; i < 3; i++) {
    interner *handles[2];
    kind = kinds[i];
    fill(handles);
    read_all(handles[0], handles[1]);
    change_all(handles[0]);
  }
  printf("calls that only read write nothing, and calls that change a handle fault\n");
  return 0;
}
