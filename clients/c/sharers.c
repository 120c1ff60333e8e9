/* sharers [unlocked]: four threads intern the same texts in one handle, each in another order, and look up what they have. They get the
 * same symbols, each call holds the lock, and a race detector must report nothing. With `unlocked` no lock is taken, which it must
 * report. Linked with --wrap of each call that is wrapped here. */
#define _POSIX_C_SOURCE 200809L
#include "string_interner.h"
#include <pthread.h>
#include <stdio.h>
#include <stdlib.h>

#define MUST(claim) ((claim) ? (void)0 : fail(#claim, __LINE__))

/* Each step from 1 on below a prime number of texts leads to all of them. */
enum { THREADS = 4, TEXTS = 601, KEYWORDS = 3, LONGEST = 32, UNWRITTEN = 7777777 };

/* What a thread gets, and what it finds of each text. */
typedef struct sharer {
  interner_shared *shared;
  size_t step;
  interner_symbol symbols[TEXTS];
  interner_text lent[TEXTS];
} sharer;

/* How a thread holds the lock of the handle. */
typedef enum hold { NOTHING, TO_READ, TO_WRITE } hold;

static bool is_unlocked, is_shared;
static interner_kind kind;
static _Thread_local hold held;

static void fail(const char *claim, int line);

/* A call on locks, after which the thread holds one in this way. */
#define LOCK(name, holds) \
  int __real_pthread_rwlock_##name(pthread_rwlock_t *lock); \
  int __wrap_pthread_rwlock_##name(pthread_rwlock_t *lock) { \
    held = holds; \
    return is_unlocked ? 0 : __real_pthread_rwlock_##name(lock); \
  }
LOCK(rdlock, TO_READ)
LOCK(wrlock, TO_WRITE)
LOCK(unlock, NOTHING)

/* A call on the handle, for which a thread must hold the lock in this way while it is shared. */
#define CALL(result, name, parameters, arguments, holds) \
  result __real_interner_##name parameters; \
  result __wrap_interner_##name parameters { \
    MUST(!is_shared || held == holds); \
    return __real_interner_##name arguments; \
  }
CALL(size_t, len, (const interner *h), (h), TO_READ)
CALL(interner_status, get, (const interner *h, const char *text, size_t len, interner_symbol *symbol), (h, text, len, symbol), TO_READ)
CALL(interner_status, get_or_intern, (interner *h, const char *text, size_t len, interner_symbol *symbol), (h, text, len, symbol), TO_WRITE)
CALL(interner_status, bucket_resolve, (const interner *h, interner_symbol symbol, interner_text *text), (h, symbol, text), TO_READ)
CALL(interner_status, copy_text, (const interner *h, interner_symbol symbol, char *room, size_t size, size_t *len),
     (h, symbol, room, size, len), TO_READ)

/* Without locks anything may be found, and the detector tells. */
static void fail(const char *claim, int line) {
  if (is_unlocked) return;
  printf("sharers.c:%d: kind %u, not so: %s\n", line, (unsigned)kind, claim);
  exit(1);
}

static size_t spell(size_t i, char *text) {
  return (size_t)sprintf(text, "text number %zu", i);
}

static void look_up(sharer *it, size_t i) {
  char text[LONGEST], room[LONGEST];
  const interner_symbol symbol = it->symbols[i];
  interner_symbol found = UNWRITTEN;
  size_t len = spell(i, text), copied = UNWRITTEN;
  MUST(interner_shared_get(it->shared, text, len, &found) == INTERNER_OK && found == symbol);
  MUST(interner_shared_copy_text(it->shared, symbol, room, len - 1, &copied) == INTERNER_NO_ROOM && copied == len);
  MUST(interner_shared_copy_text(it->shared, symbol, room, LONGEST, &copied) == INTERNER_OK && copied == len);
  MUST(!memcmp(room, text, len));
  if (kind != INTERNER_BUCKET) {
    MUST(interner_shared_resolve(it->shared, symbol, &it->lent[i]) == INTERNER_BAD_KIND && !it->lent[i].bytes);
    return;
  }
  MUST(interner_shared_resolve(it->shared, symbol, &it->lent[i]) == INTERNER_OK && it->lent[i].len == len);
  MUST(!memcmp(it->lent[i].bytes, text, len));
}

static void *intern_all(void *given) {
  sharer *it = given;
  size_t done, i;
  char text[LONGEST];
  for (done = 1, i = 0; done <= TEXTS; done++, i = (i + it->step) % TEXTS) {
    size_t len = spell(i, text);
    MUST(interner_shared_get_or_intern(it->shared, text, len, &it->symbols[i]) == INTERNER_OK);
    MUST(interner_shared_len(it->shared) >= done && interner_shared_len(it->shared) <= TEXTS);
    look_up(it, i);
  }
  return 0;
}

/* What is wrong, is said, and nothing is written. */
static void refuse_wrong(interner_shared *shared) {
  interner_symbol symbol = UNWRITTEN;
  interner_text text = {0, UNWRITTEN};
  char room[LONGEST];
  size_t len = UNWRITTEN;
  MUST(interner_shared_get_or_intern(shared, "\xff", 1, &symbol) == INTERNER_BAD_TEXT);
  MUST(interner_shared_get(shared, "\xff", 1, &symbol) == INTERNER_BAD_TEXT);
  MUST(interner_shared_get(shared, "unknown", 7, &symbol) == INTERNER_NOT_FOUND && symbol == UNWRITTEN);
  MUST(interner_shared_copy_text(shared, UNWRITTEN, room, LONGEST, &len) == INTERNER_NOT_FOUND && len == UNWRITTEN);
  MUST(interner_shared_resolve(shared, UNWRITTEN, &text) == (kind == INTERNER_BUCKET ? INTERNER_NOT_FOUND : INTERNER_BAD_KIND));
  MUST(!text.bytes && interner_shared_len(shared) == KEYWORDS);
}

/* The handle has each text once, with the symbol that each thread found, and where it was lent. */
static void compare(const interner *h, const sharer *sharers) {
  static interner_entry entries[TEXTS + 1];
  interner_cursor at = {0, 0};
  size_t i, each;
  MUST(interner_entries(h, &at, entries, TEXTS + 1) == TEXTS);
  for (i = 0; i < TEXTS; i++) {
    interner_symbol symbol = UNWRITTEN;
    interner_text text = {0, 0};
    char spelt[LONGEST];
    size_t len = spell(i, spelt);
    MUST(interner_get(h, spelt, len, &symbol) == INTERNER_OK && (i >= KEYWORDS || symbol == entries[i].symbol));
    MUST(interner_resolve(h, symbol, &text) == INTERNER_OK && text.len == len && !memcmp(text.bytes, spelt, len));
    for (each = 0; each < THREADS; each++) {
      MUST(sharers[each].symbols[i] == symbol);
      MUST(kind != INTERNER_BUCKET || sharers[each].lent[i].bytes == text.bytes);
    }
  }
}

/* Fills a handle from all threads, behind keywords. Without locks it has room for all, so that no memory is given back. */
static void run(void) {
  static sharer sharers[THREADS];
  static const size_t steps[] = {1, TEXTS - 1, 2, 250};
  const interner_options options = {kind, INTERNER_SIPHASH, is_unlocked ? 8 * TEXTS : 0, 3, 4};
  interner *h = NULL;
  interner_shared *shared = NULL;
  pthread_t threads[THREADS];
  size_t i;
  memset(sharers, 0, sizeof sharers);
  MUST(interner_new_with(&options, &h) == INTERNER_OK);
  for (i = 0; i < KEYWORDS; i++) {
    char text[LONGEST];
    MUST(interner_get_or_intern(h, text, spell(i, text), &sharers[0].symbols[i]) == INTERNER_OK);
  }
  MUST(interner_share(h, &shared) == INTERNER_OK);
  is_shared = true;
  refuse_wrong(shared);
  for (i = 0; i < THREADS; i++) {
    sharers[i].shared = shared, sharers[i].step = steps[i];
    if (pthread_create(&threads[i], 0, intern_all, &sharers[i]) != 0) exit(1);
  }
  for (i = 0; i < THREADS; i++) pthread_join(threads[i], 0);
  MUST(interner_shared_len(shared) == TEXTS && held == NOTHING);
  is_shared = false;
  MUST(interner_unshare(shared) == h);
  compare(h, sharers);
  MUST(interner_share(h, &shared) == INTERNER_OK);
  interner_shared_free(shared);
  interner_shared_free(NULL);
}

int main(int count, char **arguments) {
  static const interner_kind kinds[] = {INTERNER_STRING, INTERNER_BUCKET, INTERNER_BUFFER};
  size_t i;
  is_unlocked = count > 1 && !strcmp(arguments[1], "unlocked");
  for (i = 0; i < 3; i++) {
    kind = kinds[i];
    run();
  }
  printf("%d threads had the same symbols in one handle\n", THREADS);
  return 0;
}
