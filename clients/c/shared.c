/* A handle that threads share: a handle, and a lock that one call holds which may change it, or any number that only read. clients/build
 * adds this to the library, because no proved function makes a lock. */
#define _GNU_SOURCE
#include "string_interner.h"
#include <pthread.h>
#include <sched.h>
#include <stdlib.h>

struct interner_shared {
  pthread_rwlock_t lock;
  interner *texts;
};

/* Makes a lock, and reports whether it could. A call that waits to write goes before those that come to read later: otherwise threads
 * that look up without a pause keep new texts waiting. */
static bool make_lock(pthread_rwlock_t *lock) {
  pthread_rwlockattr_t kind;
  bool is_made;
  if (pthread_rwlockattr_init(&kind) != 0) return false;
#ifdef __GLIBC__
  pthread_rwlockattr_setkind_np(&kind, PTHREAD_RWLOCK_PREFER_WRITER_NONRECURSIVE_NP);
#endif
  is_made = pthread_rwlock_init(lock, &kind) == 0;
  pthread_rwlockattr_destroy(&kind);
  return is_made;
}

/* Lends the handle for reading, until `end`. */
static const interner *begin_read(interner_shared *shared) {
  /* Refused only while more threads read than the system counts. */
  while (pthread_rwlock_rdlock(&shared->lock) != 0) sched_yield();
  return shared->texts;
}

static void end(interner_shared *shared) {
  pthread_rwlock_unlock(&shared->lock);
}

interner_status interner_share(interner *h, interner_shared **out) {
  interner_shared *made = malloc(sizeof *made);
  if (!made) return INTERNER_NO_MEMORY;
  if (!make_lock(&made->lock)) {
    free(made);
    return INTERNER_NO_MEMORY;
  }
  made->texts = h;
  *out = made;
  return INTERNER_OK;
}

interner *interner_unshare(interner_shared *shared) {
  interner *texts = shared->texts;
  pthread_rwlock_destroy(&shared->lock);
  free(shared);
  return texts;
}

void interner_shared_free(interner_shared *shared) {
  if (shared) interner_free(interner_unshare(shared));
}

size_t interner_shared_len(interner_shared *shared) {
  size_t len = interner_len(begin_read(shared));
  end(shared);
  return len;
}

interner_status interner_shared_get(interner_shared *shared, const char *text, size_t text_len, interner_symbol *symbol) {
  interner_status told = interner_get(begin_read(shared), text, text_len, symbol);
  end(shared);
  return told;
}

interner_status interner_shared_get_or_intern(interner_shared *shared, const char *text, size_t text_len, interner_symbol *symbol) {
  interner_status told = interner_shared_get(shared, text, text_len, symbol);
  if (told != INTERNER_NOT_FOUND) return told;
  pthread_rwlock_wrlock(&shared->lock);
  /* Another thread may have interned it by now. */
  told = interner_get_or_intern(shared->texts, text, text_len, symbol);
  end(shared);
  return told;
}

interner_status interner_shared_resolve(interner_shared *shared, interner_symbol symbol, interner_text *text) {
  interner_status told = interner_bucket_resolve(begin_read(shared), symbol, text);
  end(shared);
  return told;
}

interner_status interner_shared_copy_text(interner_shared *shared, interner_symbol symbol, char *room, size_t room_len, size_t *len) {
  interner_status told = interner_copy_text(begin_read(shared), symbol, room, room_len, len);
  end(shared);
  return told;
}
