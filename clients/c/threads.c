/* Two threads at once, each with a handle of its own. The one that started them reads both when they have ended. */
#include "string_interner.h"
#include <pthread.h>
#include <stdio.h>

enum { TEXTS = 20000, ROUNDS = 5 };

static size_t spell(unsigned i, char *text) {
  return (size_t)sprintf(text, "text number %u", i);
}

static void *fill(void *handle) {
  interner *h = handle;
  char text[32];
  interner_symbol symbol;
  unsigned i;
  for (i = 0; i < TEXTS * ROUNDS; i++) {
    size_t len = spell(i % TEXTS, text);
    if (interner_get_or_intern(h, text, len, &symbol) != INTERNER_OK || symbol != i % TEXTS) return 0;
  }
  return h;
}

static int failed(const char *what) {
  printf("threads.c: %s\n", what);
  return 1;
}

int main(void) {
  interner *handles[2];
  pthread_t threads[2];
  unsigned i;
  if (interner_new(INTERNER_STRING, &handles[0]) != INTERNER_OK) return failed("no memory");
  if (interner_new(INTERNER_BUCKET, &handles[1]) != INTERNER_OK) return failed("no memory");
  for (i = 0; i < 2; i++) {
    if (pthread_create(&threads[i], 0, fill, handles[i]) != 0) return failed("no thread");
  }
  for (i = 0; i < 2; i++) {
    void *filled = 0;
    interner_symbol symbol;
    char text[32];
    size_t len = spell(TEXTS - 1, text);
    pthread_join(threads[i], &filled);
    if (filled != handles[i] || interner_len(handles[i]) != TEXTS) return failed("wrong symbols");
    if (interner_get(handles[i], text, len, &symbol) != INTERNER_OK || symbol != TEXTS - 1) return failed("wrong text");
    interner_free(handles[i]);
  }
  printf("two threads had the same symbols\n");
  return 0;
}
