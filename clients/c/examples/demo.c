/* Interns four texts, of which two are equal, prints their symbols, and reads a text back. */
#include "string_interner.h"
#include <inttypes.h>
#include <stdio.h>

int main(void) {
  const char *words[] = {"Elephant", "Tiger", "Horse", "Tiger"};
  interner *animals;
  interner_text text;
  size_t i;
  interner_symbol symbol;
  interner_status status = interner_new(INTERNER_STRING, &animals);
  for (i = 0; status == INTERNER_OK && i < sizeof words / sizeof *words; i++) {
    status = interner_get_or_intern_c_string(animals, words[i], &symbol);
    if (status == INTERNER_OK) printf("%s is %" PRIu32 "\n", words[i], symbol);
  }
  if (status != INTERNER_OK) {
    fprintf(stderr, "demo: %s\n", interner_status_text(status));
    return 1;
  }
  if (interner_resolve(animals, 2, &text) == INTERNER_OK) printf("2 is %.*s\n", (int)text.len, text.bytes);
  printf("%zu texts\n", interner_len(animals));
  interner_free(animals);
  return 0;
}
