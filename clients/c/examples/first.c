/* The first program of docs/use/c.md: equal texts have equal symbols. */
#include "string_interner.h"
#include <stdio.h>

int main(void) {
  interner *names;
  interner_symbol tiger, horse, again;
  interner_text text;
  if (interner_new(INTERNER_STRING, &names) != INTERNER_OK) return 1;
  if (interner_get_or_intern(names, "Tiger", 5, &tiger) != INTERNER_OK) return 1;
  if (interner_get_or_intern(names, "Horse", 5, &horse) != INTERNER_OK) return 1;
  if (interner_get_or_intern_c_string(names, "Tiger", &again) != INTERNER_OK) return 1;
  if (again != tiger || horse == tiger) return 1;
  if (interner_resolve(names, horse, &text) != INTERNER_OK) return 1;
  printf("%zu names, and one is %.*s\n", interner_len(names), (int)text.len, text.bytes);
  interner_free(names);
  return 0;
}
