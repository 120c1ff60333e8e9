/* Reads lines from anybody: interns each under random keys, reports those that are not UTF-8, and prints the distinct ones. */
#include "string_interner.h"
#include <inttypes.h>
#include <stdio.h>
#include <string.h>
#include <sys/random.h>

/* Interns each line of the input. A longer line counts as several, and a line ends at a zero. */
static interner_status intern_lines(interner *lines, FILE *input) {
  char line[1024];
  size_t place = 0;
  interner_symbol symbol;
  while (fgets(line, sizeof line, input)) {
    interner_status status = interner_get_or_intern(lines, line, strcspn(line, "\n"), &symbol);
    place++;
    if (status == INTERNER_BAD_TEXT)
      printf("line %zu is not UTF-8\n", place);
    else if (status != INTERNER_OK)
      return status;
  }
  return INTERNER_OK;
}

/* Prints each distinct line with its symbol, in order of first appearance. */
static void print_entries(const interner *lines) {
  interner_entry entries[100];
  interner_cursor at = {0, 0};
  size_t i, count;
  while ((count = interner_entries(lines, &at, entries, 100)) > 0)
    for (i = 0; i < count; i++)
      printf("%" PRIu32 " %.*s\n", entries[i].symbol, (int)entries[i].text.len, entries[i].text.bytes);
}

int main(void) {
  interner_options options = {INTERNER_BUFFER, INTERNER_SEEDED, 0, 0, 0};
  uint64_t keys[2];
  interner *lines;
  interner_status status;
  if (getrandom(keys, sizeof keys, 0) != sizeof keys) return 1;
  options.key0 = keys[0], options.key1 = keys[1];
  /* On the kind INTERNER_BUFFER symbols have gaps, so interner_entries is the way to read all texts. */
  if ((status = interner_new_with(&options, &lines)) == INTERNER_OK) {
    if ((status = intern_lines(lines, stdin)) == INTERNER_OK) print_entries(lines);
    interner_free(lines);
  }
  if (status != INTERNER_OK) fprintf(stderr, "lines: %s\n", interner_status_text(status));
  return status != INTERNER_OK;
}
