/* agree [COMMANDS [SEED]]: runs random commands on interners of each kind, and the same on a plain list of texts. What a
 * call returns and what it writes must be as the list says. Prints how many commands agreed. */
#include "string_interner.h"
#include <stdio.h>
#include <stdlib.h>
#include <string.h>

#define MUST(claim) ((claim) ? (void)0 : fail(#claim, __LINE__))

enum { MOST_TEXTS = 400, MOST_BYTES = 320, MOST_ROOM = MOST_TEXTS * (6 * MOST_BYTES + 3) };

typedef struct text {
  char bytes[MOST_BYTES];
  size_t len;
} text;

/* The list, and where each text's symbol stands on a kind: its index, or the bytes of the entries before it. */
typedef struct list {
  interner_kind kind;
  size_t count;
  text texts[MOST_TEXTS];
  interner_symbol symbols[MOST_TEXTS];
} list;

static uint64_t state;
static unsigned long agreed;

/* What stands for no symbol where a call returns a symbol or a status. */
static const uint64_t NO_SYMBOL = (uint64_t)1 << 32;

static void fail(const char *claim, int line) {
  printf("agree.c:%d: after %lu commands, not so: %s\n", line, agreed, claim);
  exit(1);
}

/* A number below the bound, by xorshift. */
static size_t below(size_t bound) {
  state ^= state << 13;
  state ^= state >> 7;
  state ^= state << 17;
  return (size_t)(state % bound);
}

/* A random text: letters of one to four bytes and now and then a zero; a few texts are empty, and a few long. */
static text some_text(void) {
  static const char *const letters[] = {"a", "b", "c", "\"", "\\", "\n", "\x01", "\x7f", "\u00df", "\u8a9e", "\U0001d11e"};
  text made = {{0}, 0};
  size_t count = below(40) ? below(6) : below(70), i;
  for (i = 0; i < count; i++) {
    const char *letter = letters[below(3) ? below(3) : below(11)];
    if (below(60) == 0) {
      made.bytes[made.len++] = 0;
    } else {
      memcpy(made.bytes + made.len, letter, strlen(letter));
      made.len += strlen(letter);
    }
  }
  return made;
}

/* Bytes that are not UTF-8: a lone continuation, an overlong form, a surrogate, one past the last, one cut off. */
static text no_text(void) {
  static const char *const wrong[] = {"\x80", "a\xc0\xaf", "\xed\xa0\x80", "\xf4\x90\x80\x80", "b\xe8\xaa"};
  text made = {{0}, 0};
  const char *chosen = wrong[below(5)];
  made.len = strlen(chosen);
  memcpy(made.bytes, chosen, made.len);
  return made;
}

/* Whether the place is within a character. */
static bool is_cut(const text *given, size_t at) {
  return at < given->len && ((unsigned char)given->bytes[at] & 0xc0) == 0x80;
}

/* The index of a text in the list, or the count. */
static size_t find(const list *known, const text *sought) {
  size_t i;
  for (i = 0; i < known->count; i++) {
    if (known->texts[i].len == sought->len && !memcmp(known->texts[i].bytes, sought->bytes, sought->len)) break;
  }
  return i;
}

/* The symbol behind the last text. An entry of a buffer is the length, seven bits in a byte, and the bytes. */
static interner_symbol next_symbol(const list *known) {
  size_t last, len, bytes = 1;
  if (known->count == 0) return 0;
  last = known->count - 1;
  if (known->kind != INTERNER_BUFFER) return (interner_symbol)known->count;
  for (len = known->texts[last].len; len >= 128; len /= 128) bytes++;
  return (interner_symbol)(known->symbols[last] + bytes + known->texts[last].len);
}

/* Interns in the list, and returns the symbol. */
static interner_symbol put(list *known, const text *given) {
  size_t at = find(known, given);
  interner_symbol symbol = next_symbol(known);
  if (at < known->count) return known->symbols[at];
  known->texts[at] = *given;
  known->symbols[at] = symbol;
  known->count++;
  return symbol;
}

static bool same(const interner_text *lent, const text *wanted) {
  return lent->len == wanted->len && !memcmp(lent->bytes, wanted->bytes, wanted->len);
}

/* Lists the next entries, which are those of the list, and returns how many. */
static size_t list_piece(const interner *h, const list *known, interner_cursor *at) {
  static interner_entry entries[MOST_TEXTS];
  const size_t room = below(4) ? below(MOST_TEXTS) + 1 : below(9) + 1, begun = at->index, left = known->count - begun;
  size_t count = interner_entries(h, at, entries, room), i;
  MUST(count == (left < room ? left : room) && at->index == begun + count);
  for (i = 0; i < count; i++) {
    MUST(entries[i].symbol == known->symbols[begun + i]);
    MUST(same(&entries[i].text, &known->texts[begun + i]));
  }
  return count;
}

/* All entries are those of the list, in order. */
static void compare_all(const interner *h, const list *known) {
  interner_cursor at = {0, 0};
  while (list_piece(h, known, &at) > 0);
  MUST(at.index == known->count);
}

/* The joined texts are those of the list, and what resolve lends; another kind lends none. */
static void compare_joined(const interner *h, const list *known) {
  interner_joined joined = {NULL, 7777, NULL, 7777, NULL, 7777};
  size_t at = 0, i;
  if (known->kind != INTERNER_STRING) {
    MUST(interner_string_joined(h, &joined) == INTERNER_BAD_KIND && joined.bytes_len == 7777 && joined.ends_len == 7777);
    return;
  }
  MUST(interner_string_joined(h, &joined) == INTERNER_OK && joined.ends_len + joined.long_ends_len == known->count);
  for (i = 0; i < known->count; i++) {
    const size_t end = i < joined.ends_len ? joined.ends[i] : joined.long_ends[i - joined.ends_len];
    interner_text lent;
    MUST(at <= end && end <= joined.bytes_len && end - at == known->texts[i].len);
    MUST(!memcmp(joined.bytes + at, known->texts[i].bytes, end - at));
    MUST(interner_resolve(h, known->symbols[i], &lent) == INTERNER_OK && same(&lent, &known->texts[i]));
    at = end;
  }
  MUST(at == joined.bytes_len);
}

/* Interns a text by the call for each kind, which on a handle of another kind does nothing. Returns the symbol. */
static interner_symbol intern_by_kind(interner *h, const list *known, const text *given) {
  static uint64_t (*const intern[])(interner *, const char *, size_t) = {
      interner_string_intern_utf8, interner_bucket_intern_utf8, interner_buffer_intern_utf8};
  uint64_t symbol = intern[known->kind](h, given->bytes, given->len);
  size_t count = interner_len(h);
  interner_kind kind;
  for (kind = INTERNER_STRING; kind < sizeof intern / sizeof *intern; kind++) {
    if (kind == known->kind) continue;
    MUST(intern[kind](h, given->bytes, given->len) == NO_SYMBOL + INTERNER_BAD_KIND);
    MUST(intern[kind](h, "no text is this", 15) == NO_SYMBOL + INTERNER_BAD_KIND && interner_len(h) == count);
  }
  MUST(symbol < NO_SYMBOL);
  return (interner_symbol)symbol;
}

static void intern_one(interner *h, list *known) {
  static const char *const lasting[] = {"", "static", "a", "\u00df", "another text that stays"};
  text given = some_text();
  interner_symbol symbol = 7777;
  interner_status told = INTERNER_OK;
  switch (below(5)) {
  case 0:
    told = interner_get_or_intern(h, given.bytes, given.len, &symbol);
    break;
  case 1:
    told = interner_get_or_intern_utf8(h, given.bytes, given.len, &symbol);
    break;
  case 2:
    given.bytes[given.len] = 0;
    given.len = strlen(given.bytes);
    told = interner_get_or_intern_c_string(h, given.bytes, &symbol);
    break;
  case 3:
    symbol = intern_by_kind(h, known, &given);
    break;
  default: {
    const char *chosen = lasting[below(5)];
    given.len = strlen(chosen);
    memcpy(given.bytes, chosen, given.len);
    told = interner_get_or_intern_static(h, chosen, given.len, &symbol);
  }
  }
  MUST(told == INTERNER_OK && symbol == put(known, &given));
}

static void refuse_no_text(interner *h) {
  text wrong = no_text();
  interner_symbol symbol = 7777;
  MUST(interner_get_or_intern(h, wrong.bytes, wrong.len, &symbol) == INTERNER_BAD_TEXT && symbol == 7777);
  MUST(interner_get(h, wrong.bytes, wrong.len, &symbol) == INTERNER_BAD_TEXT && symbol == 7777);
  MUST(!interner_contains(h, wrong.bytes, wrong.len));
}

static void look_up(interner *h, const list *known) {
  text sought = some_text();
  size_t at = find(known, &sought);
  interner_symbol symbol = 7777;
  interner_status (*get)(const interner *, const char *, size_t, interner_symbol *) = below(2) ? interner_get : interner_get_utf8;
  MUST(interner_contains(h, sought.bytes, sought.len) == (at < known->count));
  if (at < known->count) {
    MUST(get(h, sought.bytes, sought.len, &symbol) == INTERNER_OK && symbol == known->symbols[at]);
  } else {
    MUST(get(h, sought.bytes, sought.len, &symbol) == INTERNER_NOT_FOUND && symbol == 7777);
  }
}

/* The calls for one kind do as those for all kinds, on a handle of another kind nothing. */
static void resolve_by_kind(const interner *h, const list *known, const text *wanted, interner_symbol symbol) {
  static interner_status (*const resolve[])(const interner *, interner_symbol, interner_text *) = {
      interner_string_resolve, interner_bucket_resolve, interner_buffer_resolve};
  static uint64_t (*const find[])(const interner *, const char *, size_t) = {
      interner_string_find_utf8, interner_bucket_find_utf8, interner_buffer_find_utf8};
  interner_kind kind;
  for (kind = INTERNER_STRING; kind < sizeof resolve / sizeof *resolve; kind++) {
    interner_text lent = {NULL, 7777};
    interner_status told = kind == known->kind ? INTERNER_OK : INTERNER_BAD_KIND;
    MUST(resolve[kind](h, symbol, &lent) == told && (told == INTERNER_OK ? same(&lent, wanted) : lent.len == 7777));
    MUST(find[kind](h, wanted->bytes, wanted->len) == (told == INTERNER_OK ? symbol : NO_SYMBOL + told));
    told = kind == known->kind ? INTERNER_NOT_FOUND : INTERNER_BAD_KIND;
    MUST(resolve[kind](h, next_symbol(known), &lent) == told);
    MUST(find[kind](h, "no text is this", 15) == NO_SYMBOL + told);
  }
}

static void resolve_one(interner *h, const list *known) {
  interner_text lent;
  interner_symbol next = next_symbol(known), beyond = next + (interner_symbol)(below(3) * below(1000));
  if (known->count > 0) {
    size_t at = below(known->count);
    MUST(interner_resolve(h, known->symbols[at], &lent) == INTERNER_OK && same(&lent, &known->texts[at]));
    resolve_by_kind(h, known, &known->texts[at], known->symbols[at]);
    MUST(interner_len(h) == known->count && same(&lent, &known->texts[at]));
  }
  lent.len = 7777;
  MUST(interner_resolve(h, beyond, &lent) == INTERNER_NOT_FOUND && lent.len == 7777);
  MUST(interner_resolve(h, UINT32_MAX - (interner_symbol)below(2), &lent) == INTERNER_NOT_FOUND && lent.len == 7777);
}

/* On a buffer, a symbol between those of texts reads nothing, or UTF-8, which another interner takes. */
static void resolve_between(interner *h, const list *known) {
  interner *judge;
  interner_text lent;
  interner_symbol symbol;
  if (known->count == 0) return;
  if (interner_resolve(h, (interner_symbol)below(next_symbol(known)), &lent) == INTERNER_OK) {
    MUST(interner_new(INTERNER_STRING, &judge) == INTERNER_OK);
    MUST(interner_get_or_intern(judge, lent.bytes, lent.len, &symbol) == INTERNER_OK);
    interner_free(judge);
  } else {
    MUST(known->kind == INTERNER_BUFFER);
  }
}

static void copy_one(interner *h, const list *known) {
  char room[MOST_BYTES];
  size_t room_len = below(below(4) ? 12 : MOST_BYTES), len = 7777, at, i;
  memset(room, 0xee, sizeof room);
  MUST(interner_copy_text(h, next_symbol(known), room, room_len, &len) == INTERNER_NOT_FOUND && len == 7777);
  if (known->count > 0) {
    const text *wanted = &known->texts[at = below(known->count)];
    bool fits = wanted->len <= room_len;
    MUST(interner_copy_text(h, known->symbols[at], room, room_len, &len) == (fits ? INTERNER_OK : INTERNER_NO_ROOM));
    MUST(len == wanted->len);
    if (fits) MUST(!memcmp(room, wanted->bytes, len));
    for (i = fits ? len : 0; i < sizeof room; i++) MUST(room[i] == (char)0xee);
  }
}

/* Interns up to eight texts at once. One of the things that can be wrong is so at a random place. */
static void intern_many(interner *h, list *known) {
  char bytes[8 * MOST_BYTES];
  size_t ends[8], len = 0, done = 7777, count = below(9), wrong_at = below(12), i;
  interner_symbol symbols[9];
  size_t room = below(20) ? count : below(count + 1), good = 0;
  interner_symbol wanted[8];
  interner_status told = INTERNER_OK;
  for (i = 0; i < 9; i++) symbols[i] = 7777;
  for (i = 0; i < count; i++) {
    bool is_wrong = i == wrong_at;
    uint32_t how = is_wrong ? (uint32_t)below(3) : 0;
    text given = is_wrong && how == 0 ? no_text() : some_text();
    memcpy(bytes + len, given.bytes, given.len);
    len += given.len;
    ends[i] = len;
    if (is_wrong && how == 1) ends[i] = sizeof bytes + 1 + below(100);
    if (is_wrong && how == 2) ends[i] = i > 0 && ends[i - 1] > 0 ? ends[i - 1] - 1 : SIZE_MAX;
    if (is_wrong && told == INTERNER_OK) told = how == 0 ? INTERNER_BAD_TEXT : INTERNER_BAD_ENDS;
    if (told == INTERNER_OK && room == count) wanted[good++] = put(known, &given);
  }
  if (room < count) told = INTERNER_NO_ROOM;
  MUST(interner_intern_joined(h, bytes, len, ends, count, symbols, room, &done) == told && done == good);
  for (i = 0; i < good; i++) MUST(symbols[i] == wanted[i]);
  for (i = good; i < 9; i++) MUST(symbols[i] == 7777);
}

/* The same of texts in a list, of which one may not be UTF-8. */
static void intern_list(interner *h, list *known) {
  text given[8];
  interner_text texts[8];
  interner_symbol symbols[9], wanted[8];
  size_t done = 7777, count = below(9), wrong_at = below(12), room = below(20) ? count : below(count + 1), good = 0, i;
  interner_status told = wrong_at < count ? INTERNER_BAD_TEXT : INTERNER_OK;
  for (i = 0; i < 9; i++) symbols[i] = 7777;
  for (i = 0; i < count; i++) {
    given[i] = i == wrong_at ? no_text() : some_text();
    texts[i].bytes = given[i].bytes, texts[i].len = given[i].len;
    if (i < wrong_at && room == count) wanted[good++] = put(known, &given[i]);
  }
  if (room < count) told = INTERNER_NO_ROOM;
  MUST(interner_intern_list(h, texts, count, symbols, room, &done) == told && done == good);
  for (i = 0; i < good; i++) MUST(symbols[i] == wanted[i]);
  for (i = good; i < 9; i++) MUST(symbols[i] == 7777);
  MUST(interner_intern_texts(h, texts, good, symbols, &done) == INTERNER_OK && done == good);
  for (i = 0; i < good; i++) MUST(symbols[i] == wanted[i]);
}

/* Lists the entries from some cursor on, which may be none. What is behind the entries is unchanged, and what is written can be
 * read. */
static void walk(interner *h, const list *known) {
  interner_entry entries[4];
  interner_cursor at = {below(known->count + 3), below(4) ? below(1000) : SIZE_MAX - below(3)};
  const size_t room = below(5);
  size_t count, i;
  for (i = 0; i < 4; i++) entries[i].symbol = 7777;
  if (at.index < known->count && below(2)) at.place = known->symbols[at.index];
  count = interner_entries(h, &at, entries, room);
  MUST(count <= room);
  for (i = 0; i < count; i++) MUST(memchr(entries[i].text.bytes, 0xff, entries[i].text.len) == NULL);
  for (i = count; i < 4; i++) MUST(entries[i].symbol == 7777);
  compare_all(h, known);
}

/* Lists entries while others come, and while some go that were not listed yet. */
static void list_as_texts_come(interner *h, list *known) {
  interner_cursor at = {0, 0};
  size_t pieces = below(20), come;
  while (pieces-- > 0) {
    list_piece(h, known, &at);
    if (below(8) == 0) {
      const size_t len = at.index + below(known->count - at.index + 1);
      interner_truncate(h, len);
      known->count = len;
    }
    for (come = below(3); come > 0 && known->count < MOST_TEXTS - 8; come--) intern_one(h, known);
  }
  while (list_piece(h, known, &at) > 0);
  MUST(at.index == known->count);
}

static void truncate_some(interner *h, list *known) {
  size_t len = below(8) ? known->count - below(known->count / 8 + 1) : below(known->count + 20);
  interner_truncate(h, len);
  if (len < known->count) known->count = len;
}

/* Puts another text of the same length in the place of the last one: `other` is then not equal, until that is put back. */
static void change_last(interner *h, const list *known, interner *other) {
  text last, changed;
  interner_symbol symbol;
  if (known->count == 0 || known->texts[known->count - 1].len == 0) return;
  last = changed = known->texts[known->count - 1];
  memset(changed.bytes, 'z', changed.len);
  interner_truncate(other, known->count - 1);
  MUST(!interner_equal(h, other));
  MUST(interner_get_or_intern(other, changed.bytes, changed.len, &symbol) == INTERNER_OK);
  MUST(!interner_equal(h, other) && !interner_equal(other, h));
  interner_truncate(other, known->count - 1);
  MUST(interner_get_or_intern(other, last.bytes, last.len, &symbol) == INTERNER_OK && interner_equal(h, other));
}

/* A copy is equal until one of the two changes, and each goes on without the other. */
static void copy_all(interner **handle, list *known, interner **copy) {
  interner *h = *handle, *other;
  text extra = {"a text that no random one is", 28};
  interner_symbol symbol;
  interner_free(*copy);
  MUST(interner_clone(h, copy) == INTERNER_OK);
  other = *copy;
  MUST(interner_equal(h, other) && interner_equal(other, h) && interner_equal(h, h));
  compare_all(other, known);
  MUST(interner_get_or_intern(other, extra.bytes, extra.len, &symbol) == INTERNER_OK && symbol == next_symbol(known));
  MUST(!interner_equal(h, other) && interner_len(h) == known->count && interner_len(other) == known->count + 1);
  interner_truncate(other, known->count);
  MUST(interner_equal(h, other));
  change_last(h, known, other);
  if (below(2)) *handle = other, *copy = h;
}

/* Writes the JSON array of the list: short escapes where JSON has them, and four digits for other control characters. */
static size_t spell_json(const list *known, char *out) {
  char *at = out;
  size_t i, j;
  *at++ = '[';
  for (i = 0; i < known->count; i++) {
    if (i > 0) *at++ = ',';
    *at++ = '"';
    for (j = 0; j < known->texts[i].len; j++) {
      char byte = known->texts[i].bytes[j];
      if (byte == '"' || byte == '\\') *at++ = '\\', *at++ = byte;
      else if (byte == '\n') *at++ = '\\', *at++ = 'n';
      else if (byte >= 0 && byte < ' ') at += sprintf(at, "\\u%04x", (unsigned)byte);
      else *at++ = byte;
    }
    *at++ = '"';
  }
  *at++ = ']';
  return (size_t)(at - out);
}

/* Options of this kind, with some hasher, keys and capacity. */
static interner_options some_options(interner_kind kind) {
  interner_options made = {kind, (interner_hasher)below(3), below(50), 0, 0};
  made.key0 = below(SIZE_MAX), made.key1 = below(SIZE_MAX);
  return made;
}

/* Reads JSON by one of the calls that do. */
static interner_status read_json(interner_kind kind, const char *json, size_t len, bool exact, interner **out) {
  interner_options options = some_options(kind);
  return exact || below(2) ? interner_from_json_with(&options, json, len, exact, out) : interner_from_json(kind, json, len, out);
}

static void write_and_read_json(interner *h, const list *known, interner **other) {
  static char wanted[MOST_ROOM], room[MOST_ROOM];
  interner *kept;
  size_t len = spell_json(known, wanted), told = 7777, short_room = below(len);
  memset(room, 0xee, len);
  MUST(interner_to_json(h, room, short_room, &told) == INTERNER_NO_ROOM && told == len && room[0] == (char)0xee);
  MUST(interner_to_json(h, room, sizeof room, &told) == INTERNER_OK && told == len && !memcmp(room, wanted, len));
  interner_free(*other);
  MUST(read_json(known->kind, room, len, below(2), other) == INTERNER_OK);
  kept = *other;
  MUST(interner_equal(h, kept));
  MUST(read_json(known->kind, room, len - 1, below(2), other) == INTERNER_BAD_TEXT && *other == kept);
}

static void read_odd_json(interner_kind kind) {
  static const struct row {
    const char *json;
    interner_status loose, exact;
    size_t len;
  } rows[] = {
      {" [ \"\\u00df\" , \"b\" ] ", INTERNER_OK, INTERNER_OK, 2},
      {"[]", INTERNER_OK, INTERNER_OK, 0},
      {"[\"a\",\"b\",\"a\"]", INTERNER_OK, INTERNER_REPEATED, 2},
      {"[\"a\",\"\\u0061\",1]", INTERNER_NOT_A_TEXT, INTERNER_REPEATED, 0},
      {"[\"a\",1,\"a\"]", INTERNER_NOT_A_TEXT, INTERNER_NOT_A_TEXT, 0},
      {"{\"a\":[\"b\"]}", INTERNER_NOT_A_LIST, INTERNER_NOT_A_LIST, 0},
      {"\"a\"", INTERNER_NOT_A_LIST, INTERNER_NOT_A_LIST, 0},
      {"[\"a\",]", INTERNER_BAD_TEXT, INTERNER_BAD_TEXT, 0},
      {"", INTERNER_BAD_TEXT, INTERNER_BAD_TEXT, 0},
      {"[\"\xff\"]", INTERNER_BAD_TEXT, INTERNER_BAD_TEXT, 0},
  };
  const struct row *row = &rows[below(sizeof rows / sizeof *rows)];
  interner *made = NULL;
  bool exact = below(2);
  interner_status wanted = exact ? row->exact : row->loose;
  MUST(read_json(kind, row->json, strlen(row->json), exact, &made) == wanted && (made != NULL) == (wanted == INTERNER_OK));
  if (made) MUST(interner_len(made) == row->len);
  interner_free(made);
}

/* Interns a part of a text that is there, often while its bytes move. */
static void intern_part(interner *h, list *known) {
  size_t at, from, to;
  interner_symbol symbol = 7777;
  text part = {{0}, 0};
  interner_status told;
  MUST(interner_get_or_intern_part(h, next_symbol(known), 0, 0, &symbol) == INTERNER_NOT_FOUND && symbol == 7777);
  if (known->count == 0) return;
  at = below(known->count);
  from = below(known->texts[at].len + 1);
  to = below(known->texts[at].len + 2);
  told = interner_get_or_intern_part(h, known->symbols[at], from, to, &symbol);
  if (from > to || to > known->texts[at].len) {
    MUST(told == INTERNER_BAD_ENDS && symbol == 7777);
  } else if (from < to && (is_cut(&known->texts[at], from) || is_cut(&known->texts[at], to))) {
    MUST(told == INTERNER_BAD_TEXT && symbol == 7777);
  } else {
    part.len = to - from;
    memcpy(part.bytes, known->texts[at].bytes + from, part.len);
    MUST(told == INTERNER_OK && symbol == put(known, &part));
  }
}

/* Kinds that there are not, and null where nothing is to be read, written or freed; only the bytes of an interner_text are not
 * null. */
static void call_with_nothing(interner *h, list *known) {
  interner *made = NULL;
  text empty = {{0}, 0};
  size_t done = 7777, len = 7777;
  interner_cursor at = {0, 0};
  interner_symbol symbol = 7777, again = 7777;
  const interner_text no_bytes = {"", 0};
  interner_kind no_kind = (interner_kind)(3 + below(1000));
  interner_options options = some_options(no_kind), unhashed = some_options(known->kind);
  unhashed.hasher = (interner_hasher)(3 + below(1000));
  MUST(interner_new(no_kind, &made) == INTERNER_BAD_KIND && !made);
  MUST(interner_new_with(&options, &made) == INTERNER_BAD_KIND && !made);
  MUST(interner_new_with(&unhashed, &made) == INTERNER_BAD_HASHER && !made);
  MUST(interner_from_json(no_kind, "[]", 2, &made) == INTERNER_BAD_KIND && !made);
  MUST(interner_from_json_with(&options, "[]", 2, below(2), &made) == INTERNER_BAD_KIND && !made);
  MUST(interner_from_json_with(&unhashed, "[]", 2, below(2), &made) == INTERNER_BAD_HASHER && !made);
  MUST(interner_from_json(known->kind, NULL, 0, &made) == INTERNER_BAD_TEXT && !made);
  MUST(interner_intern_joined(h, NULL, 0, NULL, 0, NULL, 0, &done) == INTERNER_OK && done == 0);
  MUST(interner_intern_texts(h, NULL, 0, NULL, &done) == INTERNER_OK && done == 0);
  MUST(interner_to_json(h, NULL, 0, &len) == INTERNER_NO_ROOM && len >= 2);
  MUST(interner_contains(h, NULL, 0) == (find(known, &empty) < known->count));
  MUST(interner_entries(h, &at, NULL, 0) == 0 && at.index == 0 && at.place == 0);
  MUST(interner_get_or_intern(h, NULL, 0, &symbol) == INTERNER_OK && symbol == put(known, &empty));
  MUST(interner_get(h, NULL, 0, &symbol) == INTERNER_OK && symbol == put(known, &empty));
  MUST(interner_intern_texts(h, &no_bytes, 1, &again, &done) == INTERNER_OK && done == 1 && again == symbol);
  MUST(interner_copy_text(h, symbol, NULL, 0, &len) == INTERNER_OK && len == 0);
  interner_free(NULL);
}

static void make_anew(interner **h, list *known, interner_kind kind) {
  interner_options options = some_options(kind);
  known->kind = kind;
  known->count = 0;
  interner_free(*h);
  MUST((below(2) ? interner_new(kind, h) : interner_new_with(&options, h)) == INTERNER_OK);
}

static void command(interner **handle, list *known, interner **other) {
  interner *h = *handle;
  switch (below(32)) {
  case 0: look_up(h, known); break;
  case 1: refuse_no_text(h); break;
  case 2: resolve_one(h, known); break;
  case 3: resolve_between(h, known); break;
  case 4: copy_one(h, known); break;
  case 5: intern_many(h, known); break;
  case 6: walk(h, known); break;
  case 7: truncate_some(h, known); break;
  case 8: interner_shrink(h); break;
  case 9: copy_all(handle, known, other); break;
  case 10: if (below(8) == 0) write_and_read_json(h, known, other); break;
  case 11: read_odd_json(known->kind); break;
  case 12: call_with_nothing(h, known); break;
  case 13: intern_part(h, known); break;
  case 14: intern_list(h, known); break;
  case 15: if (below(8) == 0) list_as_texts_come(h, known); break;
  default: intern_one(h, known);
  }
  MUST(interner_len(*handle) == known->count);
  compare_joined(*handle, known);
  agreed++;
}

/* A byte that begins no character is seen at each place of a text of each short length. */
static void see_each_byte(void) {
  char bytes[100];
  interner *h = NULL;
  interner_symbol symbol = 7777;
  size_t len, at;
  MUST(interner_new(INTERNER_STRING, &h) == INTERNER_OK);
  for (len = 1; len <= sizeof bytes; len++) {
    for (at = 0; at < len; at++) {
      memset(bytes, 'a', len);
      bytes[at] = '\x80';
      MUST(interner_get_or_intern(h, bytes, len, &symbol) == INTERNER_BAD_TEXT && symbol == 7777);
    }
  }
  MUST(interner_len(h) == 0);
  interner_free(h);
}

int main(int count, char **words) {
  static const interner_kind kinds[] = {INTERNER_STRING, INTERNER_BUCKET, INTERNER_BUFFER};
  unsigned long wanted = count > 1 ? strtoul(words[1], 0, 10) : 600000;
  static list known;
  interner *h = NULL, *other = NULL;
  size_t round = 0;
  state = (count > 2 ? strtoull(words[2], 0, 10) : 7) * 0x9e3779b97f4a7c15u + 1;
  MUST(interner_version() == INTERNER_VERSION);
  see_each_byte();
  while (agreed < wanted) {
    make_anew(&h, &known, kinds[round++ % 3]);
    do command(&h, &known, &other);
    while (known.count < MOST_TEXTS - 8 && below(3000));
    compare_all(h, &known);
  }
  interner_free(h);
  interner_free(other);
  printf("%lu commands agree with a list\n", agreed);
  return 0;
}
