/* alike ONE OTHER [COMMANDS [SEED]]: loads two builds of the shared library, and makes the same random calls in both: right and wrong
 * ones, texts, JSON and what looks like it. What they return and write must be the same, byte for byte. Prints how many calls were. */
#define _GNU_SOURCE
#include "string_interner.h"
#include <dlfcn.h>
#include <stdio.h>
#include <stdlib.h>

/* All that a handle is passed to, and what makes one. */
#define CALLS(CALL) \
  CALL(bucket_find_utf8) CALL(bucket_intern_utf8) CALL(bucket_resolve) CALL(buffer_find_utf8) CALL(build) \
  CALL(buffer_intern_utf8) CALL(buffer_resolve) CALL(clone) CALL(contains) CALL(copy_text) CALL(entries) CALL(equal) \
  CALL(free) CALL(from_json) CALL(from_json_with) CALL(get) CALL(get_or_intern) CALL(get_or_intern_part) \
  CALL(get_or_intern_static) CALL(get_or_intern_utf8) CALL(get_utf8) CALL(intern_joined) CALL(intern_list) CALL(len) CALL(new) \
  CALL(new_with) CALL(resolve) CALL(share) CALL(shared_copy_text) CALL(shared_free) CALL(shared_get) CALL(shared_get_or_intern) \
  CALL(shared_len) CALL(shared_resolve) CALL(shrink) CALL(string_find_utf8) CALL(string_intern_utf8) CALL(string_joined) \
  CALL(string_resolve) CALL(to_json) CALL(truncate) CALL(unshare) CALL(version)

enum { HANDLES = 6, MANY = 40, LARGE = (1 << 22) + 1, MOST_BYTES = 4096, MOST_JSON = 1 << 20, MOST_LOGGED = 3 << 20 };

/* A build: its calls, its handles, and what the last command returned and wrote. */
typedef struct build {
#define FIELD(call) __typeof__(interner_##call) *call;
  CALLS(FIELD)
  interner *handles[HANDLES];
  unsigned char *log;
  size_t logged;
} build;

/* A text, of which the static ones stay where they are. */
typedef struct bytes {
  const char *at;
  size_t len;
  bool is_utf8;
} bytes;

/* What a command is given, which is the same for both builds. */
typedef struct given {
  size_t handle, other, from, to, room, count;
  interner_symbol symbol;
  interner_options options;
  bool exact;
  bytes text, many[MANY], joined, json;
  size_t ends[MANY];
  interner_cursor cursor;
} given;

static uint64_t state;
static char pool[MOST_BYTES], json_made[MOST_JSON];

/* A number below the bound, by xorshift. */
static size_t below(size_t bound) {
  state ^= state << 13;
  state ^= state >> 7;
  state ^= state << 17;
  return (size_t)(state % bound);
}

static void must(bool claim, const char *what) {
  if (claim) return;
  printf("alike.c: %s\n", what);
  exit(1);
}

static void load(build *it, const char *path) {
  void *library = dlopen(path, RTLD_NOW | RTLD_LOCAL), *found;
  must(library, path);
#define LOAD(call) \
  found = dlsym(library, "interner_" #call); \
  must(found, #call); \
  memcpy(&it->call, &found, sizeof found);
  CALLS(LOAD)
  it->log = malloc(MOST_LOGGED);
  must(it->log, "out of memory");
}

static void log_bytes(build *it, const void *from, size_t len) {
  must(it->logged + len <= MOST_LOGGED, "too much is logged");
  if (len) memcpy(it->log + it->logged, from, len);
  it->logged += len;
}

static void log_number(build *it, uint64_t number) { log_bytes(it, &number, sizeof number); }

static void log_text(build *it, interner_status status, const interner_text *text) {
  log_number(it, status);
  log_number(it, text->len);
  if (status == INTERNER_OK) log_bytes(it, text->bytes, text->len);
}

static void log_written(build *it, uint64_t outcome, uint64_t written) {
  log_number(it, outcome);
  log_number(it, written);
}

static void intern_one(build *it, interner *h, const given *of) {
  interner_symbol symbol = 7777;
  const bytes *text = &of->text;
  log_written(it, it->get_or_intern(h, text->at, text->len, &symbol), symbol);
  log_written(it, it->get_or_intern_static(h, text->at, text->len, &symbol), symbol);
  log_written(it, it->get_or_intern_part(h, of->symbol, of->from, of->to, &symbol), symbol);
  if (!text->is_utf8) return;
  log_written(it, it->get_or_intern_utf8(h, text->at, text->len, &symbol), symbol);
  log_number(it, it->string_intern_utf8(h, text->at, text->len));
  log_number(it, it->bucket_intern_utf8(h, text->at, text->len));
  log_number(it, it->buffer_intern_utf8(h, text->at, text->len));
}

static void look_up(build *it, interner *h, const given *of) {
  interner_symbol symbol = 7777;
  const bytes *text = &of->text;
  log_written(it, it->get(h, text->at, text->len, &symbol), symbol);
  log_number(it, it->contains(h, text->at, text->len));
  if (!text->is_utf8) return;
  log_written(it, it->get_utf8(h, text->at, text->len, &symbol), symbol);
  log_number(it, it->string_find_utf8(h, text->at, text->len));
  log_number(it, it->bucket_find_utf8(h, text->at, text->len));
  log_number(it, it->buffer_find_utf8(h, text->at, text->len));
}

static void resolve(build *it, interner *h, const given *of) {
  static char room[MOST_BYTES];
  interner_text text = {"", 7777};
  size_t len = 7777;
  log_text(it, it->resolve(h, of->symbol, &text), &text);
  log_text(it, it->string_resolve(h, of->symbol, &text), &text);
  log_text(it, it->bucket_resolve(h, of->symbol, &text), &text);
  log_text(it, it->buffer_resolve(h, of->symbol, &text), &text);
  memset(room, 'x', of->room);
  log_written(it, it->copy_text(h, of->symbol, room, of->room, &len), len);
  log_bytes(it, room, of->room);
}

static void list_all(build *it, interner *h, const given *of) {
  static interner_entry entries[MANY];
  interner_cursor cursor = of->cursor;
  interner_joined joined;
  size_t found = it->entries(h, &cursor, entries, of->count), i;
  log_written(it, found, cursor.index);
  log_number(it, cursor.place);
  for (i = 0; i < found; i++) {
    log_number(it, entries[i].symbol);
    log_text(it, INTERNER_OK, &entries[i].text);
  }
  memset(&joined, 7, sizeof joined);
  log_number(it, it->string_joined(h, &joined));
  if (joined.bytes_len < MOST_JSON) log_bytes(it, joined.bytes, joined.bytes_len);
  if (joined.bytes_len < MOST_JSON) log_bytes(it, joined.ends, joined.ends_len * sizeof *joined.ends);
}

static void intern_many(build *it, interner *h, const given *of) {
  interner_symbol symbols[MANY];
  interner_text texts[MANY];
  size_t done = 7777, i;
  for (i = 0; i < of->count; i++) texts[i].bytes = of->many[i].at, texts[i].len = of->many[i].len;
  memset(symbols, 7, sizeof symbols);
  log_written(it, it->intern_list(h, texts, of->count, symbols, of->exact ? of->count : of->room % MANY, &done), done);
  log_bytes(it, symbols, sizeof symbols);
  log_written(it, it->intern_joined(h, of->joined.at, of->joined.len, of->ends, of->count, symbols,
                                    of->exact ? of->count : of->room % MANY, &done), done);
  log_bytes(it, symbols, sizeof symbols);
}

/* Puts a handle that a call made, or none, into the place of another. */
static void keep(build *it, const given *of, interner_status status, interner *made) {
  log_written(it, status, made != NULL);
  if (!made) return;
  it->free(it->handles[of->other]);
  it->handles[of->other] = made;
}

static void make_another(build *it, interner *h, const given *of) {
  interner *made = NULL;
  switch (of->from % 4) {
  case 0: keep(it, of, it->new(of->options.kind, &made), made); break;
  case 1: keep(it, of, it->new_with(&of->options, &made), made); break;
  default: keep(it, of, it->clone(h, &made), made); break;
  }
}

static void drop_some(build *it, interner *h, const given *of) {
  if (of->exact) it->truncate(h, of->from % 200);
  else it->shrink(h);
}

static void write_json(build *it, interner *h, const given *of) {
  static char room[MOST_JSON];
  size_t len = 7777, size = of->exact ? sizeof room : of->room;
  memset(room, 'x', of->room);
  log_written(it, it->to_json(h, room, size, &len), len);
  log_bytes(it, room, len < size ? len : of->room);
}

static void read_json(build *it, interner *h, const given *of) {
  interner *made = NULL;
  interner_status status = of->from % 2 ? it->from_json(of->options.kind, of->json.at, of->json.len, &made)
                                        : it->from_json_with(&of->options, of->json.at, of->json.len, of->exact, &made);
  (void)h;
  keep(it, of, status, made);
}

/* Makes the same calls on a handle while it is shared. */
static void share(build *it, interner *h, const given *of) {
  static char room[MOST_BYTES];
  interner_shared *shared = NULL;
  interner_symbol symbol = 7777;
  interner_text text = {"", 7777};
  size_t len = 7777;
  log_number(it, it->share(h, &shared));
  log_written(it, it->shared_get(shared, of->text.at, of->text.len, &symbol), symbol);
  log_written(it, it->shared_get_or_intern(shared, of->text.at, of->text.len, &symbol), symbol);
  log_text(it, it->shared_resolve(shared, of->symbol, &text), &text);
  memset(room, 'x', of->room);
  log_written(it, it->shared_copy_text(shared, of->symbol, room, of->room, &len), len);
  log_bytes(it, room, of->room);
  log_number(it, it->shared_len(shared));
  must(it->unshare(shared) == h, "another handle was shared");
  it->shared_free(NULL);
}

static void (*const commands[])(build *, interner *, const given *) = {
    intern_one, intern_one, look_up, share, resolve, list_all, intern_many, make_another, drop_some, write_json, read_json, read_json, read_json};

/* A part of the pool, of letters of one to four bytes, which may begin and end within one; most texts come again. */
static bytes some_text(void) {
  bytes made = {pool + below(below(8) ? 60 : MOST_BYTES / 2), 0, true};
  size_t i, left;
  made.len = below(below(9) ? 12 : MOST_BYTES / 4);
  for (i = 0; i < made.len && made.is_utf8; i += left) {
    const unsigned char first = (unsigned char)made.at[i];
    left = first < 0x80 ? 1 : first < 0xc0 ? 0 : first < 0xe0 ? 2 : first < 0xf0 ? 3 : 4;
    made.is_utf8 = left && i + left <= made.len;
  }
  return made;
}

static void fill_pool(void) {
  static const char *const letters[] = {"a", "b", "c", "\"", "\\", "\n", "\x01", "\x7f", "\u00df", "\u8a9e", "\U0001d11e"};
  size_t len = 0;
  while (len < sizeof pool - 4) {
    const char *letter = letters[below(4) ? below(3) : below(11)];
    memcpy(pool + len, letter, strlen(letter));
    len += strlen(letter);
  }
}

/* Pieces of JSON, right and wrong, one after another. */
static bytes some_json(void) {
  static const char *const pieces[] = {
      "[", "]", "[", "]", "[\"", "\"]", ",", ",", "\",\"", "\"", "\"a\"", "\"b\"", "\"\\u0061\"", "\"\\ud834\\udd1e\"", "\\ud834", "\\udd1e",
      "\\u00", "\\n", "\\/", "\\x", "\\", "{", "}", "{}", ":", "\"a\":1", "true", "false", "null", "nul", "0", "01", "-", "-0", "1.5", "1.", "1e5",
      "1e999", "-1e999", "1e-999", "18446744073709551616", ".5", "+1", "NaN", " ", "\n", "\t", "\r", "\f", "\x01", "\x7f", "\u00df", "\u8a9e",
      "\xff", "\xed\xa0\x80", "[[]]", "[1]", "[\"a\",\"a\"]", "\xef\xbb\xbf"};
  bytes made = {json_made, 0, false};
  size_t count = below(9), nested = below(4) ? 0 : 120 + below(20), i;
  bool is_list = below(2);
  for (i = 0; i < nested; i++) json_made[made.len++] = below(50) ? '[' : ' ';
  if (is_list) json_made[made.len++] = '[';
  for (i = 0; i < count; i++) {
    const char *piece = pieces[below(sizeof pieces / sizeof *pieces)];
    if (is_list && i && below(3)) json_made[made.len++] = ',';
    memcpy(json_made + made.len, piece, strlen(piece));
    made.len += strlen(piece);
  }
  if (is_list) json_made[made.len++] = ']';
  for (i = 0; i < nested; i++) json_made[made.len++] = ']';
  return made;
}

/* The JSON of a handle, in which bytes are changed, added or taken away, or not. */
static bytes changed_json(build *of, interner *h) {
  bytes made = {json_made, 0, false};
  size_t changes = below(3);
  if (of->to_json(h, json_made, sizeof json_made / 2, &made.len) != INTERNER_OK) return some_json();
  while (changes--) {
    size_t at = below(made.len), with = below(2);
    if (below(2)) {
      json_made[at] = with ? (char)below(256) : "[]{}\",:\\u0e"[below(11)];
    } else {
      memmove(json_made + at + with, json_made + at + 1 - with, made.len - at - 1 + with);
      made.len += with ? 1 : (size_t)-1;
      if (made.len == 0) break;
    }
  }
  return made;
}

static void draw(given *of, build *one) {
  size_t i;
  memset(of, 0, sizeof *of);
  of->handle = below(HANDLES), of->other = below(HANDLES);
  of->from = below(9), of->to = of->from + below(9) - below(2), of->room = below(64), of->count = below(MANY);
  of->symbol = (interner_symbol)(below(9) ? below(2000) : state >> 32);
  of->options.kind = (interner_kind)(below(20) ? below(3) : below(9));
  of->options.hasher = (interner_hasher)(below(20) ? below(3) : below(9));
  of->options.capacity = below(9) ? below(300) : (size_t)(state >> below(64));
  if (of->options.capacity > 100000 && of->options.capacity < (size_t)1 << 50) of->options.capacity = below(8) ? 9 : LARGE;
  of->options.key0 = state, of->options.key1 = below(1000);
  of->exact = below(2);
  of->text = some_text();
  for (i = 0; i < of->count; i++) of->many[i] = some_text();
  of->joined = some_text();
  for (i = 0; i < of->count; i++) of->ends[i] = (i ? of->ends[i - 1] : 0) + below(4) - (below(60) ? 0 : 2);
  of->cursor.index = below(2) ? 0 : below(300), of->cursor.place = below(2) ? of->cursor.index : below(600);
  of->json = below(2) ? some_json() : changed_json(one, one->handles[of->handle]);
}

int main(int argc, char **argv) {
  static build one, other;
  static given it;
  unsigned long done, wanted = argc > 3 ? strtoul(argv[3], NULL, 10) : 200000;
  size_t i;
  if (argc < 3) return 2;
  state = argc > 4 ? strtoul(argv[4], NULL, 10) | 1 : 88172645463325252;
  load(&one, argv[1]);
  load(&other, argv[2]);
  must(strcmp(one.build(), other.build()) && one.version() == other.version(), "not two builds of one interface");
  fill_pool();
  for (i = 0; i < HANDLES; i++) {
    must(one.new((interner_kind)(i % 3), &one.handles[i]) == INTERNER_OK, "no memory");
    must(other.new((interner_kind)(i % 3), &other.handles[i]) == INTERNER_OK, "no memory");
  }
  for (done = 0; done < wanted; done++) {
    const size_t command = below(sizeof commands / sizeof *commands);
    draw(&it, &one);
    one.logged = other.logged = 0;
    commands[command](&one, one.handles[it.handle], &it);
    commands[command](&other, other.handles[it.handle], &it);
    log_written(&one, one.len(one.handles[it.handle]), one.equal(one.handles[it.handle], one.handles[it.other]));
    log_written(&other, other.len(other.handles[it.handle]), other.equal(other.handles[it.handle], other.handles[it.other]));
    if (one.logged == other.logged && !memcmp(one.log, other.log, one.logged)) continue;
    printf("alike.c: command %lu, of number %zu, differs; its JSON: %.*s\n", done, command, (int)it.json.len, it.json.at);
    return 1;
  }
  for (i = 0; i < HANDLES; i++) one.free(one.handles[i]), other.free(other.handles[i]);
  printf("%lu random commands: what is %s answers as what is %s\n", done, one.build(), other.build());
  return 0;
}
