/** @file string_interner.h
 * A proved string interner, for C and for everything that calls C.
 *
 * An interner stores each distinct text once, and gives it a symbol: a small number. A program then compares, hashes and stores
 * symbols:
 *
 *     interner *names;
 *     interner_symbol tiger, again;
 *     if (interner_new(INTERNER_STRING, &names) != INTERNER_OK) return 1;
 *     if (interner_get_or_intern(names, "Tiger", 5, &tiger) != INTERNER_OK) return 1;
 *     // The same text has the same symbol: again == tiger.
 *     if (interner_get_or_intern(names, "Tiger", 5, &again) != INTERNER_OK) return 1;
 *     interner_free(names);
 *
 * Each call is proved to do what its comment says, as long as the program keeps eight rules, which the library does not check:
 *
 *   1. Pass only a handle that interner_new, interner_from_json, one of these with _with at its end, or interner_clone wrote. Do
 *      not use it after interner_free. Pass null as a handle to interner_free only.
 *   2. Pass only aligned pointers to as many elements as the length after the pointer says. If that is 0, the pointer may be
 *      null. A pointer without a length points to one element. The bytes of an interner_text are never null, even if it is empty.
 *      Memory that a call only writes to need not be initialised; the cursor of interner_entries must be.
 *   3. Do not let memory that a call writes to overlap anything else that you pass to that call.
 *   4. While a call may change a handle, make no other call on that handle. Calls that only read a handle may run at the same time.
 *      If threads share a handle, make each change happen before or after every other call on it, as interner_share does. Calls on
 *      different handles need no care, because handles share nothing.
 *   5. Read a text that a handle lent only until the next call that may change that handle, and do not pass it to that call. Every
 *      call may change a handle, except those that take it as const. On INTERNER_BUCKET you may read the text until
 *      interner_truncate, interner_shrink or interner_free of its handle, but do not pass it to a call that may change the handle.
 *   6. Link malloc, realloc and free of one allocator, which aligns as C requires. In a signal handler make no call if the signal
 *      interrupted a call on the same handle, or a call of malloc, realloc or free. In the child of a fork make no call on a
 *      handle that another thread was using when the process forked.
 *   7. Pass only UTF-8 to the calls whose name ends in _utf8.
 *   8. Pass to interner_get_or_intern_static only bytes that stay where they are, unchanged, as long as the process runs.
 *
 * What is proved is the source. Rattle's compiler or rustc makes the library of it; interner_build says which. interner_share and the
 * calls on what it makes are not proved themselves: they take a lock, and call what is proved.
 *
 * Three parts of these rules are tested and not proved:
 *
 *   - Calls that only read may run at the same time on one handle, may take a text that it lent, and may take the same handle
 *     twice (interner_equal). The proof assumes that each call is the only one on its handle. The tests make each of these calls
 *     while all memory of the handle is read-only, and from three threads under two race detectors.
 *   - Memory that a call only writes to need not be initialised. The proof covers any symbols, bytes or texts there. The tests pass
 *     uninitialised memory, under a checker that reports each use of it.
 *   - On INTERNER_BUCKET a text stays where it is. The tests keep the address of each of 20,000 texts while the others come by each
 *     call that interns, while they clone the interner, and while calls and allocations fail, under a checker that reports each
 *     use of freed memory.
 *
 * The library checks everything else: bytes that are not UTF-8 (but see rule 7), ends that decrease or pass the bytes, symbols
 * without a text, buffers that are too small, kinds and hashers that do not exist, symbols that run out, and allocations that fail.
 *
 * If strangers choose the texts, do not use a handle without keys: anyone can find many texts with one hash code, and interning n
 * of them takes time that grows with the square of n. Make the handle by interner_new_with or interner_from_json_with, with
 * INTERNER_SEEDED, under keys that are random and secret.
 */
#ifndef STRING_INTERNER_H
#define STRING_INTERNER_H

#include <stdbool.h>
#include <stddef.h>
#include <stdint.h>
#include <string.h>

#ifdef __cplusplus
/** Nothing, because C++ has no restrict. In C it states rule 3. */
#define INTERNER_RESTRICT
extern "C" {
#else
/** States rule 3: this memory overlaps nothing else that you pass. */
#define INTERNER_RESTRICT restrict
#endif

/** The number of this interface. A new one means that programs must be compiled again. It is part of the name of the shared
 * library: libstring_interner.so.1. (The version of the release is another number.) */
#define INTERNER_VERSION 1

/** What a call returns. */
typedef enum interner_status {
  INTERNER_OK = 0,          /**< The call succeeded. */
  INTERNER_BAD_TEXT = 1,    /**< The bytes are not UTF-8, or the call reads JSON and they are not JSON. */
  INTERNER_NO_SYMBOL = 2,   /**< The text is new, and no symbol is left for it. */
  INTERNER_NO_MEMORY = 3,   /**< An allocation failed. No text changes; calls that intern many texts keep those before it. */
  INTERNER_NOT_FOUND = 4,   /**< The text is not known, or no text has this symbol. */
  INTERNER_NO_ROOM = 5,     /**< The buffer is too small. */
  INTERNER_BAD_KIND = 6,    /**< No kind has this value, or the handle has another one. */
  INTERNER_BAD_ENDS = 7,    /**< An end is less than the one before it, or passes the bytes. */
  INTERNER_NOT_A_LIST = 8,  /**< The JSON value is not an array. */
  INTERNER_NOT_A_TEXT = 9,  /**< An element is not a string. */
  INTERNER_REPEATED = 10,   /**< An element is a string equal to an earlier one. */
  INTERNER_BAD_HASHER = 11  /**< No hasher has this value. */
} interner_status;

/** The kind of an interner: how it stores texts. */
typedef enum interner_kind {
  INTERNER_STRING = 0, /**< Joined in one string: fast to fill, to resolve and to iterate. Symbols are 0, 1, 2, .. */
  INTERNER_BUCKET = 1, /**< In blocks that never move, so growth copies no text, and you may keep the address of one (rule 5).
                        * Symbols are 0, 1, 2, .. */
  INTERNER_BUFFER = 2  /**< In one buffer, each text behind its length: the least memory. Symbols are byte offsets, with gaps, so
                        * it holds less than 4 GiB. The first is 0. Each next one is greater by the bytes of the text and of its
                        * length, which takes 1 byte up to 127, 2 up to 16,383, and so on. */
} interner_kind;

/** How an interner hashes texts. This decides how long calls take that look for a text, and changes no result. */
typedef enum interner_hasher {
  INTERNER_FIXED = 0,   /**< A fast hash, the same for everyone. Do not use it if strangers choose the texts. */
  INTERNER_SIPHASH = 1, /**< SipHash-1-3 under two keys. If these are random and secret, no way is known to choose texts with one
                         * hash code, not even by timing calls. Calls that take a text are slower, above all for a long text. */
  INTERNER_SEEDED = 2   /**< About as fast as INTERNER_FIXED, under two keys. If these are random (from getrandom, say) and secret,
                         * no way is known to choose many texts with one hash code, except to someone who times single calls. */
} interner_hasher;

/** What an interner is made with. Memory that is all zero makes what interner_new makes of INTERNER_STRING. */
typedef struct interner_options {
  interner_kind kind;     /**< How it stores texts. */
  interner_hasher hasher; /**< How it hashes them. */
  size_t capacity;        /**< For how many texts it has spare capacity: see interner_new_with. */
  uint64_t key0;          /**< The first key. INTERNER_FIXED does not use it. */
  uint64_t key1;          /**< The second. */
} interner_options;

/** Does not compile where an enum takes less than four bytes, as under -fshort-enums: the library takes and returns four. */
typedef char interner_enums_take_four_bytes[sizeof(interner_status) == 4 && sizeof(interner_kind) == 4 &&
                                            sizeof(interner_hasher) == 4 ? 1 : -1];

/** A handle: an interner that only the calls below can read and change. */
typedef struct interner interner;

/** A handle that threads may use at the same time: see interner_share. */
typedef struct interner_shared interner_shared;

/** A symbol: it stands for a text of its interner. All symbols are below 2^32 - 1. */
typedef uint32_t interner_symbol;

/** A text: UTF-8, without a zero at its end. */
typedef struct interner_text {
  const char *bytes; /**< Its first byte; never null, even if `len` is 0. */
  size_t len;        /**< How many bytes it has. */
} interner_text;

/** A text with its symbol. */
typedef struct interner_entry {
  interner_symbol symbol; /**< The symbol. */
  interner_text text;     /**< The text. */
} interner_entry;

/** All texts of an interner, one after another: text i begins where the text before it ends, the first at 0. */
typedef struct interner_joined {
  const char *bytes;       /**< The texts. Null only if there are none. */
  size_t bytes_len;        /**< How many bytes they have together. */
  const uint32_t *ends;    /**< Where each of the first texts ends. */
  size_t ends_len;         /**< How many these are: all, unless the texts take 4 GiB or took it, or the capacity allowed so many. */
  const size_t *long_ends; /**< Where each of the texts behind these ends. */
  size_t long_ends_len;    /**< How many these are. */
} interner_joined;

/** Where a list of entries continues. Memory that is all zero is before the first entry. */
typedef struct interner_cursor {
  size_t index; /**< How many entries are before it. */
  size_t place; /**< The symbol of the next entry, or what it will be. */
} interner_cursor;

/** Returns the INTERNER_VERSION of the linked library. It differs from that of this header if the library is another one. */
uint32_t interner_version(void);

/** Returns how the linked library was built, as a static text that a zero ends: "proved by rt", by the compiler that proves it; or
 * "proved source, compiled by rustc", by cargo, of the same source with its contracts as comments. Calls behave alike in both. */
const char *interner_build(void);

/** Returns a short description of a status. The text is static. */
static inline const char *interner_status_text(interner_status status) {
  switch (status) {
  case INTERNER_OK: return "no error";
  case INTERNER_BAD_TEXT: return "not UTF-8, or not JSON";
  case INTERNER_NO_SYMBOL: return "no symbol is left";
  case INTERNER_NO_MEMORY: return "out of memory";
  case INTERNER_NOT_FOUND: return "unknown text, or symbol without a text";
  case INTERNER_NO_ROOM: return "the buffer is too small";
  case INTERNER_BAD_KIND: return "no such kind, or a handle of another kind";
  case INTERNER_BAD_ENDS: return "an end is less than the one before, or passes the bytes";
  case INTERNER_NOT_A_LIST: return "not a JSON array";
  case INTERNER_NOT_A_TEXT: return "an element is not a string";
  case INTERNER_REPEATED: return "an element repeats an earlier string";
  case INTERNER_BAD_HASHER: return "no such hasher";
  }
  return "no such status";
}

/** Makes an empty interner of a kind, hashed by INTERNER_FIXED, and writes the address of its handle to `out`. Allocates only the
 * handle and the interner.
 * Returns INTERNER_OK; or `out` is unchanged: INTERNER_BAD_KIND, INTERNER_NO_MEMORY. */
interner_status interner_new(interner_kind kind, interner **out);

/** The same with options. It has spare capacity for `capacity` texts: interning that many does not fail with INTERNER_NO_MEMORY,
 * if together they have at most
 *
 *   - 5 bytes for each on INTERNER_STRING, where a shorter text counts as 5;
 *   - 1 byte for each on INTERNER_BUCKET, where an empty text counts as 1;
 *   - 13 bytes for each on INTERNER_BUFFER, where the length of a text counts, too (1 byte up to 127, 2 up to 16,383, and so on).
 *
 * For longer texts ask for a larger capacity: of the sum of these bytes a fifth on INTERNER_STRING, all on INTERNER_BUCKET, and a
 * thirteenth on INTERNER_BUFFER, rounded up. This holds for each call that interns except interner_get_or_intern_part, which copies
 * the part first. For the calls that intern many texts it is tested and not proved.
 * No result depends on hasher and keys. A copy by interner_clone has the same hasher and keys.
 * Returns INTERNER_OK; or `out` is unchanged: INTERNER_BAD_KIND, INTERNER_BAD_HASHER, INTERNER_NO_MEMORY. */
interner_status interner_new_with(const interner_options *options, interner **out);

/** Frees the handle and its interner. Does nothing if the handle is null. */
void interner_free(interner *h);

/** Returns the number of texts. */
size_t interner_len(const interner *h);

/** Writes the symbol of the text to `symbol`. Appends a text that is not known. Allocates nothing for a known text.
 * To intern a part of a text that this handle lent, call interner_get_or_intern_part.
 * Returns INTERNER_OK; or the texts and `symbol` are unchanged: INTERNER_BAD_TEXT, INTERNER_NO_SYMBOL, INTERNER_NO_MEMORY. */
interner_status interner_get_or_intern(interner *h, const char *text, size_t text_len,
                                       interner_symbol *INTERNER_RESTRICT symbol);

/** The same for a C string, up to and without the zero at its end. */
static inline interner_status interner_get_or_intern_c_string(interner *h, const char *text,
                                                              interner_symbol *INTERNER_RESTRICT symbol) {
  return interner_get_or_intern(h, text, strlen(text), symbol);
}

/** The same as interner_get_or_intern, but does not check that the bytes are UTF-8: they must be (rule 7). */
interner_status interner_get_or_intern_utf8(interner *h, const char *text, size_t text_len,
                                            interner_symbol *INTERNER_RESTRICT symbol);

/** The same as interner_get_or_intern, but the bytes must stay where they are, unchanged, as long as the process runs (rule 8). An
 * interner of the kind INTERNER_BUCKET then does not copy them. */
interner_status interner_get_or_intern_static(interner *h, const char *text, size_t text_len,
                                              interner_symbol *INTERNER_RESTRICT symbol);

/** Interns a part of the text at a symbol, from byte `from` up to and without byte `to`, and writes the symbol of the part to
 * `part`. Copies the part first, in any case.
 * Returns INTERNER_OK; or the texts and `part` are unchanged: INTERNER_NOT_FOUND (there is no text at the symbol),
 * INTERNER_BAD_ENDS (`from` is greater than `to`, or `to` than the text's length), INTERNER_BAD_TEXT (the part is not empty, and
 * begins or ends within a character), INTERNER_NO_SYMBOL, INTERNER_NO_MEMORY. */
interner_status interner_get_or_intern_part(interner *h, interner_symbol symbol, size_t from, size_t to,
                                            interner_symbol *INTERNER_RESTRICT part);

/** Interns many texts, and writes their symbols to the front of `symbols`, which must be at least as long as `texts`. Stops at the
 * first text that fails. Writes to `done` how many texts were interned before. These stay, with their symbols; the rest of
 * `symbols` is unchanged. The bytes of each text must not be null, even if it is empty (rule 2).
 * Returns INTERNER_OK: all were interned; INTERNER_BAD_TEXT, INTERNER_NO_SYMBOL, INTERNER_NO_MEMORY: as interner_get_or_intern for
 * the text at `done`; INTERNER_NO_ROOM: `symbols` is shorter than `texts`, none was interned, and `done` is 0. */
interner_status interner_intern_list(interner *h, const interner_text *texts, size_t texts_len,
                                     interner_symbol *INTERNER_RESTRICT symbols, size_t symbols_len,
                                     size_t *INTERNER_RESTRICT done);

/** The same, with `symbols` as long as `texts`. */
static inline interner_status interner_intern_texts(interner *h, const interner_text *texts, size_t texts_len,
                                                    interner_symbol *INTERNER_RESTRICT symbols,
                                                    size_t *INTERNER_RESTRICT done) {
  return interner_intern_list(h, texts, texts_len, symbols, texts_len, done);
}

/** The same as interner_intern_list for texts that are end to end in `bytes`: text i ends before byte ends[i], and begins where the
 * one before it ends.
 * Returns the same, with `ends` in the place of `texts`; or INTERNER_BAD_ENDS: the end at `done` is less than the one before, or
 * passes the bytes. */
interner_status interner_intern_joined(interner *h, const char *bytes, size_t bytes_len, const size_t *ends, size_t ends_len,
                                       interner_symbol *INTERNER_RESTRICT symbols, size_t symbols_len,
                                       size_t *INTERNER_RESTRICT done);

/** Writes the symbol of the text to `symbol`, if the text is known. Allocates nothing.
 * Returns INTERNER_OK; or `symbol` is unchanged: INTERNER_BAD_TEXT, INTERNER_NOT_FOUND. */
interner_status interner_get(const interner *h, const char *text, size_t text_len, interner_symbol *INTERNER_RESTRICT symbol);

/** The same, but does not check that the bytes are UTF-8: they must be (rule 7). */
interner_status interner_get_utf8(const interner *h, const char *text, size_t text_len,
                                  interner_symbol *INTERNER_RESTRICT symbol);

/** Returns the symbol of the text, if it is known, on an interner of the kind INTERNER_STRING. The bytes must be UTF-8 (rule 7).
 * Because it writes nothing, it takes less time than interner_get_utf8. Allocates nothing.
 * Returns the symbol; or 2^32 plus a status: INTERNER_NOT_FOUND, INTERNER_BAD_KIND. */
uint64_t interner_string_find_utf8(const interner *h, const char *text, size_t text_len);

/** The same on INTERNER_BUCKET. */
uint64_t interner_bucket_find_utf8(const interner *h, const char *text, size_t text_len);

/** The same on INTERNER_BUFFER. */
uint64_t interner_buffer_find_utf8(const interner *h, const char *text, size_t text_len);

/** Returns the symbol of the text, on an interner of the kind INTERNER_STRING, and appends the text if it is new. The bytes must
 * be UTF-8 (rule 7). It takes less time than interner_get_or_intern_utf8.
 * Returns the symbol; or no text changes, and it returns 2^32 plus a status: INTERNER_NO_SYMBOL, INTERNER_NO_MEMORY,
 * INTERNER_BAD_KIND. */
uint64_t interner_string_intern_utf8(interner *h, const char *text, size_t text_len);

/** The same on INTERNER_BUCKET. */
uint64_t interner_bucket_intern_utf8(interner *h, const char *text, size_t text_len);

/** The same on INTERNER_BUFFER. */
uint64_t interner_buffer_intern_utf8(interner *h, const char *text, size_t text_len);

/** Reports whether the text is known. */
bool interner_contains(const interner *h, const char *text, size_t text_len);

/** Lends the text at the symbol: writes where its bytes are to `text`. They are valid until the next call that may change the
 * handle (rule 5). To intern a part of them, call interner_get_or_intern_part.
 * Returns INTERNER_OK; or `text` is unchanged: INTERNER_NOT_FOUND.
 * An interner of the kind INTERNER_BUFFER may lend something for a symbol that belongs to no text, too: UTF-8 from its buffer. */
interner_status interner_resolve(const interner *h, interner_symbol symbol, interner_text *INTERNER_RESTRICT text);

/** The same on an interner of the kind INTERNER_STRING, and faster, because the call has no kind to choose by.
 * Returns the same; or `text` is unchanged: INTERNER_BAD_KIND. */
interner_status interner_string_resolve(const interner *h, interner_symbol symbol, interner_text *INTERNER_RESTRICT text);

/** The same on INTERNER_BUCKET. */
interner_status interner_bucket_resolve(const interner *h, interner_symbol symbol, interner_text *INTERNER_RESTRICT text);

/** The same on INTERNER_BUFFER. */
interner_status interner_buffer_resolve(const interner *h, interner_symbol symbol, interner_text *INTERNER_RESTRICT text);

/** Lends all texts of an interner of the kind INTERNER_STRING, whose symbols are the indexes of these: writes where they and their
 * ends are to `joined`. They are valid until the next call that may change the handle (rule 5). So a loop over all texts makes one
 * call. Takes constant time.
 * Returns INTERNER_OK; or `joined` is unchanged: INTERNER_BAD_KIND. */
interner_status interner_string_joined(const interner *h, interner_joined *INTERNER_RESTRICT joined);

/** Copies the text at the symbol to `room`, without a zero at its end, and writes its length to `len`.
 * Returns INTERNER_OK; INTERNER_NO_ROOM: `room` is unchanged, and `len` is the length that it needs; or both are unchanged:
 * INTERNER_NOT_FOUND. */
interner_status interner_copy_text(const interner *h, interner_symbol symbol, char *INTERNER_RESTRICT room, size_t room_len,
                                   size_t *INTERNER_RESTRICT len);

/** Writes the symbol and the text of each entry from the cursor on to `entries`, in insertion order, as many as there are and fit.
 * Moves the cursor behind them. It lends the texts, as interner_resolve does. To list all, begin with a cursor that is all zero,
 * and call it until it returns 0:
 *
 *     interner_cursor at = {0, 0};
 *     while ((n = interner_entries(names, &at, entries, 100)) > 0) ..
 *
 * A cursor stays valid while texts are interned, which are then listed at the end, and until interner_truncate drops a text before
 * it. Another cursor lists what is at its place, if anything: on INTERNER_BUFFER that may be UTF-8 from its buffer.
 * Returns how many entries it wrote. */
size_t interner_entries(const interner *h, interner_cursor *INTERNER_RESTRICT cursor, interner_entry *INTERNER_RESTRICT entries,
                        size_t entries_len);

/** Keeps the first `len` texts with their symbols, and drops the others. Allocates and releases nothing. */
void interner_truncate(interner *h, size_t len);

/** Releases memory that no text needs, if it can. Texts and symbols are unchanged. */
void interner_shrink(interner *h);

/** Makes an interner of the same kind with the same texts and symbols, and writes the address of its handle to `copy`. Hashes no
 * text.
 * Returns INTERNER_OK; or `copy` is unchanged: INTERNER_NO_MEMORY. */
interner_status interner_clone(const interner *h, interner **copy);

/** Reports whether both interners are of one kind, and have the same texts in the same order. */
bool interner_equal(const interner *h, const interner *other);

/** Writes the JSON array of the texts to `room`, in UTF-8 without a zero at its end, and its length to `len`. To learn
 * the length, call it with `room_len` 0.
 * Returns INTERNER_OK; INTERNER_NO_ROOM: `room` is unchanged, and `len` is the length that it needs; or both are unchanged:
 * INTERNER_NO_MEMORY. */
interner_status interner_to_json(const interner *h, char *INTERNER_RESTRICT room, size_t room_len,
                                 size_t *INTERNER_RESTRICT len);

/** Makes an interner of a kind, hashed by INTERNER_FIXED, of the texts of a JSON array of strings, and writes the address of its
 * handle to `out`. Repeats add no text.
 * Returns INTERNER_OK; or `out` is unchanged: INTERNER_BAD_KIND, INTERNER_BAD_TEXT (not JSON, nested 128 deep or more, or with a
 * number that is too large for a double), INTERNER_NOT_A_LIST, INTERNER_NOT_A_TEXT, INTERNER_NO_SYMBOL, INTERNER_NO_MEMORY. */
interner_status interner_from_json(interner_kind kind, const char *json, size_t json_len, interner **out);

/** The same with options, of which it does not use the capacity. If it is `exact`, a repeat fails.
 * Returns the same; or `out` is unchanged: INTERNER_BAD_HASHER, INTERNER_REPEATED (if it is `exact`). */
interner_status interner_from_json_with(const interner_options *options, const char *json, size_t json_len, bool exact,
                                        interner **out);

/** Makes a handle that threads may use at the same time, of the texts of another one, and writes its address to `out`. It takes that
 * one over, for which you make no further call. So first come the texts that all threads know, then the threads:
 *
 *     if (interner_share(names, &shared) != INTERNER_OK) return 1;
 *     // In each thread:
 *     if (interner_shared_get_or_intern(shared, "Tiger", 5, &tiger) != INTERNER_OK) return 1;
 *
 * Each call on it happens before or after each other. A text has one symbol in all threads, and keeps it. Calls for known texts run
 * side by side; one that adds a text runs alone. Pass one handle of this kind to the calls below only, and from one thread to
 * another in a way that makes what was written before visible, as starting a thread does.
 * Returns INTERNER_OK; or `h` and `out` are unchanged: INTERNER_NO_MEMORY. */
interner_status interner_share(interner *h, interner_shared **out);

/** Returns the handle of the same texts and symbols that a shared one took over, and frees the shared one. No thread may use that
 * during this call or after it. */
interner *interner_unshare(interner_shared *shared);

/** The same as interner_unshare, and frees the handle, too. Does nothing if the shared one is null. */
void interner_shared_free(interner_shared *shared);

/** Returns the number of texts. Other threads may have added more by then. */
size_t interner_shared_len(interner_shared *shared);

/** The same as interner_get_or_intern. A new text is looked up twice, so it takes longer. */
interner_status interner_shared_get_or_intern(interner_shared *shared, const char *text, size_t text_len,
                                              interner_symbol *INTERNER_RESTRICT symbol);

/** The same as interner_get. */
interner_status interner_shared_get(interner_shared *shared, const char *text, size_t text_len,
                                    interner_symbol *INTERNER_RESTRICT symbol);

/** The same as interner_bucket_resolve: only texts of the kind INTERNER_BUCKET stay where they are while other threads intern. You may
 * read the text until interner_unshare or interner_shared_free, but do not pass it or a part of it to a call that may intern.
 * Returns INTERNER_OK; or `text` is unchanged: INTERNER_NOT_FOUND, INTERNER_BAD_KIND. */
interner_status interner_shared_resolve(interner_shared *shared, interner_symbol symbol, interner_text *INTERNER_RESTRICT text);

/** The same as interner_copy_text, on any kind. */
interner_status interner_shared_copy_text(interner_shared *shared, interner_symbol symbol, char *INTERNER_RESTRICT room,
                                          size_t room_len, size_t *INTERNER_RESTRICT len);

#ifdef __cplusplus
}
#endif

#endif
