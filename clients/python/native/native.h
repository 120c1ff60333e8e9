/* The module string_interner._native: Interner and Column over string_interner.h, for the limited API of CPython 3.11.
 *
 * The library neither locks nor checks handles. The GIL is held during each call of it, so calls take turns. What is left to guard
 * against is Python code that runs in the middle of a call: finalizers, __index__, iterators, handlers of signals. It may close
 * or truncate what the call works on. So each body keeps these rules:
 *
 *   1. Order: convert the arguments and make what can start a collection, which may run Python code; then test that the handle is
 *      open (is_open, is_made); then call the library; then make the results.
 *   2. No repr of what is given, because it may be written in Python. Types are named by PyType_GetName.
 *   3. A batch runs under PyGC_Disable, so that no finalizer comes between a failure and its undoing. It is all or nothing:
 *      undone by interner_truncate.
 *   4. A text that the library lends becomes a str before anything else is called.
 *   5. Between the parts of a batch PyErr_CheckSignals runs handlers, and between those of some batches other threads run. After it
 *      all is tested again (resume_batch): the handle, the length of the list, the counts of changes. The table of seen objects is
 *      cleared, because a handler may have dropped them.
 *      A loop that only reads lets them run, too (heed_signals). It reads rows that it holds (hold_rows), or memory of C.
 *   6. What `gc.get_objects` finds may be read or changed by others: items of a list or tuple that is being filled are null, and a
 *      list of this module's own may be emptied, or the dict of what is passed by name. So what must not change is in memory of C,
 *      and methods that are passed anything by name are HOLDING it.
 *
 * No variable of the module is changed after the import; what an interpreter needs is in a State. */
#ifndef NATIVE_H
#define NATIVE_H

#define PY_SSIZE_T_CLEAN
#define Py_LIMITED_API 0x030B0000
#include <Python.h>
#include <structmember.h>

#include <stdatomic.h>
#include <stdbool.h>
#include <stddef.h>
#include <stdint.h>
#include <stdlib.h>
#include <string.h>

#include "string_interner.h"

#ifndef MOST_NARROW
/** The most texts of a dictionary whose codes take 4 bytes. A test builds the module with fewer. */
#define MOST_NARROW INT32_MAX
#endif

#ifndef VALUES_AT_ONCE
/** How many values of an iterator are in memory at once. With fewer it takes longer. A test builds the module with fewer. */
#define VALUES_AT_ONCE (1 << 18)
#endif

/** How many rows, or bytes of lines, a part of a batch has: handlers of signals run in between. */
enum { ROWS_OF_A_PART = 1 << 16, BYTES_OF_A_PART = 1 << 20 };

/** Lets handlers of signals run after each part of what a loop goes through. Returns whether none raised. */
static inline bool heed_signals(size_t done) { return !done || done % ROWS_OF_A_PART || !PyErr_CheckSignals(); }

/** What an interpreter has of the module. */
typedef struct State {
  PyTypeObject *interner, *walk, *column, *rows_walk, *codes, *parts, *mask;
  PyObject *array;  /* array.array */
  uint64_t keys[2][2]; /* random keys of this interpreter, for SipHash and for the seeded hasher */
} State;

/** How texts are stored and hashed. */
typedef struct Options {
  interner_kind kind;
  interner_hasher hasher;
  uint64_t keys[2];
} Options;

/** What a call was passed by name, held until it ends. */
typedef struct Words {
  PyObject *at[8]; /* no call takes more */
  size_t n;
} Words;

static inline Words hold_words(PyObject *keywords) {
  Words words = {.n = 0};
  PyObject *word;
  for (Py_ssize_t at = 0; keywords && words.n < sizeof words.at / sizeof *words.at && PyDict_Next(keywords, &at, NULL, &word);)
    words.at[words.n++] = Py_NewRef(word);
  return words;
}

static inline void drop_words(Words *words) {
  while (words->n) Py_DECREF(words->at[--words->n]);
}

/** Defines the form of a method for a table, which holds its words. */
#define HOLDING(method) \
  static PyObject *method##_holding(PyObject *self, PyObject *args, PyObject *keywords) { \
    Words words = hold_words(keywords); \
    PyObject *result = method((void *)self, args, keywords); \
    drop_words(&words); \
    return result; \
  }

/* module.c */

/** The state of the module that a class of it, or one below, comes from. */
State *state_of_type(PyTypeObject *type);

/* interner.c */

typedef struct Walk Walk;

/** An interner of Python. */
typedef struct Interner {
  PyObject_HEAD
  interner *h; /* null if it is closed */
  State *state;
  PyObject *weak;
  Walk *walks;   /* iterators that have not read all yet */
  size_t cuts;   /* how often texts were dropped or the handle was replaced */
  size_t uses;   /* how often texts were interned, or shown with their numbers */
  interner_kind kind;
  interner_hasher hasher;
} Interner;

extern PyType_Spec method_spec;

bool is_open(const Interner *self);

/* texts.c */

extern PyType_Spec walk_spec;

PyObject *method_iter(Interner *self);
PyObject *method_entries(Interner *self, PyObject *unused);
PyObject *method_reversed(Interner *self, PyObject *unused);

/** Whether an iterator shows more texts than the first few. */
bool shows_more(const Interner *self, size_t count);

/** Reads the rest of each live iterator, so that what it shows stays, and lets go of it. Nothing changes if this fails. */
bool read_walks(Interner *self);

/* json.c */

/** Makes a handle of the texts of a JSON array of strings, or raises. */
interner *read_json(const Options *options, bool is_exact, const char *json, size_t length);

/* many.c */

/** The number of each text, in an array with a typecode. */
PyObject *intern_objects(Interner *self, PyObject *texts, const char *typecode);

PyObject *method_intern_all(Interner *self, PyObject *args, PyObject *keywords);
PyObject *method_intern_column(Interner *self, PyObject *args, PyObject *keywords);
PyObject *method_get_all(Interner *self, PyObject *args, PyObject *keywords);
PyObject *method_resolve_all(Interner *self, PyObject *args, PyObject *keywords);

/* options.c */

/** An attribute of a module. */
PyObject *import_from(const char *name, const char *attribute);

PyObject *raise_status(interner_status status);
PyObject *raise_type(const char *before, PyObject *object, const char *after);
bool read_backend(PyObject *given, interner_kind *kind);
bool read_hasher(const State *state, PyObject *given, Options *options);
const char *backend_name(interner_kind kind);
const char *hasher_name(interner_hasher hasher);
/** The same for the library, with spare capacity for so many texts. */
interner_options library_options(const Options *options, size_t capacity);
interner *make_handle(const Options *options, size_t capacity);

/** The UTF-8 form of a text, which lives as long as the text. Raises TypeError for what is no text. */
const char *utf8_of(PyObject *text, Py_ssize_t *length);

/** The number of the text after one. On a buffer, as the header says, it is greater by the bytes of the text and of its length. */
size_t number_after(interner_kind kind, size_t number, size_t length);

/** An array of the module array with n items, and a writable view of it. Runs no Python code but hooks of `sys.addaudithook`. */
PyObject *new_array(const State *state, const char *typecode, Py_ssize_t n, Py_buffer *view);

/* utf8.c: the UTF-8 form of texts, in memory of the caller. */

/** Writes a character as UTF-8. Returns how many bytes it has, or 0 if it has no such form. */
static inline int write_character(uint32_t character, char *to) {
  if (character < 0x80) return to[0] = (char)character, 1;
  if (character < 0x800) return to[0] = (char)(0xC0 | character >> 6), to[1] = (char)(0x80 | (character & 0x3F)), 2;
  const int more = character >= 0x10000;
  if (character > 0x10FFFF || (character >= 0xD800 && character < 0xE000)) return 0;
  if (more) *to++ = (char)(0xF0 | character >> 18);
  *to++ = (char)(more ? 0x80 | (character >> 12 & 0x3F) : 0xE0 | character >> 12);
  *to++ = (char)(0x80 | (character >> 6 & 0x3F));
  *to = (char)(0x80 | (character & 0x3F));
  return 3 + more;
}

/** The characters of a text have at most so many bytes. */
enum { BYTES_OF_A_CHARACTER = 4, MOST_CHARACTERS = 256 };

/** Room for the UTF-8 form of a text of so many characters. */
typedef struct Utf8 {
  int likely; /* more than 0 if the next text is probably not ASCII; 0 at first */
  bool is_asked, is_kept; /* whether CPython has forms of these texts, once that is asked; false at first */
  Py_UCS4 characters[MOST_CHARACTERS];
  char bytes[BYTES_OF_A_CHARACTER * MOST_CHARACTERS];
} Utf8;

/** The UTF-8 form of a str, which stays until the next one is read. CPython has that of an ASCII text, and it alone knows which texts
 * are ASCII. Of any other text it makes the form and keeps it as long as the text, which takes time and memory. So it is asked only
 * for long texts, for those that others hold, too, and as long as all are ASCII. */
const char *read_utf8(Utf8 *utf8, PyObject *text, Py_ssize_t *length);

/* numbers.c: integers or booleans of a buffer or an iterable, copied. */

typedef struct Numbers {
  Py_ssize_t n;
  int64_t *at;       /* those that do not fit are INT64_MIN or INT64_MAX */
  PyObject **exact;  /* the same as they were given, which no other object refers to; or null if they are from a buffer */
  bool is_unsigned;  /* whether those of a buffer that are INT64_MIN or more are great */
  Py_ssize_t booleans; /* how many are booleans, which are 0 and 1 as in Python */
  bool is_mask;      /* whether all are */
  bool has_flags;    /* whether some are booleans of an array, which are no integers of Python */
} Numbers;

/** An integer of 1, 2, 4 or 8 bytes, which need not be aligned. One of 8 bytes without a sign is as its bytes are with one. */
static inline int64_t widen(const char *at, Py_ssize_t width, bool is_unsigned) {
  union { int8_t one; int16_t two; int32_t four; int64_t eight; } number;
  memcpy(&number, at, width);
  switch (width) {
  case 1: return is_unsigned ? (uint8_t)number.one : number.one;
  case 2: return is_unsigned ? (uint16_t)number.two : number.two;
  case 4: return is_unsigned ? (int64_t)(uint32_t)number.four : (int64_t)number.four;
  default: return number.eight;
  }
}

/** Opens a buffer of integers or booleans in one dimension. Returns how many bytes an item has, or 0 if it is none. */
Py_ssize_t open_numbers(PyObject *given, Py_buffer *view);

bool read_numbers(PyObject *given, Numbers *numbers);

/** Raises TypeError for booleans in the place of numbers. */
void refuse_booleans(void);

/** The same, but raises TypeError for a boolean. */
bool read_integers(PyObject *given, Numbers *numbers);

/** The same, but takes True for 1 and False for 0, as an index of a list. A mask is an array of other booleans. */
bool read_indices(PyObject *given, Numbers *numbers);

/** Whether an object is a boolean of numpy, whose scalars have a buffer without dimensions. */
bool is_flag(PyObject *item);
void drop_numbers(Numbers *numbers);
PyObject *exact_number(const Numbers *numbers, Py_ssize_t row);

/** The digits of a number, for a message. */
PyObject *name_number(const Numbers *numbers, Py_ssize_t row);

/** The values, or for a masked array of numpy an array of objects with a filler in each masked place. */
PyObject *without_mask(PyObject *values, PyObject *filler);

/* A copy of a buffer, which others may change without the GIL, or the bytes themselves, which nobody changes. */
typedef struct Bytes {
  const char *at;
  Py_ssize_t length;
  PyObject *held; /* the bytes, or null */
  char *copy;     /* or null */
} Bytes;

bool read_bytes(PyObject *given, Bytes *bytes);
void drop_bytes(Bytes *bytes);

/* mask.c */

extern PyType_Spec mask_spec;

/** Makes a mask, whose booleans the caller fills in. */
PyObject *new_mask(State *state, Py_ssize_t n, bool **booleans);

/** Reads the booleans of a mask, or of another buffer of booleans. Returns whether it is one; if not, an exception may be set. */
bool read_mask(PyObject *given, Bytes *booleans);

/* Texts end to end in bytes. */
typedef struct Joined {
  Bytes bytes;
  Numbers ends; /* of each text; a negative end is a great one, as the library reads it */
} Joined;

/** Raises TypeError if more than the bytes is passed without a name: by their place nobody tells offsets from ends. */
bool are_named(PyObject *args);

/** Reads where texts end in bytes by `ends`, or as Arrow tells it by `offsets`: where the first begins, and where each ends. Raises
 * TypeError unless exactly one of both is given and not None, and ValueError if the first begins outside of the bytes. */
bool read_joined(PyObject *given, PyObject *ends, PyObject *offsets, Joined *joined);
void drop_joined(Joined *joined);
static inline const size_t *ends_of(const Joined *joined) { return (const size_t *)joined->ends.at; }

/* codes.c */

/** Codes that only grow at their end. Whoever refers to a block reads the rows that it had then: these never change or move while
 * there is a second reference. It is no object of Python, so a consumer of Arrow may drop it without the GIL. */
typedef struct Block {
  atomic_size_t references;
  Py_ssize_t used, room;
  int width; /* 4 or 8 bytes a code */
  int64_t data[];
} Block;

extern PyType_Spec codes_spec;

int width_of(size_t distinct);
Block *new_block(Py_ssize_t room, int width);
Block *share_block(Block *block);
void drop_block(Block *block);

static inline int64_t code_at(const Block *block, Py_ssize_t row) {
  return block->width == 4 ? ((const int32_t *)block->data)[row] : block->data[row];
}

static inline void set_code(Block *block, Py_ssize_t row, int64_t code) {
  if (block->width == 4) ((int32_t *)block->data)[row] = (int32_t)code;
  else block->data[row] = code;
}

/** Makes room for more codes of a width behind the first n. Others that refer to the block keep what they see. */
bool reserve_codes(Block **block, Py_ssize_t n, Py_ssize_t more, int width);

/** Gives back the memory behind the first n codes, if nobody else refers to the block. */
void shrink_block(Block **block, Py_ssize_t n);

/** A view of the first n codes, which have `width` bytes each if there are none. */
PyObject *view_codes(State *state, Block *block, Py_ssize_t n, int width);

/* dictionary.c */

/** A list of distinct texts. Columns share it; one that adds a text to a shared one copies it first. */
typedef struct Dictionary {
  size_t references;  /* columns and parts */
  size_t readers;     /* iterators: texts that rows have stay as they are, whatever is added or undone */
  interner *h;
  size_t uses;        /* how often texts were added, or shown with their codes */
  PyObject **texts;   /* a str of each text at the front, or null if it was not read */
  size_t texts_count, texts_room;
  size_t texts_bytes; /* about how many bytes these take */
  interner_kind kind;
  interner_hasher hasher;
  uint64_t keys[2];   /* those that a column gave it */
} Dictionary;

Dictionary *new_dictionary(const Options *options);

/** A dictionary without texts, with the hasher and the keys of another. */
Dictionary *new_dictionary_like(const Dictionary *dictionary);

/** A dictionary with a handle, which it takes over. */
Dictionary *wrap_handle(interner *h, interner_kind kind, interner_hasher hasher);
Dictionary *share_dictionary(Dictionary *dictionary);
void drop_dictionary(Dictionary *dictionary);

/** Holds a dictionary for an iterator of rows. */
Dictionary *read_dictionary(Dictionary *dictionary);
void leave_dictionary(Dictionary *dictionary);

/** Makes places for a str of each text, so that `keep_string` keeps them. */
bool reserve_strings(Dictionary *dictionary);

/** Lets go of all strings. */
void forget_strings(Dictionary *dictionary);

/** The str of a text, borrowed, or null if none is kept. */
static inline PyObject *kept_string(const Dictionary *dictionary, size_t code) {
  return code < dictionary->texts_count ? dictionary->texts[code] : NULL;
}

/** The text with a code. Keeps the str if there is a place for it. */
PyObject *keep_string(Dictionary *dictionary, size_t code);

/** Has the dictionary keep a str of each text. Others may let go of them meanwhile. */
bool keep_strings(Dictionary *dictionary);

/** The texts, in a new list. */
PyObject *list_strings(Dictionary *dictionary);

/** The value of a row with a code. */
PyObject *value_of(const Dictionary *dictionary, int64_t code);

/* column.c */

/** A column of Python. */
typedef struct Column {
  PyObject_HEAD
  Dictionary *dictionary; /* null before __init__ */
  Block *block;           /* null if there is no row */
  Py_ssize_t n;           /* rows */
  State *state;
  PyObject *weak;
  size_t begins;          /* how often it got another dictionary and other rows */
  bool is_part;           /* whether its dictionary is that of a longer column, so that a pickle needs not all of it */
} Column;

extern PyType_Spec column_spec;
bool is_made(const Column *self);

/** The bytes of a code. They may be fewer than its dictionary needs now, if texts were added without rows. */
int column_width(const Column *self);

/** Rows that are encoded. Whoever holds them refers to both parts, so they stay as they are while Python code runs. */
typedef struct Encoded {
  Dictionary *dictionary;
  Block *block; /* null if there is no row */
  Py_ssize_t n;
} Encoded;

/** The rows that a column has now. */
Encoded hold_rows(const Column *self);
void drop_rows(Encoded *rows);

/** Has a column begin again, with a dictionary and rows, whose references it takes over. */
void begin_column(Column *self, Dictionary *dictionary, Block *block, Py_ssize_t n);

/** Makes a column of a class without its __init__. */
Column *make_column(State *state, PyTypeObject *type);

/** Makes a column of the class that slices have. */
Column *make_plain(Column *like);

/** Finds the number of a text, or adds the text to a dictionary that is the column's own. */
interner_status add_text(Column *self, const char *bytes, size_t length, interner_symbol *number);

PyObject *column_codes(Column *self, void *unused);

/** The code in this dictionary of each text of another, with -1 before the first, and -2 for a text that is not here. */
int64_t *compare_texts(const Dictionary *here, const Dictionary *other);

PyObject *column_item(Column *self, Py_ssize_t row);
PyObject *column_slice(Column *self, PyObject *slice);

/* select.c */

PyObject *column_take(Column *self, PyObject *given);
PyObject *column_subscript(Column *self, PyObject *key);

/* counts.c */

PyObject *column_counts(Column *self, PyObject *args, PyObject *keywords);

/* values.c */

PyObject *column_unique(Column *self, PyObject *unused);
PyObject *column_value_counts(Column *self, PyObject *args);
PyObject *column_frequencies(Column *self, PyObject *args);

/** Writes the rows into an array of objects of numpy. */
PyObject *column_write(Column *self, PyObject *array);

/* show.c */

PyObject *column_repr(Column *self);

/* distinct.c: columns of the same rows with other texts, or in another order of texts. */

PyObject *column_map_texts(Column *self, PyObject *function);
PyObject *column_sort_dictionary(Column *self, PyObject *args, PyObject *keywords);
PyObject *column_remap(Column *self, PyObject *args, PyObject *keywords);
PyObject *column_fillna(Column *self, PyObject *value);
PyObject *column_dropna(Column *self, PyObject *unused);
PyObject *column_nunique(Column *self, PyObject *args, PyObject *keywords);
PyObject *column_concat(Column *self, PyObject *other);
PyObject *column_inplace_concat(Column *self, PyObject *other);

/* wide.c */

/** Appends the rows of an array of texts of numpy. Returns whether it is one. */
bool extend_wide(Column *self, PyObject *given, PyObject **done);

/* extend.c */

typedef struct Batch Batch;

/** Appends codes. If there is no row yet, takes the block as it is. */
bool add_codes(Column *self, Block *codes, Py_ssize_t n);

/** A batch that adds rows to a column. */
Batch *batch_of(Column *self, Py_ssize_t rows);

/** Adds the codes of a batch to its column, and ends it. */
PyObject *finish_batch(Batch *batch, bool is_done);

PyObject *column_append(Column *self, PyObject *value);
PyObject *column_extend(Column *self, PyObject *given);
PyObject *column_merge(Column *self, PyObject *values);

/* exchange.c */

/** Adds distinct texts to a handle that nobody else has. Raises ValueError if one repeats. */
bool add_distinct(interner *h, PyObject *texts);

PyObject *column_from_parts(PyTypeObject *type, PyObject *args, PyObject *keywords);
PyObject *column_from_buffers(PyTypeObject *type, PyObject *args, PyObject *keywords);
PyObject *column_buffers(Column *self, PyObject *unused);
PyObject *column_parts(Column *self, void *unused);
int column_set_parts(Column *self, PyObject *value, void *unused);
PyObject *column_lines(Column *self, PyObject *unused);
PyObject *column_checksum(PyObject *unused, PyObject *given);
PyObject *column_with_dictionary(PyTypeObject *type, PyObject *args);

/* compact.c: columns without the texts that no row has. */

/** The texts that rows have, in the order of their dictionary: a bit for each, and how many come before each word of bits. */
typedef struct Used {
  uint64_t *bits;
  size_t *before;
  size_t count;
} Used;

bool find_used(const Dictionary *dictionary, const Block *block, Py_ssize_t n, Used *used);
void drop_used(Used *used);

/** The first used code from one on, or the end if there is none. Without `used` all are. */
static inline size_t next_used(const Used *used, size_t code, size_t end) {
  for (; used && code < end; code = (code | 63) + 1) {
    uint64_t rest = used->bits[code >> 6] >> (code & 63);
    if (rest) return code + __builtin_ctzll(rest);
  }
  return code < end ? code : end;
}

/** Adds the text with a code of one dictionary to another, and finds its number there. */
bool copy_text(Dictionary *to, const Dictionary *from, size_t code, interner_symbol *number);

/** The codes of rows in a dictionary that has only what is used. */
Block *renumber_used(const Used *used, const Block *block, Py_ssize_t n);

/** Whether there are so few rows that to do something for each text of the dictionary would take longer than all else. */
static inline bool has_few_rows(const Column *self) { return (size_t)self->n < interner_len(self->dictionary->h) / 8; }

/** The column, or if it is a part with few rows, a compact one. */
Column *without_the_rest(Column *self);

PyObject *column_compact(Column *self, PyObject *unused);
PyObject *column_in_order(Column *self, PyObject *unused);
PyObject *column_shrink(Column *self, PyObject *unused);

/* rows.c */

extern PyType_Spec rows_walk_spec;

PyObject *column_iter(Column *self);
PyObject *column_reversed(Column *self, PyObject *unused);

/* batch.c */

/** Where a batch of objects comes from: a list, a tuple, or a buffer of objects, each read in place. */
typedef struct Rows {
  PyObject *sequence; /* or null */
  Py_buffer view;     /* if there is no sequence */
  Py_ssize_t n;
} Rows;

/** Whether these may be many texts. Raises TypeError for a str, which Python can read letter by letter, and for a table, whose items
 * are the names of its columns. */
bool are_many(PyObject *given);

/** The next values of an iterator, at most so many, in a list. A shorter one is the last. */
PyObject *read_values(PyObject *walk, Py_ssize_t most);

/** All values of an iterable, in a tuple. */
PyObject *read_tuple(PyObject *given);

bool open_rows(PyObject *given, Rows *rows);
bool open_rows_in_place(PyObject *given, Rows *rows);
void close_rows(Rows *rows);

/** An object of which the number is known. */
typedef struct Seen {
  PyObject *object;
  uint32_t number;
} Seen;

/** What encodes many texts. */
struct Batch {
  /* Whose handle it is: an interner's, a column's, or one that nobody else has. */
  Interner *interner;
  Column *column;
  interner *h;
  bool only_looks;    /* whether unknown texts are `missing`, and not added */
  bool takes_none;    /* whether None is `missing`, and no error */
  bool is_shared;     /* whether other threads run between its parts, though they have the interner, too */
  int64_t missing;
  Py_ssize_t first;   /* rows of earlier calls with this batch */
  void *out;          /* numbers of `width` bytes; those of `block`, if there is one */
  int width;
  Block *block;       /* grows wider if the dictionary needs that */
  size_t kept;        /* texts that stay if this fails */
  size_t count;       /* texts after the last step */
  size_t cuts, uses, begins;
  bool collects;      /* whether the collection of garbage is to be enabled */
  int most_bits, seen_bits; /* those that the table has memory for, and those of the part in use, which is empty at first */
  Seen seen[];        /* the last object at each place, which depends on its address */
};

/** Makes a batch for about so many rows. */
Batch *new_batch(Interner *owner, Column *column, interner *h, Py_ssize_t rows);
void free_batch(Batch *batch);

/** Gives the batch codes of its own, with room for more rows behind the first `batch->first`. */
bool reserve_batch(Batch *batch, Py_ssize_t more);

/** Notes how all is before Python code runs, and tests afterwards what it changed. What others added or saw stays. */
void note_changes(Batch *batch);
bool adopt_changes(Batch *batch);

void begin_batch(Batch *batch);
void end_batch(Batch *batch);

/** Lets handlers of signals run between two parts, and tests what they changed. */
bool resume_batch(Batch *batch);

/** Drops the texts that this added, unless others share or saw them. */
void undo_batch(Batch *batch);

/** Encodes all rows, or undoes the batch. */
bool encode_rows(Batch *batch, Rows *rows);

/** Interns the texts between ends, and writes their numbers. The texts before one that fails stay; if a handler raises, none does. */
bool encode_joined(Batch *batch, const Bytes *joined, const size_t *ends, size_t n, interner_symbol *numbers);

/** Notes the number of a row, in codes that are wide enough for it. */
bool put_number(Batch *batch, Py_ssize_t row, int64_t number);

/* lines.c */

PyObject *intern_lines(Interner *self, PyObject *given);
PyObject *column_from_file(PyTypeObject *type, PyObject *args, PyObject *keywords);

/* parts.c */

/** A dictionary and codes as they were: what copies and pickles of an interner or a column hold. */
typedef struct Parts {
  PyObject_HEAD
  State *state;
  Dictionary *dictionary;
  Block *block;
  Py_ssize_t n; /* -1 for those of an interner */
  bool is_part; /* as in a column */
} Parts;

extern PyType_Spec parts_spec;

PyObject *new_parts(State *state, Dictionary *dictionary, Block *block, Py_ssize_t n);

/** The texts of a dictionary end to end, and where each ends, in 8 bytes each. Without those that are not used, if this is told. */
bool join_texts(const Dictionary *dictionary, const Used *used, PyObject **joined, PyObject **ends);

/** Raises what a status says of the text, or the end, at a place. */
void raise_place(interner_status status, size_t place);

/** Adds the texts between ends to an empty handle. Raises ValueError if one repeats. */
bool split_texts(interner *h, const Bytes *joined, const size_t *ends, Py_ssize_t n);

/** The numbers as codes of a dictionary. Raises ValueError at the first that is none. */
Block *check_codes(const Numbers *numbers, size_t distinct);

/* arrow.c */

PyObject *column_arrow_schema(Column *self, PyObject *unused);
PyObject *column_arrow_array(Column *self, PyObject *args, PyObject *keywords);
PyObject *column_arrow_stream(Column *self, PyObject *args, PyObject *keywords);

/* from_arrow.c */

PyObject *column_from_arrow(PyTypeObject *type, PyObject *args, PyObject *keywords);

#endif
