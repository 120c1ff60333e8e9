/* Stands before the C library of a program (LD_PRELOAD). Has requests for memory, reading, writing and random bytes fail, and
   tells what memory is asked for and given back. Its settings are environment variables:

   REFUSE=N         refuses the Nth request for memory, counted from 1, and says `request refused` on standard error
   REFUSE_ON=1      refuses each request after that, too
   TELL_ASKS=1      says `asks BYTES` on standard error for each request, before whatever the program prints next
   TELL_HELD=1      says `holds BLOCKS` there at the end: how many blocks were granted and not given back
   TELL_BYTES=1     says `bytes BYTES PEAK` there at the end: how many bytes are held, and the most that were at once, as the C
                    library rounds them, both since `reset_bytes` where that is called
   READ_BYTES=N     has reading standard input fail once N bytes were read, as if a peer is gone
   READ_AT_ONCE=N   has each read, of whatever file, take at most N bytes
   INTERRUPT=N      has the Nth read, counted from 1, of whatever file fail as if a signal came
   TELL_READS=1     says `reads N` on standard error at the end: how many reads there were
   WRITE_BYTES=N    has each write to standard output take at most N bytes
   BROKEN_WRITE=N   breaks the Nth write there, counted from 1, and each after it: they fail with the error number ERROR, or
                    take nothing if that is 0
   NO_RANDOM=1      has each request for random bytes fail
   COUNT_RANDOM=1   has the random bytes be 1, 2, 3 and so on
   TELL_DRAWN=1     says `draws BYTES` on standard error at the end: how many random bytes were drawn
   TELL_UNSTORED=1  says `unstored FILES` on standard error before each file or folder is renamed: to how many files was written
                    that the system was not asked to store since, by fsync
   TELL_WRITES=1    says `writes CALLS` there at the end: how many calls wrote to files that are no standard stream
   TELL_FOLDERS=1   says `renamed` or `removed` on standard error behind each call that renames or removes a file or folder by its
                    path, and `stored` behind each fsync of a folder
   OTHER_DEVICE=N   has the Nth answer to what a file is, counted from 1, tell another device
   STOP_AT=N        stops the process, as SIGSTOP does, before the Nth call, counted from 1, that looks for, opens, makes, links,
                    locks, renames or removes a file or folder, or says who may use it

   The built programs call malloc, realloc and free, and no other call for memory; those of bench/ calloc, too. This
   includes nothing: the kit's compiler runs where no headers of the C library are installed. For one thread. */
typedef unsigned long size_type;

extern char *getenv(const char *name);
extern unsigned long strtoul(const char *text, char **end, int base);
extern int *__errno_location(void);
extern void *dlsym(void *library, const char *name);
extern int snprintf(char *line, size_type room, const char *format, ...);
extern size_type malloc_usable_size(void *block);
extern int raise(int signal);
extern int openat(int folder, const char *path, int flags, ...);
extern int close(int file);

#define STANDARD_INPUT 0
#define STANDARD_OUTPUT 1
#define STANDARD_ERROR 2
/* No run of a trial has a file of a greater number open. */
#define FILES 1024
/* Linux's numbers for a call that a signal interrupted, one that it does not have, and a connection that was reset. */
#define INTERRUPTED 4
#define NO_SUCH_CALL 38
#define CONNECTION_RESET 104
#define STOP 19
/* Linux's flags for opening a folder alone, and for opening nothing but its path. */
#define FOLDER 0200000
#define PATH 010000000
/* Finds the function of this name in the library after this one, and calls it `next`. */
#define FIND_NEXT(name)                      \
    static __typeof__(&(name)) next;         \
    if (!next) {                             \
        next = dlsym((void *)-1L, #name);    \
    }

struct part {
    const void *bytes;
    size_type count;
};

/* What Linux tells of a file. */
struct about {
    unsigned char others[136];
    unsigned device_major, device_minor;
    unsigned char more[112];
};

static size_type setting(const char *name, size_type otherwise) {
    const char *number = getenv(name);
    return number ? strtoul(number, 0, 10) : otherwise;
}

static long failed(int error) {
    *__errno_location() = error;
    return -1;
}

static size_type least(size_type one, size_type other) {
    return one < other ? one : other;
}

static size_type reads;

long read(int file, void *bytes, size_type count) {
    FIND_NEXT(read)
    static size_type done;
    if (++reads == setting("INTERRUPT", 0)) {
        return failed(INTERRUPTED);
    }
    count = least(count, setting("READ_AT_ONCE", ~0UL));
    if (file != STANDARD_INPUT) {
        return next(file, bytes, count);
    }
    size_type left = setting("READ_BYTES", ~0UL) - done;
    if (left == 0) {
        return failed(CONNECTION_RESET);
    }
    long taken = next(file, bytes, least(count, left));
    done += taken > 0 ? (size_type)taken : 0;
    return taken;
}

/* How many files were written to and not stored since, and which of those that are open. */
static size_type unstored;
static unsigned char is_unstored[FILES];

static void note_stored(int file, int is_stored) {
    if (file > STANDARD_ERROR && file < FILES && is_unstored[file] == is_stored) {
        is_unstored[file] = !is_stored;
        unstored += is_stored ? -1UL : 1;
    }
}

static size_type writes_of_files;

long write(int file, const void *bytes, size_type count) {
    FIND_NEXT(write)
    static size_type writes;
    if (file != STANDARD_OUTPUT) {
        writes_of_files += file > STANDARD_ERROR;
        note_stored(file, 0);
        return next(file, bytes, count);
    }
    writes++;
    if (writes >= setting("BROKEN_WRITE", ~0UL)) {
        int error = (int)setting("ERROR", 0);
        return error ? failed(error) : 0;
    }
    return next(file, bytes, least(count, setting("WRITE_BYTES", ~0UL)));
}

/* A part at a time, as the C library may. */
long writev(int file, const struct part *parts, int count) {
    for (int at = 0; at < count; at++) {
        if (parts[at].count != 0) {
            return write(file, parts[at].bytes, parts[at].count);
        }
    }
    return 0;
}

/* printf would ask for memory itself. */
static void tell(const char *format, size_type one, size_type other) {
    char line[64];
    write(STANDARD_ERROR, line, (size_type)snprintf(line, sizeof line, format, one, other));
}

static void tell_if(const char *wanted, const char *format, size_type one, size_type other) {
    if (getenv(wanted)) {
        tell(format, one, other);
    }
}

static int is_folder(int file) {
    int found = openat(file, ".", FOLDER | PATH);
    if (found < 0) {
        return 0;
    }
    close(found);
    return 1;
}

int fsync(int file) {
    FIND_NEXT(fsync)
    note_stored(file, 1);
    int outcome = next(file);
    if (is_folder(file)) {
        tell_if("TELL_FOLDERS", "stored\n", 0, 0);
    }
    return outcome;
}

/* What is closed stays as it is, stored or not. */
int close(int file) {
    FIND_NEXT(close)
    if (file > STANDARD_ERROR && file < FILES) {
        is_unstored[file] = 0;
    }
    return next(file);
}

static size_type drawn;

int getentropy(void *bytes, size_type count) {
    FIND_NEXT(getentropy)
    if (setting("NO_RANDOM", 0)) {
        return (int)failed(NO_SUCH_CALL);
    }
    drawn += count;
    if (setting("COUNT_RANDOM", 0)) {
        for (size_type at = 0; at < count; at++) {
            ((unsigned char *)bytes)[at] = (unsigned char)(at + 1);
        }
        return 0;
    }
    return next(bytes, count);
}

static void count_call(void) {
    static size_type calls;
    if (++calls == setting("STOP_AT", 0)) {
        raise(STOP);
    }
}

/* Counts a call, and hands it on. */
#define COUNTED(name, parameters, ...)       \
    int name parameters {                    \
        FIND_NEXT(name)                      \
        count_call();                        \
        return next(__VA_ARGS__);            \
    }

COUNTED(open, (const char *path, int flags, unsigned mode), path, flags, mode)
COUNTED(mkdir, (const char *path, unsigned mode), path, mode)
COUNTED(link, (const char *old, const char *path), old, path)
COUNTED(fchmod, (int file, unsigned mode), file, mode)
COUNTED(flock, (int file, int how), file, how)
COUNTED(unlinkat, (int folder, const char *path, int flags), folder, path, flags)
COUNTED(rmdir, (const char *path), path)

int statx(int folder, const char *path, int flags, unsigned mask, struct about *told) {
    FIND_NEXT(statx)
    static size_type answers;
    count_call();
    int outcome = next(folder, path, flags, mask, told);
    if (outcome == 0 && ++answers == setting("OTHER_DEVICE", 0)) {
        told->device_minor ^= 1;
    }
    return outcome;
}

int rename(const char *old, const char *path) {
    FIND_NEXT(rename)
    count_call();
    tell_if("TELL_UNSTORED", "unstored %lu\n", unstored, 0);
    int outcome = next(old, path);
    tell_if("TELL_FOLDERS", "renamed\n", 0, 0);
    return outcome;
}

int unlink(const char *path) {
    FIND_NEXT(unlink)
    count_call();
    int outcome = next(path);
    tell_if("TELL_FOLDERS", "removed\n", 0, 0);
    return outcome;
}

/* Blocks that are granted and not given back, and their bytes as the C library rounds them: now, at most, and at the reset. */
static size_type held, live, peak, base;

/* Counts bytes from here on. */
void reset_bytes(void) {
    base = peak = live;
}

static int is_refused(size_type bytes) {
    static const char told[] = "request refused\n";
    static size_type requests;
    size_type refused = setting("REFUSE", 0);
    requests++;
    tell_if("TELL_ASKS", "asks %lu\n", bytes, 0);
    if (refused == 0 || (getenv("REFUSE_ON") ? requests < refused : requests != refused)) {
        return 0;
    }
    write(STANDARD_ERROR, told, sizeof told - 1);
    return 1;
}

/* All that is held then is the program's own: before `main` neither the C library nor the toolchain's runtime asks for
   memory, as a scenario shows that takes none. */
__attribute__((destructor)) static void tell_held(void) {
    tell_if("TELL_HELD", "holds %lu\n", held, 0);
    tell_if("TELL_BYTES", "bytes %lu %lu\n", live - base, peak - base);
    tell_if("TELL_WRITES", "writes %lu\n", writes_of_files, 0);
    tell_if("TELL_DRAWN", "draws %lu\n", drawn, 0);
    tell_if("TELL_READS", "reads %lu\n", reads, 0);
}

static void *counted(void *block) {
    held += block != 0;
    live += malloc_usable_size(block);
    peak = live > peak ? live : peak;
    return block;
}

void *malloc(size_type bytes) {
    FIND_NEXT(malloc)
    return is_refused(bytes) ? 0 : counted(next(bytes));
}

void *calloc(size_type count, size_type bytes) {
    FIND_NEXT(calloc)
    return is_refused(count * bytes) ? 0 : counted(next(count, bytes));
}

void *realloc(void *block, size_type bytes) {
    FIND_NEXT(realloc)
    if (is_refused(bytes)) {
        return 0;
    }
    size_type before = malloc_usable_size(block);
    void *moved = next(block, bytes);
    /* The old block is given back where there is a new one, and where no bytes are wanted. A larger one counts as the difference. */
    if (moved != 0 || bytes == 0) {
        held -= block != 0;
        live -= before;
    }
    return counted(moved);
}

void free(void *block) {
    FIND_NEXT(free)
    held -= block != 0;
    live -= malloc_usable_size(block);
    next(block);
}
