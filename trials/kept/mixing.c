/* A disk that loses what wasn't synced: it is loaded before a program, and counts each write and
   each sync of the files that are named *.journal and *.journal-wal. At the call whose number is in
   MIX_AT, counting from 1, power fails: of each byte that was written since the last sync of its
   file the old or the new value stays, and behind the end that was synced anything may stand. Then
   the program ends with 77; or, where MIX_FAILS is set, that call and each later one fail, and the
   program goes on. MIX_SEED chooses the bytes. The number of calls is written to the file
   MIX_COUNT. It needs no header, so that the toolchain's own clang compiles it. */
typedef __SIZE_TYPE__ size_t;
typedef long offset;
typedef unsigned char byte;

extern char *getenv(const char *name);
extern long atol(const char *text);
extern void *malloc(size_t size);
extern void *memcpy(void *to, const void *from, size_t count);
extern void *memset(void *to, int value, size_t count);
extern int *__errno_location(void);
extern int snprintf(char *to, size_t size, const char *format, ...);
extern long syscall(long number, ...);

enum { WRITE = 1, OPEN = 2, SEEK = 8, PREAD = 17, PWRITE = 18, FSYNC = 74, FDATASYNC = 75,
       FTRUNCATE = 77, READLINK = 89, EXIT_GROUP = 231 };
enum { FROM_HERE = 1, FROM_END = 2, MADE_NEW = 01 | 0100 | 01000, FAILED = 5, ENDED = 77 };
enum { MOST = 64, HEAD = 4096 };

/* the two files of a store, each by its descriptor, and how far it was synced */
enum { FILES = 2 };
static struct {
    int is_known, descriptor;
    offset synced_end;
} files[FILES];

/* a write that isn't synced */
static struct {
    byte *before, *after;
    size_t count;
    offset at;
    int file;
} waiting[MOST];
static int how_many;
static long calls, fails_at = -1;
static unsigned long chance;
static int has_failed;

static unsigned long any(unsigned long below) {
    chance = chance * 6364136223846793005ul + 1442695040888963407ul;
    return (chance >> 33) % below;
}

static int ends_with(const char *path, long length, const char *end, long count) {
    if (length < count) return 0;
    for (long at = 0; at < count; at++)
        if (path[length - count + at] != end[at]) return 0;
    return 1;
}

static int is_journal(int file) {
    char name[32], path[4096];
    snprintf(name, sizeof name, "/proc/self/fd/%d", file);
    long length = syscall(READLINK, name, path, sizeof path);
    return ends_with(path, length, ".journal", 8) || ends_with(path, length, ".journal-wal", 12);
}

/* Tells how many calls there were. */
static void count_call(void) {
    static int counter = -2;
    calls++;
    if (counter == -2) {
        const char *name = getenv("MIX_COUNT");
        counter = name ? (int)syscall(OPEN, name, MADE_NEW, 0600) : -1;
    }
    if (counter >= 0) {
        char text[24];
        syscall(PWRITE, counter, text, (size_t)snprintf(text, sizeof text, "%ld\n", calls), 0);
    }
}

static offset end_of(int descriptor) {
    offset end = syscall(SEEK, descriptor, 0, FROM_END);
    syscall(SEEK, descriptor, 0, 0);
    return end;
}

/* Which of the two files it is. */
static int begin(int descriptor) {
    int file = 0;
    while (file < FILES && files[file].is_known && files[file].descriptor != descriptor) file++;
    if (file == FILES) syscall(EXIT_GROUP, 98);
    if (!files[file].is_known) {
        files[file].is_known = 1;
        files[file].descriptor = descriptor;
        files[file].synced_end = end_of(descriptor);
    }
    if (fails_at >= 0) return file;
    const char *at = getenv("MIX_AT"), *seed = getenv("MIX_SEED");
    fails_at = at ? atol(at) : 0;
    chance = seed ? (unsigned long)atol(seed) : 1;
    for (int turn = 0; turn < 8; turn++) any(2);
    return file;
}

/* How bytes are lost: all, none, each by chance, all behind a place, or all before it. */
static void lose(byte *mixed, const byte *before, const byte *after, size_t count) {
    unsigned long way = any(5), place = any(count + 1);
    for (size_t at = 0; at < count; at++) {
        int is_new = way == 1 || (way == 2 && any(2)) || (way == 3 && at < place) ||
            (way == 4 && at >= place);
        mixed[at] = is_new ? after[at] : before[at];
    }
}

/* What stands behind the end that was synced: what was written, zeros, or anything; but behind a
   part of a head not anything. */
static void spoil(byte *mixed, const byte *after, size_t count, offset synced_end) {
    unsigned long way = any(synced_end > HEAD ? 4 : 2);
    for (size_t at = 0; at < count; at++) {
        byte other = way == 2 ? (byte)any(256) : (byte)"#\n0{"[any(4)];
        mixed[at] = way == 0 ? after[at] : way == 1 ? 0 : other;
    }
}

static void mix(int file) {
    int descriptor = files[file].descriptor;
    offset synced_end = files[file].synced_end, end = synced_end;
    for (int at = 0; at < how_many; at++) {
        if (waiting[at].file != file) continue;
        size_t count = waiting[at].count, inside = count;
        if (waiting[at].at + (offset)count > synced_end)
            inside = waiting[at].at < synced_end ? (size_t)(synced_end - waiting[at].at) : 0;
        byte *mixed = malloc(count + 1);
        lose(mixed, waiting[at].before, waiting[at].after, inside);
        spoil(mixed + inside, waiting[at].after + inside, count - inside, synced_end);
        syscall(PWRITE, descriptor, mixed, count, waiting[at].at);
        if (waiting[at].at + (offset)count > end) end = waiting[at].at + (offset)count;
    }
    if (end > synced_end && any(2)) {
        unsigned long more = (unsigned long)(end - synced_end);
        syscall(FTRUNCATE, descriptor, synced_end + (offset)any(more + 1));
    }
}

/* Whether this call fails. */
static int power_fails(void) {
    if (!has_failed && calls == fails_at) {
        for (int file = 0; file < FILES; file++)
            if (files[file].is_known) mix(file);
        has_failed = 1;
        if (!getenv("MIX_FAILS")) syscall(EXIT_GROUP, ENDED);
    }
    if (has_failed) *__errno_location() = FAILED;
    return has_failed;
}

static long write_at(int descriptor, const void *bytes, size_t count, offset at) {
    int file = begin(descriptor);
    count_call();
    if (!has_failed) {
        if (how_many == MOST) syscall(EXIT_GROUP, 99);
        byte *before = malloc(count + 1), *after = malloc(count + 1);
        memset(before, 0, count);
        syscall(PREAD, descriptor, before, count, at);
        memcpy(after, bytes, count);
        waiting[how_many].before = before;
        waiting[how_many].after = after;
        waiting[how_many].count = count;
        waiting[how_many].file = file;
        waiting[how_many++].at = at;
    }
    if (power_fails()) return -1;
    return syscall(PWRITE, descriptor, bytes, count, at);
}

long pwrite64(int file, const void *bytes, size_t count, offset at) {
    if (!is_journal(file)) return syscall(PWRITE, file, bytes, count, at);
    return write_at(file, bytes, count, at);
}

long pwrite(int file, const void *bytes, size_t count, offset at) {
    return pwrite64(file, bytes, count, at);
}

long write(int file, const void *bytes, size_t count) {
    if (!is_journal(file)) return syscall(WRITE, file, bytes, count);
    offset at = syscall(SEEK, file, 0, FROM_HERE);
    long done = write_at(file, bytes, count, at);
    if (done > 0) syscall(SEEK, file, at + done, 0);
    return done;
}

/* Forgets the writes of a file, which are on the disk. */
static void settle(int file) {
    int left = 0;
    for (int at = 0; at < how_many; at++)
        if (waiting[at].file != file) waiting[left++] = waiting[at];
    how_many = left;
    files[file].synced_end = end_of(files[file].descriptor);
}

static int sync_by(long number, int descriptor) {
    if (!is_journal(descriptor)) return (int)syscall(number, descriptor);
    int file = begin(descriptor);
    count_call();
    if (power_fails()) return -1;
    int done = (int)syscall(number, descriptor);
    if (done == 0) settle(file);
    return done;
}

int fsync(int file) { return sync_by(FSYNC, file); }

int fdatasync(int file) { return sync_by(FDATASYNC, file); }
