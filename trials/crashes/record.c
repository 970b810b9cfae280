/* A recorder of calls: it is loaded before a program, and writes what the program asks of the files
   that are named *.journal, *.journal-wal, *.backup and *.backup.part, and what it writes to its
   standard output, to the file RECORD, in order: a head of five numbers of eight bytes (kind, file,
   place, count, result) and the bytes. Kinds: 'o' a file was opened (its path follows), 'w' written,
   's' synced, 'f' a sync failed, 't' cut or grown, 'r' renamed (its new path follows), 'd' a folder
   was synced, 'I' bytes came from the standard input, 'O' bytes go out; they are recorded before
   they go.
   FAIL_AT=N lets the Nth call of a kind in FAIL_ON fail, counting from 1, in the way of FAIL_HOW:
   eio, full, short (half is written), lost (a sync that fails, after which all that was written
   since the last sync is gone), before, half or after (the program ends there).
   The number of such calls is written to the file COUNT. It needs no header, so that the
   toolchain's own clang compiles it. */
typedef __SIZE_TYPE__ size_t;
typedef long offset;

extern char *getenv(const char *name);
extern long atol(const char *text);
extern int *__errno_location(void);
extern int snprintf(char *to, size_t size, const char *format, ...);
extern int strcmp(const char *one, const char *other);
extern char *strchr(const char *text, int byte);
extern size_t strlen(const char *text);
extern void *malloc(size_t size);
extern void free(void *memory);
extern long syscall(long number, ...);

enum { READ = 0, WRITE = 1, SEEK = 8, PREAD = 17, PWRITE = 18, WRITEV = 20, GETPID = 39, FSYNC = 74,
       FDATASYNC = 75, FTRUNCATE = 77, READLINK = 89, KILL = 62, OPENAT = 257, CLOSE = 3,
       FCNTL = 72, RENAMEAT = 264 };
enum { FROM_HERE = 1, FROM_END = 2, IN_FOLDER = -100, ADDED_NEW = 01 | 0100 | 01000 | 02000,
       CLOSED_BY_EXEC = 1030, NO_SPACE = 28, FAILED = 5, KILLED = 9 };
enum { HIGH = 200 };

static int record = -2;
static long calls, fails_at;
static const char *fails_on = "", *fails_how = "";

/* what stood where something was written since the last sync of its file, for `lost` */
enum { MOST = 4096 };
static struct {
    int file;
    offset at, size;
    long count;
    char *bytes;
} old[MOST];
static int how_many;

/* A file of this program's own, with a number that the other never has. */
static int own(const char *name) {
    if (!name) return -1;
    int low = (int)syscall(OPENAT, IN_FOLDER, name, ADDED_NEW, 0600);
    int high = (int)syscall(FCNTL, low, CLOSED_BY_EXEC, HIGH);
    syscall(CLOSE, low);
    return high;
}

static void begin(void) {
    if (record != -2) return;
    record = own(getenv("RECORD"));
    const char *text = getenv("FAIL_AT");
    fails_at = text ? atol(text) : 0;
    if ((text = getenv("FAIL_ON"))) fails_on = text;
    if ((text = getenv("FAIL_HOW"))) fails_how = text;
}

static void note(int kind, int file, offset at, long count, long result, const void *bytes,
                 long length) {
    if (record < 0) return;
    long head[5] = { kind, file, at, count, result };
    struct {
        const void *bytes;
        size_t count;
    } parts[2] = { { head, sizeof head }, { bytes, (size_t)length } };
    syscall(WRITEV, record, parts, length > 0 ? 2 : 1);
}

static int ends_with(const char *path, long length, const char *end) {
    long count = (long)strlen(end);
    if (length < count) return 0;
    for (long at = 0; at < count; at++)
        if (path[length - count + at] != end[at]) return 0;
    return 1;
}

static int is_name(const char *path, long length) {
    return ends_with(path, length, ".journal") || ends_with(path, length, ".journal-wal")
        || ends_with(path, length, ".backup") || ends_with(path, length, ".backup.part");
}

static int is_journal(int file) {
    char name[32], path[4096];
    snprintf(name, sizeof name, "/proc/self/fd/%d", file);
    return is_name(path, syscall(READLINK, name, path, sizeof path));
}

static int is(const char *how) { return strcmp(fails_how, how) == 0; }

static void end_here(void) { syscall(KILL, syscall(GETPID), KILLED); }

/* Whether this call is the one that fails. */
static int fails(int kind) {
    static int counter = -2;
    if (!strchr(fails_on, kind)) return 0;
    calls++;
    if (counter == -2) counter = own(getenv("COUNT"));
    if (counter >= 0) {
        char text[24];
        syscall(FTRUNCATE, counter, 0);
        syscall(WRITE, counter, text, (size_t)snprintf(text, sizeof text, "%ld\n", calls));
    }
    if (calls != fails_at) return 0;
    if (is("before")) end_here();
    return 1;
}

static long refused(void) {
    *__errno_location() = is("full") ? NO_SPACE : FAILED;
    return -1;
}

static void keep(int file, offset at, size_t count) {
    if (!is("lost") || how_many == MOST) return;
    offset here = syscall(SEEK, file, 0, FROM_HERE);
    old[how_many].file = file;
    old[how_many].at = at;
    old[how_many].size = syscall(SEEK, file, 0, FROM_END);
    syscall(SEEK, file, here, 0);
    old[how_many].bytes = malloc(count + 1);
    old[how_many].count = syscall(PREAD, file, old[how_many].bytes, count, at);
    how_many++;
}

/* Forgets what was kept of a file; or, at a sync that loses, first puts it back. */
static void settle(int file, int loses) {
    for (int at = how_many - 1; loses && at >= 0; at--) {
        if (old[at].file != file) continue;
        if (old[at].count > 0) syscall(PWRITE, file, old[at].bytes, old[at].count, old[at].at);
        syscall(FTRUNCATE, file, old[at].size);
    }
    int left = 0;
    for (int at = 0; at < how_many; at++)
        if (old[at].file != file) old[left++] = old[at]; else free(old[at].bytes);
    how_many = left;
}

static long write_at(int file, const void *bytes, size_t count, offset at) {
    keep(file, at, count);
    size_t much = count;
    int ends = 0;
    if (fails('w')) {
        if (is("eio") || is("full")) return refused();
        ends = is("half") || is("after");
        if ((is("short") || is("half")) && count > 1) much = count / 2;
    }
    long done = syscall(PWRITE, file, bytes, much, at);
    int error = *__errno_location();
    note('w', file, at, (long)count, done, bytes, done);
    if (ends) end_here();
    *__errno_location() = error;
    return done;
}

long pwrite64(int file, const void *bytes, size_t count, offset at) {
    begin();
    if (!is_journal(file)) return syscall(PWRITE, file, bytes, count, at);
    return write_at(file, bytes, count, at);
}

long pwrite(int file, const void *bytes, size_t count, offset at) {
    return pwrite64(file, bytes, count, at);
}

long write(int file, const void *bytes, size_t count) {
    begin();
    if (file == 1) {
        size_t much = count;
        if (fails('O')) {
            if (is("eio") || is("full")) return refused();
            if (is("short") && count > 1) much = count / 2;
        }
        note('O', 1, 0, (long)much, (long)much, bytes, (long)much);
        return syscall(WRITE, file, bytes, much);
    }
    if (!is_journal(file)) return syscall(WRITE, file, bytes, count);
    offset at = syscall(SEEK, file, 0, FROM_HERE);
    long done = write_at(file, bytes, count, at);
    if (done > 0) syscall(SEEK, file, at + done, 0);
    return done;
}

long read(int file, void *bytes, size_t count) {
    begin();
    long done = syscall(READ, file, bytes, count);
    if (file == 0) note('I', 0, 0, (long)count, done, bytes, done);
    return done;
}

static int sync_by(long number, int file) {
    begin();
    if (!is_journal(file)) {
        int done = (int)syscall(number, file);
        if (file > 2) note('d', file, 0, 0, done, 0, 0);
        return done;
    }
    int ends = 0;
    if (fails('s')) {
        if (is("eio") || is("full") || is("lost")) {
            settle(file, is("lost"));
            note('f', file, 0, 0, -1, 0, 0);
            return (int)refused();
        }
        ends = is("after");
    }
    int done = (int)syscall(number, file);
    settle(file, 0);
    note('s', file, 0, 0, done, 0, 0);
    if (ends) end_here();
    return done;
}

int fsync(int file) { return sync_by(FSYNC, file); }

int fdatasync(int file) { return sync_by(FDATASYNC, file); }

int ftruncate64(int file, offset size) {
    begin();
    if (!is_journal(file)) return (int)syscall(FTRUNCATE, file, size);
    if (fails('t') && (is("eio") || is("full"))) return (int)refused();
    int done = (int)syscall(FTRUNCATE, file, size);
    note('t', file, size, 0, done, 0, 0);
    return done;
}

int ftruncate(int file, offset size) { return ftruncate64(file, size); }

static int open_by(int folder, const char *path, int flags, int mode) {
    begin();
    long length = (long)strlen(path);
    int is_ours = is_name(path, length);
    if (is_ours && fails('o') && (is("eio") || is("full"))) return (int)refused();
    int file = (int)syscall(OPENAT, folder, path, flags, mode);
    if (is_ours && file >= 0) note('o', file, flags, length, file, path, length);
    return file;
}

int open(const char *path, int flags, int mode) { return open_by(IN_FOLDER, path, flags, mode); }

int open64(const char *path, int flags, int mode) { return open_by(IN_FOLDER, path, flags, mode); }

int openat(int folder, const char *path, int flags, int mode) {
    return open_by(folder, path, flags, mode);
}

int openat64(int folder, const char *path, int flags, int mode) {
    return open_by(folder, path, flags, mode);
}

int renameat(int folder, const char *path, int other, const char *to) {
    begin();
    if (fails('r') && (is("eio") || is("full"))) return (int)refused();
    int done = (int)syscall(RENAMEAT, folder, path, other, to);
    int error = *__errno_location();
    note('r', 0, 0, (long)strlen(to), done, to, (long)strlen(to));
    *__errno_location() = error;
    return done;
}

int rename(const char *path, const char *to) { return renameat(IN_FOLDER, path, IN_FOLDER, to); }
