/* Refuses the growth whose number is in REFUSE, counting from 1: a malloc, a realloc, a calloc, or the start of a
   thread. At the end how many were asked for is written to standard error. It needs no header, so that the
   toolchain's own clang compiles it. */
typedef __SIZE_TYPE__ size_t;
typedef int start_function(void *thread, const void *attributes, void *(*start)(void *), void *given);

extern void *__libc_malloc(size_t size);
extern void *__libc_calloc(size_t count, size_t size);
extern void *__libc_realloc(void *block, size_t size);
extern int *__errno_location(void);
extern char *getenv(const char *name);
extern long atol(const char *text);
extern void *dlsym(void *handle, const char *name);
extern int dprintf(int descriptor, const char *format, ...);
extern long syscall(long number, ...);

enum { OUT_OF_MEMORY = 12, TRY_AGAIN = 11, EXIT_GROUP = 231 };

static long asked;

/* Whether this growth is the one; errno is as a refused allocation leaves it then. */
static int is_due(void) {
    const char *text = getenv("REFUSE");
    long number = __sync_add_and_fetch(&asked, 1);
    if (!text || number != atol(text)) return 0;
    *__errno_location() = OUT_OF_MEMORY;
    return 1;
}

void *malloc(size_t size) { return is_due() ? 0 : __libc_malloc(size); }

void *calloc(size_t count, size_t size) { return is_due() ? 0 : __libc_calloc(count, size); }

void *realloc(void *block, size_t size) { return is_due() ? 0 : __libc_realloc(block, size); }

int pthread_create(void *thread, const void *attributes, void *(*start)(void *), void *given) {
    static start_function *real;
    if (!real) real = (start_function *)dlsym((void *)-1L, "pthread_create");
    return is_due() ? TRY_AGAIN : real(thread, attributes, start, given);
}

__attribute__((destructor)) static void tell(void) { dprintf(2, "%ld\n", asked); }

/* A program that may start threads ends so, without its destructors. */
void _exit(int status) {
    tell();
    for (;;) syscall(EXIT_GROUP, status);
}
