/* Counts the threads that a program starts, and the most that live at once; at its end both counts
   are written to standard error. A thread is ended when its function returns. */
typedef void *body(void *given);
typedef int start_function(void *thread, const void *attributes, body *start, void *given);

extern void *dlsym(void *handle, const char *name);
extern int dprintf(int descriptor, const char *format, ...);
extern long syscall(long number, ...);

static long started, living, most;

/* What each thread begins with; no place is used twice. */
static struct task {
    body *start;
    void *given;
} tasks[65536];

static void *begin(void *place) {
    struct task *task = place;
    void *result = task->start(task->given);
    __sync_sub_and_fetch(&living, 1);
    return result;
}

int pthread_create(void *thread, const void *attributes, body *start, void *given) {
    static start_function *real;
    if (!real) real = (start_function *)dlsym((void *)-1L, "pthread_create");
    struct task *task = &tasks[__sync_fetch_and_add(&started, 1) % 65536];
    task->start = start;
    task->given = given;
    long now = __sync_add_and_fetch(&living, 1), before = most;
    while (now > before && !__sync_bool_compare_and_swap(&most, before, now)) before = most;
    int failed = real(thread, attributes, begin, task);
    if (failed) __sync_sub_and_fetch(&living, 1);
    return failed;
}

static void tell(void) { dprintf(2, "%ld %ld\n", started, most); }

__attribute__((destructor)) static void end(void) { tell(); }

/* A program that may start threads ends so, without its destructors. */
void _exit(int status) {
    tell();
    for (;;) syscall(231, status);
}
