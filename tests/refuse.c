/* Loaded before the C library. It counts allocations and threads from 1, and says on standard error what it did.
   REFUSED: the allocation with this number is refused.
   REFUSED_THREAD: the thread with this number is not started.
   WHILE_THREADS: only the allocations are counted that are made while so many threads have been started and none was
   joined.
   Where blocks were not given back when the program ends, 'held' is said. What the C library takes for itself, for its
   threads, is neither counted nor looked at: that is what it takes by calloc, which the programs do not call.
   This file names what it needs of the C library itself, so that a compiler without that library's headers builds it. */
typedef __SIZE_TYPE__ size_t;
typedef unsigned long thread;
typedef int create(thread *, const void *, void *(*)(void *), void *);
typedef int join(thread, void **);
typedef void end(int) __attribute__((noreturn));

char *getenv(const char *name);
long atol(const char *digits);
long write(int file, const void *bytes, size_t count);
void _exit(int status) __attribute__((noreturn));
int usleep(unsigned microseconds);
void *dlsym(void *library, const char *name);
void *__libc_malloc(size_t size);
void *__libc_calloc(size_t count, size_t size);
void *__libc_realloc(void *block, size_t size);
void __libc_free(void *block);

#define NEXT ((void *)-1l)
#define NO_MORE_THREADS 11 /* EAGAIN */

static long held, started, joined;

static void say(const char *word, size_t length) {
    if (write(2, word, length) != (long)length) __builtin_trap();
}

/* Whether this is the one that the variable names, of those that come by here. */
static int is_the_one(const char *variable, long *count) {
    const char *number = getenv(variable);
    if (!number || __atomic_add_fetch(count, 1, __ATOMIC_SEQ_CST) != atol(number)) return 0;
    say("refused\n", 8);
    return 1;
}

static int is_refused(void) {
    static long made;
    const char *threads = getenv("WHILE_THREADS");
    if (threads && (__atomic_load_n(&started, __ATOMIC_SEQ_CST) < atol(threads) || __atomic_load_n(&joined, __ATOMIC_SEQ_CST)))
        return 0;
    return is_the_one("REFUSED", &made);
}

/* What was given where there was this block. */
static void *given(void *block, void *before) {
    if (block && !before) __atomic_add_fetch(&held, 1, __ATOMIC_SEQ_CST);
    return block;
}

void *malloc(size_t size) { return is_refused() ? (void *)0 : given(__libc_malloc(size), 0); }

void *realloc(void *block, size_t size) { return is_refused() ? (void *)0 : given(__libc_realloc(block, size), block); }

/* The C library's own blocks. */
static void *own[1024];

/* Puts one block in the place of another, if that is there. */
static int replace(void *there, void *block) {
    for (int i = 0; i < 1024; i++) {
        void *found = there;
        if (__atomic_compare_exchange_n(&own[i], &found, block, 0, __ATOMIC_SEQ_CST, __ATOMIC_SEQ_CST)) return 1;
    }
    return 0;
}

void *calloc(size_t count, size_t size) {
    void *block = __libc_calloc(count, size);
    if (block && !replace((void *)0, block)) say("too many blocks\n", 16);
    return block;
}

void free(void *block) {
    if (block && !replace(block, (void *)0)) __atomic_sub_fetch(&held, 1, __ATOMIC_SEQ_CST);
    __libc_free(block);
}

int pthread_create(thread *made, const void *with, void *(*start)(void *), void *given_to_it) {
    static long asked;
    if (is_the_one("REFUSED_THREAD", &asked)) return NO_MORE_THREADS;
    int failed = ((create *)dlsym(NEXT, "pthread_create"))(made, with, start, given_to_it);
    if (!failed) __atomic_add_fetch(&started, 1, __ATOMIC_SEQ_CST);
    return failed;
}

int pthread_join(thread which, void **answer) {
    __atomic_add_fetch(&joined, 1, __ATOMIC_SEQ_CST);
    return ((join *)dlsym(NEXT, "pthread_join"))(which, answer);
}

/* A program ends by returning, or at once. A thread whose work is over may still be giving back its last block. */
__attribute__((destructor)) static void look(void) {
    for (int i = 0; i < 1000 && __atomic_load_n(&held, __ATOMIC_SEQ_CST); i++) usleep(1000);
    if (__atomic_load_n(&held, __ATOMIC_SEQ_CST)) say("held\n", 5);
}

void _exit(int status) {
    look();
    ((end *)dlsym(NEXT, "_exit"))(status);
}
