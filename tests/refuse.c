/* Stands before the C library in a program that is started with LD_PRELOAD, and refuses requests for memory
 * and for threads: those from number REFUSE_FROM to number REFUSE_TO, counted from 1 from when the program
 * begins. Of each refusal it writes a letter to the descriptor REFUSE_TELLS: `m` of memory, `t` of a thread.
 * tests/memory compiles it, by a compiler that may have no headers, so what is called is declared here. */

typedef unsigned long size_t;

extern void *__libc_malloc(size_t);
extern void *__libc_calloc(size_t, size_t);
extern void *__libc_realloc(void *, size_t);
extern void *__libc_memalign(size_t, size_t);
extern int *__errno_location(void);
extern char *getenv(const char *);
extern long atol(const char *);
extern long write(int, const void *, size_t);
extern void *dlsym(void *, const char *);

enum { AGAIN = 11, NO_MEMORY = 12 };

typedef int create(size_t *, const void *, void *(*)(void *), void *);

static long from, to, count;
static int tells;
static create *create_thread;

static long number(const char *name) {
    const char *text = getenv(name);
    return text ? atol(text) : 0;
}

/* Nothing is refused, and nothing counted, before this has run. */
__attribute__((constructor)) static void begin(void) {
    void *next = (void *)-1;
    create_thread = (create *)dlsym(next, "pthread_create");
    tells = number("REFUSE_TELLS");
    to = number("REFUSE_TO");
    count = 0;
    from = number("REFUSE_FROM");
}

static int is_refused(const char *what) {
    long turn = __atomic_add_fetch(&count, 1, __ATOMIC_SEQ_CST);
    if (from == 0 || turn < from || turn > to)
        return 0;
    if (write(tells, what, 1) != 1)
        __builtin_trap();
    *__errno_location() = NO_MEMORY;
    return 1;
}

void *malloc(size_t size) { return is_refused("m") ? 0 : __libc_malloc(size); }

void *calloc(size_t many, size_t size) { return is_refused("m") ? 0 : __libc_calloc(many, size); }

void *realloc(void *old, size_t size) { return is_refused("m") ? 0 : __libc_realloc(old, size); }

void *memalign(size_t step, size_t size) { return is_refused("m") ? 0 : __libc_memalign(step, size); }

void *aligned_alloc(size_t step, size_t size) { return memalign(step, size); }

int posix_memalign(void **given, size_t step, size_t size) {
    void *memory = memalign(step, size);
    if (!memory)
        return NO_MEMORY;
    *given = memory;
    return 0;
}

int pthread_create(size_t *thread, const void *how, void *(*does)(void *), void *with) {
    return is_refused("t") ? AGAIN : create_thread(thread, how, does, with);
}
