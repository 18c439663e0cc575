/* Stands before the C library in a program that is started with LD_PRELOAD, and breaks it at one of its calls that
 * change a file or write: that of number BREAK_AT, counted from 1. With BREAK_HOW=c it gets Ctrl-C there, just before
 * the call, or halfway through what the call writes. With BREAK_HOW=f all devices are full from there on: the call
 * writes half, and later ones nothing, nor is a file made. Then a letter is written to the descriptor BREAK_TELLS.
 * What is written to standard error isn't counted, and never fails.
 * tests/memory compiles it, by a compiler that may have no headers, so what is called is declared here. */

typedef unsigned long size_t;
typedef long ssize_t;

extern int *__errno_location(void);
extern char *getenv(const char *);
extern long atol(const char *);
extern int getpid(void);
extern int kill(int, int);
extern void *dlsym(void *, const char *);

enum { INTERRUPT = 2, NO_ROOM = 28, CREATES = 0100 };

struct part {
    const char *bytes;
    size_t size;
};

typedef int opens(const char *, int, int);
typedef ssize_t writes(int, const void *, size_t);
typedef int renames(const char *, const char *);

static long at, count;
static int tells;
static char how;
static opens *real_open;
static writes *real_write;
static renames *real_rename;

/* Nothing is broken, and nothing counted, before this has run. */
__attribute__((constructor)) static void begin(void) {
    void *next = (void *)-1;
    const char *number = getenv("BREAK_AT"), *word = getenv("BREAK_HOW"), *told = getenv("BREAK_TELLS");
    real_open = (opens *)dlsym(next, "open");
    real_write = (writes *)dlsym(next, "write");
    real_rename = (renames *)dlsym(next, "rename");
    tells = told ? (int)atol(told) : 0;
    how = word ? *word : 0;
    count = 0;
    at = number ? atol(number) : 0;
}

/* Whether it is this call, or with full devices an earlier one. */
static int is_due(void) {
    long turn = __atomic_add_fetch(&count, 1, __ATOMIC_SEQ_CST);
    if (at == 0 || (how == 'f' ? turn < at : turn != at))
        return 0;
    if (turn == at && real_write(tells, "b", 1) != 1)
        __builtin_trap();
    return turn == at ? 1 : 2;
}

static long ends(void) {
    if (how == 'c')
        kill(getpid(), INTERRUPT);
    *__errno_location() = NO_ROOM;
    return -1;
}

int open(const char *path, int flags, int mode) {
    if (flags & CREATES && is_due())
        return (int)ends();
    return real_open(path, flags, mode);
}

int open64(const char *path, int flags, int mode) { return open(path, flags, mode); }

ssize_t write(int file, const void *bytes, size_t size) {
    int due = file == 2 ? 0 : is_due();
    if (!due)
        return real_write(file, bytes, size);
    if (due == 1 && size > 1) {
        ssize_t half = real_write(file, bytes, size / 2);
        return how == 'c' ? ends() : half;
    }
    return ends();
}

ssize_t writev(int file, const struct part *parts, int number) {
    /* The rest is written by the next call. */
    for (int i = 0; i < number; i++)
        if (parts[i].size > 0)
            return write(file, parts[i].bytes, parts[i].size);
    return 0;
}

int rename(const char *from, const char *to) {
    if (how == 'c' && is_due())
        return (int)ends();
    return real_rename(from, to);
}
