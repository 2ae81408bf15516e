/* Makes calls of the C library fail, for a program that loads this library before it (LD_PRELOAD).

   FAULT="CALL HOW FIRST COUNT": of the calls of this name, counted from 1 on, those from FIRST on, COUNT of them.
     CALL  growth (malloc and realloc), read, pread, write (of standard output and of files, not of standard error)
     HOW   fail (no memory, or EIO), interrupt (EINTR), short (one byte at most), end (0 bytes), or between: from FIRST
           on each call is interrupted COUNT times before it is done
   FAULT="range fail START END": each pread of the bytes of a file from START on and below END fails.

   As the program ends, a last line on standard error tells how many calls there were of each name, how many growths
   came before the first read, and how many were asked for after one that was refused. */
#define _GNU_SOURCE
#include <dlfcn.h>
#include <errno.h>
#include <stdio.h>
#include <stdlib.h>
#include <string.h>
#include <sys/types.h>
#include <unistd.h>

enum call { GROWTH, READ, PREAD, WRITE, CALLS };
enum how { FAIL, INTERRUPT, SHORT, END, BETWEEN, PLAIN };

static const char *const call_names[] = {"growth", "read", "pread", "write", "range"};
static const char *const how_names[] = {"fail", "interrupt", "short", "end", "between"};

static int call = -1;
static enum how how = PLAIN;
static long long first, count;
static long seen[CALLS], interrupted, refused, before = -1, after;

static void *(*real_malloc)(size_t);
static void *(*real_realloc)(void *, size_t);
static ssize_t (*real_read)(int, void *, size_t);
static ssize_t (*real_pread)(int, void *, size_t, off_t);
static ssize_t (*real_write)(int, const void *, size_t);

static int number_of(const char *word, const char *const *names, int many) {
    for (int i = 0; i < many; i++)
        if (!strcmp(word, names[i]))
            return i;
    abort();
}

__attribute__((constructor)) static void begin(void) {
    char call_word[16], how_word[16];
    const char *fault = getenv("FAULT");
    real_malloc = dlsym(RTLD_NEXT, "malloc");
    real_realloc = dlsym(RTLD_NEXT, "realloc");
    real_read = dlsym(RTLD_NEXT, "read");
    real_pread = dlsym(RTLD_NEXT, "pread");
    real_write = dlsym(RTLD_NEXT, "write");
    if (fault) {
        if (sscanf(fault, "%15s %15s %lld %lld", call_word, how_word, &first, &count) != 4)
            abort();
        how = number_of(how_word, how_names, PLAIN);
        call = number_of(call_word, call_names, CALLS + 1);
    }
    memset(seen, 0, sizeof seen);
}

__attribute__((destructor)) static void tell(void) {
    char line[128];
    int n = snprintf(line, sizeof line, "faults: growth %ld read %ld pread %ld write %ld before %ld after %ld\n",
                     seen[GROWTH], seen[READ], seen[PREAD], seen[WRITE], before, after);
    if (real_write(2, line, n) != n)
        abort();
}

/* What becomes of the next call of this name. */
static enum how next(int name) {
    long n = ++seen[name];
    if (before < 0 && (name == READ || name == PREAD))
        before = seen[GROWTH];
    if (name != call || n < first)
        return PLAIN;
    if (how != BETWEEN)
        return n - first < count ? how : PLAIN;
    interrupted = interrupted < count ? interrupted + 1 : 0;
    return interrupted ? INTERRUPT : PLAIN;
}

/* Whether a growth is refused. */
static int refuses(void) {
    after += refused;
    if (next(GROWTH) == PLAIN)
        return 0;
    refused = 1;
    errno = ENOMEM;
    return 1;
}

void *malloc(size_t size) {
    if (!real_malloc)
        real_malloc = dlsym(RTLD_NEXT, "malloc");
    return refuses() ? NULL : real_malloc(size);
}

void *realloc(void *block, size_t size) {
    if (!real_realloc)
        real_realloc = dlsym(RTLD_NEXT, "realloc");
    return refuses() ? NULL : real_realloc(block, size);
}

/* How many bytes a call is to move, or -1 with the error that it has. */
static ssize_t allowed(enum how what, size_t size) {
    errno = what == INTERRUPT ? EINTR : EIO;
    return what == PLAIN ? (ssize_t)size : what == SHORT ? size > 0 : what == END ? 0 : -1;
}

ssize_t read(int file, void *bytes, size_t size) {
    ssize_t most = allowed(next(READ), size);
    return most > 0 ? real_read(file, bytes, most) : most;
}

ssize_t pread(int file, void *bytes, size_t size, off_t at) {
    enum how what = next(PREAD);
    if (call == CALLS && at < count && at + (off_t)size > first)
        what = FAIL;
    ssize_t most = allowed(what, size);
    return most > 0 ? real_pread(file, bytes, most, at) : most;
}

ssize_t pread64(int file, void *bytes, size_t size, off_t at) { return pread(file, bytes, size, at); }

ssize_t write(int file, const void *bytes, size_t size) {
    if (file == 2)
        return real_write(file, bytes, size);
    ssize_t most = allowed(next(WRITE), size);
    return most > 0 ? real_write(file, bytes, most) : most;
}
