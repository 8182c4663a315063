/* Refuses memory to a program, or has a read or a write of it fail: loaded before the program by tests/refused-memory.sh.
 *
 * REFUSE=N   the Nth call of malloc, calloc, realloc or aligned_alloc answers NULL
 * FAIL=N     the Nth read or write fails
 * SHORT=N    the Nth read or write of several bytes moves one
 * CALLS=FILE at the end the numbers of the three kinds of calls are written there, and how many of the first came before any of the second
 *
 * What the C library does before main isn't counted. It is for glibc.
 */
#define _GNU_SOURCE
#include <dlfcn.h>
#include <errno.h>
#include <stdio.h>
#include <stdlib.h>
#include <sys/uio.h>
#include <unistd.h>

/* What is asked for and how often there was a call of the kind; nothing is counted before main and behind it. */
struct kind {
    unsigned long calls, asked;
};
static struct kind memory, transfer, several;
static unsigned long at_start;
static int counts;

static ssize_t (*real_read)(int, void *, size_t);
static ssize_t (*real_write)(int, const void *, size_t);

/* glibc's own allocator. */
extern void *__libc_malloc(size_t);
extern void *__libc_calloc(size_t, size_t);
extern void *__libc_realloc(void *, size_t);
extern void *__libc_memalign(size_t, size_t);

static int is_asked(struct kind *kind) { return counts && ++kind->calls == kind->asked; }

static int is_refused(void) {
    if (!is_asked(&memory)) return 0;
    errno = ENOMEM;
    return 1;
}

void *malloc(size_t size) { return is_refused() ? NULL : __libc_malloc(size); }
void *calloc(size_t count, size_t size) { return is_refused() ? NULL : __libc_calloc(count, size); }
void *realloc(void *block, size_t size) { return is_refused() ? NULL : __libc_realloc(block, size); }
void *aligned_alloc(size_t to, size_t size) { return is_refused() ? NULL : __libc_memalign(to, size); }

/* How many bytes of these a transfer moves: -1 where it fails. */
static ssize_t moved(size_t count) {
    if (counts && !transfer.calls) at_start = memory.calls;
    if (is_asked(&transfer)) {
        errno = EIO;
        return -1;
    }
    if (count > 1 && is_asked(&several)) return 1;
    return (ssize_t)count;
}

ssize_t read(int file, void *bytes, size_t count) {
    ssize_t some = moved(count);
    return some < 0 ? -1 : real_read(file, bytes, (size_t)some);
}

ssize_t write(int file, const void *bytes, size_t count) {
    ssize_t some = moved(count);
    return some < 0 ? -1 : real_write(file, bytes, (size_t)some);
}

/* The first part alone, which is allowed: then the caller goes on with the rest. */
ssize_t readv(int file, const struct iovec *parts, int count) {
    return count > 0 ? read(file, parts[0].iov_base, parts[0].iov_len) : 0;
}

ssize_t writev(int file, const struct iovec *parts, int count) {
    return count > 0 ? write(file, parts[0].iov_base, parts[0].iov_len) : 0;
}

static unsigned long asked(const char *name) {
    const char *number = getenv(name);
    return number ? strtoul(number, NULL, 10) : 0;
}

__attribute__((constructor)) static void begin(void) {
    real_read = (ssize_t(*)(int, void *, size_t))dlsym(RTLD_NEXT, "read");
    real_write = (ssize_t(*)(int, const void *, size_t))dlsym(RTLD_NEXT, "write");
    memory.asked = asked("REFUSE");
    transfer.asked = asked("FAIL");
    several.asked = asked("SHORT");
    counts = 1;
}

__attribute__((destructor)) static void end(void) {
    const char *file = getenv("CALLS");
    counts = 0;
    FILE *out = file ? fopen(file, "w") : NULL;
    if (!out) return;
    if (!transfer.calls) at_start = memory.calls;
    fprintf(out, "%lu %lu %lu %lu\n", memory.calls, transfer.calls, several.calls, at_start);
    fclose(out);
}
