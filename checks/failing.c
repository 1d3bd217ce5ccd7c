// Put before the C library with LD_PRELOAD, it has one call of a program fail, or be short: the Nth of its kind.
//
// FAILING       the kind: alloc, open, read or write
// FAILING_AT    which call of that kind, from 1
// FAILING_HOW   fail; rest: all calls of that kind behind it fail too; short: a read or a write is of half of its bytes
// FAILING_PIECE how many bytes any read or write takes at most, where it is set
// FAILING_TELL  the number of an open file, to which a line on that call is written when it comes
//
// An allocation that fails gives ENOMEM, any other call EIO. Calls are counted once this library has started. It
// works with glibc alone, since it calls the allocator by other names that glibc gives it.
#define _GNU_SOURCE
#include <errno.h>
#include <fcntl.h>
#include <stdarg.h>
#include <stddef.h>
#include <stdint.h>
#include <stdio.h>
#include <stdlib.h>
#include <string.h>
#include <sys/syscall.h>
#include <sys/types.h>
#include <sys/uio.h>
#include <unistd.h>

void *__libc_malloc(size_t size);
void *__libc_calloc(size_t count, size_t size);
void *__libc_realloc(void *old, size_t size);
void *__libc_memalign(size_t alignment, size_t size);

enum kind { NONE, ALLOC, OPEN, READ, WRITE };

static enum kind kind = NONE;
static long left = 0;
static int is_short = 0, is_rest = 0;
static int told_to = -1;
static size_t piece = SIZE_MAX;

__attribute__((constructor)) static void start(void) {
    static const char *const names[] = {"", "alloc", "open", "read", "write"};
    const char *name = getenv("FAILING"), *at = getenv("FAILING_AT");
    const char *how = getenv("FAILING_HOW"), *tell = getenv("FAILING_TELL"), *most = getenv("FAILING_PIECE");
    if (!name || !at)
        return;
    left = atol(at);
    is_short = how && !strcmp(how, "short");
    is_rest = how && !strcmp(how, "rest");
    told_to = tell ? atoi(tell) : -1;
    piece = most ? (size_t)atol(most) : SIZE_MAX;
    for (int i = ALLOC; i <= WRITE; i++)
        if (!strcmp(name, names[i]))
            kind = i;
}

static int is_the_one(enum kind of) {
    if (of != kind)
        return 0;
    long behind = __atomic_sub_fetch(&left, 1, __ATOMIC_RELAXED);
    return behind == 0 || (is_rest && behind < 0);
}

// Writes a line on the call, once: its name, a number, and a file.
static void tell(const char *name, long number, const char *file) {
    char line[5000];
    int length = snprintf(line, sizeof line, "%s %ld %s\n", name, number, file);
    int to = __atomic_exchange_n(&told_to, -1, __ATOMIC_RELAXED);
    if (to >= 0 && length > 0 && length < (int)sizeof line)
        syscall(SYS_write, to, line, (size_t)length);
}

// Tells of a call on an open file, by the path that it has.
static void tell_of(const char *name, long number, int file) {
    char link[32], path[4096];
    snprintf(link, sizeof link, "/proc/self/fd/%d", file);
    ssize_t length = readlink(link, path, sizeof path - 1);
    path[length < 0 ? 0 : length] = 0;
    tell(name, number, path);
}

static void *no_memory(const char *name, size_t size) {
    tell(name, (long)size, "");
    errno = ENOMEM;
    return NULL;
}

static ssize_t fault(const char *name, long number, int file) {
    tell_of(name, number, file);
    errno = EIO;
    return -1;
}

// Allocations

void *malloc(size_t size) {
    return is_the_one(ALLOC) ? no_memory("malloc", size) : __libc_malloc(size);
}

void *calloc(size_t count, size_t size) {
    return is_the_one(ALLOC) ? no_memory("calloc", count * size) : __libc_calloc(count, size);
}

void *realloc(void *old, size_t size) {
    return is_the_one(ALLOC) ? no_memory("realloc", size) : __libc_realloc(old, size);
}

void *aligned_alloc(size_t alignment, size_t size) {
    return is_the_one(ALLOC) ? no_memory("aligned_alloc", size) : __libc_memalign(alignment, size);
}

int posix_memalign(void **made, size_t alignment, size_t size) {
    void *block = is_the_one(ALLOC) ? no_memory("posix_memalign", size) : __libc_memalign(alignment, size);
    if (!block)
        return ENOMEM;
    *made = block;
    return 0;
}

// Files

static int open_at(int folder, const char *path, int flags, mode_t mode) {
    if (!is_the_one(OPEN))
        return (int)syscall(SYS_openat, folder, path, flags, mode);
    tell("open", 0, path);
    errno = EIO;
    return -1;
}

// The last argument of an open, which is there where the flags say so.
#define MODE_BEHIND(flags, mode)                                                                                       \
    mode_t mode = 0;                                                                                                   \
    if ((flags) & (O_CREAT | O_TMPFILE)) {                                                                             \
        va_list more;                                                                                                  \
        va_start(more, flags);                                                                                         \
        mode = va_arg(more, mode_t);                                                                                   \
        va_end(more);                                                                                                  \
    }

int open(const char *path, int flags, ...) {
    MODE_BEHIND(flags, mode)
    return open_at(AT_FDCWD, path, flags, mode);
}

int open64(const char *path, int flags, ...) {
    MODE_BEHIND(flags, mode)
    return open_at(AT_FDCWD, path, flags, mode);
}

int openat(int folder, const char *path, int flags, ...) {
    MODE_BEHIND(flags, mode)
    return open_at(folder, path, flags, mode);
}

int openat64(int folder, const char *path, int flags, ...) {
    MODE_BEHIND(flags, mode)
    return open_at(folder, path, flags, mode);
}

ssize_t read(int file, void *bytes, size_t size) {
    int is_one = is_the_one(READ);
    if (is_one && !is_short)
        return fault("read", 0, file);
    size = size < piece ? size : piece;
    ssize_t count = syscall(SYS_read, file, bytes, size);
    if (!is_one)
        return count;
    tell_of("read", (long)count, file);
    // Half of what was there is given, and the file stands behind that.
    if (count < 2 || lseek(file, count / 2 - count, SEEK_CUR) < 0)
        return count;
    return count / 2;
}

ssize_t pread64(int file, void *bytes, size_t size, off64_t at) {
    int is_one = is_the_one(READ);
    if (is_one && !is_short)
        return fault("pread64", 0, file);
    size = size < piece ? size : piece;
    ssize_t count = syscall(SYS_pread64, file, bytes, size, at);
    if (!is_one)
        return count;
    tell_of("pread64", (long)count, file);
    return count < 2 ? count : count / 2;
}

ssize_t pread(int file, void *bytes, size_t size, off_t at) {
    return pread64(file, bytes, size, at);
}

ssize_t write(int file, const void *bytes, size_t size) {
    size = size < piece ? size : piece;
    if (!is_the_one(WRITE))
        return syscall(SYS_write, file, bytes, size);
    if (!is_short)
        return fault("write", (long)size, file);
    tell_of("write", (long)size, file);
    return syscall(SYS_write, file, bytes, size < 2 ? size : size / 2);
}

// Of several parts the first one alone is read or written, as such a call may do.

ssize_t readv(int file, const struct iovec *parts, int count) {
    return count > 0 ? read(file, parts[0].iov_base, parts[0].iov_len) : 0;
}

ssize_t writev(int file, const struct iovec *parts, int count) {
    return count > 0 ? write(file, parts[0].iov_base, parts[0].iov_len) : 0;
}
