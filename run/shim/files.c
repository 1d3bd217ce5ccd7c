/* Opens, reads, writes and requests. */
#include "shim.h"

#include <errno.h>
#include <fcntl.h>
#include <limits.h>
#include <linux/joystick.h>
#include <stdarg.h>
#include <stdlib.h>
#include <string.h>
#include <sys/socket.h>
#include <sys/syscall.h>
#include <unistd.h>

int open_node(int node, int flags) {
    struct question question = {.request = {.kind = ASK_OPEN, .node = node, .flags = (uint32_t)flags},
                                .brings = -1};
    const char *root = shim_run()->root;
    question.sent[0] = (struct iovec){(void *)(uintptr_t)root, strlen(root) + 1};
    question.sent_count = node == maker_node();
    int result = ask(&question);
    if (result >= 0)
        atomic_store_explicit(&may_have_nodes, true, memory_order_relaxed);
    return (int)with_errno(result);
}

/* Waits until the byte is there that says "events are there". (A signal's handler with SA_RESTART goes on
 * with this, as it does with a read of the kernel's.) */
static int wait_for_byte(int descriptor) {
    char byte;
    return syscall(SYS_recvfrom, descriptor, &byte, 1, MSG_PEEK, NULL, NULL) < 0 ? -errno : 0;
}

static long read_node(int descriptor, void *to, size_t length) {
    uint32_t room = length < PAYLOAD_MAX ? (uint32_t)length : PAYLOAD_MAX;
    for (;;) {
        struct question question = {
            .request = {.kind = ASK_READ, .room = room}, .brings = descriptor, .answer = {to, room}};
        int result = ask(&question);
        if (result != -EAGAIN || syscall(SYS_fcntl, descriptor, F_GETFL) & O_NONBLOCK)
            return result;
        int error = wait_for_byte(descriptor);
        if (error == -EINTR)
            return error;
    }
}

static long write_node(int descriptor, const void *from, size_t length) {
    struct question question = {.request = {.kind = ASK_WRITE}, .brings = descriptor, .sent_count = 1};
    question.sent[0] = (struct iovec){(void *)(uintptr_t)from, length < PAYLOAD_MAX ? length : PAYLOAD_MAX};
    return ask(&question);
}

static mode_t mode_of(int flags, va_list words) {
    return flags & (O_CREAT | (O_TMPFILE & ~O_DIRECTORY)) ? va_arg(words, mode_t) : 0;
}

#define OPEN(name) \
    EXPORT int name(const char *path, int flags, ...) { \
        REAL(name); \
        char room[PATH_MAX]; \
        va_list words; \
        va_start(words, flags); \
        mode_t mode = mode_of(flags, words); \
        va_end(words); \
        int node = flags & O_PATH ? -1 : node_of_path(path); \
        return node >= 0 ? open_node(node, flags) : real(true_path(path, room, sizeof room), flags, mode); \
    }

#define OPENAT(name) \
    EXPORT int name(int at, const char *path, int flags, ...) { \
        REAL(name); \
        char room[PATH_MAX]; \
        va_list words; \
        va_start(words, flags); \
        mode_t mode = mode_of(flags, words); \
        va_end(words); \
        int node = flags & O_PATH ? -1 : node_of_path(path); \
        return node >= 0 ? open_node(node, flags) \
                         : real(at, true_path(path, room, sizeof room), flags, mode); \
    }

OPEN(open)
OPEN(open64)
OPENAT(openat)
OPENAT(openat64)

/* The names that programs call that were compiled with checks of buffers. */
int __open_2(const char *path, int flags);
int __open64_2(const char *path, int flags);
int __openat_2(int at, const char *path, int flags);
int __openat64_2(int at, const char *path, int flags);
ssize_t __read_chk(int descriptor, void *to, size_t length, size_t size);

EXPORT int __open_2(const char *path, int flags) {
    return open(path, flags);
}

EXPORT int __open64_2(const char *path, int flags) {
    return open64(path, flags);
}

EXPORT int __openat_2(int at, const char *path, int flags) {
    return openat(at, path, flags);
}

EXPORT int __openat64_2(int at, const char *path, int flags) {
    return openat64(at, path, flags);
}

EXPORT ssize_t read(int descriptor, void *to, size_t length) {
    REAL(read);
    if (node_of_descriptor(descriptor) < 0)
        return real(descriptor, to, length);
    return with_errno(read_node(descriptor, to, length));
}

EXPORT ssize_t __read_chk(int descriptor, void *to, size_t length, size_t size) {
    if (length > size)
        abort();
    return read(descriptor, to, length);
}

/* (A read or a write of several parts does the first that is not empty.) */
static struct iovec first_part(const struct iovec *parts, int count) {
    int at = 0;
    while (at < count - 1 && !parts[at].iov_len)
        at++;
    return count > 0 ? parts[at] : (struct iovec){0};
}

EXPORT ssize_t readv(int descriptor, const struct iovec *parts, int count) {
    REAL(readv);
    if (node_of_descriptor(descriptor) < 0)
        return real(descriptor, parts, count);
    struct iovec part = first_part(parts, count);
    return with_errno(read_node(descriptor, part.iov_base, part.iov_len));
}

EXPORT ssize_t write(int descriptor, const void *from, size_t length) {
    REAL(write);
    if (node_of_descriptor(descriptor) < 0)
        return real(descriptor, from, length);
    return with_errno(write_node(descriptor, from, length));
}

EXPORT ssize_t writev(int descriptor, const struct iovec *parts, int count) {
    REAL(writev);
    if (node_of_descriptor(descriptor) < 0)
        return real(descriptor, parts, count);
    struct iovec part = first_part(parts, count);
    return with_errno(write_node(descriptor, part.iov_base, part.iov_len));
}
