/*
 * The shim: a shared object that a program loads before the C library. It takes over the calls that the
 * program makes on nodes of a played device, and hands on all others. The library is not in it; each call on
 * a node is a request to the server.
 */
#ifndef INPUTPLAY_RUN_SHIM_H
#define INPUTPLAY_RUN_SHIM_H

#include "protocol.h"

#include <dlfcn.h>
#include <poll.h>
#include <signal.h>
#include <stdatomic.h>
#include <stdbool.h>
#include <stddef.h>
#include <stdint.h>
#include <sys/uio.h>
#include <time.h>

enum { PATH_ROOM = 4096 };

#define EXPORT __attribute__((visibility("default")))

/** The function of this name that comes behind the shim, as `real`: the C library's, or another shim's. */
#define REAL(name) \
    static _Atomic(void *) found; \
    __typeof__(&name) real = (__typeof__(&name))real_function(&found, #name)

static inline void *real_function(_Atomic(void *) *found, const char *name) {
    void *function = atomic_load_explicit(found, memory_order_relaxed);
    if (!function) {
        function = dlsym(RTLD_NEXT, name);
        atomic_store_explicit(found, function, memory_order_relaxed);
    }
    return function;
}

/** What the environment says of the run. */
struct run {
    char folder[PATH_ROOM]; /**< Empty where the program is in no run. */
    char root[PATH_ROOM];   /**< Where the folder sys stands in truth: umockdev shows another one. */
    uint64_t number;        /**< Of the names of the run's ends. */
    int first_number;       /**< The number of the first node. */
    bool is_by_frames;      /**< Frames come where programs wait, so they say when they do. */
};

/** The run, which is read from the environment once. (run.c) */
const struct run *shim_run(void);

/** Whether this process may have a descriptor of a node. Where not, no call looks at descriptors. (run.c) */
extern atomic_bool may_have_nodes;

/** The node that a path below /dev names, or -1. (paths.c) */
int node_of_dev_path(const char *path);

/** Where a path below /dev, /run or /sys stands in truth. (paths.c) */
const char *true_dev_path(const char *path, char *room, size_t size);

/** Whether a path begins as those do that the shim may have to do with. Most do not. */
static inline bool may_be_mapped(const char *path) {
    return path && path[0] == '/' && (path[1] == 'd' || path[1] == 'r' || path[1] == 's');
}

/** The node that a path names, or -1. */
static inline int node_of_path(const char *path) {
    return may_be_mapped(path) ? node_of_dev_path(path) : -1;
}

/** Where a path stands in truth: one below /dev/input in the run's folder, any other where it is. */
static inline const char *true_path(const char *path, char *room, size_t size) {
    return may_be_mapped(path) ? true_dev_path(path, room, size) : path;
}

/** The major and the minor number of a node. (paths.c) */
unsigned major_of_node(int node);
unsigned minor_of_node(int node);

/** The node that a socket's other end is named for, or -1. (descriptors.c) */
int node_of_peer(int descriptor);

/** The node that a descriptor is of, or -1. */
static inline int node_of_descriptor(int descriptor) {
    return atomic_load_explicit(&may_have_nodes, memory_order_relaxed) ? node_of_peer(descriptor) : -1;
}

/** Looks for nodes among descriptors that the program was started with. (descriptors.c) */
void look_at_descriptors(void);

/** A request, with what it reads and where its answer goes, in the program's memory. */
struct question {
    struct request request;
    int brings; /**< The descriptor that it is about, or -1. */
    struct iovec sent[2];
    int sent_count;
    struct iovec answer;
};

/** Asks the server: its result, of an open the new descriptor. A server that has gone or says nothing is
 * -ENODEV. (asking.c) */
int ask(struct question *question);

/** The connection to the server, as long as one request is under way. (connection.c) */
struct line {
    int descriptor; /**< -1: there is no server. */
    bool is_kept;   /**< It is the thread's own, which is used again. */
};
struct line line_begin(void);
void line_end(struct line line, bool is_good);

/** The program is going to wait, for a node's descriptor or (-1) for others: true where a signal comes
 * instead. (waits.c) */
bool tell_wait(int descriptor);

/** Copies from the program's memory: false where it is not there. (memory.c) */
bool copy_from_program(void *to, const void *from, size_t length);

/** Copies a text with its NUL from the program's memory: its length with the NUL, or -EFAULT, or -EINVAL
 * where there is no room for it. (memory.c) */
long copy_text_from_program(char *to, const char *from, size_t room);

/** Opens a node: its descriptor, or -1 and errno. (files.c) */
int open_node(int node, int flags);

/** Where time is virtual, shows its clock. (time.c) */
void show_virtual_clock(const char *folder);

/** Whether time is virtual, and how late it is then, in microseconds of the monotonic clock. (time.c) */
bool is_virtual(void);
uint64_t virtual_now(void);

/** A time in microseconds, rounded up; and the virtual moment in that time, for NULL the last one there is.
 * (virtual.c) */
uint64_t microseconds_of(const struct timespec *time);
uint64_t moment_in(const struct timespec *time);

/** Waits for files up to a virtual moment, as ppoll() does. (virtual.c) */
int wait_virtually(struct pollfd *files, nfds_t count, uint64_t until, const sigset_t *mask);

/** A wait for what is no file, with no end: false where it was not told. And its end. (virtual.c) */
bool begin_wait(struct line *line);
void end_wait(struct line line);

/** Tells the server of a process that begins; 0: this one. (virtual.c) */
void tell_begin(pid_t process);

/** A system call's result: what it gives, or -1 and errno. */
long with_errno(long result);

#endif
