/* The connection to the server. A thread keeps its own, and uses it where it is still its own: not after a
 * fork, nor where the program has closed it. All of it is by system calls, for other shims (umockdev's) take
 * socket and connect over. */
#include "shim.h"

#include <errno.h>
#include <fcntl.h>
#include <pthread.h>
#include <stdio.h>
#include <sys/socket.h>
#include <sys/stat.h>
#include <sys/syscall.h>
#include <sys/time.h>
#include <sys/un.h>
#include <unistd.h>

enum { OUT_OF_THE_WAY = 200 };

static _Thread_local struct kept {
    int descriptor;
    bool is_there;
    bool is_busy; /**< A request is under way; what a signal's handler asks meanwhile has a connection of its
                     own. */
    pid_t process;
    ino_t inode;
} kept;

static pthread_key_t at_end;
static pthread_once_t once = PTHREAD_ONCE_INIT;

static pid_t process_id(void) {
    return (pid_t)syscall(SYS_getpid);
}

static bool is_own(void) {
    struct stat status;
    return kept.is_there && kept.process == process_id() && !syscall(SYS_fstat, kept.descriptor, &status) &&
           status.st_ino == kept.inode && S_ISSOCK(status.st_mode);
}

static void close_kept(void *unused) {
    (void)unused;
    if (is_own())
        syscall(SYS_close, kept.descriptor);
    kept.is_there = false;
}

static void make_key(void) {
    pthread_key_create(&at_end, close_kept);
}

/* A high number, so that the descriptor that an open gives is the lowest that is free, as the program may
 * expect. */
static int moved_up(int descriptor) {
    int high = (int)syscall(SYS_fcntl, descriptor, F_DUPFD_CLOEXEC, OUT_OF_THE_WAY);
    if (high < 0)
        return descriptor;
    syscall(SYS_close, descriptor);
    return high;
}

static int connected(void) {
    struct sockaddr_un name = {.sun_family = AF_UNIX};
    struct timeval patience = {.tv_sec = ANSWER_SECONDS};
    int length = snprintf(name.sun_path, sizeof name.sun_path, "%s/" SOCKET_NAME, shim_run()->folder);
    int descriptor = (int)syscall(SYS_socket, AF_UNIX, SOCK_SEQPACKET | SOCK_CLOEXEC, 0);
    long made;
    if (descriptor < 0 || length >= (int)sizeof name.sun_path)
        return -1;
    descriptor = moved_up(descriptor);
    syscall(SYS_setsockopt, descriptor, SOL_SOCKET, SO_RCVTIMEO, &patience, sizeof patience);
    syscall(SYS_setsockopt, descriptor, SOL_SOCKET, SO_SNDTIMEO, &patience, sizeof patience);
    do
        made = syscall(SYS_connect, descriptor, &name, sizeof name);
    while (made < 0 && errno == EINTR);
    if (made < 0)
        syscall(SYS_close, descriptor);
    return made < 0 ? -1 : descriptor;
}

struct line line_begin(void) {
    struct stat status;
    if (kept.is_busy)
        return (struct line){.descriptor = connected()};
    kept.is_busy = true;
    if (!is_own()) {
        kept.descriptor = connected();
        kept.process = process_id();
        kept.is_there = kept.descriptor >= 0 && !syscall(SYS_fstat, kept.descriptor, &status);
        kept.inode = kept.is_there ? status.st_ino : 0;
        pthread_once(&once, make_key);
        pthread_setspecific(at_end, &kept);
    }
    return (struct line){.descriptor = kept.descriptor, .is_kept = true};
}

void line_end(struct line line, bool is_good) {
    if (line.descriptor >= 0 && (!line.is_kept || !is_good))
        syscall(SYS_close, line.descriptor);
    if (!line.is_kept)
        return;
    kept.is_busy = false;
    kept.is_there = is_good;
}
