/* Waiting goes to the C library, since a node's descriptor is ready by itself. But by frames the server is
 * told of it first, and where time is virtual it says when a wait is over (virtual.c). */
#include "shim.h"

#include <errno.h>
#include <poll.h>
#include <signal.h>
#include <sys/epoll.h>
#include <sys/select.h>
#include <sys/syscall.h>
#include <time.h>
#include <unistd.h>

bool tell_wait(int descriptor) {
    struct question question = {.request = {.kind = ASK_WAIT}, .brings = descriptor};
    return ask(&question) == -EINTR;
}

static bool tells(void) {
    return atomic_load_explicit(&may_have_nodes, memory_order_relaxed) && shim_run()->is_by_frames;
}

static bool tell_poll(const struct pollfd *files, nfds_t count) {
    bool any = false;
    for (nfds_t i = 0; i < count; i++)
        if (node_of_descriptor(files[i].fd) >= 0) {
            any = true;
            if (tell_wait(files[i].fd))
                return true;
        }
    return !any && tell_wait(-1);
}

static bool tell_select(int count, const fd_set *files) {
    bool any = false;
    for (int i = 0; files && i < count; i++)
        if (FD_ISSET(i, files) && node_of_descriptor(i) >= 0) {
            any = true;
            if (tell_wait(i))
                return true;
        }
    return !any && tell_wait(-1);
}

static bool is_some(const struct timespec *time) {
    return !time || time->tv_sec || time->tv_nsec;
}

static int interrupted(void) {
    errno = EINTR;
    return -1;
}

/** The sets of a select. */
struct sets {
    fd_set *in, *out, *odd;
};

static short wanted_of(const struct sets *sets, int descriptor) {
    bool in = sets->in && FD_ISSET(descriptor, sets->in), out = sets->out && FD_ISSET(descriptor, sets->out);
    bool odd = sets->odd && FD_ISSET(descriptor, sets->odd);
    return (short)((in ? POLLIN : 0) | (out ? POLLOUT : 0) | (odd ? POLLPRI : 0));
}

/* Waits for the files as a poll does; which of them are ready a select tells then. */
static int select_virtually(int count, const struct sets *sets, uint64_t until, const sigset_t *mask) {
    struct pollfd files[FD_SETSIZE];
    nfds_t wanted = 0;
    for (int i = 0; i < count && i < FD_SETSIZE; i++)
        if (wanted_of(sets, i))
            files[wanted++] = (struct pollfd){.fd = i, .events = wanted_of(sets, i)};
    if (wait_virtually(files, wanted, until, mask) < 0)
        return -1;
    struct timespec none = {0};
    return (int)syscall(SYS_pselect6, count, sets->in, sets->out, sets->odd, &none, NULL);
}

static int epoll_virtually(int descriptor, struct epoll_event *events, int count, uint64_t until,
                           const sigset_t *mask) {
    struct pollfd file = {.fd = descriptor, .events = POLLIN};
    if (wait_virtually(&file, 1, until, mask) < 0)
        return -1;
    return (int)syscall(SYS_epoll_pwait, descriptor, events, count, 0, NULL, 0);
}

static struct timespec time_in(int milliseconds) {
    return (struct timespec){.tv_sec = milliseconds / 1000, .tv_nsec = milliseconds % 1000 * 1000000L};
}

/* The virtual moment in so many milliseconds; below 0: never. */
static uint64_t moment_of(int milliseconds) {
    struct timespec time = time_in(milliseconds);
    return milliseconds < 0 ? UINT64_MAX : moment_in(&time);
}

EXPORT int poll(struct pollfd *files, nfds_t count, int time) {
    REAL(poll);
    if (is_virtual())
        return wait_virtually(files, count, moment_of(time), NULL);
    return time && tells() && tell_poll(files, count) ? interrupted() : real(files, count, time);
}

EXPORT int ppoll(struct pollfd *files, nfds_t count, const struct timespec *time, const sigset_t *mask) {
    REAL(ppoll);
    if (is_virtual())
        return wait_virtually(files, count, moment_in(time), mask);
    return tells() && is_some(time) && tell_poll(files, count) ? interrupted()
                                                               : real(files, count, time, mask);
}

EXPORT int select(int count, fd_set *restrict in, fd_set *restrict out, fd_set *restrict odd,
                  struct timeval *restrict time) {
    REAL(select);
    if (is_virtual()) {
        struct timespec length = time ? (struct timespec){time->tv_sec, time->tv_usec * 1000L} : time_in(0);
        return select_virtually(count, &(struct sets){in, out, odd}, moment_in(time ? &length : NULL), NULL);
    }
    bool is_waiting = !time || time->tv_sec || time->tv_usec;
    return tells() && is_waiting && tell_select(count, in) ? interrupted() : real(count, in, out, odd, time);
}

EXPORT int pselect(int count, fd_set *restrict in, fd_set *restrict out, fd_set *restrict odd,
                   const struct timespec *restrict time, const sigset_t *restrict mask) {
    REAL(pselect);
    if (is_virtual())
        return select_virtually(count, &(struct sets){in, out, odd}, moment_in(time), mask);
    return tells() && is_some(time) && tell_select(count, in) ? interrupted()
                                                              : real(count, in, out, odd, time, mask);
}

EXPORT int epoll_wait(int descriptor, struct epoll_event *events, int count, int time) {
    REAL(epoll_wait);
    if (is_virtual() && time)
        return epoll_virtually(descriptor, events, count, moment_of(time), NULL);
    return time && tells() && tell_wait(-1) ? interrupted() : real(descriptor, events, count, time);
}

EXPORT int epoll_pwait(int descriptor, struct epoll_event *events, int count, int time,
                       const sigset_t *mask) {
    REAL(epoll_pwait);
    if (is_virtual() && time)
        return epoll_virtually(descriptor, events, count, moment_of(time), mask);
    return time && tells() && tell_wait(-1) ? interrupted() : real(descriptor, events, count, time, mask);
}

EXPORT int epoll_pwait2(int descriptor, struct epoll_event *events, int count, const struct timespec *time,
                        const sigset_t *mask) {
    REAL(epoll_pwait2);
    if (is_virtual() && is_some(time))
        return epoll_virtually(descriptor, events, count, moment_in(time), mask);
    return tells() && is_some(time) && tell_wait(-1) ? interrupted()
                                                     : real(descriptor, events, count, time, mask);
}

/* The names that programs call that were compiled with checks of buffers. */
int __poll_chk(struct pollfd *files, nfds_t count, int time, size_t size);
int __ppoll_chk(struct pollfd *files, nfds_t count, const struct timespec *time, const sigset_t *mask,
                size_t size);

EXPORT int __poll_chk(struct pollfd *files, nfds_t count, int time, size_t size) {
    (void)size;
    return poll(files, count, time);
}

EXPORT int __ppoll_chk(struct pollfd *files, nfds_t count, const struct timespec *time, const sigset_t *mask,
                       size_t size) {
    (void)size;
    return ppoll(files, count, time, mask);
}
