/* The clocks and the sleeps, where time is virtual (--virtual). A clock that counts what a process uses of a
 * processor is not. */
#include "shim.h"

#include <errno.h>
#include <fcntl.h>
#include <stdio.h>
#include <sys/mman.h>
#include <sys/syscall.h>
#include <sys/time.h>
#include <time.h>
#include <unistd.h>

enum { SECOND_US = 1000000, MICRO_NS = 1000 };

static const struct virtual_clock *shown;

void show_virtual_clock(const char *folder) {
    char path[PATH_ROOM + sizeof CLOCK_NAME + 1];
    snprintf(path, sizeof path, "%s/" CLOCK_NAME, folder);
    long file = syscall(SYS_openat, AT_FDCWD, path, O_RDONLY | O_CLOEXEC);
    void *place = file < 0 ? MAP_FAILED : mmap(NULL, sizeof *shown, PROT_READ, MAP_SHARED, (int)file, 0);
    if (file >= 0)
        syscall(SYS_close, file);
    shown = place == MAP_FAILED ? NULL : place;
}

bool is_virtual(void) {
    shim_run();
    return shown;
}

uint64_t virtual_now(void) {
    return __atomic_load_n(&shown->now, __ATOMIC_ACQUIRE);
}

/* How far a clock is ahead of the monotonic one; false where it is none of those that tell the time. */
static bool take_ahead(clockid_t clock, uint64_t *ahead) {
    *ahead = 0;
    switch (clock) {
    case CLOCK_REALTIME:
    case CLOCK_REALTIME_COARSE:
    case CLOCK_REALTIME_ALARM:
    case CLOCK_TAI: *ahead = shown->realtime_ahead; return true;
    case CLOCK_BOOTTIME:
    case CLOCK_BOOTTIME_ALARM: *ahead = shown->boottime_ahead; return true;
    case CLOCK_MONOTONIC:
    case CLOCK_MONOTONIC_RAW:
    case CLOCK_MONOTONIC_COARSE: return true;
    default: return false;
    }
}

static struct timespec time_of(uint64_t moment) {
    return (struct timespec){.tv_sec = (time_t)(moment / SECOND_US),
                             .tv_nsec = (long)(moment % SECOND_US) * MICRO_NS};
}

EXPORT int clock_gettime(clockid_t clock, struct timespec *time) {
    REAL(clock_gettime);
    uint64_t ahead;
    if (!is_virtual() || !take_ahead(clock, &ahead))
        return real(clock, time);
    *time = time_of(virtual_now() + ahead);
    return 0;
}

EXPORT int gettimeofday(struct timeval *restrict time, void *restrict zone) {
    REAL(gettimeofday);
    if (!is_virtual())
        return real(time, zone);
    uint64_t moment = virtual_now() + shown->realtime_ahead;
    *time = (struct timeval){.tv_sec = (time_t)(moment / SECOND_US),
                             .tv_usec = (suseconds_t)(moment % SECOND_US)};
    return 0;
}

EXPORT time_t time(time_t *told) {
    REAL(time);
    if (!is_virtual())
        return real(told);
    time_t now = (time_t)((virtual_now() + shown->realtime_ahead) / SECOND_US);
    if (told)
        *told = now;
    return now;
}

/* Sleeps up to a moment: 0 or EINTR. What is left is told of a sleep that has a length. */
static int sleep_until(uint64_t until, struct timespec *left) {
    uint64_t now = virtual_now();
    int result = until > now ? wait_virtually(NULL, 0, until, NULL) : 0;
    now = virtual_now();
    if (result < 0 && left)
        *left = time_of(until > now ? until - now : 0);
    return result < 0 ? EINTR : 0;
}

static bool is_time(const struct timespec *time) {
    return time->tv_sec >= 0 && time->tv_nsec >= 0 && time->tv_nsec < SECOND_US * MICRO_NS;
}

EXPORT int clock_nanosleep(clockid_t clock, int flags, const struct timespec *time, struct timespec *left) {
    REAL(clock_nanosleep);
    uint64_t ahead;
    if (!is_virtual() || !take_ahead(clock, &ahead))
        return real(clock, flags, time, left);
    if (!is_time(time))
        return EINVAL;
    uint64_t length = microseconds_of(time);
    if (!(flags & TIMER_ABSTIME))
        return sleep_until(virtual_now() + length, left);
    return sleep_until(length > ahead ? length - ahead : 0, NULL);
}

EXPORT int nanosleep(const struct timespec *time, struct timespec *left) {
    REAL(nanosleep);
    if (!is_virtual())
        return real(time, left);
    int error = clock_nanosleep(CLOCK_MONOTONIC, 0, time, left);
    if (error)
        errno = error;
    return error ? -1 : 0;
}

EXPORT int usleep(useconds_t length) {
    REAL(usleep);
    struct timespec time = time_of(length);
    return is_virtual() ? nanosleep(&time, NULL) : real(length);
}

EXPORT unsigned sleep(unsigned seconds) {
    REAL(sleep);
    struct timespec time = {.tv_sec = (time_t)seconds}, left = {0};
    if (!is_virtual())
        return real(seconds);
    return nanosleep(&time, &left) ? (unsigned)left.tv_sec + (left.tv_nsec > 0) : 0;
}
