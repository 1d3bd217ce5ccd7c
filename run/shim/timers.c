/* Timers that are files (timerfd), where time is virtual: each is an open file of the server's, as a node. */
#include "shim.h"

#include <errno.h>
#include <fcntl.h>
#include <sys/timerfd.h>

/* (Flags of a timer are those of an open.) */
EXPORT int timerfd_create(int clock, int flags) {
    REAL(timerfd_create);
    if (!is_virtual() || clock < 0 || clock >= DEVICES || flags & ~(TFD_CLOEXEC | TFD_NONBLOCK))
        return real(clock, flags);
    return open_node(timer_node(clock), flags | O_RDWR);
}

static bool is_timer(int descriptor) {
    int node = node_of_descriptor(descriptor);
    return node >= 0 && kind_of_node(node) == NODE_TIMER;
}

static struct timespec time_of(uint64_t microseconds) {
    return (struct timespec){.tv_sec = (time_t)(microseconds / 1000000),
                             .tv_nsec = (long)(microseconds % 1000000) * 1000};
}

static int ask_timer(int descriptor, uint32_t number, struct timer_setting *setting) {
    struct question question = {.request = {.kind = ASK_IOCTL, .number = number},
                                .brings = descriptor,
                                .sent_count = number == TIMER_SET,
                                .answer = {setting, sizeof *setting}};
    question.sent[0] = (struct iovec){setting, sizeof *setting};
    return ask(&question);
}

static void take_setting(const struct timer_setting *setting, struct itimerspec *time) {
    if (time)
        *time = (struct itimerspec){time_of(setting->interval), time_of(setting->value)};
}

EXPORT int timerfd_settime(int descriptor, int flags, const struct itimerspec *time, struct itimerspec *old) {
    REAL(timerfd_settime);
    if (!is_timer(descriptor))
        return real(descriptor, flags, time, old);
    struct timer_setting setting = {.value = microseconds_of(&time->it_value),
                                    .interval = microseconds_of(&time->it_interval),
                                    .is_absolute = flags & TFD_TIMER_ABSTIME};
    int result = ask_timer(descriptor, TIMER_SET, &setting);
    if (result >= 0)
        take_setting(&setting, old);
    return (int)with_errno(result < 0 ? result : 0);
}

EXPORT int timerfd_gettime(int descriptor, struct itimerspec *time) {
    REAL(timerfd_gettime);
    struct timer_setting setting;
    if (!is_timer(descriptor))
        return real(descriptor, time);
    int result = ask_timer(descriptor, TIMER_GET, &setting);
    if (result >= 0)
        take_setting(&setting, time);
    return (int)with_errno(result < 0 ? result : 0);
}
