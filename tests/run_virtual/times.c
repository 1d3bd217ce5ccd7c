/* Clocks, sleeps, timeouts and timers of virtual time; run by tools/run --virtual on keys.rec, whose lines
 * come at 2, 2.5 and 60 seconds. A minute and more goes by in it; `times` says that it took less. */
#include "../run_calls/check.h"

#include <fcntl.h>
#include <linux/input.h>
#include <poll.h>
#include <stdint.h>
#include <string.h>
#include <sys/epoll.h>
#include <sys/ioctl.h>
#include <sys/select.h>
#include <sys/time.h>
#include <sys/timerfd.h>
#include <sys/wait.h>
#include <time.h>
#include <unistd.h>

#define NODE "/dev/input/event0"

static struct input_event events[8];

static long us_of(const struct timespec *time) {
    return time->tv_sec * 1000000 + time->tv_nsec / 1000;
}

static long now_by(clockid_t clock) {
    struct timespec time;
    clock_gettime(clock, &time);
    return us_of(&time);
}

static long now(void) {
    return now_by(CLOCK_MONOTONIC);
}

static void clocks(void) {
    struct timeval day;
    CHECK(now() == 2000000 && now_by(CLOCK_MONOTONIC_RAW) == 2000000);
    CHECK(now_by(CLOCK_REALTIME) == 5002000000 && now_by(CLOCK_BOOTTIME) == 9000000);
    CHECK(time(NULL) == 5002 && gettimeofday(&day, NULL) == 0 && day.tv_sec == 5002 && day.tv_usec == 0);
    CHECK(now_by(CLOCK_PROCESS_CPUTIME_ID) < 2000000);
}

static void sleeps(void) {
    struct timespec length = {10, 250}, until = {5020, 0}, wrong = {0, -1};
    long begun = now();
    CHECK(nanosleep(&length, NULL) == 0 && now() == begun + 10000001);
    CHECK(usleep(5) == 0 && sleep(2) == 0 && now() == begun + 12000006);
    CHECK(clock_nanosleep(CLOCK_REALTIME, TIMER_ABSTIME, &until, NULL) == 0 && now() == 20000000);
    CHECK(clock_nanosleep(CLOCK_REALTIME, TIMER_ABSTIME, &until, NULL) == 0 && now() == 20000000);
    FAILS(nanosleep(&wrong, NULL), EINVAL);
}

/* A pipe wakes a wait though no time goes by; an alarm, which is no part of it, does so too. */
static void wakes_by_others(void) {
    int ends[2], status;
    struct pollfd file = {.events = POLLIN};
    long begun = now();
    CHECK(pipe(ends) == 0);
    file.fd = ends[0];
    CHECK(poll(&file, 1, 250) == 0 && now() == begun + 250000);
    if (!fork()) {
        sleep(1);
        _exit(write(ends[1], "x", 1) != 1);
    }
    CHECK(poll(&file, 1, 5000) == 1 && file.revents == POLLIN && now() == begun + 1250000);
    CHECK(wait(&status) > 0 && status == 0);
}

static void timers(void) {
    int plain = timerfd_create(CLOCK_MONOTONIC, TFD_CLOEXEC | TFD_NONBLOCK);
    int waits = timerfd_create(CLOCK_REALTIME, 0), set = epoll_create1(0);
    struct itimerspec time = {.it_value = {0, 300000}, .it_interval = {1, 0}}, told;
    struct epoll_event event = {.events = EPOLLIN};
    uint64_t times = 0;
    long begun = now();
    CHECK(plain >= 0 && fcntl(plain, F_GETFL) & O_NONBLOCK && fcntl(plain, F_GETFD) == FD_CLOEXEC);
    FAILS(read(plain, &times, sizeof times), EAGAIN);
    CHECK(timerfd_settime(plain, 0, &time, NULL) == 0 && timerfd_gettime(plain, &told) == 0);
    CHECK(us_of(&told.it_value) == 300 && told.it_interval.tv_sec == 1);
    CHECK(epoll_ctl(set, EPOLL_CTL_ADD, plain, &event) == 0 && epoll_wait(set, &event, 1, 0) == 0);
    CHECK(epoll_wait(set, &event, 1, -1) == 1 && now() == begun + 300);
    CHECK(read(plain, &times, sizeof times) == 8 && times == 1);
    CHECK(sleep(5) == 0 || now() > begun);
    while (now() < begun + 3500000)
        sleep(1);
    CHECK(read(plain, &times, sizeof times) == 8 && times >= 3);
    FAILS(read(plain, &times, 7), EINVAL);
    memset(&time, 0, sizeof time);
    CHECK(timerfd_settime(plain, 0, &time, &told) == 0 && told.it_interval.tv_sec == 1);
    CHECK(epoll_wait(set, &event, 1, 2000) == 0);
    time.it_value.tv_sec = now() / 1000000 + 5000 + 3;
    CHECK(timerfd_settime(waits, TFD_TIMER_ABSTIME, &time, NULL) == 0);
    CHECK(read(waits, &times, sizeof times) == 8 && times == 1);
    CHECK(now_by(CLOCK_REALTIME) == time.it_value.tv_sec * 1000000L);
    close(plain);
    close(waits);
    close(set);
}

/* The record's lines begin where programs wait with a node open, and keep their distances. */
static void lines(void) {
    int node = open(NODE, O_RDONLY | O_NONBLOCK), clock = CLOCK_MONOTONIC;
    struct pollfd file = {.fd = node, .events = POLLIN};
    struct timeval time = {0, 100000};
    fd_set in;
    long begun = now();
    CHECK(node >= 0 && ioctl(node, EVIOCSCLOCKID, &clock) == 0);
    CHECK(poll(&file, 1, 5000) == 1 && now() == begun && read(node, events, sizeof events) == 48);
    CHECK(events[0].input_event_sec * 1000000 + events[0].input_event_usec == begun);
    FD_ZERO(&in);
    FD_SET(node, &in);
    CHECK(select(node + 1, &in, NULL, NULL, &time) == 0 && now() == begun + 100000 && !FD_ISSET(node, &in));
    CHECK(poll(&file, 1, -1) == 1 && now() == begun + 500000 && read(node, events, sizeof events) == 48);
    CHECK(poll(&file, 1, 57000) == 0 && now() == begun + 57500000);
    fcntl(node, F_SETFL, 0);
    CHECK(read(node, events, sizeof events) == 48 && now() == begun + 58000000);
    close(node);
}

int main(void) {
    clocks();
    sleeps();
    wakes_by_others();
    timers();
    lines();
    return all_told();
}
