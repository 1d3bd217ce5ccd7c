/* Signals and a read that blocks, as with a node of the kernel's; run by tools/run with --quiet 60000, so
 * that no line of the record comes. */
#include "check.h"

#include <fcntl.h>
#include <linux/input.h>
#include <signal.h>
#include <string.h>
#include <sys/time.h>
#include <sys/wait.h>
#include <unistd.h>

#define NODE "/dev/input/event0"

static volatile sig_atomic_t alarms, ios;

static void count_alarm(int number) {
    (void)number;
    alarms++;
}

static void count_io(int number) {
    (void)number;
    ios++;
}

static void on_signal(int number, void (*handler)(int), int flags) {
    struct sigaction action = {.sa_handler = handler, .sa_flags = flags};
    sigaction(number, &action, NULL);
}

static void alarm_in(long microseconds) {
    struct itimerval soon = {.it_value = {.tv_usec = microseconds}};
    setitimer(ITIMER_REAL, &soon, NULL);
}

/* A child lights the LED, or puts it out, after a while, so that there is something to read. */
static void light_later(int value) {
    if (fork())
        return;
    struct input_event events[2] = {{.type = EV_LED, .code = LED_CAPSL, .value = value}, {.type = EV_SYN}};
    int node = open(NODE, O_RDWR);
    usleep(400000);
    _exit(write(node, events, sizeof events) != sizeof events);
}

static void reads(int node) {
    struct input_event events[8];
    int status;
    on_signal(SIGALRM, count_alarm, 0);
    alarm_in(100000);
    FAILS(read(node, events, sizeof events), EINTR);
    CHECK(alarms == 1);
    on_signal(SIGALRM, count_alarm, SA_RESTART);
    light_later(1);
    alarm_in(100000);
    CHECK(read(node, events, sizeof events) == 48 && events[0].type == EV_LED && events[0].value == 1);
    CHECK(alarms == 2 && wait(&status) > 0 && status == 0); /* the read went on behind the signal */
}

static void is_told_by_signal(int node) {
    struct input_event events[8];
    int status;
    on_signal(SIGIO, count_io, SA_RESTART);
    CHECK(fcntl(node, F_SETOWN, getpid()) == 0 && fcntl(node, F_SETFL, O_ASYNC | O_NONBLOCK) == 0);
    light_later(0);
    CHECK(wait(&status) > 0 && status == 0);
    for (int i = 0; i < 50 && !ios; i++)
        usleep(20000);
    CHECK(ios > 0 && read(node, events, sizeof events) == 48 && events[0].value == 0);
}

int main(void) {
    int node = open(NODE, O_RDWR);
    CHECK(node >= 0);
    reads(node);
    is_told_by_signal(node);
    return all_told();
}
