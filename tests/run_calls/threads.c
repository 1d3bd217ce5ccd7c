/* Threads that ask at once, on an open file of each and on one of all; run by tools/run with --quiet 60000.
 */
#include "check.h"

#include <fcntl.h>
#include <linux/input.h>
#include <poll.h>
#include <pthread.h>
#include <string.h>
#include <sys/ioctl.h>
#include <unistd.h>

#define NODE "/dev/input/event0"

enum { THREADS = 4, TIMES = 200 };

static int shared;

/* What one thread asks: how many answers were wrong. */
static long wrong_answers(void) {
    struct input_event events[4];
    char name[64];
    long wrong = 0;
    int own = open(NODE, O_RDWR | O_NONBLOCK);
    for (int i = 0; i < TIMES; i++) {
        struct pollfd file = {.fd = i % 2 ? own : shared, .events = POLLOUT};
        wrong += ioctl(file.fd, EVIOCGNAME(sizeof name), name) != 25 ||
                 strcmp(name, "A keyboard, to be called") != 0;
        wrong += read(own, events, sizeof events) != -1 || errno != EAGAIN;
        wrong += poll(&file, 1, 0) != 1 || file.revents != POLLOUT;
    }
    return wrong + (close(own) != 0);
}

static void *ask(void *unused) {
    (void)unused;
    return (void *)wrong_answers();
}

int main(void) {
    pthread_t threads[THREADS];
    shared = open(NODE, O_RDWR | O_NONBLOCK);
    CHECK(shared >= 0);
    for (int i = 0; i < THREADS; i++)
        CHECK(pthread_create(&threads[i], NULL, ask, NULL) == 0);
    for (int i = 0; i < THREADS; i++) {
        void *wrong = NULL;
        CHECK(pthread_join(threads[i], &wrong) == 0 && wrong == NULL);
    }
    return all_told();
}
