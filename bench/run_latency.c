/* How late a frame comes to a reader that polls, and what calls cost that are of no node. bench/run_latency
 * runs it.
 *
 *     run_latency pair COUNT    a frame a while, through a socket pair, from one process to another
 *     run_latency node COUNT    the frames of /dev/input/event0
 *     run_latency calls         calls on files that are no nodes
 *
 * The first two write the microseconds of each frame, a line each; the last one those of each call.
 */
#include <fcntl.h>
#include <linux/input.h>
#include <poll.h>
#include <stdint.h>
#include <stdio.h>
#include <stdlib.h>
#include <string.h>
#include <sys/ioctl.h>
#include <sys/socket.h>
#include <sys/stat.h>
#include <time.h>
#include <unistd.h>

enum { FRAME = 2, BETWEEN_US = 2000, PATIENCE_MS = 2000, BATCHES = 300, CALLS = 300 };

static double now_us(void) {
    struct timespec time;
    clock_gettime(CLOCK_MONOTONIC, &time);
    return (double)time.tv_sec * 1e6 + (double)time.tv_nsec / 1e3;
}

/* Sends frames as the server does: it waits, and each event has the time at which it was sent. */
static void send_frames(int to, long count) {
    struct timespec pause = {.tv_nsec = 1000L * BETWEEN_US};
    for (long i = 0; i < count; i++) {
        struct input_event events[FRAME] = {{.type = EV_KEY, .code = KEY_A, .value = (int)(i % 2)}};
        ppoll(NULL, 0, &pause, NULL);
        double now = now_us();
        for (int k = 0; k < FRAME; k++) {
            events[k].input_event_sec = (long)(now / 1e6);
            events[k].input_event_usec = (long)(now - 1e6 * (double)events[k].input_event_sec);
        }
        if (write(to, events, sizeof events) != sizeof events)
            exit(1);
    }
}

/* Reads frames as they come, and tells how late each is. Some may be lost where the machine is busy. */
static int read_frames(int from, long count) {
    struct input_event events[64];
    struct pollfd file = {.fd = from, .events = POLLIN};
    while (count > 0 && poll(&file, 1, PATIENCE_MS) == 1) {
        ssize_t got = read(from, events, sizeof events);
        double now = now_us();
        if (got <= 0)
            break;
        printf("%.1f\n", now - (double)events[0].input_event_sec * 1e6 - (double)events[0].input_event_usec);
        count -= got / (ssize_t)sizeof events[0] / FRAME;
    }
    return 0;
}

static int by_pair(long count) {
    int pair[2];
    if (socketpair(AF_UNIX, SOCK_STREAM, 0, pair))
        return 1;
    if (fork() == 0) {
        send_frames(pair[1], count);
        _exit(0);
    }
    fcntl(pair[0], F_SETFL, O_NONBLOCK);
    return read_frames(pair[0], count);
}

static int by_node(long count) {
    int clock = CLOCK_MONOTONIC, node = open("/dev/input/event0", O_RDONLY | O_NONBLOCK);
    if (node < 0 || ioctl(node, EVIOCSCLOCKID, &clock))
        return 1;
    return read_frames(node, count);
}

/* The best of some batches of a call. */
#define COST(name, call) \
    do { \
        double best = 1e9; \
        for (int i = 0; i < BATCHES; i++) { \
            double from = now_us(); \
            for (int k = 0; k < CALLS; k++) \
                (void)(call); \
            double took = (now_us() - from) / CALLS; \
            best = took < best ? took : best; \
        } \
        printf("%s %.4f\n", name, best); \
    } while (0)

static int calls(void) {
    char byte = 0;
    struct stat status;
    int zero = open("/dev/zero", O_RDONLY), null = open("/dev/null", O_WRONLY), waiting;
    struct pollfd file = {.fd = zero, .events = POLLIN};
    COST("read", read(zero, &byte, 1));
    COST("write", write(null, &byte, 1));
    COST("fstat", fstat(zero, &status));
    COST("stat", stat("/usr/bin", &status));
    COST("access", access("/usr/bin", R_OK));
    COST("poll", poll(&file, 1, 0));
    COST("ioctl", ioctl(zero, FIONREAD, &waiting));
    COST("open-close", close(open("/dev/zero", O_RDONLY)));
    return 0;
}

int main(int count, char **words) {
    if (count == 3 && !strcmp(words[1], "pair"))
        return by_pair(atol(words[2]));
    if (count == 3 && !strcmp(words[1], "node"))
        return by_node(atol(words[2]));
    if (count == 2 && !strcmp(words[1], "calls"))
        return calls();
    fprintf(stderr, "usage: run_latency pair COUNT | node COUNT | calls\n");
    return 2;
}
