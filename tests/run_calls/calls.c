/* What evdev's node answers, call by call; run by tools/run on calls.rec with --frames 1 --end gone. It knows
 * nothing of that: it would answer the same on such a device of the kernel, but for what is said at a check.
 */
#include "check.h"

#include <dirent.h>
#include <fcntl.h>
#include <glob.h>
#include <linux/input.h>
#include <poll.h>
#include <string.h>
#include <sys/epoll.h>
#include <sys/inotify.h>
#include <sys/ioctl.h>
#include <sys/mman.h>
#include <sys/select.h>
#include <sys/stat.h>
#include <sys/sysmacros.h>
#include <sys/uio.h>
#include <time.h>
#include <unistd.h>

#define NODE "/dev/input/event0"
#define PLAIN "/dev/input/event1"

/** That a call with a place that is not there is EFAULT. (Under valgrind there are none: it tells of each.) */
#define FAULTS(call) CHECK(!has_bad_places || ((call) == -1 && errno == EFAULT))

static int has_bad_places;
static struct input_event events[64];
static unsigned char bits[KEY_CNT / 8];

static int ready(int fd, int wanted) {
    struct pollfd file = {.fd = fd, .events = (short)wanted};
    return poll(&file, 1, 0) == 1 ? file.revents : 0;
}

static int has_bit(int bit) {
    return bits[bit / 8] >> bit % 8 & 1;
}

/* A place that is not there. */
static void *nowhere(void) {
    return mmap(NULL, 4096, PROT_NONE, MAP_PRIVATE | MAP_ANONYMOUS, -1, 0);
}

static void opening(int a, int b) {
    struct stat status;
    struct statx more;
    CHECK(a >= 0 && b >= 0 && a != b);
    CHECK(fcntl(a, F_GETFD) == 0 && fcntl(b, F_GETFD) == FD_CLOEXEC);
    CHECK(fcntl(a, F_GETFL) & O_NONBLOCK);
    CHECK(fstat(a, &status) == 0 && S_ISCHR(status.st_mode) && status.st_rdev == makedev(13, 64));
    CHECK(stat(NODE, &status) == 0 && S_ISCHR(status.st_mode) && access(NODE, R_OK | W_OK) == 0);
    CHECK(lstat(PLAIN, &status) == 0 && status.st_rdev == makedev(13, 65));
    CHECK(statx(AT_FDCWD, NODE, 0, STATX_TYPE, &more) == 0 && S_ISCHR(more.stx_mode) &&
          more.stx_rdev_minor == 64);
    FAILS(open("/dev/input/event7", O_RDONLY), ENOENT);
    FAILS(stat("/dev/input/event7", &status), ENOENT);
    FAILS(open("/dev/input/event0/x", O_RDONLY), ENOTDIR);
}

static void folders(void) {
    DIR *folder = opendir("/dev/input");
    struct dirent **list;
    int nodes = 0, watch = inotify_init1(O_NONBLOCK);
    for (struct dirent *entry; folder && (entry = readdir(folder));)
        nodes += !strncmp(entry->d_name, "event", 5);
    CHECK(nodes == 2 && closedir(folder) == 0);
    CHECK((nodes = scandir("/dev/input", &list, NULL, alphasort)) == 4); /* with . and .. */
    for (int i = 0; i < nodes; i++)
        free(list[i]);
    free(list);
    CHECK(inotify_add_watch(watch, "/dev/input", IN_CREATE | IN_DELETE) > 0 && close(watch) == 0);
    char *path = realpath(NODE, NULL), link[8];
    CHECK(path && !strcmp(path, NODE));
    free(path);
    FAILS(readlink(NODE, link, sizeof link), EINVAL);
    glob_t found;
    CHECK(glob("/dev/input/event*", 0, NULL, &found) == 0 && found.gl_pathc == 2 &&
          !strcmp(found.gl_pathv[1], PLAIN));
    globfree(&found);
    CHECK(glob("/dev/input/mice*", 0, NULL, &found) == GLOB_NOMATCH);
}

/* (Between reads that find nothing something is asked: who only reads waits, and frames would come.) */
static void reads_of_nothing(int a) {
    int one = 1, version;
    FAILS(read(a, events, 23), EINVAL);
    FAILS(read(a, events, 1), EINVAL);
    FAILS(read(a, events, sizeof events), EAGAIN);
    FAILS(read(a, events, 0), EAGAIN);
    CHECK(ready(a, POLLIN) == 0 && ready(a, POLLOUT) == POLLOUT);
    CHECK(fcntl(a, F_SETFL, 0) == 0 && read(a, events, 0) == 0);
    CHECK(ioctl(a, FIONBIO, &one) == 0 && fcntl(a, F_GETFL) & O_NONBLOCK);
    CHECK(ioctl(a, EVIOCGVERSION, &version) == 0);
    FAILS(read(a, events, sizeof events), EAGAIN);
    int writer = open(NODE, O_WRONLY | O_NONBLOCK);
    FAILS(read(writer, events, sizeof events), EBADF);
    CHECK(close(writer) == 0);
}

static void identity(int a, int plain) {
    char text[64];
    struct input_id id;
    int version;
    CHECK(ioctl(a, EVIOCGVERSION, &version) == 0 && version == EV_VERSION);
    CHECK(ioctl(a, EVIOCGNAME(sizeof text), text) == 25 && !strcmp(text, "A keyboard, to be called"));
    memset(text, 'x', sizeof text);
    CHECK(ioctl(a, EVIOCGNAME(5), text) == 5 && !memcmp(text, "A keyx", 6));
    CHECK(ioctl(a, EVIOCGPHYS(sizeof text), text) == 26 && !strcmp(text, "usb-0000:00:14.0-1/input0"));
    CHECK(ioctl(a, EVIOCGUNIQ(sizeof text), text) == 6 && !strcmp(text, "17:ab"));
    CHECK(ioctl(a, EVIOCGID, &id) == 0 && id.bustype == BUS_USB && id.vendor == 0x46d &&
          id.product == 0xc31c && id.version == 0x110);
    CHECK(ioctl(a, EVIOCGPROP(sizeof bits), bits) == 8 &&
          bits[0] == (1 << INPUT_PROP_POINTER | 1 << INPUT_PROP_BUTTONPAD));
    CHECK(ioctl(plain, EVIOCGNAME(sizeof text), text) == 6 && !strcmp(text, "plain"));
    FAILS(ioctl(plain, EVIOCGPHYS(sizeof text), text), ENOENT);
    FAILS(ioctl(plain, EVIOCGUNIQ(sizeof text), text), ENOENT);
    CHECK(ioctl(plain, EVIOCGPROP(sizeof bits), bits) == 8 && !bits[0]);
    FAULTS(ioctl(a, EVIOCGNAME(sizeof text), nowhere()));
}

static void capabilities(int a, int plain) {
    CHECK(ioctl(a, EVIOCGBIT(0, 4), bits) == 4 && has_bit(EV_KEY) && has_bit(EV_ABS) && has_bit(EV_REP) &&
          !has_bit(EV_REL));
    CHECK(ioctl(a, EVIOCGBIT(EV_KEY, sizeof bits), bits) == 96 && has_bit(KEY_A) && !has_bit(KEY_B));
    CHECK(ioctl(a, EVIOCGBIT(EV_KEY, 8), bits) == 8);
    CHECK(ioctl(a, EVIOCGBIT(EV_ABS, sizeof bits), bits) == 8 && has_bit(ABS_X) && has_bit(ABS_MT_SLOT) &&
          has_bit(ABS_MT_TRACKING_ID));
    CHECK(ioctl(a, EVIOCGBIT(EV_FF, sizeof bits), bits) == 16 && !bits[0]);
    FAILS(ioctl(a, EVIOCGBIT(EV_REP, 4), bits), EINVAL);
    FAILS(ioctl(a, EVIOCGBIT(EV_MAX, 4), bits), EINVAL);
    memset(bits, 0xff, sizeof bits);
    CHECK(ioctl(plain, EVIOCGLED(sizeof bits), bits) == 8 && !bits[0]);
    CHECK(ioctl(plain, EVIOCGSW(sizeof bits), bits) == 8 && ioctl(plain, EVIOCGSND(sizeof bits), bits) == 8 &&
          !bits[0]);
}

static void grabs(int a, int b) {
    CHECK(ioctl(a, EVIOCGRAB, (void *)1) == 0);
    FAILS(ioctl(b, EVIOCGRAB, (void *)1), EBUSY);
    FAILS(ioctl(a, EVIOCGRAB, (void *)1), EBUSY);
    FAILS(ioctl(b, EVIOCGRAB, (void *)0), EINVAL);
    CHECK(ioctl(a, EVIOCGRAB, (void *)0) == 0);
}

static void axes(int a, int plain) {
    struct input_absinfo info;
    CHECK(ioctl(a, EVIOCGABS(ABS_X), &info) == 0 && info.value == 5 && info.maximum == 100);
    info.maximum = 200;
    CHECK(ioctl(a, EVIOCSABS(ABS_X), &info) == 0 && ioctl(a, EVIOCGABS(ABS_X), &info) == 0 &&
          info.maximum == 200);
    info.resolution = 7;
    CHECK(ioctl(a, _IOW('E', 0xc0 + ABS_X, int[5]), &info) == 0 && ioctl(a, EVIOCGABS(ABS_X), &info) == 0 &&
          !info.resolution);
    info.maximum = 9;
    CHECK(ioctl(a, _IOR('E', 0x40 + ABS_X, int[2]), &info) == 0 && info.minimum == 0 &&
          info.maximum == 9); /* a part of it */
    FAILS(ioctl(a, EVIOCSABS(ABS_MT_SLOT), &info), EINVAL);
    CHECK(ioctl(a, EVIOCGABS(ABS_MT_SLOT), &info) == 0 && info.value == 0 && info.maximum == 1);
    CHECK(ioctl(a, EVIOCGABS(ABS_Y), &info) == 0 && !info.value &&
          !info.maximum); /* which the device lacks */
    info.maximum = 30;
    CHECK(ioctl(a, EVIOCSABS(ABS_Y), &info) == 0 && ioctl(a, EVIOCGABS(ABS_Y), &info) == 0 &&
          info.maximum == 30);
    FAILS(ioctl(plain, EVIOCGABS(ABS_X), &info), EINVAL);
    FAILS(ioctl(plain, EVIOCSABS(ABS_X), &info), EINVAL);
    FAULTS(ioctl(a, EVIOCSABS(ABS_X), nowhere()));
    FAULTS(ioctl(a, EVIOCGABS(ABS_X), nowhere()));
}

static void slots(int a, int plain) {
    struct {
        unsigned code;
        int values[4];
    } told = {ABS_MT_TRACKING_ID, {7, 7, 7, 7}};
    unsigned code = ABS_MT_TRACKING_ID;
    CHECK(ioctl(a, EVIOCGMTSLOTS(sizeof told), &told) == 0);
    CHECK(told.values[0] == -1 && told.values[1] == -1 && told.values[2] == 7 &&
          told.code == ABS_MT_TRACKING_ID);
    told.values[0] = told.values[1] = 7;
    CHECK(ioctl(a, EVIOCGMTSLOTS(8), &told) == 0 && told.values[0] == -1 && told.values[1] == 7);
    told.values[0] = 7;
    CHECK(ioctl(a, EVIOCGMTSLOTS(7), &told) == 0 && told.values[0] == 7);
    CHECK(ioctl(a, EVIOCGMTSLOTS(4), &code) == 0 && ioctl(a, EVIOCGMTSLOTS(0), &code) == 0);
    told.code = ABS_MT_PRESSURE; /* which it lacks */
    CHECK(ioctl(a, EVIOCGMTSLOTS(sizeof told), &told) == 0 && told.values[0] == 0 && told.values[1] == 0);
    told.code = ABS_X;
    FAILS(ioctl(a, EVIOCGMTSLOTS(sizeof told), &told), EINVAL);
    told.code = ABS_MT_SLOT;
    FAILS(ioctl(a, EVIOCGMTSLOTS(sizeof told), &told), EINVAL);
    told.code = 0x12345;
    FAILS(ioctl(a, EVIOCGMTSLOTS(sizeof told), &told), EINVAL);
    told.code = ABS_MT_TRACKING_ID;
    FAILS(ioctl(plain, EVIOCGMTSLOTS(sizeof told), &told), EINVAL);
    FAULTS(ioctl(a, EVIOCGMTSLOTS(sizeof told), nowhere()));
}

static void clocks(int a) {
    int clock = CLOCK_MONOTONIC, bad = 5;
    CHECK(ioctl(a, EVIOCSCLOCKID, &clock) == 0);
    clock = CLOCK_BOOTTIME;
    CHECK(ioctl(a, EVIOCSCLOCKID, &clock) == 0);
    clock = CLOCK_MONOTONIC;
    CHECK(ioctl(a, EVIOCSCLOCKID, &clock) == 0);
    FAILS(ioctl(a, EVIOCSCLOCKID, &bad), EINVAL);
    FAULTS(ioctl(a, EVIOCSCLOCKID, nowhere()));
}

static void masks(int b) {
    unsigned char mask[120];
    struct input_mask request = {.type = EV_KEY, .codes_size = 96, .codes_ptr = (unsigned long)mask};
    CHECK(ioctl(b, EVIOCGMASK, &request) == 0 && mask[0] == 0xff && mask[95] == 0xff);
    request.codes_size = sizeof mask;
    CHECK(ioctl(b, EVIOCGMASK, &request) == 0 && mask[95] == 0xff && mask[96] == 0 && mask[119] == 0);
    request.codes_size = 12;
    FAILS(ioctl(b, EVIOCSMASK, &request), EINVAL); /* whole words are wanted */
    memset(mask, 0, sizeof mask);
    request.codes_size = 96;
    CHECK(ioctl(b, EVIOCSMASK, &request) == 0);
    memset(mask, 1, sizeof mask);
    CHECK(ioctl(b, EVIOCGMASK, &request) == 0 && !mask[0] && !mask[95] && mask[96] == 1);
    request.type = EV_REP; /* of which there is no mask */
    CHECK(ioctl(b, EVIOCSMASK, &request) == 0 && ioctl(b, EVIOCGMASK, &request) == 0 && !mask[0] &&
          !mask[95]);
    request.type = 0x1234567;
    CHECK(ioctl(b, EVIOCSMASK, &request) == 0 && ioctl(b, EVIOCGMASK, &request) == 0);
    request.type = EV_KEY;
    request.codes_ptr = (unsigned long)nowhere();
    FAULTS(ioctl(b, EVIOCSMASK, &request));
    FAULTS(ioctl(b, EVIOCGMASK, &request));
    FAULTS(ioctl(b, EVIOCGMASK, nowhere()));
}

static void not_served(int a) {
    int number = 3;
    struct ff_effect effect = {0};
    unsigned map[2] = {0};
    CHECK(ioctl(a, EVIOCGEFFECTS, &number) == 0 && number == 0);
    FAILS(ioctl(a, EVIOCSFF, &effect), ENOSYS);
    FAILS(ioctl(a, EVIOCRMFF, 0), ENOSYS);
    FAILS(ioctl(a, EVIOCGKEYCODE, map), EINVAL);
    FAILS(ioctl(a, _IOR('E', 0x99, int), &number), EINVAL);
    FAILS(ioctl(a, _IOR('Q', 1, int), &number), EINVAL);
}

/* A keyboard's own settings of its autorepeat, and what others read of it. */
static void repeats(int a, int plain) {
    unsigned repeat[2];
    CHECK(ioctl(a, EVIOCGREP, repeat) == 0 && repeat[0] == 250 && repeat[1] == 33);
    repeat[0] = 500;
    CHECK(ioctl(a, EVIOCSREP, repeat) == 0 && ioctl(a, EVIOCGREP, repeat) == 0 && repeat[0] == 500);
    FAILS(ioctl(plain, EVIOCGREP, repeat), ENOSYS);
    FAILS(ioctl(plain, EVIOCSREP, repeat), ENOSYS);
    FAULTS(ioctl(a, EVIOCGREP, nowhere()));
}

static void writes(int a, int b) {
    struct input_event led = {.type = EV_LED, .code = LED_CAPSL, .value = 1}, report = {.type = EV_SYN};
    FAILS(write(b, &led, sizeof led), EBADF);
    FAILS(write(a, &led, 5), EINVAL);
    FAULTS(write(a, nowhere(), sizeof led));
    CHECK(write(a, &led, 0) == 0);
    CHECK(write(a, &led, sizeof led) == sizeof led && write(a, &report, sizeof report) == sizeof report);
    CHECK(ready(a, POLLIN) == POLLIN && ready(b, POLLIN) == POLLIN);
    CHECK(read(a, events, sizeof events) == 72 && events[0].type == EV_REP && events[1].type == EV_LED &&
          events[1].code == LED_CAPSL);
    CHECK(ready(a, POLLIN) == 0 && read(b, events, 24) == 24 && events[0].type == EV_REP &&
          ready(b, POLLIN) == POLLIN);
    CHECK(ioctl(b, EVIOCGLED(8), bits) == 8 && bits[0] == 2);
    CHECK(ready(b, POLLIN) == POLLIN && read(b, events, sizeof events) == 24 &&
          ready(b, POLLIN) == 0);                                             /* the query took the LED */
    CHECK(write(a, &led, sizeof led) == sizeof led && ready(a, POLLIN) == 0); /* it is on already */
}

/* Descriptors that share an open file. */
static int copies(int a) {
    int version, copy = dup(a);
    CHECK(copy >= 0 && close(a) == 0 && ioctl(copy, EVIOCGVERSION, &version) == 0);
    a = fcntl(copy, F_DUPFD_CLOEXEC, 100);
    CHECK(a >= 100 && close(copy) == 0 && fcntl(a, F_GETFD) == FD_CLOEXEC);
    CHECK(dup2(a, 90) == 90 && close_range(90, 90, 0) == 0);
    FAILS(ioctl(90, EVIOCGVERSION, &version), EBADF);
    CHECK(close_range(190, 4000, 0) == 0 &&
          ioctl(a, EVIOCGVERSION, &version) == 0); /* (the shim's own goes with it) */
    return a;
}

/* Waiting by epoll, and by a read that blocks; the record has three frames. */
static void waiting(int a, int b) {
    int many = epoll_create1(0);
    struct epoll_event wanted = {.events = EPOLLIN | EPOLLET}, got;
    CHECK(epoll_ctl(many, EPOLL_CTL_ADD, a, &wanted) == 0 && epoll_wait(many, &got, 1, 3000) == 1 &&
          got.events == EPOLLIN);
    CHECK(read(a, events, sizeof events) == 48 && events[0].code == KEY_A && events[0].value == 1 &&
          events[1].type == EV_SYN);
    CHECK(ioctl(a, EVIOCGKEY(sizeof bits), bits) == 96 && has_bit(KEY_A));
    CHECK(epoll_wait(many, &got, 1, 3000) == 1);
    struct iovec part = {events, sizeof events};
    CHECK(readv(a, &part, 1) == 48 && events[0].value == 0);
    CHECK(fcntl(a, F_SETFL, 0) == 0);
    CHECK(read(a, events, sizeof events) == 48 && events[0].type == EV_ABS &&
          events[0].value == 50);                                            /* it waits */
    CHECK(read(b, events, sizeof events) == 48 && events[0].type == EV_ABS); /* the mask left the keys out */
    CHECK(close(many) == 0);
}

static void selecting(int a) {
    fd_set files;
    struct timeval soon = {0};
    FD_ZERO(&files);
    FD_SET(a, &files);
    CHECK(select(a + 1, &files, NULL, NULL, &soon) == 0);
}

static void ends(int a, int b, int plain) {
    CHECK(ioctl(a, EVIOCREVOKE, 0) == 0);
    FAILS(read(a, events, sizeof events), ENODEV);
    FAILS(ioctl(a, EVIOCGKEY(8), bits), ENODEV);
    FAILS(ioctl(a, EVIOCREVOKE, 0), ENODEV);
    CHECK((ready(a, POLLIN) & (POLLHUP | POLLERR)) == (POLLHUP | POLLERR));
    struct pollfd file = {.fd = b};
    CHECK(poll(&file, 1, 3000) == 1 && file.revents & POLLHUP); /* unplugged behind the last line */
    FAILS(read(b, events, sizeof events), ENODEV);
    FAILS(write(plain, events, sizeof events[0]), ENODEV);
    CHECK(close(a) == 0 && close(b) == 0 && close(plain) == 0);
    FAILS(open(NODE, O_RDONLY), ENOENT);
    FAILS(access(PLAIN, R_OK), ENOENT);
}

int main(int count, char **words) {
    has_bad_places = count < 2 || strcmp(words[1], "--right-places") != 0;
    int a = open(NODE, O_RDWR | O_NONBLOCK), b = open(NODE, O_RDONLY | O_NONBLOCK | O_CLOEXEC),
        plain = open(PLAIN, O_RDWR | O_NONBLOCK);
    opening(a, b);
    folders();
    reads_of_nothing(a);
    identity(a, plain);
    capabilities(a, plain);
    grabs(a, b);
    axes(a, plain);
    slots(a, plain);
    clocks(a);
    masks(b);
    not_served(a);
    repeats(a, plain);
    writes(a, b);
    a = copies(a);
    selecting(a);
    waiting(a, b);
    ends(a, b, plain);
    return all_told();
}
