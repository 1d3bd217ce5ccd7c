/* What /dev/uinput answers, call by call; run by tools/run on keyboard.rec with --quiet 60000, so that no
 * line of the record comes. It knows nothing of that: it would see the same of the kernel's, but for what is
 * said at a check. */
#include "../run_calls/check.h"

#include <dirent.h>
#include <fcntl.h>
#include <linux/uinput.h>
#include <poll.h>
#include <string.h>
#include <sys/inotify.h>
#include <sys/ioctl.h>
#include <sys/mman.h>
#include <sys/stat.h>
#include <sys/sysmacros.h>
#include <sys/wait.h>
#include <unistd.h>

#define MAKER "/dev/uinput"

static struct input_event events[64];
static char text[256];

static int set_up(int fd, const char *name) {
    struct uinput_setup setup = {.id = {BUS_USB, 0x1234, 0x5678, 1}};
    strncpy(setup.name, name, sizeof setup.name - 1);
    return ioctl(fd, UI_DEV_SETUP, &setup);
}

static int set_axis(int fd, int code, int minimum, int maximum, int fuzz, int flat) {
    struct uinput_abs_setup axis = {.code = (unsigned short)code};
    axis.absinfo = (struct input_absinfo){0, minimum, maximum, fuzz, flat, 10};
    return ioctl(fd, UI_ABS_SETUP, &axis);
}

static int set_types(int fd) {
    return ioctl(fd, UI_SET_EVBIT, EV_KEY) || ioctl(fd, UI_SET_KEYBIT, KEY_A) ||
           ioctl(fd, UI_SET_EVBIT, EV_LED) || ioctl(fd, UI_SET_LEDBIT, LED_CAPSL) ||
           ioctl(fd, UI_SET_EVBIT, EV_ABS);
}

static int inject(int fd, int type, int code, int value) {
    struct input_event pair[2] = {{.type = (__u16)type, .code = (__u16)code, .value = value},
                                  {.type = EV_SYN}};
    return write(fd, pair, sizeof pair) == sizeof pair;
}

static int ready(int fd, int wanted) {
    struct pollfd file = {.fd = fd, .events = (short)wanted};
    return poll(&file, 1, 2000) == 1 ? file.revents : 0;
}

/* The node of the device that was made last, as libevdev finds it. */
static int open_made(int fd, char *node) {
    char folder[320] = "/sys/devices/virtual/input/";
    size_t length = strlen(folder);
    if (ioctl(fd, UI_GET_SYSNAME(64), folder + length) < 0)
        return -1;
    DIR *entries = opendir(folder);
    struct dirent *entry;
    node[0] = 0;
    while (entries && (entry = readdir(entries)))
        if (!strncmp(entry->d_name, "event", 5))
            snprintf(node, 64, "/dev/input/%.40s", entry->d_name);
    if (entries)
        closedir(entries);
    return open(node, O_RDWR | O_NONBLOCK);
}

static void opens(void) {
    struct stat status;
    CHECK(stat(MAKER, &status) == 0 && S_ISCHR(status.st_mode) && status.st_rdev == makedev(10, 223));
    CHECK(access(MAKER, R_OK | W_OK) == 0);
    int fd = open(MAKER, O_RDWR | O_CLOEXEC | O_NONBLOCK);
    unsigned version = 0;
    CHECK(fd >= 0 && fcntl(fd, F_GETFD) == FD_CLOEXEC && fcntl(fd, F_GETFL) & O_NONBLOCK);
    CHECK(ioctl(fd, UI_GET_VERSION, &version) == 0 && version == UINPUT_VERSION);
    CHECK(fstat(fd, &status) == 0 && status.st_rdev == makedev(10, 223));
    FAILS(read(fd, events, sizeof events), ENODEV);
    FAILS(read(fd, events, 5), EINVAL);
    FAILS(ioctl(fd, UI_GET_SYSNAME(64), text), ENOENT);
    CHECK(ioctl(fd, UI_DEV_DESTROY) == 0);
    close(fd);
    fd = open(MAKER, O_RDONLY);
    FAILS(write(fd, events, sizeof events[0]), EBADF);
    close(fd);
}

/* What is refused while the device is described. */
static void refuses(void) {
    int fd = open(MAKER, O_RDWR | O_NONBLOCK);
    void *nowhere = mmap(NULL, 4096, PROT_NONE, MAP_PRIVATE | MAP_ANONYMOUS, -1, 0);
    FAILS(ioctl(fd, UI_DEV_CREATE), EINVAL);
    FAILS(set_up(fd, ""), EINVAL);
    FAILS(ioctl(fd, UI_DEV_SETUP, nowhere), EFAULT);
    FAILS(ioctl(fd, UI_SET_PHYS, nowhere), EFAULT);
    FAILS(ioctl(fd, UI_SET_EVBIT, EV_CNT), EINVAL);
    FAILS(ioctl(fd, UI_SET_EVBIT, EV_FF), EINVAL); /* (the kernel has it) */
    FAILS(ioctl(fd, UI_SET_KEYBIT, KEY_CNT), EINVAL);
    FAILS(ioctl(fd, UI_SET_KEYBIT, 0x100000000), EINVAL);
    FAILS(ioctl(fd, UI_SET_RELBIT, REL_CNT), EINVAL);
    FAILS(ioctl(fd, UI_SET_PROPBIT, INPUT_PROP_CNT), EINVAL);
    FAILS(set_axis(fd, ABS_CNT, 0, 9, 0, 0), ERANGE);
    FAILS(set_axis(fd, ABS_X, 9, 0, 0, 0), EINVAL);
    FAILS(set_axis(fd, ABS_X, 0, 9, 0, 10), EINVAL);
    FAILS(ioctl(fd, _IOC(_IOC_WRITE, 'U', 4, sizeof(struct uinput_abs_setup) + 4), events), E2BIG);
    FAILS(ioctl(fd, EVIOCGRAB, 1), EINVAL);
    FAILS(write(fd, events, sizeof events[0]), EINVAL);
    CHECK(write(fd, events, 0) == 0);
    /* A fuzz below 0 is refused where the device is created. (The kernel takes it.) */
    CHECK(set_types(fd) == 0 && set_up(fd, "wrong") == 0 && set_axis(fd, ABS_Y, 0, 9, -1, 0) == 0);
    FAILS(ioctl(fd, UI_DEV_CREATE), EINVAL);
    CHECK(set_axis(fd, ABS_Y, 0, 9, 1, 0) == 0 && ioctl(fd, UI_DEV_CREATE) == 0);
    close(fd);
}

static void is_what_was_said(int node) {
    struct input_absinfo info;
    struct input_id id;
    unsigned char bits[KEY_CNT / 8] = {0};
    CHECK(ioctl(node, EVIOCGNAME(sizeof text), text) == 14 && !strcmp(text, "Made of parts"));
    CHECK(ioctl(node, EVIOCGPHYS(sizeof text), text) == 9 && !strcmp(text, "here/in0"));
    CHECK(ioctl(node, EVIOCGID, &id) == 0 && id.bustype == BUS_USB && id.product == 0x5678);
    CHECK(ioctl(node, EVIOCGBIT(0, 4), bits) == 4 && bits[0] == (1 << EV_SYN | 1 << EV_KEY | 1 << EV_ABS));
    CHECK(ioctl(node, EVIOCGBIT(EV_KEY, sizeof bits), bits) == KEY_CNT / 8 && bits[0] == 0);
    CHECK(bits[KEY_A / 8] == 1 << KEY_A % 8);
    CHECK(ioctl(node, EVIOCGPROP(4), bits) == 4 && bits[0] == 1 << INPUT_PROP_DIRECT);
    CHECK(ioctl(node, EVIOCGABS(ABS_X), &info) == 0 && info.minimum == -5 && info.maximum == 100 &&
          info.fuzz == 0 && info.flat == 3 && info.resolution == 10);
}

/* A node appears while the device is there. */
static int makes(int fd, char *node) {
    int watch = inotify_init1(IN_NONBLOCK);
    CHECK(set_types(fd) == 0); /* (a request sees what was closed before it) */
    CHECK(inotify_add_watch(watch, "/dev/input", IN_CREATE | IN_DELETE) >= 0);
    CHECK(set_up(fd, "first name") == 0 && set_up(fd, "Made of parts") == 0);
    CHECK(ioctl(fd, UI_SET_KEYBIT, KEY_RESERVED) == 0); /* no key: it is left out */
    CHECK(ioctl(fd, UI_SET_RELBIT, REL_X) == 0);        /* its type is not set: it is left out too */
    CHECK(ioctl(fd, UI_SET_PHYS, "here/in0") == 0 && ioctl(fd, UI_SET_PROPBIT, INPUT_PROP_DIRECT) == 0);
    CHECK(set_axis(fd, ABS_X, -5, 100, 0, 3) == 0);
    CHECK(read(watch, text, sizeof text) == -1 && ioctl(fd, UI_DEV_CREATE) == 0);
    CHECK(ready(watch, POLLIN) && read(watch, text, sizeof text) > 0);
    close(watch);
    FAILS(ioctl(fd, UI_DEV_CREATE), EINVAL);
    FAILS(set_up(fd, "later"), EINVAL);
    FAILS(ioctl(fd, UI_SET_KEYBIT, KEY_B), EINVAL);
    FAILS(set_axis(fd, ABS_Y, 0, 1, 0, 0), EINVAL);
    CHECK(ioctl(fd, UI_GET_SYSNAME(4), text) == 4 && !strcmp(text, "inp"));
    return open_made(fd, node);
}

static void injects(int fd, int node) {
    CHECK(ready(fd, POLLOUT) == POLLOUT);
    CHECK(inject(fd, EV_KEY, KEY_A, 1) && ready(node, POLLIN) == POLLIN);
    CHECK(read(node, events, sizeof events) == 48 && events[0].code == KEY_A && events[0].value == 1);
    CHECK(inject(fd, EV_KEY, KEY_B, 1) && inject(fd, EV_REL, REL_X, 1)); /* which it lacks */
    FAILS(read(node, events, sizeof events), EAGAIN);
    FAILS(write(fd, events, 7), EINVAL);
    CHECK(write(fd, events, 30) == 24);
}

/* What clients write to lights is read by who made the device. */
static void is_told(int fd, int node) {
    FAILS(read(fd, events, sizeof events), EAGAIN);
    CHECK(inject(node, EV_LED, LED_CAPSL, 1) && ready(fd, POLLIN) == POLLIN);
    CHECK(read(fd, events, sizeof events) == 24 && events[0].type == EV_LED && events[0].value == 1);
    FAILS(read(fd, events, sizeof events), EAGAIN);
    CHECK(ready(fd, POLLIN | POLLOUT) == POLLOUT);
    for (int i = 0; i < 40; i++)
        CHECK(inject(node, EV_LED, LED_CAPSL, i % 2));
    CHECK(read(fd, events, 24) == 24 && read(fd, events, sizeof events) == 14 * 24); /* (the last 15 wait) */
    CHECK(events[13].value == 1);
    if (!fork()) {
        usleep(200000);
        _exit(!inject(node, EV_LED, LED_CAPSL, 0));
    }
    fcntl(fd, F_SETFL, 0);
    CHECK(read(fd, events, sizeof events) == 24 && events[0].value == 0); /* a read that waits */
    fcntl(fd, F_SETFL, O_NONBLOCK);
    wait(NULL);
}

/* Who reads sees the device go; the file may make another one, of which nothing was said yet. */
static void destroys(int fd, int node, const char *name) {
    struct stat status;
    CHECK(inject(fd, EV_KEY, KEY_A, 0) && ioctl(fd, UI_DEV_DESTROY) == 0);
    CHECK(ready(node, POLLIN) & POLLHUP);
    FAILS(read(node, events, sizeof events), ENODEV);
    FAILS(ioctl(node, EVIOCGNAME(sizeof text), text), ENODEV);
    FAILS(stat(name, &status), ENOENT);
    FAILS(read(fd, events, sizeof events), ENODEV);
    FAILS(ioctl(fd, UI_DEV_CREATE), EINVAL);
}

/* A struct that is written, as programs did before there was UI_DEV_SETUP. */
static void by_write(int fd) {
    struct uinput_user_dev told = {.id = {BUS_VIRTUAL, 1, 2, 3}};
    struct input_absinfo info;
    char name[64];
    CHECK(set_types(fd) == 0 && ioctl(fd, UI_SET_ABSBIT, ABS_X) == 0);
    FAILS(write(fd, &told, sizeof told), EINVAL);
    strcpy(told.name, "By a write");
    told.absmin[ABS_X] = 9;
    FAILS(write(fd, &told, sizeof told), EINVAL);
    told.absmax[ABS_X] = 20;
    CHECK(write(fd, &told, sizeof told) == sizeof told && ioctl(fd, UI_DEV_CREATE) == 0);
    int node = open_made(fd, name);
    CHECK(node >= 0 && ioctl(node, EVIOCGABS(ABS_X), &info) == 0 && info.maximum == 20);
    CHECK(ioctl(node, EVIOCGNAME(sizeof text), text) > 0 && !strcmp(text, "By a write"));
    close(fd); /* which destroys it */
    CHECK(ready(node, POLLIN) & POLLHUP);
    close(node);
}

/* Slots come by the range of ABS_MT_SLOT. */
static void has_slots(void) {
    int fd = open(MAKER, O_RDWR | O_NONBLOCK), slots[4] = {ABS_MT_TRACKING_ID};
    char name[64];
    CHECK(set_types(fd) == 0 && set_up(fd, "pad") == 0 && set_axis(fd, ABS_MT_SLOT, 0, 1, 0, 0) == 0 &&
          set_axis(fd, ABS_MT_POSITION_X, 0, 100, 0, 0) == 0 && ioctl(fd, UI_DEV_CREATE) == 0);
    int node = open_made(fd, name);
    CHECK(inject(fd, EV_ABS, ABS_MT_SLOT, 1) && inject(fd, EV_ABS, ABS_MT_TRACKING_ID, 7));
    CHECK(ioctl(node, EVIOCGMTSLOTS(sizeof slots), slots) == 0 && slots[1] == -1 && slots[2] == 7);
    close(fd);
    close(node);
}

int main(void) {
    char name[64];
    opens();
    refuses();
    int fd = open(MAKER, O_RDWR | O_NONBLOCK), node = makes(fd, name);
    CHECK(node >= 0);
    is_what_was_said(node);
    injects(fd, node);
    is_told(fd, node);
    destroys(fd, node, name);
    close(node);
    by_write(fd);
    has_slots();
    return all_told();
}
