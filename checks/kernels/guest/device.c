/* A device that is made by uinput, and what its owner does. */
#define _GNU_SOURCE
#include "guest.h"

#include <dirent.h>
#include <errno.h>
#include <fcntl.h>
#include <linux/uinput.h>
#include <stdio.h>
#include <string.h>
#include <sys/ioctl.h>
#include <unistd.h>

static int open_uinput(struct device *device)
{
    if (!device->fd && (device->fd = open("/dev/uinput", O_RDWR | O_NONBLOCK)) < 0)
        give_up("open /dev/uinput");
    return device->fd;
}

static unsigned long request_of(int type)
{
    switch (type) {
    case EV_KEY: return UI_SET_KEYBIT;
    case EV_REL: return UI_SET_RELBIT;
    case EV_MSC: return UI_SET_MSCBIT;
    case EV_SW: return UI_SET_SWBIT;
    case EV_LED: return UI_SET_LEDBIT;
    case EV_SND: return UI_SET_SNDBIT;
    default: return UI_SET_EVBIT;
    }
}

void set_bit_of(struct device *device, int type, int code)
{
    if (ioctl(open_uinput(device), request_of(type), code))
        give_up("a bit of the device");
}

/* The axis's code, value, minimum, maximum, fuzz, flat and resolution. */
void set_axis_of(struct device *device, const long long *words)
{
    int code = (int)words[0];
    device->has_axis[code] = true;
    device->axes[code] = (struct input_absinfo){(int)words[1], (int)words[2], (int)words[3],
                                                (int)words[4], (int)words[5], (int)words[6]};
    if (code == ABS_MT_SLOT)
        device->slots = (int)words[3] + 1;
}

static bool set_up(struct device *device)
{
    struct uinput_setup setup = {.id = {.bustype = BUS_VIRTUAL, .vendor = 1, .product = 1},
                                 .name = "inputplay"};
    for (unsigned code = 0; code < ABS_CNT; code++) {
        struct uinput_abs_setup axis = {.code = (uint16_t)code, .absinfo = device->axes[code]};
        if (device->has_axis[code] && ioctl(open_uinput(device), UI_ABS_SETUP, &axis))
            return false;
    }
    return !ioctl(open_uinput(device), UI_DEV_SETUP, &setup) && !ioctl(device->fd, UI_DEV_CREATE);
}

static void find_nodes(struct device *device)
{
    char name[32] = "";
    if (ioctl(device->fd, UI_GET_SYSNAME(sizeof name), name) < 0)
        give_up("UI_GET_SYSNAME");
    snprintf(device->folder, sizeof device->folder, "/sys/devices/virtual/input/%s", name);
    DIR *folder = opendir(device->folder);
    if (!folder)
        give_up(device->folder);
    for (struct dirent *entry; (entry = readdir(folder));) {
        if (!strncmp(entry->d_name, "event", 5))
            snprintf(device->events, sizeof device->events, "/dev/input/%.40s", entry->d_name);
        if (!strncmp(entry->d_name, "js", 2))
            snprintf(device->joystick, sizeof device->joystick, "/dev/input/%.40s", entry->d_name);
    }
    closedir(folder);
}

/* Whether uinput made it. What the console tells a new device is read away. */
bool make_device(struct device *device)
{
    struct input_event event;
    if (!set_up(device))
        return false;
    find_nodes(device);
    while (read(device->fd, &event, sizeof event) == (ssize_t)sizeof event)
        ;
    return true;
}

/* A moment, a type, a code and a value. */
void inject(struct device *device, const long long *words)
{
    long long time = base_time() + words[0];
    struct input_event event = {
        .type = (uint16_t)words[1], .code = (uint16_t)words[2], .value = (int)words[3]};
    event.input_event_sec = time / 1000000;
    event.input_event_usec = time % 1000000;
    wait_until(words[0]);
    say_status(write(device->fd, &event, sizeof event) == (ssize_t)sizeof event ? 0 : errno);
}

void inhibit(struct device *device, bool on)
{
    char path[96];
    snprintf(path, sizeof path, "%s/inhibited", device->folder);
    int fd = open(path, O_WRONLY);
    if (fd < 0 || write(fd, on ? "1" : "0", 1) != 1)
        give_up(path);
    close(fd);
    say_status(0);
}

void read_feedback(struct device *device, size_t count)
{
    static struct input_event events[MOST_EVENTS];
    ssize_t size = read(device->fd, events, count * sizeof events[0]);
    for (ssize_t i = 0; i < size / (ssize_t)sizeof events[0]; i++)
        say_event(&events[i]);
    say_status(size < 0 && errno != EAGAIN ? errno : 0);
}
