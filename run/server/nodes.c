/* The files by which programs find a device, in the folder of the run: input/eventN and input/jsN stand for
 * /dev/input's, and udev/c13:M is what udev would know of the node. uinput stands for /dev/uinput. */
#include "device.h"

#include "failure.h"
#include "settings.h"

#include <errno.h>
#include <stdio.h>
#include <string.h>
#include <sys/stat.h>
#include <unistd.h>

enum { PATH_ROOM = 4400, FIRST_MINOR = 64 };

/** The files of a device: their names with its number, and how far ahead that is. */
enum node_file { UDEV_FILE, JOYSTICK_FILE, EVENT_FILE, NODE_FILES };

static const char *path_of(const struct device *device, enum node_file file, char *room) {
    static const char *const names[NODE_FILES] = {"udev/c13:", "input/js", "input/event"};
    int number = settings.first_number + device_index(device) + (file == UDEV_FILE ? FIRST_MINOR : 0);
    snprintf(room, PATH_ROOM, "%s/%s%d", settings.folder, names[file], number);
    return room;
}

static const char *path_below(const char *name, char *room) {
    snprintf(room, PATH_ROOM, "%s/%s", settings.folder, name);
    return room;
}

static FILE *create_file(const char *path) {
    FILE *file = fopen(path, "w");
    if (!file)
        fail("%s: %s", path, strerror(errno));
    return file;
}

static FILE *create(const struct device *device, enum node_file which) {
    char path[PATH_ROOM];
    return create_file(path_of(device, which, path));
}

static void make_folder(const char *name) {
    char path[PATH_ROOM];
    path_below(name, path);
    if (mkdir(path, 0755) && errno != EEXIST)
        fail("%s: %s", path, strerror(errno));
}

static bool has_key_below(const struct device *device, unsigned end) {
    for (unsigned code = KEY_ESC; code < end; code++)
        if (device_has(device, EV_KEY, code))
            return true;
    return false;
}

/* What kind of device it is, as udev's builtin input_id says it of usual devices. */
static void write_kinds(FILE *file, const struct device *device) {
    bool has_place = device_has(device, EV_ABS, ABS_X);
    bool is_pad =
        device_has(device, EV_KEY, BTN_TOOL_FINGER) && has_place && !device_has(device, EV_KEY, BTN_TOOL_PEN);
    bool is_touched =
        device_has(device, EV_ABS, ABS_MT_POSITION_X) || (device_has(device, EV_KEY, BTN_TOUCH) && has_place);
    const struct {
        const char *name;
        bool is;
    } kinds[] = {
        {"TOUCHPAD", is_pad},
        {"TOUCHSCREEN", is_touched && !is_pad},
        {"MOUSE", device_has(device, EV_KEY, BTN_LEFT) && device_has(device, EV_REL, REL_X)},
        {"JOYSTICK", device_has(device, EV_KEY, BTN_JOYSTICK) || device_has(device, EV_KEY, BTN_GAMEPAD)},
        {"KEY", has_key_below(device, BTN_MISC)},
        {"KEYBOARD", device_has(device, EV_KEY, KEY_ESC) && device_has(device, EV_KEY, KEY_Q)},
        {"SWITCH", device_has(device, EV_SYN, EV_SW)},
    };
    fprintf(file, "I:1\nE:ID_INPUT=1\n");
    for (size_t i = 0; i < sizeof kinds / sizeof kinds[0]; i++)
        if (kinds[i].is)
            fprintf(file, "E:ID_INPUT_%s=1\n", kinds[i].name);
}

void nodes_make(const struct device *device) {
    make_folder("input");
    make_folder("udev");
    FILE *udev = create(device, UDEV_FILE);
    write_kinds(udev, device);
    fclose(udev);
    if (settings.has_joysticks)
        fclose(create(device, JOYSTICK_FILE));
    fclose(create(device, EVENT_FILE));
}

void nodes_make_maker(void) {
    char path[PATH_ROOM];
    fclose(create_file(path_below("uinput", path)));
}

void nodes_remove(const struct device *device) {
    char path[PATH_ROOM];
    for (int file = 0; file < NODE_FILES; file++)
        unlink(path_of(device, (enum node_file)file, path));
}
