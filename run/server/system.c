/* The files of a device in /sys, as the kernel has them: libevdev looks there for the node of a device that
 * it made, and libudev for all that it tells. They are made where the program finds /sys: in what
 * umockdev-run shows it, or else in the folder of the run. */
#include "system.h"

#include "failure.h"
#include "settings.h"

#include <errno.h>
#include <ftw.h>
#include <stdarg.h>
#include <stdio.h>
#include <string.h>
#include <sys/stat.h>
#include <unistd.h>

enum {
    PATH_ROOM = 4400,
    PART_ROOM = 256,
    BITS_ROOM = 1024,
    FIRST_INPUT = 90,
    FIRST_MINOR = 64,
    OPEN_MOST = 8
};

/** Where a device's files are made. */
struct place {
    const char *root;
    char own[SYSTEM_NAME_ROOM]; /**< Its folder's name. */
    int number;                 /**< Of its node. */
};

struct path {
    char text[PATH_ROOM];
};

static const struct {
    const char *name;
    unsigned type;
} CAPABILITIES[] = {{"ev", EV_SYN}, {"key", EV_KEY}, {"rel", EV_REL}, {"abs", EV_ABS}, {"msc", EV_MSC},
                    {"sw", EV_SW},  {"led", EV_LED}, {"snd", EV_SND}, {"ff", EV_FF}};

void take_system_name(const struct device *device, char *name) {
    snprintf(name, SYSTEM_NAME_ROOM, "input%d", FIRST_INPUT + settings.first_number + device_index(device));
}

static struct place place_of(const struct device *device, const char *root) {
    struct place place = {.root = root, .number = settings.first_number + device_index(device)};
    take_system_name(device, place.own);
    return place;
}

/* The path of a name below the root. */
__attribute__((format(printf, 2, 3))) static struct path path_of(const struct place *place,
                                                                 const char *format, ...) {
    char part[PART_ROOM];
    struct path path;
    va_list words;
    va_start(words, format);
    vsnprintf(part, sizeof part, format, words);
    va_end(words);
    snprintf(path.text, sizeof path.text, "%s/sys/%s", place->root, part);
    return path;
}

static void add_folder(struct path path) {
    if (mkdir(path.text, 0755) && errno != EEXIST)
        say("%s: %s", path.text, strerror(errno));
}

/* A link from a name to where it leads. */
static void add_link(const char *to, struct path path) {
    if (symlink(to, path.text) && errno != EEXIST)
        say("%s: %s", path.text, strerror(errno));
}

/* A file of the device's folder. */
__attribute__((format(printf, 3, 4))) static void add_file(const struct place *place, const char *name,
                                                           const char *format, ...) {
    struct path path = path_of(place, "devices/virtual/input/%s/%s", place->own, name);
    va_list words;
    FILE *file = fopen(path.text, "w");
    if (!file) {
        say("%s: %s", path.text, strerror(errno));
        return;
    }
    va_start(words, format);
    vfprintf(file, format, words);
    va_end(words);
    fclose(file);
}

/* Bits as /sys writes them: words of 64 in hexadecimal digits, the highest one that is not 0 first. */
static void take_bits(const uint8_t *bytes, size_t length, char *text) {
    size_t written = 0;
    for (size_t at = length; at > 0; at -= sizeof(uint64_t)) {
        uint64_t word;
        memcpy(&word, bytes + at - sizeof word, sizeof word);
        if (word || written || at == sizeof word)
            written += (size_t)snprintf(text + written, BITS_ROOM - written, written ? " %llx" : "%llx",
                                        (unsigned long long)word);
    }
}

static void add_capabilities(const struct place *place, const struct device *device) {
    char name[PART_ROOM], bits[BITS_ROOM];
    add_folder(path_of(place, "devices/virtual/input/%s/capabilities", place->own));
    for (size_t i = 0; i < sizeof CAPABILITIES / sizeof CAPABILITIES[0]; i++) {
        unsigned type = CAPABILITIES[i].type;
        take_bits(device->bits[type], code_bytes(type), bits);
        snprintf(name, sizeof name, "capabilities/%s", CAPABILITIES[i].name);
        add_file(place, name, "%s\n", bits);
    }
    take_bits(device->identity.properties, PROPERTY_BYTES, bits);
    add_file(place, "properties", "%s\n", bits);
}

static void add_identity(const struct place *place, const struct identity *identity) {
    const struct input_id *id = &identity->id;
    add_folder(path_of(place, "devices/virtual/input/%s/id", place->own));
    add_file(place, "id/bustype", "%04x\n", id->bustype);
    add_file(place, "id/vendor", "%04x\n", id->vendor);
    add_file(place, "id/product", "%04x\n", id->product);
    add_file(place, "id/version", "%04x\n", id->version);
    add_file(place, "name", "%s\n", identity->name);
    add_file(place, "phys", "%s\n", identity->phys);
    add_file(place, "uniq", "%s\n", identity->uniq);
    add_file(place, "uevent", "PRODUCT=%x/%x/%x/%x\nNAME=\"%s\"\nPHYS=\"%s\"\nUNIQ=\"%s\"\n", id->bustype,
             id->vendor, id->product, id->version, identity->name, identity->phys, identity->uniq);
}

/* Its node, and the links by which it is found. */
static void add_node(const struct place *place) {
    char name[PART_ROOM], to[PART_ROOM];
    int number = place->number;
    add_folder(path_of(place, "devices/virtual/input/%s/event%d", place->own, number));
    snprintf(name, sizeof name, "event%d/dev", number);
    add_file(place, name, "13:%d\n", FIRST_MINOR + number);
    snprintf(name, sizeof name, "event%d/uevent", number);
    add_file(place, name, "MAJOR=13\nMINOR=%d\nDEVNAME=input/event%d\n", FIRST_MINOR + number, number);
    snprintf(to, sizeof to, "../../%s", place->own);
    add_link(to, path_of(place, "devices/virtual/input/%s/event%d/device", place->own, number));
    add_link("../../../../../class/input",
             path_of(place, "devices/virtual/input/%s/event%d/subsystem", place->own, number));
    add_link("../../../../class/input", path_of(place, "devices/virtual/input/%s/subsystem", place->own));
    snprintf(to, sizeof to, "../../devices/virtual/input/%s/event%d", place->own, number);
    add_link(to, path_of(place, "class/input/event%d", number));
    add_link(to, path_of(place, "dev/char/13:%d", FIRST_MINOR + number));
    snprintf(to, sizeof to, "../../devices/virtual/input/%s", place->own);
    add_link(to, path_of(place, "class/input/%s", place->own));
}

void system_files_make(const struct device *device, const char *root) {
    static const char *const folders[] = {
        "", "devices", "devices/virtual", "devices/virtual/input", "class", "class/input", "dev", "dev/char"};
    struct place place = place_of(device, root);
    for (size_t i = 0; i < sizeof folders / sizeof folders[0]; i++)
        add_folder(path_of(&place, "%s", folders[i]));
    add_folder(path_of(&place, "devices/virtual/input/%s", place.own));
    add_capabilities(&place, device);
    add_identity(&place, &device->identity);
    add_node(&place);
}

static int remove_found(const char *path, const struct stat *status, int kind, struct FTW *where) {
    (void)status;
    (void)kind;
    (void)where;
    return remove(path);
}

static void remove_all(struct path path) {
    nftw(path.text, remove_found, OPEN_MOST, FTW_DEPTH | FTW_PHYS);
}

void system_files_remove(const struct device *device, const char *root) {
    struct place place = place_of(device, root);
    remove_all(path_of(&place, "class/input/event%d", place.number));
    remove_all(path_of(&place, "class/input/%s", place.own));
    remove_all(path_of(&place, "dev/char/13:%d", FIRST_MINOR + place.number));
    remove_all(path_of(&place, "devices/virtual/input/%s", place.own));
}
