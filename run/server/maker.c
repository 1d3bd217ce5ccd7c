/* What a program says of a device that it makes, and the device's description of that. What the kernel's
 * uinput refuses is refused where the program says it; what the library refuses beside that, as a fuzz below
 * 0, where the device is created. */
#include "maker.h"

#include "description.h"

#include <ctype.h>
#include <errno.h>
#include <stdio.h>
#include <string.h>

enum { SLOTS_MOST = 100 };

int maker_set_up(struct maker *maker, const struct uinput_setup *setup) {
    if (!setup->name[0])
        return -EINVAL;
    maker->identity.id = setup->id;
    snprintf(maker->identity.name, sizeof maker->identity.name, "%.*s", UINPUT_MAX_NAME_SIZE, setup->name);
    maker->is_set_up = true;
    return 0;
}

/* Whether there is such an axis: its least value is not above its greatest one, and its flat part is not
 * longer than its range. */
static bool is_axis(const struct input_absinfo *info, unsigned code) {
    int64_t range = (int64_t)info->maximum - info->minimum;
    bool has_overflow = range > INT32_MAX || range < INT32_MIN;
    return range >= 0 && (has_overflow || info->flat <= range) &&
           (code != ABS_MT_SLOT || info->maximum < SLOTS_MOST);
}

int maker_set_axis(struct maker *maker, const void *setup, size_t length) {
    struct uinput_abs_setup axis = {0};
    if (length > sizeof axis)
        return -E2BIG;
    memcpy(&axis, setup, length);
    if (axis.code > ABS_MAX)
        return -ERANGE;
    if (!is_axis(&axis.absinfo, axis.code))
        return -EINVAL;
    maker->bits[EV_ABS][axis.code / 8] |= (uint8_t)(1u << axis.code % 8);
    maker->axes[axis.code] = axis.absinfo;
    return 0;
}

static bool has_bit(const struct maker *maker, unsigned type, unsigned code) {
    return maker->bits[type][code / 8] >> code % 8 & 1;
}

static bool has_wrong_axis(const struct maker *maker) {
    for (unsigned code = 0; code < ABS_CNT; code++)
        if (has_bit(maker, EV_ABS, code) && !is_axis(&maker->axes[code], code))
            return true;
    return false;
}

/* The ranges of all axes come too, also of those that the device lacks. */
int maker_set_up_by_write(struct maker *maker, const struct uinput_user_dev *told) {
    struct uinput_setup setup = {.id = told->id};
    memcpy(setup.name, told->name, sizeof setup.name);
    if (!setup.name[0])
        return -EINVAL;
    for (unsigned code = 0; code < ABS_CNT; code++) {
        struct input_absinfo *info = &maker->axes[code];
        info->minimum = told->absmin[code];
        info->maximum = told->absmax[code];
        info->fuzz = told->absfuzz[code];
        info->flat = told->absflat[code];
    }
    if (has_bit(maker, EV_SYN, EV_ABS) && has_wrong_axis(maker))
        return -EINVAL;
    return maker_set_up(maker, &setup);
}

static bool is_played_type(unsigned type) {
    return type <= EV_SW || type == EV_LED || type == EV_SND || type == EV_REP;
}

int maker_set_bit(struct maker *maker, uint32_t number, uint32_t bit) {
    static const struct {
        uint32_t number, most;
        unsigned type;
    } kinds[] = {
        {UI_SET_EVBIT, EV_MAX, EV_SYN},   {UI_SET_KEYBIT, KEY_MAX, EV_KEY}, {UI_SET_RELBIT, REL_MAX, EV_REL},
        {UI_SET_ABSBIT, ABS_MAX, EV_ABS}, {UI_SET_MSCBIT, MSC_MAX, EV_MSC}, {UI_SET_LEDBIT, LED_MAX, EV_LED},
        {UI_SET_SNDBIT, SND_MAX, EV_SND}, {UI_SET_SWBIT, SW_MAX, EV_SW},
    };
    if (number == UI_SET_PROPBIT && bit <= INPUT_PROP_MAX) {
        maker->identity.properties[bit / 8] |= (uint8_t)(1u << bit % 8);
        return 0;
    }
    for (size_t i = 0; i < sizeof kinds / sizeof kinds[0]; i++)
        if (kinds[i].number == number) {
            bool is_played = kinds[i].type != EV_SYN || is_played_type(bit);
            if (bit > kinds[i].most || !is_played)
                return -EINVAL;
            maker->bits[kinds[i].type][bit / 8] |= (uint8_t)(1u << bit % 8);
            return 0;
        }
    return -EINVAL;
}

static bool is_taken(const char *name) {
    for (int i = 0; i < device_count; i++)
        if (!strcmp(devices[i].record_name, name))
            return true;
    return false;
}

/* A record's name of a device of this name: the first of NAME, NAME-2, NAME-3 .. that no device has. */
static void take_record_name(const char *name, char *taken) {
    char first[NAME_ROOM] = {0};
    for (size_t i = 0; i < NAME_ROOM - 5 && name[i]; i++)
        first[i] = isalnum((unsigned char)name[i]) ? (char)tolower((unsigned char)name[i]) : '-';
    snprintf(taken, NAME_ROOM, "%s", first);
    for (unsigned number = 2; is_taken(taken); number++)
        snprintf(taken, NAME_ROOM, "%s-%u", first, number % 1000);
}

/* What a type that the device lacks would have goes, as does the key 0. */
static void take_codes(const struct maker *maker, struct device *device) {
    memcpy(device->bits[EV_SYN], maker->bits[EV_SYN], sizeof device->bits[EV_SYN]);
    device_set(device, EV_SYN, EV_SYN);
    for (unsigned type = EV_SYN + 1; type < EV_CNT; type++)
        if (has_bit(maker, EV_SYN, type))
            memcpy(device->bits[type], maker->bits[type], sizeof device->bits[type]);
    device->bits[EV_KEY][0] &= (uint8_t)~1u;
    if (device_has(device, EV_ABS, ABS_MT_SLOT) && maker->axes[ABS_MT_SLOT].maximum >= 0)
        device->slots = (uint32_t)maker->axes[ABS_MT_SLOT].maximum + 1;
    if (device->slots)
        device_set(device, EV_ABS, ABS_MT_TRACKING_ID);
}

struct device *maker_make(const struct maker *maker, int *error) {
    char name[NAME_ROOM];
    take_record_name(maker->identity.name, name);
    struct device *device = maker->is_set_up ? device_new(name) : NULL;
    *error = maker->is_set_up ? -ENOMEM : -EINVAL;
    if (!device)
        return NULL;
    device->identity = maker->identity;
    device->is_made = true;
    take_codes(maker, device);
    char *description = description_of(device, maker->axes);
    bool is_made = device_make(device, description);
    free(description);
    if (is_made)
        return device;
    device_count--;
    *error = -EINVAL;
    return NULL;
}
