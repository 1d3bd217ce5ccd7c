#include "description.h"

#include "failure.h"
#include "moments.h"
#include "record.h"
#include "settings.h"

#include <stdio.h>

/** What the kernel's input core takes a frame for, where no driver says more: keys, and both reports. */
enum { HINT_OF_KEYS = 8, HINT_MOST = 512, CONTACTS_LEAST = 2, CONTACTS_MOST = 32 };

static bool is_of_slots(unsigned code) {
    return code >= ABS_MT_TOUCH_MAJOR && code <= ABS_MT_TOOL_Y;
}

/* How many contacts a frame may tell of. */
static unsigned contacts_of(const struct device *device, const struct input_absinfo *axes) {
    if (device->slots)
        return device->slots;
    if (device_has(device, EV_ABS, ABS_MT_TRACKING_ID)) {
        int64_t count = (int64_t)axes[ABS_MT_TRACKING_ID].maximum - axes[ABS_MT_TRACKING_ID].minimum + 1;
        return count < CONTACTS_LEAST  ? CONTACTS_LEAST
               : count > CONTACTS_MOST ? CONTACTS_MOST
                                       : (unsigned)count;
    }
    return device_has(device, EV_ABS, ABS_MT_POSITION_X) ? CONTACTS_LEAST : 0;
}

/* How many events a frame may have, as the kernel estimates it: the rings of clients are as long as there. */
static unsigned hint_of(const struct device *device, const struct input_absinfo *axes) {
    unsigned contacts = contacts_of(device, axes), hint = HINT_OF_KEYS + contacts;
    for (unsigned code = 0; code < ABS_CNT; code++) {
        if (device_has(device, EV_ABS, code))
            hint += is_of_slots(code) ? contacts : 1;
        if (code < REL_CNT && device_has(device, EV_REL, code))
            hint++;
    }
    return hint < HINT_MOST ? hint : HINT_MOST;
}

static void write_codes(FILE *file, const struct device *device) {
    for (unsigned type = EV_SYN + 1; type < EV_CNT; type++) {
        if (device_has(device, EV_SYN, type))
            fprintf(file, "type %u\n", type);
        for (unsigned code = 0; code < KEY_CNT && type != EV_ABS; code++)
            if (device_has(device, type, code))
                fprintf(file, "cap %u %u\n", type, code);
    }
}

/* (Of a device with slots the library adds both axes that tell of them.) */
static void write_axes(FILE *file, const struct device *device, const struct input_absinfo *axes) {
    for (unsigned code = 0; code < ABS_CNT; code++) {
        const struct input_absinfo *info = &axes[code];
        bool is_added = device->slots && (code == ABS_MT_SLOT || code == ABS_MT_TRACKING_ID);
        if (device_has(device, EV_ABS, code) && !is_added)
            fprintf(file, "axis %u %d %d %d %d %d %d\n", code, info->value, info->minimum, info->maximum,
                    info->fuzz, info->flat, info->resolution);
    }
}

char *description_of(const struct device *device, const struct input_absinfo *axes) {
    char *text = NULL;
    size_t length;
    FILE *file = open_memstream(&text, &length);
    if (!file)
        fail("memory ran out");
    fprintf(file, "inputrecord 2\nudevice %s\n", device->record_name);
    fprintf(file, "hint %u\nlog %d\n", hint_of(device, axes), LONGEST_LOG);
    if (!settings.is_record_clock)
        fprintf(file, "clock realtime %llu\nclock boottime %llu\n",
                (unsigned long long)clock_ahead(CLOCK_REALTIME),
                (unsigned long long)clock_ahead(CLOCK_BOOTTIME));
    if (device->slots)
        fprintf(file, "slots %u\n", device->slots);
    write_codes(file, device);
    write_axes(file, device, axes);
    if (fclose(file))
        fail("memory ran out");
    return text;
}
