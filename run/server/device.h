/* A device that is played: what it has, who it is, and the library's device that answers for it. */
#ifndef INPUTPLAY_RUN_DEVICE_H
#define INPUTPLAY_RUN_DEVICE_H

#include "inputplay.h"
#include "protocol.h"

#include <linux/input.h>
#include <stdbool.h>
#include <stddef.h>
#include <stdint.h>

enum device_limit {
    TEXT_ROOM = 128,
    NAME_ROOM = 33,
    PROPERTY_BYTES = 8,
    LONGEST_LOG = 8388608 /**< The most steps that a history may have. */
};

/** Who a device is, beside what it has: EVIOCGNAME, EVIOCGPHYS, EVIOCGUNIQ, EVIOCGID and EVIOCGPROP. */
struct identity {
    char name[TEXT_ROOM];
    char phys[TEXT_ROOM];
    char uniq[TEXT_ROOM];
    struct input_id id;
    uint8_t properties[PROPERTY_BYTES];
};

struct device {
    char record_name[NAME_ROOM];
    struct identity identity;
    uint8_t bits[EV_CNT][KEY_CNT / 8];     /**< Of types in [0], of their codes in the others. */
    struct input_absinfo lacking[ABS_CNT]; /**< What EVIOCSABS said of axes that the device lacks. */
    uint32_t slots;
    uint64_t ahead[2];       /**< How far its clocks are ahead in the record: realtime, and boottime. */
    uint64_t repeats_at_us;  /**< When a tick may be due, or 0. */
    uint32_t steps;          /**< The length of its history. */
    char *description;       /**< The text of which the library made it. */
    inputplay_handle handle;
    bool is_made;       /**< By a program, and not of the record. */
    bool is_gone;       /**< It was unplugged, or destroyed by its owner. */
    bool may_have_sent; /**< Something may wait for its owner, which was not looked for yet. */
};

extern struct device devices[DEVICES];
extern int device_count;

/** A new device of this name, without anything yet. */
struct device *device_new(const char *name);

/** Has the library make a device of the text of its description; false where it refuses the text. */
bool device_make(struct device *device, const char *description);

int device_index(const struct device *device);

/** Whether a device has a code of a type, or with EV_SYN the type of this number. */
bool device_has(const struct device *device, unsigned type, unsigned code);

void device_set(struct device *device, unsigned type, unsigned code);

/** How many bytes the kernel has for the codes of a type. */
size_t code_bytes(unsigned type);

/** Makes a step. Only a history that is full, or a wrong call, ends the server. */
void device_step(struct device *device, const inputplay_step_t *step, inputplay_reply *reply);

/** Makes a step that is answered with values of slots. */
void device_step_cells(struct device *device, const inputplay_step_t *step, inputplay_reply *reply,
                       int32_t *cells, size_t count);

/** A client reads: how many events came, or a negative errno. */
int device_read(struct device *device, uint32_t client, inputplay_event *events, size_t room);

/** The settings of its autorepeat as they are now. */
inputplay_repeat_t device_repeat(struct device *device);

/** Whether a client has visible events. */
enum sight { SEES_NOTHING, SEES_EVENTS, SEES_NO_DEVICE };
enum sight device_sight(struct device *device, uint32_t client);

/** The errno for which a step was refused, negative. */
int error_of(uint32_t why);

/** Takes what the record's comments tell of its devices. (identity.c) */
void identities_take(const char *text, size_t length);

/** Makes the files by which programs find a device: its nodes, and what udev knows of it. (nodes.c) */
void nodes_make(const struct device *device);

/** Removes them: the device has gone. (nodes.c) */
void nodes_remove(const struct device *device);

/** Makes the file that stands for /dev/uinput. (nodes.c) */
void nodes_make_maker(void);

#endif
