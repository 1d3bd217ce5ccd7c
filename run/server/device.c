#include "device.h"

#include "failure.h"
#include "moments.h"

#include <errno.h>
#include <stdio.h>
#include <stdlib.h>
#include <string.h>

struct device devices[DEVICES];
int device_count;

struct device *device_new(const char *name) {
    if (device_count == DEVICES)
        return NULL;
    struct device *device = &devices[device_count++];
    *device = (struct device){.description = NULL};
    snprintf(device->record_name, sizeof device->record_name, "%s", name);
    snprintf(device->identity.name, sizeof device->identity.name, "%s", name);
    device_set(device, EV_SYN, EV_SYN);
    return device;
}

bool device_make(struct device *device, const char *description) {
    uint32_t line, cause;
    device->description = strdup(description);
    if (!device->description)
        fail("memory ran out");
    uint32_t status = inputplay_device_new((const uint8_t *)description, strlen(description), 0,
                                           &device->handle, &line, &cause);
    if (status != INPUTPLAY_OK && status != INPUTPLAY_REFUSED)
        fail("the device %s was not made: status %u", device->record_name, status);
    if (status == INPUTPLAY_REFUSED)
        free(device->description);
    return status == INPUTPLAY_OK;
}

int device_index(const struct device *device) {
    return (int)(device - devices);
}

bool device_has(const struct device *device, unsigned type, unsigned code) {
    return device->bits[type][code / 8] >> code % 8 & 1;
}

void device_set(struct device *device, unsigned type, unsigned code) {
    if (type < EV_CNT && code < KEY_CNT)
        device->bits[type][code / 8] |= (uint8_t)(1u << code % 8);
}

size_t code_bytes(unsigned type) {
    return type == EV_KEY ? KEY_CNT / 8 : type == EV_FF ? FF_CNT / 8 : 8;
}

inputplay_repeat_t device_repeat(struct device *device) {
    inputplay_repeat_t repeat = {0};
    if (inputplay_device_repeat(&device->handle, &repeat) != INPUTPLAY_OK)
        fail("the library does not tell of the autorepeat of %s", device->record_name);
    return repeat;
}

/* What an event says of a device: when a tick may be due by the server's clock, and that something may wait
 * for its owner. */
static void note_event(struct device *device, const inputplay_step_t *step) {
    device->may_have_sent |= step->type >= EV_MSC || (step->type == EV_SYN && step->code == SYN_CONFIG);
    if (step->type == EV_KEY && step->value != 2) {
        uint64_t delay = 1000 * (uint64_t)device_repeat(device).delay;
        device->repeats_at_us = step->value && delay ? now_us() + delay : 0;
    }
}

void device_step_cells(struct device *device, const inputplay_step_t *step, inputplay_reply *reply,
                       int32_t *cells, size_t count) {
    inputplay_event no_event;
    uint32_t status = inputplay_step(&device->handle, step, reply, &no_event, 0, cells, count);
    if (status != INPUTPLAY_OK)
        fail("the library refused a call: step %u, status %u", step->step, status);
    bool is_refused = reply->reply == INPUTPLAY_STEP_REFUSED;
    if (is_refused && reply->why == INPUTPLAY_LOG_FULL)
        fail("the history of %s is full; no more can be played", device->record_name);
    bool is_entered = !is_refused && reply->reply != INPUTPLAY_AGAIN;
    device->steps = reply->at + is_entered;
    if (is_entered && (step->step == INPUTPLAY_INJECT || step->step == INPUTPLAY_WRITE))
        note_event(device, step);
}

void device_step(struct device *device, const inputplay_step_t *step, inputplay_reply *reply) {
    int32_t no_cell;
    device_step_cells(device, step, reply, &no_cell, 0);
}

int device_read(struct device *device, uint32_t client, inputplay_event *events, size_t room) {
    uint32_t at, count, why;
    if (inputplay_read(&device->handle, client, events, room, &at, &count, &why) != INPUTPLAY_OK)
        return -EIO;
    if (why == INPUTPLAY_LOG_FULL)
        fail("the history of %s is full; no more can be read", device->record_name);
    device->steps = at + (count > 0);
    return why ? error_of(why) : (int)count;
}

enum sight device_sight(struct device *device, uint32_t client) {
    inputplay_client_t state;
    uint32_t count;
    if (device->is_gone || inputplay_client(&device->handle, client, &state) != INPUTPLAY_OK || state.revoked)
        return SEES_NO_DEVICE;
    bool has_events = inputplay_visible(&device->handle, client, &count) == INPUTPLAY_OK && count > 0;
    return has_events ? SEES_EVENTS : SEES_NOTHING;
}

int error_of(uint32_t why) {
    switch (why) {
    case INPUTPLAY_BAD_CLIENT: return -EBADF;
    case INPUTPLAY_NO_DEVICE: return -ENODEV;
    case INPUTPLAY_BUSY: return -EBUSY;
    case INPUTPLAY_TOO_MANY: return -EMFILE;
    case INPUTPLAY_STEP_NO_MEMORY: return -ENOMEM;
    default: return -EINVAL;
    }
}
