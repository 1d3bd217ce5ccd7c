/* Losses at will (--first-loss). Whether a client has lost events is asked of a copy of its device, which
 * makes the steps of the history anew: to ask the device itself would take the events. */
#include "player.h"

#include "failure.h"
#include "history.h"
#include "settings.h"

#include <stdio.h>
#include <stdlib.h>
#include <string.h>

enum { STEPS_AT_ONCE = 1024, STEPS_MORE = 1024, CELLS = 14 * 256 };

static inputplay_event events[INPUTPLAY_READ_MAX];

bool is_loss_due(void) {
    for (int i = 0; i < device_count; i++)
        if (settings.first_loss >= 0 && devices[i].steps >= (uint32_t)settings.first_loss)
            return true;
    return false;
}

static void repeat_steps(inputplay_handle *copy, const inputplay_step_t *steps, size_t count) {
    static int32_t cells[CELLS];
    inputplay_reply reply;
    for (size_t i = 0; i < count; i++)
        if (inputplay_step(copy, &steps[i], &reply, events, INPUTPLAY_READ_MAX, cells, CELLS) != INPUTPLAY_OK)
            fail("a step of a history was refused");
}

/* The description of a copy: it wants no room for a long history. */
static char *short_description(const struct device *device) {
    static const char longest[] = "\nlog 8388608\n";
    char *text = strdup(device->description), *line = text ? strstr(text, longest) : NULL;
    if (!text)
        fail("memory ran out");
    if (line && device->steps + STEPS_MORE < 8388608) {
        char shorter[sizeof longest];
        snprintf(shorter, sizeof shorter, "\nlog %07u\n", device->steps + STEPS_MORE);
        memcpy(line, shorter, sizeof longest - 1);
    }
    return text;
}

/* A device with the same history. */
static void copy_device(struct device *device, inputplay_handle *copy) {
    static inputplay_step_t steps[STEPS_AT_ONCE];
    char *text = short_description(device);
    size_t from = 0, left = 1;
    uint32_t line, cause;
    if (inputplay_device_new((const uint8_t *)text, strlen(text), 0, copy, &line, &cause))
        fail("memory ran out");
    free(text);
    while (left) {
        inputplay_history(&device->handle, from, steps, STEPS_AT_ONCE, &left);
        size_t count = left < STEPS_AT_ONCE ? left : STEPS_AT_ONCE;
        repeat_steps(copy, steps, count);
        from += count;
        left -= count;
    }
}

/* Whether a client of the copy reads SYN_DROPPED. */
static bool reads_loss(inputplay_handle *copy, uint32_t client) {
    uint32_t at, count, why;
    do {
        inputplay_read(copy, client, events, INPUTPLAY_READ_MAX, &at, &count, &why);
        for (uint32_t i = 0; i < count; i++)
            if (events[i].type == EV_SYN && events[i].code == SYN_DROPPED)
                return true;
    } while (count && !why);
    return false;
}

static bool has_lost(struct client *client) {
    inputplay_handle copy = INPUTPLAY_NOTHING;
    copy_device(client->device, &copy);
    bool has = reads_loss(&copy, client->number);
    inputplay_free(&copy);
    return has;
}

bool has_client_lost(void) {
    for (int i = 0; i < CLIENTS; i++)
        if (clients[i].is_open && clients[i].kind == NODE_EVENT && has_lost(&clients[i]))
            return true;
    return false;
}
