#include "evdev.h"

#include "moments.h"
#include "player.h"

#include <errno.h>
#include <string.h>

static const size_t EVENT_BYTES = sizeof(struct input_event);

int client_step(struct client *client, inputplay_step_t step, inputplay_reply *reply) {
    if (client->device->is_gone)
        return -ENODEV;
    step.client = client->number;
    step.now = step_moment();
    device_step(client->device, &step, reply);
    return reply->reply == INPUTPLAY_STEP_REFUSED ? error_of(reply->why) : 0;
}

int client_ask(struct client *client, inputplay_step_t step) {
    inputplay_reply reply;
    return client_step(client, step, &reply);
}

static int evdev_open(struct client *client) {
    inputplay_reply reply;
    int error = client_step(client, (inputplay_step_t){.step = INPUTPLAY_OPEN}, &reply);
    if (!error)
        client->number = reply.client;
    return error;
}

static void evdev_close(struct client *client) {
    client_ask(client, (inputplay_step_t){.step = INPUTPLAY_CLOSE});
}

static void copy_events(void *to, const inputplay_event *events, int count) {
    for (int i = 0; i < count; i++) {
        struct input_event event = {.type = events[i].type, .code = events[i].code, .value = events[i].value};
        event.input_event_sec = (__typeof__(event.input_event_sec))(events[i].time / 1000000);
        event.input_event_usec = (__typeof__(event.input_event_usec))(events[i].time % 1000000);
        memcpy((char *)to + (size_t)i * EVENT_BYTES, &event, EVENT_BYTES);
    }
}

/* What is there: how many bytes, 0 where there are none, or a negative errno. */
static int take_events(struct client *client, void *to, size_t length) {
    static inputplay_event events[INPUTPLAY_READ_MAX];
    size_t room = length / EVENT_BYTES < INPUTPLAY_READ_MAX ? length / EVENT_BYTES : INPUTPLAY_READ_MAX;
    if (client->device->is_gone)
        return -ENODEV;
    int count = device_read(client->device, client->number, events, room);
    if (count <= 0) {
        client_show(client, false); /* (a loss in the middle of a frame hides what was visible) */
        return count;
    }
    copy_events(to, events, count);
    client->has_read = true;
    player_note_read(client);
    bool is_full = (size_t)count == room;
    client_show(client, is_full && device_sight(client->device, client->number) == SEES_EVENTS);
    return count * (int)EVENT_BYTES;
}

static int evdev_read(struct client *client, void *to, size_t length) {
    if (!client->can_read)
        return -EBADF;
    if (length && length < EVENT_BYTES)
        return -EINVAL;
    if (length)
        return player_read(client, take_events, to, length);
    if (client->device->is_gone)
        return -ENODEV;
    return client->has_byte || !is_nonblocking(client) ? 0 : -EAGAIN;
}

static int evdev_write(struct client *client, const void *from, size_t length) {
    size_t done = 0;
    if (!client->can_write)
        return -EBADF;
    if (length && length < EVENT_BYTES)
        return -EINVAL;
    for (; done + EVENT_BYTES <= length; done += EVENT_BYTES) {
        struct input_event event;
        memcpy(&event, (const char *)from + done, EVENT_BYTES);
        int error = client_ask(client, (inputplay_step_t){.step = INPUTPLAY_WRITE,
                                                          .type = event.type,
                                                          .code = event.code,
                                                          .value = event.value});
        if (error)
            return error;
    }
    client->found_nothing = false;
    player_note_active();
    clients_refresh(client->device);
    return (int)done;
}

const struct node_calls evdev_calls = {evdev_open, evdev_read, evdev_write, evdev_ioctl, evdev_close};
