/* What /dev/uinput answers. A program says what a device has, creates it, and is its owner from then on: it
 * injects what the device does, and reads what is sent to it. */
#include "evdev.h"
#include "maker.h"
#include "system.h"

#include "failure.h"
#include "moments.h"
#include "player.h"
#include "settings.h"

#include <errno.h>
#include <stdio.h>
#include <string.h>

static const size_t EVENT_BYTES = sizeof(struct input_event);

/** What a file of /dev/uinput has beside its device: what was said of it, and what waits to be read. */
static struct owner {
    struct maker maker;
    char root[SYSTEM_ROOT_ROOM]; /**< Where the program finds /sys. */
    struct input_event waiting[INPUTPLAY_FEEDBACK_MAX];
    size_t count;
} owners[CLIENTS];

static struct owner *owner_of(const struct client *client) {
    return &owners[client - clients];
}

static int uinput_open(struct client *client) {
    struct owner *owner = owner_of(client);
    *owner = (struct owner){.count = 0};
    snprintf(owner->root, sizeof owner->root, "%s", settings.folder);
    return 0;
}

void owner_take_root(const struct client *client, const char *root) {
    struct owner *owner = owner_of(client);
    if (root[0] == '/' && strlen(root) < sizeof owner->root)
        snprintf(owner->root, sizeof owner->root, "%s", root);
}

/* The device goes, and what was said of it is forgotten: another one may be made. */
static void destroy(struct client *client) {
    struct device *device = client->device;
    struct owner *owner = owner_of(client);
    owner->maker = (struct maker){.is_set_up = false};
    owner->count = 0;
    client->device = NULL;
    if (!device)
        return;
    device->is_gone = true;
    nodes_remove(device);
    system_files_remove(device, owner->root);
    clients_refresh(device);
}

static int create(struct client *client) {
    int error;
    struct owner *owner = owner_of(client);
    if (client->device)
        return -EINVAL;
    client->device = maker_make(&owner->maker, &error);
    if (!client->device)
        return error;
    system_files_make(client->device, owner->root);
    nodes_make(client->device);
    return 0;
}

/* The last that were sent wait, as many as there are places. */
static void add_waiting(struct owner *owner, const inputplay_event *event) {
    if (owner->count == INPUTPLAY_FEEDBACK_MAX)
        memmove(owner->waiting, owner->waiting + 1, --owner->count * sizeof owner->waiting[0]);
    uint64_t now = step_moment();
    struct input_event sent = {.type = event->type, .code = event->code, .value = event->value};
    sent.input_event_sec = (__typeof__(sent.input_event_sec))(now / 1000000);
    sent.input_event_usec = (__typeof__(sent.input_event_usec))(now % 1000000);
    owner->waiting[owner->count++] = sent;
}

/* (The library does not tell whether something waits. So it is taken, and waits here.) */
void owner_refresh(struct client *client) {
    struct device *device = client->device;
    struct owner *owner = owner_of(client);
    inputplay_event events[INPUTPLAY_FEEDBACK_MAX];
    uint32_t at, count, is_full;
    if (!device->may_have_sent)
        return;
    device->may_have_sent = false;
    inputplay_feedback(&device->handle, events, INPUTPLAY_FEEDBACK_MAX, &at, &count, &is_full);
    if (is_full)
        fail("the history of %s is full; its owner can read no more", device->record_name);
    for (uint32_t i = 0; i < count; i++)
        add_waiting(owner, &events[i]);
    client_show(client, owner->count > 0);
}

/* Takes what waits, as much as fits: how many bytes, or a negative errno. */
static int take_waiting(struct client *client, void *to, size_t length) {
    struct owner *owner = owner_of(client);
    size_t room = length / EVENT_BYTES, count = owner->count < room ? owner->count : room;
    if (!client->device)
        return -ENODEV;
    memcpy(to, owner->waiting, count * EVENT_BYTES);
    owner->count -= count;
    memmove(owner->waiting, owner->waiting + count, owner->count * EVENT_BYTES);
    client_show(client, owner->count > 0);
    if (count)
        player_note_read(client);
    return (int)(count * EVENT_BYTES);
}

static int uinput_read(struct client *client, void *to, size_t length) {
    if (!client->can_read)
        return -EBADF;
    if (length && length < EVENT_BYTES)
        return -EINVAL;
    return length ? player_read(client, take_waiting, to, length) : take_waiting(client, to, length);
}

static int inject(struct client *client, const void *from, size_t length) {
    size_t done = 0;
    if (length && length < EVENT_BYTES)
        return -EINVAL;
    for (; done + EVENT_BYTES <= length; done += EVENT_BYTES) {
        struct input_event event;
        inputplay_reply reply;
        memcpy(&event, (const char *)from + done, EVENT_BYTES);
        inputplay_step_t step = {.step = INPUTPLAY_INJECT,
                                 .type = event.type,
                                 .code = event.code,
                                 .value = event.value,
                                 .now = step_moment()};
        device_step(client->device, &step, &reply);
    }
    clients_refresh(client->device);
    return (int)done;
}

static int uinput_write(struct client *client, const void *from, size_t length) {
    struct uinput_user_dev told;
    if (!client->can_write)
        return -EBADF;
    player_note_active();
    client->found_nothing = false;
    if (client->device)
        return inject(client, from, length);
    if (length != sizeof told)
        return length ? -EINVAL : 0;
    memcpy(&told, from, sizeof told);
    int error = maker_set_up_by_write(&owner_of(client)->maker, &told);
    return error ? error : (int)sizeof told;
}

static int get_system_name(const struct client *client, struct ioctl_call *call) {
    char name[SYSTEM_NAME_ROOM];
    size_t room = _IOC_SIZE(call->number);
    if (!client->device)
        return -ENOENT;
    if (!room)
        return -EINVAL;
    take_system_name(client->device, name);
    if (strlen(name) >= room)
        name[room - 1] = 0;
    return answer_bytes(call, name, strlen(name) + 1);
}

static int set_phys(struct maker *maker, const struct ioctl_call *call) {
    if (!call->given || call->bytes[call->given - 1])
        return -EINVAL;
    snprintf(maker->identity.phys, sizeof maker->identity.phys, "%.*s", TEXT_ROOM - 1,
             (const char *)call->bytes);
    return 0;
}

static int set_up(struct maker *maker, const struct ioctl_call *call) {
    struct uinput_setup setup;
    memcpy(&setup, call->bytes, sizeof setup);
    return maker_set_up(maker, &setup);
}

/* The requests that say what the device has. Once it is there none is taken. */
static int describe(struct client *client, struct ioctl_call *call) {
    struct maker *maker = &owner_of(client)->maker;
    uint32_t number = call->number, size = _IOC_SIZE(number);
    bool is_axis = (number & ~(uint32_t)IOCSIZE_MASK) == (UI_ABS_SETUP & ~(uint32_t)IOCSIZE_MASK);
    bool is_known = number == UI_DEV_SETUP || number == UI_SET_PHYS || is_axis ||
                    (is_bit_request(number) && number != UI_SET_FFBIT);
    if (!is_known)
        return refuse_request("uinput", number);
    if (is_axis && size > sizeof(struct uinput_abs_setup))
        return -E2BIG;
    if (client->device)
        return -EINVAL;
    if (is_axis)
        return maker_set_axis(maker, call->bytes, size);
    if (number == UI_DEV_SETUP)
        return set_up(maker, call);
    return number == UI_SET_PHYS ? set_phys(maker, call) : maker_set_bit(maker, number, call->value);
}

static int uinput_ioctl(struct client *client, struct ioctl_call *call) {
    uint32_t version = UINPUT_VERSION;
    client->found_nothing = false;
    player_note_active();
    switch (call->number) {
    case UI_DEV_CREATE: return create(client);
    case UI_DEV_DESTROY: destroy(client); return 0;
    case UI_GET_VERSION: return answer_bytes(call, &version, sizeof version) < 0;
    default: break;
    }
    if ((call->number & ~(uint32_t)IOCSIZE_MASK) == UI_GET_SYSNAME(0))
        return get_system_name(client, call);
    return describe(client, call);
}

const struct node_calls uinput_calls = {uinput_open, uinput_read, uinput_write, uinput_ioctl, destroy};
