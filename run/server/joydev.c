/* What a joystick's node answers, as joydev does, by the library's joystick client. There is one such client
 * of a device. */
#include "evdev.h"

#include "failure.h"
#include "player.h"

#include <errno.h>
#include <linux/joystick.h>
#include <string.h>

enum { BUTTONS_MOST = 64, BUTTON_CODES = KEY_MAX - BTN_MISC + 1 };

static bool has_joystick_client(const struct device *device) {
    for (int i = 0; i < CLIENTS; i++)
        if (clients[i].is_open && clients[i].device == device && clients[i].kind == NODE_JOYSTICK)
            return true;
    return false;
}

static int joydev_open(struct client *client) {
    uint32_t why;
    if (has_joystick_client(client->device))
        return -EBUSY;
    if (inputplay_joy_start(&client->device->handle, &client->number, &why) != INPUTPLAY_OK)
        return -EIO;
    if (why)
        return error_of(why);
    client_show(client, true); /* the startup's records */
    return 0;
}

static void joydev_close(struct client *client) {
    client_ask(client, (inputplay_step_t){.step = INPUTPLAY_CLOSE});
}

/* Takes records as long as there are some and they fit: how many bytes, or a negative errno. */
static int take_records(struct client *client, void *to, size_t length) {
    size_t done = 0;
    uint32_t told = INPUTPLAY_JOY_MORE, place;
    if (client->device->is_gone)
        return -ENODEV;
    while (done + sizeof(struct js_event) <= length && told != INPUTPLAY_JOY_AGAIN) {
        if (inputplay_joy_read(&client->device->handle, (uint8_t *)to + done, &told, &place) != INPUTPLAY_OK)
            return -EIO;
        if (told == INPUTPLAY_JOY_FULL)
            fail("the history of %s is full; no more can be read", client->device->record_name);
        if (told == INPUTPLAY_JOY_NO_DEVICE || told == INPUTPLAY_JOY_CLOSED)
            return done ? (int)done : -ENODEV;
        done += told == INPUTPLAY_JOY_RECORD ? sizeof(struct js_event) : 0;
    }
    if (told == INPUTPLAY_JOY_AGAIN)
        client_show(client, false);
    if (done)
        player_note_read(client);
    return (int)done;
}

static int joydev_read(struct client *client, void *to, size_t length) {
    if (length < sizeof(struct js_event))
        return -EINVAL;
    return player_read(client, take_records, to, length);
}

static int joydev_write(struct client *client, const void *from, size_t length) {
    (void)client;
    (void)from;
    (void)length;
    return -EINVAL;
}

static void add_keys(const struct device *device, unsigned from, unsigned end, uint16_t *codes,
                     uint8_t *count) {
    for (unsigned code = from; code < end && *count < BUTTONS_MOST; code++)
        if (device_has(device, EV_KEY, code))
            codes[(*count)++] = (uint16_t)code;
}

/* The codes of the buttons by their numbers: those from BTN_JOYSTICK on, then those from BTN_MISC on. */
static uint8_t button_codes(const struct device *device, uint16_t *codes) {
    uint8_t count = 0;
    add_keys(device, BTN_JOYSTICK, KEY_CNT, codes, &count);
    add_keys(device, BTN_MISC, BTN_JOYSTICK, codes, &count);
    return count;
}

static uint8_t axis_codes(const struct device *device, uint8_t *codes) {
    uint8_t count = 0;
    for (unsigned code = 0; code < ABS_CNT; code++) {
        bool is_of_slots = code >= ABS_MT_SLOT && code <= ABS_MT_TOOL_Y;
        if (device_has(device, EV_ABS, code) && !is_of_slots)
            codes[count++] = (uint8_t)code;
    }
    return count;
}

/* No correction is made; the answer is longer than the request's number says. */
static int get_corrections(struct ioctl_call *call, uint8_t axes) {
    call->answered = axes * (uint32_t)sizeof(struct js_corr);
    memset(call->bytes, 0, call->answered);
    return 0;
}

static int joydev_ioctl(struct client *client, struct ioctl_call *call) {
    uint16_t keys[BUTTON_CODES] = {0};
    uint8_t axes[ABS_CNT] = {0}, key_count = button_codes(client->device, keys);
    uint8_t axis_count = axis_codes(client->device, axes);
    uint32_t version = JS_VERSION;
    player_note_active();
    switch (call->number) {
    case JSIOCGVERSION: return answer_bytes(call, &version, sizeof version) < 0;
    case JSIOCGAXES: return answer_bytes(call, &axis_count, 1) < 0;
    case JSIOCGBUTTONS: return answer_bytes(call, &key_count, 1) < 0;
    case JSIOCGCORR: return get_corrections(call, axis_count);
    default: break;
    }
    switch (call->number & ~((uint32_t)_IOC_SIZEMASK << _IOC_SIZESHIFT)) {
    case JSIOCGNAME(0):
        return answer_bytes(call, client->device->identity.name, strlen(client->device->identity.name) + 1);
    case _IOC(_IOC_READ, 'j', _IOC_NR(JSIOCGAXMAP), 0): return answer_bytes(call, axes, sizeof axes);
    case _IOC(_IOC_READ, 'j', _IOC_NR(JSIOCGBTNMAP), 0): return answer_bytes(call, keys, sizeof keys);
    default: return refuse_request(client->device->identity.name, call->number);
    }
}

const struct node_calls joydev_calls = {joydev_open, joydev_read, joydev_write, joydev_ioctl, joydev_close};
