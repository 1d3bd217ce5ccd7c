/* The requests of an event node that make steps: queries of states, slots and axes, and a client's masks and
 * clock. */
#include "evdev.h"

#include <errno.h>
#include <string.h>

enum { CELLS = 14 * 256 };

/* What the client has queued of the type goes. */
int get_state(struct client *client, struct ioctl_call *call, uint32_t step, unsigned type) {
    inputplay_reply reply;
    int error = client_step(client, (inputplay_step_t){.step = step}, &reply);
    return error ? error : answer_bytes(call, reply.words, code_bytes(type));
}

/* The code that is asked for stands first, and the values go behind it, as many as there is room for. */
int get_slots(struct client *client, struct ioctl_call *call) {
    static int32_t cells[CELLS];
    uint32_t code, size = _IOC_SIZE(call->number);
    memcpy(&code, call->bytes, sizeof code);
    if (code <= ABS_MT_SLOT || code > ABS_MT_TOOL_Y)
        return -EINVAL;
    inputplay_step_t step = {.step = INPUTPLAY_GET_SLOTS, .client = client->number, .code = (uint16_t)code};
    inputplay_reply reply;
    device_step_cells(client->device, &step, &reply, cells, CELLS);
    if (reply.reply == INPUTPLAY_STEP_REFUSED)
        return error_of(reply.why);
    if (size < sizeof code)
        return 0;
    uint32_t room = (size - (uint32_t)sizeof code) / (uint32_t)sizeof *cells;
    uint32_t count = room < reply.count ? room : reply.count;
    memcpy(call->bytes + sizeof code, cells, count * sizeof *cells);
    call->answered = (uint32_t)sizeof code + count * (uint32_t)sizeof *cells;
    return 0;
}

/* Whether a device has the axis. One with other axes takes a description of this one too, and tells it. */
static bool has_axis(const struct device *device, unsigned code) {
    return device_has(device, EV_ABS, code);
}

static bool has_axes(const struct device *device) {
    for (unsigned code = 0; code < ABS_CNT; code++)
        if (has_axis(device, code))
            return true;
    return false;
}

int get_axis(struct client *client, struct ioctl_call *call) {
    uint32_t code = _IOC_NR(call->number) & ABS_MAX;
    struct input_absinfo info = client->device->lacking[code];
    if (!has_axes(client->device))
        return -EINVAL;
    if (has_axis(client->device, code)) {
        inputplay_reply reply;
        int error = client_step(
            client, (inputplay_step_t){.step = INPUTPLAY_GET_AXIS, .code = (uint16_t)code}, &reply);
        if (error)
            return error;
        const inputplay_info *axis = &reply.info;
        info = (struct input_absinfo){axis->value, axis->minimum, axis->maximum,
                                      axis->fuzz,  axis->flat,    axis->resolution};
    }
    answer_bytes(call, &info, sizeof info);
    return 0;
}

int set_axis(struct client *client, struct ioctl_call *call) {
    uint32_t code = _IOC_NR(call->number) & ABS_MAX, size = _IOC_SIZE(call->number);
    struct input_absinfo info = {0};
    if (!has_axes(client->device))
        return -EINVAL;
    memcpy(&info, call->bytes, size < sizeof info ? size : sizeof info);
    if (size < sizeof info)
        info.resolution = 0;
    if (code == ABS_MT_SLOT)
        return -EINVAL;
    if (!has_axis(client->device, code)) {
        client->device->lacking[code] = info;
        return 0;
    }
    inputplay_step_t step = {.step = INPUTPLAY_SET_AXIS, .code = (uint16_t)code};
    step.info =
        (inputplay_info){info.value, info.minimum, info.maximum, info.fuzz, info.flat, info.resolution};
    return client_ask(client, step);
}

/* The mask itself goes back, with zeros behind it; the shim puts it where the program's struct says. */
int get_mask(struct client *client, struct ioctl_call *call) {
    struct input_mask mask;
    memcpy(&mask, call->bytes, sizeof mask);
    uint32_t kept = mask_bytes(mask.type);
    call->answered = mask.codes_size < PAYLOAD_MAX ? mask.codes_size : PAYLOAD_MAX;
    memset(call->bytes, 0, call->answered);
    if (kept)
        memcpy(call->bytes, client->masks[mask.type], kept < call->answered ? kept : call->answered);
    return 0;
}

static bool is_played_mask(uint32_t type) {
    return type <= EV_SND && mask_bytes(type);
}

/* The codes stand behind the struct. The library takes a mask a word at a time; it has none of force
 * feedback. */
int set_mask(struct client *client, struct ioctl_call *call) {
    struct input_mask mask;
    uint64_t words[MASK_WORDS] = {0};
    memcpy(&mask, call->bytes, sizeof mask);
    uint32_t kept = mask_bytes(mask.type), count = mask.codes_size < kept ? mask.codes_size : kept;
    if (!kept)
        return 0; /* (a mask that there is not is ignored) */
    if (mask.codes_size % sizeof(long) || call->given < sizeof mask + count)
        return -EINVAL;
    memcpy(words, call->bytes + sizeof mask, count);
    for (uint16_t i = 0; i < kept / sizeof words[0]; i++) {
        inputplay_step_t step = {
            .step = INPUTPLAY_MASK, .type = (uint16_t)mask.type, .code = i, .bits = words[i]};
        bool is_new = words[i] != client->masks[mask.type][i];
        int error = is_new && is_played_mask(mask.type) ? client_ask(client, step) : 0;
        if (error)
            return error;
        client->masks[mask.type][i] = words[i];
    }
    return 0;
}

int set_clock(struct client *client, struct ioctl_call *call) {
    uint32_t clock;
    memcpy(&clock, call->bytes, sizeof clock);
    if (clock != 0 && clock != 1 && clock != 7)
        return -EINVAL;
    return client_ask(client, (inputplay_step_t){.step = INPUTPLAY_CLOCK, .clock = clock});
}

int set_repeat(struct client *client, struct ioctl_call *call) {
    uint32_t repeat[REP_CNT];
    if (!device_has(client->device, EV_SYN, EV_REP))
        return -ENOSYS;
    memcpy(repeat, call->bytes, sizeof repeat);
    for (uint16_t code = 0; code < REP_CNT; code++) {
        int error = client_ask(client, (inputplay_step_t){.step = INPUTPLAY_WRITE,
                                                          .type = EV_REP,
                                                          .code = code,
                                                          .value = (int32_t)repeat[code]});
        if (error)
            return error;
    }
    return 0;
}
