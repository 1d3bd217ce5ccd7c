/* The requests (ioctl) of an event node, as the kernel's evdev answers them. */
#include "evdev.h"

#include "failure.h"
#include "player.h"

#include <errno.h>
#include <string.h>

enum { TOLD_AT_MOST = 64 };

/** A request that is known by its whole number, or with its size left out. */
struct known_request {
    uint32_t number;
    int (*answer)(struct client *client, struct ioctl_call *call);
};

int answer_bytes(struct ioctl_call *call, const void *bytes, size_t length) {
    size_t room = _IOC_SIZE(call->number);
    size_t count = length < room ? length : room;
    memmove(call->bytes, bytes, count);
    call->answered = (uint32_t)count;
    return (int)count;
}

int answer_text(struct ioctl_call *call, const char *text) {
    return text[0] ? answer_bytes(call, text, strlen(text) + 1) : -ENOENT;
}

int refuse_request(const char *node, uint32_t number) {
    static uint32_t told[TOLD_AT_MOST];
    static int count;
    for (int i = 0; i < count; i++)
        if (told[i] == number)
            return -EINVAL;
    if (count < TOLD_AT_MOST) {
        told[count++] = number;
        say("request 0x%08x of %s is not served, and answered EINVAL", number, node);
    }
    return -EINVAL;
}

static int get_version(struct client *client, struct ioctl_call *call) {
    int version = EV_VERSION;
    (void)client;
    answer_bytes(call, &version, sizeof version);
    return 0;
}

static int get_id(struct client *client, struct ioctl_call *call) {
    answer_bytes(call, &client->device->identity.id, sizeof(struct input_id));
    return 0;
}

static int get_repeat(struct client *client, struct ioctl_call *call) {
    if (!device_has(client->device, EV_SYN, EV_REP))
        return -ENOSYS;
    inputplay_repeat_t repeat = device_repeat(client->device);
    uint32_t told[REP_CNT] = {[REP_DELAY] = (uint32_t)repeat.delay, [REP_PERIOD] = (uint32_t)repeat.period};
    answer_bytes(call, told, sizeof told);
    return 0;
}

static int get_effects(struct client *client, struct ioctl_call *call) {
    int none = 0;
    (void)client;
    answer_bytes(call, &none, sizeof none);
    return 0;
}

/* A device without force feedback has neither request. */
static int no_effect(struct client *client, struct ioctl_call *call) {
    (void)client;
    (void)call;
    return -ENOSYS;
}

/* A device without a map of keys has none of the four. */
static int no_key_map(struct client *client, struct ioctl_call *call) {
    (void)client;
    (void)call;
    return -EINVAL;
}

static int grab(struct client *client, struct ioctl_call *call) {
    return client_ask(client, (inputplay_step_t){.step = call->is_set ? INPUTPLAY_GRAB : INPUTPLAY_UNGRAB});
}

static int revoke(struct client *client, struct ioctl_call *call) {
    return call->is_set ? -EINVAL : client_ask(client, (inputplay_step_t){.step = INPUTPLAY_REVOKE});
}

static int get_name(struct client *client, struct ioctl_call *call) {
    return answer_text(call, client->device->identity.name);
}

static int get_phys(struct client *client, struct ioctl_call *call) {
    return answer_text(call, client->device->identity.phys);
}

static int get_uniq(struct client *client, struct ioctl_call *call) {
    return answer_text(call, client->device->identity.uniq);
}

static int get_properties(struct client *client, struct ioctl_call *call) {
    return answer_bytes(call, client->device->identity.properties, PROPERTY_BYTES);
}

static int get_keys(struct client *client, struct ioctl_call *call) {
    return get_state(client, call, INPUTPLAY_GET_KEYS, EV_KEY);
}

static int get_leds(struct client *client, struct ioctl_call *call) {
    return get_state(client, call, INPUTPLAY_GET_LEDS, EV_LED);
}

static int get_sounds(struct client *client, struct ioctl_call *call) {
    return get_state(client, call, INPUTPLAY_GET_SOUNDS, EV_SND);
}

static int get_switches(struct client *client, struct ioctl_call *call) {
    return get_state(client, call, INPUTPLAY_GET_SWITCHES, EV_SW);
}

static int get_bits(struct client *client, struct ioctl_call *call) {
    unsigned type = _IOC_NR(call->number) & EV_MAX;
    bool has_codes = type <= EV_SW || type == EV_LED || type == EV_SND || type == EV_FF;
    return has_codes ? answer_bytes(call, client->device->bits[type], code_bytes(type)) : -EINVAL;
}

static const struct known_request BY_NUMBER[] = {
    {EVIOCGVERSION, get_version},   {EVIOCGID, get_id},          {EVIOCGREP, get_repeat},
    {EVIOCSREP, set_repeat},        {EVIOCRMFF, no_effect},      {EVIOCSFF, no_effect},
    {EVIOCGEFFECTS, get_effects},   {EVIOCGRAB, grab},           {EVIOCREVOKE, revoke},
    {EVIOCGMASK, get_mask},         {EVIOCSMASK, set_mask},      {EVIOCSCLOCKID, set_clock},
    {EVIOCGKEYCODE, no_key_map},    {EVIOCSKEYCODE, no_key_map}, {EVIOCGKEYCODE_V2, no_key_map},
    {EVIOCSKEYCODE_V2, no_key_map},
};

static const struct known_request OF_ANY_SIZE[] = {
    {EVIOCGPROP(0), get_properties}, {EVIOCGMTSLOTS(0), get_slots}, {EVIOCGKEY(0), get_keys},
    {EVIOCGLED(0), get_leds},        {EVIOCGSND(0), get_sounds},    {EVIOCGSW(0), get_switches},
    {EVIOCGNAME(0), get_name},       {EVIOCGPHYS(0), get_phys},     {EVIOCGUNIQ(0), get_uniq},
};

static const struct known_request *request_in(const struct known_request *requests, size_t count,
                                              uint32_t number) {
    for (size_t i = 0; i < count; i++)
        if (requests[i].number == number)
            return &requests[i];
    return NULL;
}

static int answer(struct client *client, struct ioctl_call *call) {
    uint32_t number = call->number, direction = _IOC_DIR(number), nr = _IOC_NR(number);
    const struct known_request *known = request_in(BY_NUMBER, sizeof BY_NUMBER / sizeof BY_NUMBER[0], number);
    if (!known)
        known = request_in(OF_ANY_SIZE, sizeof OF_ANY_SIZE / sizeof OF_ANY_SIZE[0],
                           number & ~((uint32_t)_IOC_SIZEMASK << _IOC_SIZESHIFT));
    if (known)
        return known->answer(client, call);
    if (_IOC_TYPE(number) == 'E' && direction == _IOC_READ &&
        (nr & ~(uint32_t)EV_MAX) == _IOC_NR(EVIOCGBIT(0, 0)))
        return get_bits(client, call);
    if (_IOC_TYPE(number) == 'E' && direction == _IOC_READ &&
        (nr & ~(uint32_t)ABS_MAX) == _IOC_NR(EVIOCGABS(0)))
        return get_axis(client, call);
    if (_IOC_TYPE(number) == 'E' && direction == _IOC_WRITE &&
        (nr & ~(uint32_t)ABS_MAX) == _IOC_NR(EVIOCSABS(0)))
        return set_axis(client, call);
    return refuse_request(client->device->identity.name, number);
}

int evdev_ioctl(struct client *client, struct ioctl_call *call) {
    struct device *device = client->device;
    uint32_t steps = device->steps;
    if (device->is_gone)
        return -ENODEV;
    client->found_nothing = false;
    player_note_active();
    int result = answer(client, call);
    if (device->steps != steps)
        clients_refresh(device);
    return result;
}
