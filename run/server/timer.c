#include "timer.h"

#include "evdev.h"
#include "moments.h"
#include "player.h"
#include "process.h"
#include "settings.h"

#include <errno.h>
#include <string.h>
#include <time.h>

/** A timer, by the place of its client. */
static struct timer {
    uint64_t at; /**< When it is over next, or UINT64_MAX. */
    uint64_t interval;
    uint64_t times; /**< How often it was over since it was read. */
} timers[CLIENTS];

static struct timer *timer_of(const struct client *client) {
    return &timers[client - clients];
}

static int timer_open(struct client *client) {
    *timer_of(client) = (struct timer){.at = UINT64_MAX};
    return 0;
}

static void timer_close(struct client *client) {
    timer_of(client)->at = UINT64_MAX;
}

/* Who owns the timer has something to do then. */
static void fire(struct client *client, uint64_t now) {
    struct timer *timer = timer_of(client);
    struct process *process = process_of(client->owner);
    uint64_t more = timer->interval ? (now - timer->at) / timer->interval : 0;
    timer->times += 1 + more;
    timer->at = timer->interval ? timer->at + (1 + more) * timer->interval : UINT64_MAX;
    if (process)
        process->is_waiting = false;
    client_show(client, true);
}

uint64_t timers_over_at(void) {
    uint64_t first = UINT64_MAX;
    for (int i = 0; i < CLIENTS; i++)
        if (clients[i].is_open && clients[i].kind == NODE_TIMER && timers[i].at < first)
            first = timers[i].at;
    return first;
}

void timers_fire(uint64_t now) {
    for (int i = 0; i < CLIENTS; i++)
        if (clients[i].is_open && clients[i].kind == NODE_TIMER && timers[i].at <= now)
            fire(&clients[i], now);
}

/* How often it was over, where it was: how many bytes. */
static int take_times(struct client *client, void *to, size_t length) {
    struct timer *timer = timer_of(client);
    (void)length;
    if (!timer->times)
        return 0;
    memcpy(to, &timer->times, sizeof timer->times);
    timer->times = 0;
    client_show(client, false);
    return (int)sizeof timer->times;
}

static int timer_read(struct client *client, void *to, size_t length) {
    return length < sizeof(uint64_t) ? -EINVAL : player_read(client, take_times, to, length);
}

static int timer_write(struct client *client, const void *from, size_t length) {
    (void)client;
    (void)from;
    (void)length;
    return -EINVAL;
}

static struct timer_setting setting_of(const struct timer *timer) {
    uint64_t now = step_moment();
    bool runs = timer->at != UINT64_MAX;
    return (struct timer_setting){.value = runs && timer->at > now ? timer->at - now : runs,
                                  .interval = timer->interval};
}

/* A moment of the timer's clock, as one of the monotonic clock. */
static uint64_t monotonic_of(const struct client *client, uint64_t moment) {
    bool is_realtime = client->number == CLOCK_REALTIME || client->number == CLOCK_REALTIME_ALARM;
    bool is_monotonic = client->number == CLOCK_MONOTONIC;
    uint64_t ahead = is_monotonic ? 0 : devices[0].ahead[!is_realtime];
    return moment > ahead ? moment - ahead : 0;
}

static void set(struct client *client, const struct timer_setting *setting) {
    struct timer *timer = timer_of(client);
    uint64_t now = step_moment();
    uint64_t at = setting->is_absolute ? monotonic_of(client, setting->value) : now + setting->value;
    *timer = (struct timer){.at = setting->value ? at : UINT64_MAX, .interval = setting->interval};
    client_show(client, false);
    if (timer->at <= now)
        fire(client, now);
}

static int timer_ioctl(struct client *client, struct ioctl_call *call) {
    struct timer_setting before = setting_of(timer_of(client)), setting;
    if (call->number != TIMER_SET && call->number != TIMER_GET)
        return -ENOTTY;
    memcpy(&setting, call->bytes, sizeof setting);
    if (call->number == TIMER_SET)
        set(client, &setting);
    answer_bytes(call, &before, sizeof before);
    return 0;
}

const struct node_calls timer_calls = {timer_open, timer_read, timer_write, timer_ioctl, timer_close};
