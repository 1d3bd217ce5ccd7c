/* The timers of autorepeats (--repeats). */
#include "player.h"

#include "moments.h"
#include "settings.h"

/* A tick. The moment at which one is due is the record's, where the server goes by its own clock. */
static void tick(struct device *device, uint64_t now) {
    inputplay_step_t step = {.step = INPUTPLAY_TICK, .now = step_moment()};
    inputplay_reply reply;
    uint64_t period = 1000 * (uint64_t)device_repeat(device).period;
    device_step(device, &step, &reply);
    device->repeats_at_us = period ? now + period : 0;
    clients_refresh(device);
}

uint64_t repeats_play(void) {
    uint64_t first = UINT64_MAX, now = now_us();
    for (int i = 0; settings.has_repeats && i < device_count; i++) {
        struct device *device = &devices[i];
        if (device->repeats_at_us && device->repeats_at_us <= now && !device->is_gone)
            tick(device, now);
        if (device->repeats_at_us && device->repeats_at_us < first)
            first = device->repeats_at_us;
    }
    return first;
}
