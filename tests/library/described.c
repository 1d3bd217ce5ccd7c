/* A device of a struct is the device of the text that says the same, or is refused for the same cause. It is C and C++. */
#include "inputplay.h"
#include "same.h"

#include <inttypes.h>
#include <stdarg.h>
#include <stdlib.h>
#include <string.h>

enum { PAIRS = 400, STEPS = 300, EVENTS = 64, CELLS = 14 * 256, TEXT = 1 << 16 };

static uint64_t seed = 1;

/* A number below a bound. */
static uint32_t below(uint32_t bound) {
    seed = seed * 6364136223846793005u + 1442695040888963407u;
    return (uint32_t)(seed >> 33) % bound;
}

static int once_in(uint32_t times) { return below(times) == 0; }

static uint64_t some_of(uint64_t codes) {
    uint64_t bits = 0;
    for (int code = 0; code < 64; code++)
        if (codes >> code & 1 && once_in(3))
            bits |= UINT64_C(1) << code;
    return bits;
}

static inputplay_filter_t any_filter(void) {
    inputplay_filter_t filter;
    memset(&filter, 0, sizeof filter);
    filter.filter = below(4);
    filter.type = 1;
    filter.code = (uint16_t)(30 + below(3));
    filter.second = (uint16_t)(33 + below(3));
    filter.micros = 1 + below(1000000);
    return filter;
}

/* A description that a device may have. */
static void describe(inputplay_description_t *d) {
    memset(d, 0, sizeof *d);
    d->types = some_of(UINT64_C(0x16003f));
    d->keys[0] = some_of(UINT64_C(0xfc0000002));
    d->keys[11] = some_of(UINT64_C(1) << 63);
    d->relatives = some_of(0xffff);
    d->axes = some_of(UINT64_C(0x60000000000107) | UINT64_C(1) << 63);
    d->miscs = some_of(0xff);
    d->switches = some_of(0x1ffff);
    d->leds = some_of(0xffff);
    d->sounds = some_of(0xff);
    for (int code = 0; code < 64; code++) {
        inputplay_info_t info = {(int32_t)below(9), -5, 255, (int32_t)below(6), 3, 2};
        if (code >= 0x2f && code <= 0x3d)
            info.value = info.fuzz = 0;
        d->infos[code] = info;
    }
    d->slots = once_in(2) ? 0 : 1 + below(6);
    d->hint = once_in(2) ? 0 : 2 + below(20);
    d->log = once_in(2) ? 0 : 1 + below(400);
    d->realtime = below(9);
    d->boottime = INPUTPLAY_MOMENT_MAX - below(9);
    d->filter_count = below(INPUTPLAY_FILTERS_MAX + 1);
    for (int i = 0; i < 8; i++)
        d->filters[i] = any_filter();
}

/* One thing in it that no device may have, of those that a text can say too. */
static void damage(inputplay_description_t *d) {
    switch (below(10)) {
    case 0:
        d->types |= UINT64_C(1) << (6 + below(10));
        break;
    case 1:
        d->keys[0] |= 1;
        break;
    case 2:
        d->relatives |= UINT64_C(1) << (16 + below(48));
        break;
    case 3:
        d->miscs |= UINT64_C(1) << (8 + below(56));
        break;
    case 4:
        d->axes |= 1;
        d->infos[0].fuzz = once_in(2) ? -1 : 0x40000001;
        break;
    case 5:
        d->axes |= UINT64_C(1) << 0x2f;
        *(once_in(2) ? &d->infos[0x2f].value : &d->infos[0x2f].fuzz) = 1;
        break;
    case 6:
        d->slots = 257 + below(9);
        break;
    case 7:
        d->hint = once_in(2) ? 1 : 513;
        break;
    case 8:
        d->log = 8388609 + below(9);
        break;
    default:
        *(once_in(2) ? &d->realtime : &d->boottime) = INPUTPLAY_MOMENT_MAX + 1;
    }
}

static char text[TEXT];
static size_t text_len;

static void say(const char *form, ...) {
    va_list words;
    va_start(words, form);
    text_len += (size_t)vsnprintf(text + text_len, TEXT - text_len, form, words);
    va_end(words);
}

static void say_codes(unsigned type, const uint64_t *words, unsigned count) {
    for (unsigned code = 0; code < 64 * count; code++)
        if (words[code / 64] >> code % 64 & 1)
            say("cap %u %u\n", type, code);
}

static void say_filter(const inputplay_filter_t *filter) {
    if (filter->filter == INPUTPLAY_EAT)
        say("filter eat %u %u\n", filter->type, filter->code);
    else if (filter->filter == INPUTPLAY_NOREPEAT)
        say("filter norepeat\n");
    else if (filter->filter == INPUTPLAY_CHORD)
        say("filter chord %u %u\n", filter->code, filter->second);
    else
        say("filter bounce %u %" PRIu32 "\n", filter->code, filter->micros);
}

/* The text that says what a struct says, in the order of the struct's causes. */
static void say_all(const inputplay_description_t *d) {
    text_len = 0;
    say("inputrecord 2\ndevice pad\n");
    for (unsigned type = 0; type < 64; type++)
        if (d->types >> type & 1)
            say("type %u\n", type);
    say_codes(1, d->keys, 12);
    say_codes(2, &d->relatives, 1);
    say_codes(4, &d->miscs, 1);
    say_codes(5, &d->switches, 1);
    say_codes(0x11, &d->leds, 1);
    say_codes(0x12, &d->sounds, 1);
    for (unsigned code = 0; code < 64; code++)
        if (d->axes >> code & 1) {
            const inputplay_info_t *i = &d->infos[code];
            say("axis %u %" PRId32 " %" PRId32 " %" PRId32, code, i->value, i->minimum, i->maximum);
            say(" %" PRId32 " %" PRId32 " %" PRId32 "\n", i->fuzz, i->flat, i->resolution);
        }
    if (d->slots)
        say("slots %" PRIu32 "\n", d->slots);
    if (d->hint)
        say("hint %" PRIu32 "\n", d->hint);
    if (d->log)
        say("log %" PRIu32 "\n", d->log);
    say("clock realtime %" PRIu64 "\nclock boottime %" PRIu64 "\n", d->realtime, d->boottime);
    for (uint32_t i = 0; i < d->filter_count; i++)
        say_filter(&d->filters[i]);
}

static inputplay_step_t any_step(uint64_t now) {
    static const uint8_t types[] = {0, 0, 1, 1, 1, 2, 3, 3, 4, 5, 0x11, 0x12, 0x14};
    inputplay_step_t step;
    memset(&step, 0, sizeof step);
    step.step = once_in(2) ? 0 : below(INPUTPLAY_END);
    step.client = below(3);
    step.type = types[below(sizeof types)];
    step.code = (uint16_t)(step.type == 0 ? 0 : step.type == 1 ? 30 + below(6) : once_in(3) ? 0x2f + below(17) : below(8));
    step.value = (int32_t)below(4);
    step.now = now;
    step.count = below(EVENTS);
    step.clock = below(2) ? 7 : 0;
    step.bits = UINT64_MAX;
    step.info.maximum = 9;
    return step;
}

static inputplay_handle_t by_text = INPUTPLAY_NOTHING, by_struct = INPUTPLAY_NOTHING;

/* Both devices answer a step alike. */
static void step_both(const inputplay_step_t *step) {
    static inputplay_event_t events[2][EVENTS];
    static int32_t cells[2][CELLS];
    inputplay_reply_t replies[2];
    memset(replies, 0, sizeof replies);
    SAME(INPUTPLAY_OK, inputplay_step(&by_text, step, &replies[0], events[0], EVENTS, cells[0], CELLS));
    SAME(INPUTPLAY_OK, inputplay_step(&by_struct, step, &replies[1], events[1], EVENTS, cells[1], CELLS));
    SAME(0, memcmp(&replies[0], &replies[1], sizeof replies[0]));
    if (replies[0].reply == INPUTPLAY_CELLS)
        SAME(0, memcmp(cells[0], cells[1], replies[0].count * sizeof cells[0][0]));
    for (uint32_t i = 0; replies[0].reply == INPUTPLAY_TOOK && i < replies[0].count; i++) {
        SAME(events[0][i].type, events[1][i].type);
        SAME(events[0][i].code, events[1][i].code);
        SAME(events[0][i].value, events[1][i].value);
        SAME(events[0][i].time, events[1][i].time);
        SAME(events[0][i].place, events[1][i].place);
    }
}

static void compare(int is_good) {
    static inputplay_description_t d;
    uint32_t line = 77, cause = 77, cause_of_struct = 77;
    describe(&d);
    if (!is_good)
        for (int times = 1 + (int)below(3); times > 0; times--)
            damage(&d);
    say_all(&d);
    uint32_t wanted = is_good ? INPUTPLAY_OK : INPUTPLAY_REFUSED;
    SAME(wanted, inputplay_device_new((const uint8_t *)text, text_len, 0, &by_text, &line, &cause));
    SAME(wanted, inputplay_device_of(&d, &by_struct, &cause_of_struct));
    SAME(cause, cause_of_struct);
    SAME(is_good, by_struct.kind);
    for (uint64_t now = 0; is_good && now < STEPS * 1000; now += 1000) {
        inputplay_step_t step = any_step(now);
        step_both(&step);
    }
    inputplay_free(&by_text);
    inputplay_free(&by_struct);
}

/* A struct is refused for a cause. */
static void refused(uint32_t wanted, const inputplay_description_t *d) {
    inputplay_handle_t h = INPUTPLAY_NOTHING;
    uint32_t cause = 77;
    SAME(INPUTPLAY_REFUSED, inputplay_device_of(d, &h, &cause));
    SAME(wanted, cause);
    SAME(0, h.kind);
}

/* Each cause, from the last to the first: what is refused for one is refused for that which comes before it. */
static void each_cause(void) {
    inputplay_handle_t h = INPUTPLAY_NOTHING;
    static inputplay_description_t d;
    uint32_t cause = 77;
    memset(&d, 0, sizeof d);
    SAME(INPUTPLAY_OK, inputplay_device_of(&d, &h, &cause));
    SAME(0, cause);
    cause = 77;
    d.slots = 999;
    SAME(INPUTPLAY_IN_USE, inputplay_device_of(&d, &h, &cause));
    SAME(0, cause);
    SAME(1, h.kind);
    inputplay_free(&h);
    d.slots = 0;
    d.filter_count = 1;
    refused(INPUTPLAY_LINE_BAD_CODE, &d);
    d.filters[0].filter = INPUTPLAY_CHORD;
    d.filters[0].code = d.filters[0].second = 30;
    refused(INPUTPLAY_LINE_BAD_CODE, &d);
    d.filters[0].filter = INPUTPLAY_BOUNCE;
    refused(INPUTPLAY_BAD_FILTER, &d);
    d.filters[0].micros = 1000001;
    refused(INPUTPLAY_BAD_FILTER, &d);
    d.filters[0].filter = 4;
    refused(INPUTPLAY_BAD_FILTER, &d);
    d.filters[0].filter = INPUTPLAY_EAT;
    d.filter_count = 9;
    refused(INPUTPLAY_BAD_FILTER, &d);
    d.realtime = INPUTPLAY_MOMENT_MAX + 1;
    refused(INPUTPLAY_BAD_OFFSET, &d);
    d.log = 8388609;
    refused(INPUTPLAY_BAD_LOG, &d);
    d.hint = 1;
    refused(INPUTPLAY_BAD_HINT, &d);
    d.slots = 257;
    refused(INPUTPLAY_BAD_SLOTS, &d);
    d.axes = 1;
    d.infos[0].fuzz = -1;
    refused(INPUTPLAY_BAD_AXIS, &d);
    d.sounds = 256;
    refused(INPUTPLAY_LINE_BAD_CODE, &d);
    memset(&d, 0, sizeof d);
    d.types = UINT64_C(1) << 0x15;
    refused(INPUTPLAY_LINE_BAD_CODE, &d);
}

int main(void) {
    each_cause();
    for (int i = 0; i < PAIRS; i++)
        compare(i % 2);
    return failures != 0;
}
