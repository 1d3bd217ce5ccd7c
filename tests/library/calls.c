/* Each call of the library once, and each status that it has. It is C and C++, and says where something else came. */
#include "inputplay.h"
#include "same.h"

#include <stdlib.h>
#include <string.h>

static const char *const PAD = "inputrecord 1\ndevice pad\ncap EV_KEY KEY_A\ncap EV_SW SW_LID\ncap EV_LED LED_CAPSL\n"
                               "axis ABS_X 7 0 255 0 0 0\naxis ABS_MT_POSITION_X 0 0 99 0 0 0\nslots 2\nlog 2000\nsource s\n";
static const char *const STREAM = "inputrecord 2\ndevice pad\ncap EV_KEY KEY_A\nlog 9\nsource s\ndo s stream keys\n";

static const uint8_t *bytes_of(const char *text) { return (const uint8_t *)text; }

static inputplay_step_t asked(uint32_t step, uint32_t client, uint32_t count) {
    inputplay_step_t made;
    memset(&made, 0, sizeof made);
    made.step = step;
    made.client = client;
    made.count = count;
    return made;
}

/* A handle that keeps nothing, and one that keeps a record: what wants a device refuses both, and leaves them. */
static void no_device(inputplay_handle_t *h) {
    inputplay_handle_t before = *h;
    inputplay_step_t open = asked(INPUTPLAY_OPEN, 0, 0);
    inputplay_reply_t reply;
    inputplay_event_t event;
    int32_t value = 77;
    uint32_t a = 77, b = 77;
    size_t left = 77;
    memset(&reply, 77, sizeof reply);
    SAME(INPUTPLAY_BAD_HANDLE, inputplay_step(h, &open, &reply, &event, 1, &value, 1));
    SAME(INPUTPLAY_BAD_HANDLE, inputplay_inject(h, 1, 30, 1, 0, &a, &b));
    SAME(INPUTPLAY_BAD_HANDLE, inputplay_reader_start(h, &a, &b));
    SAME(INPUTPLAY_BAD_HANDLE, inputplay_reader_next(h, 0, &event, &a));
    SAME(INPUTPLAY_BAD_HANDLE, inputplay_reader_force_sync(h));
    SAME(INPUTPLAY_BAD_HANDLE, inputplay_reader_value(h, 1, 30, &value));
    SAME(INPUTPLAY_BAD_HANDLE, inputplay_reader_slot_value(h, 0, 0x39, &value));
    SAME(INPUTPLAY_BAD_HANDLE, inputplay_reader_state(h, &a, &b, &value));
    SAME(INPUTPLAY_BAD_HANDLE, inputplay_read(h, 0, &event, 1, &a, &b, &a));
    SAME(INPUTPLAY_BAD_HANDLE, inputplay_history(h, 0, &open, 1, &left));
    SAME(77, a);
    SAME(77, b);
    SAME(77, left);
    SAME(77, value);
    SAME(77 * 0x1010101, reply.reply);
    SAME(before.kind, h->kind);
    SAME(1, before.at == h->at);
}

/* The queries of a device refuse such a handle too, and write nothing. */
static void no_queries(inputplay_handle_t *h) {
    inputplay_client_t state = {77, 77, 77};
    inputplay_limits_t limits;
    inputplay_repeat_t repeat;
    inputplay_info_t info;
    uint64_t words[12], bits = 77;
    uint32_t clients[2] = {77, 77}, count = 77;
    int32_t value = 77;
    memset(&limits, 77, sizeof limits);
    memset(&repeat, 77, sizeof repeat);
    memset(&info, 77, sizeof info);
    memset(words, 77, sizeof words);
    SAME(INPUTPLAY_BAD_HANDLE, inputplay_visible(h, 0, &count));
    SAME(INPUTPLAY_BAD_HANDLE, inputplay_readable(h, clients, 2, &count));
    SAME(INPUTPLAY_BAD_HANDLE, inputplay_client(h, 0, &state));
    SAME(INPUTPLAY_BAD_HANDLE, inputplay_client_mask(h, 0, 1, 0, &bits));
    SAME(INPUTPLAY_BAD_HANDLE, inputplay_device_bits(h, 1, words));
    SAME(INPUTPLAY_BAD_HANDLE, inputplay_device_state(h, 1, words));
    SAME(INPUTPLAY_BAD_HANDLE, inputplay_device_axis(h, 0, &info));
    SAME(INPUTPLAY_BAD_HANDLE, inputplay_device_slot(h, 0, 0x39, &value));
    SAME(INPUTPLAY_BAD_HANDLE, inputplay_device_limits(h, &limits));
    SAME(INPUTPLAY_BAD_HANDLE, inputplay_device_repeat(h, &repeat));
    SAME(77, count);
    SAME(77, clients[0]);
    SAME(77, state.clock);
    SAME(77, bits);
    SAME(77 * 0x0101010101010101, words[0]);
    SAME(77 * 0x1010101, info.value);
    SAME(77, value);
    SAME(77 * 0x1010101, limits.slots);
    SAME(77 * 0x1010101, repeat.delay);
}

static void making(void) {
    inputplay_handle_t h = INPUTPLAY_NOTHING;
    uint32_t line = 77, cause = 77;
    char *long_text = (char *)malloc(16777217);
    if (!long_text)
        exit(2);
    memset(long_text, '\n', 16777217);
    SAME(INPUTPLAY_TOO_LONG, inputplay_device_new(bytes_of(long_text), 16777217, 0, &h, &line, &cause));
    free(long_text);
    SAME(0, line);
    SAME(INPUTPLAY_REFUSED, inputplay_device_new(bytes_of("inputrecord 1\nx\n"), 16, 0, &h, &line, &cause));
    SAME(2, line);
    SAME(INPUTPLAY_BAD_LINE, cause);
    SAME(INPUTPLAY_REFUSED, inputplay_record_new(bytes_of("\1\n"), 2, &h, &line, &cause));
    SAME(1, line);
    SAME(INPUTPLAY_NOT_TEXT, cause);
    SAME(INPUTPLAY_BAD_ARGUMENT, inputplay_device_new(bytes_of(PAD), strlen(PAD), 1, &h, &line, &cause));
    SAME(0, cause);
    SAME(0, h.kind);
    SAME(INPUTPLAY_OK, inputplay_device_new(bytes_of(PAD), strlen(PAD), 0, &h, &line, &cause));
    SAME(1, h.kind);
    SAME(INPUTPLAY_IN_USE, inputplay_device_new(bytes_of(PAD), strlen(PAD), 0, &h, &line, &cause));
    SAME(INPUTPLAY_IN_USE, inputplay_record_new(bytes_of(PAD), strlen(PAD), &h, &line, &cause));
    inputplay_free(&h);
    SAME(0, h.kind);
    inputplay_free(&h);
}

static void stepping(inputplay_handle_t *h) {
    inputplay_reply_t reply;
    inputplay_event_t events[4];
    int32_t cells[28];
    uint32_t at = 77, why = 77;
    inputplay_step_t step = asked(INPUTPLAY_OPEN, 0, 0);
    memset(events, 77, sizeof events);
    SAME(INPUTPLAY_OK, inputplay_step(h, &step, &reply, events, 0, cells, 0));
    SAME(INPUTPLAY_OPENED, reply.reply);
    SAME(128, reply.count);
    step = asked(23, 0, 0);
    SAME(INPUTPLAY_BAD_ARGUMENT, inputplay_step(h, &step, &reply, events, 4, cells, 28));
    SAME(INPUTPLAY_OPENED, reply.reply);
    step = asked(INPUTPLAY_READ, reply.client, 5);
    SAME(INPUTPLAY_BAD_ARGUMENT, inputplay_step(h, &step, &reply, events, 4, cells, 28));
    step.count = 4097;
    SAME(INPUTPLAY_BAD_ARGUMENT, inputplay_step(h, &step, &reply, events, 5000, cells, 28));
    step.count = 4;
    step.now = INPUTPLAY_MOMENT_MAX + 1;
    SAME(INPUTPLAY_BAD_ARGUMENT, inputplay_step(h, &step, &reply, events, 4, cells, 28));
    step.now = 0;
    SAME(INPUTPLAY_OK, inputplay_step(h, &step, &reply, events, 4, cells, 28));
    SAME(INPUTPLAY_AGAIN, reply.reply);
    SAME(INPUTPLAY_OK, inputplay_inject(h, 1, 30, 1, 5, &at, &why));
    SAME(1, at);
    SAME(0, why);
    SAME(INPUTPLAY_BAD_ARGUMENT, inputplay_inject(h, 1, 30, 1, INPUTPLAY_MOMENT_MAX + 1, &at, &why));
    SAME(1, at);
    SAME(INPUTPLAY_OK, inputplay_inject(h, 0, 0, 0, 6, &at, &why));
    SAME(INPUTPLAY_OK, inputplay_step(h, &step, &reply, events, 4, cells, 28));
    SAME(INPUTPLAY_TOOK, reply.reply);
    SAME(2, reply.count);
    SAME(30, events[0].code);
    SAME(6, events[0].time);
    SAME(2, events[1].place);
    SAME(77 * 0x101, events[2].type);
    step = asked(INPUTPLAY_SYNC_SLOTS, 0, 0);
    SAME(INPUTPLAY_BAD_ARGUMENT, inputplay_step(h, &step, &reply, events, 4, cells, 27));
    SAME(INPUTPLAY_OK, inputplay_step(h, &step, &reply, events, 4, cells, 28));
    SAME(INPUTPLAY_CELLS, reply.reply);
    SAME(28, reply.count);
    SAME(-1, cells[9]);
    step = asked(INPUTPLAY_CLOCK, 0, 0);
    step.clock = 2;
    SAME(INPUTPLAY_BAD_ARGUMENT, inputplay_step(h, &step, &reply, events, 4, cells, 28));
    step.clock = 7;
    SAME(INPUTPLAY_OK, inputplay_step(h, &step, &reply, events, 4, cells, 28));
    step = asked(INPUTPLAY_GET_KEYS, 9, 0);
    SAME(INPUTPLAY_OK, inputplay_step(h, &step, &reply, events, 4, cells, 28));
    SAME(INPUTPLAY_STEP_REFUSED, reply.reply);
    SAME(INPUTPLAY_BAD_CLIENT, reply.why);
    step.client = 0;
    SAME(INPUTPLAY_OK, inputplay_step(h, &step, &reply, events, 4, cells, 28));
    SAME(1 << 30, reply.words[0]);
    step = asked(INPUTPLAY_GET_AXIS, 0, 0);
    SAME(INPUTPLAY_OK, inputplay_step(h, &step, &reply, events, 4, cells, 28));
    SAME(255, reply.info.maximum);
}

static uint32_t step_of(inputplay_handle_t *h, const inputplay_step_t *step) {
    inputplay_reply_t reply;
    inputplay_event_t event;
    int32_t cell;
    SAME(INPUTPLAY_OK, inputplay_step(h, step, &reply, &event, 1, &cell, 0));
    return reply.reply;
}

static void frame(inputplay_handle_t *h, uint16_t type, uint16_t code, int32_t value, uint64_t now) {
    uint32_t at, why;
    SAME(INPUTPLAY_OK, inputplay_inject(h, type, code, value, now, &at, &why));
    SAME(INPUTPLAY_OK, inputplay_inject(h, 0, 0, 0, now, &at, &why));
    SAME(0, why);
}

/* What waits for two clients, how they stand, and a word of a mask. */
static void asking_of_clients(inputplay_handle_t *h) {
    inputplay_step_t step = asked(INPUTPLAY_OPEN, 0, 0);
    inputplay_client_t state = {77, 77, 77};
    uint32_t clients[3] = {77, 77, 77}, count = 77;
    uint64_t bits = 77;
    SAME(INPUTPLAY_BAD_ARGUMENT, inputplay_visible(h, 0, &count));
    SAME(77, count);
    SAME(INPUTPLAY_OPENED, step_of(h, &step));
    SAME(INPUTPLAY_OPENED, step_of(h, &step));
    SAME(INPUTPLAY_OK, inputplay_visible(h, 1, &count));
    SAME(0, count);
    SAME(INPUTPLAY_OK, inputplay_readable(h, clients, 3, &count));
    SAME(0, count);
    SAME(77, clients[0]);
    frame(h, 1, 30, 1, 5);
    SAME(INPUTPLAY_OK, inputplay_visible(h, 1, &count));
    SAME(2, count);
    SAME(INPUTPLAY_OK, inputplay_readable(h, clients, 1, &count));
    SAME(2, count);
    SAME(0, clients[0]);
    SAME(77, clients[1]);
    SAME(INPUTPLAY_OK, inputplay_readable(h, clients, 3, &count));
    SAME(1, clients[1]);
    SAME(77, clients[2]);
    step = asked(INPUTPLAY_READ, 0, 1);
    SAME(INPUTPLAY_TOOK, step_of(h, &step));
    SAME(INPUTPLAY_OK, inputplay_visible(h, 0, &count));
    SAME(1, count);
    SAME(INPUTPLAY_OK, inputplay_client(h, 0, &state));
    SAME(0, state.clock);
    SAME(0, state.revoked);
    SAME(0, state.grabs);
    step = asked(INPUTPLAY_CLOCK, 0, 0);
    step.clock = 7;
    SAME(INPUTPLAY_DONE, step_of(h, &step));
    step = asked(INPUTPLAY_GRAB, 0, 0);
    SAME(INPUTPLAY_DONE, step_of(h, &step));
    SAME(INPUTPLAY_OK, inputplay_client(h, 0, &state));
    SAME(7, state.clock);
    SAME(1, state.grabs);
    SAME(INPUTPLAY_OK, inputplay_client_mask(h, 0, 1, 11, &bits));
    SAME(1, bits == UINT64_MAX);
    step = asked(INPUTPLAY_MASK, 0, 0);
    step.type = 1;
    step.code = 11;
    step.bits = 5;
    SAME(INPUTPLAY_DONE, step_of(h, &step));
    SAME(INPUTPLAY_OK, inputplay_client_mask(h, 0, 1, 11, &bits));
    SAME(5, bits);
    SAME(INPUTPLAY_BAD_ARGUMENT, inputplay_client_mask(h, 0, 1, 12, &bits));
    SAME(INPUTPLAY_BAD_ARGUMENT, inputplay_client_mask(h, 0, 0, 1, &bits));
    SAME(INPUTPLAY_BAD_ARGUMENT, inputplay_client_mask(h, 0, 0x14, 0, &bits));
    SAME(INPUTPLAY_BAD_ARGUMENT, inputplay_client_mask(h, 2, 1, 0, &bits));
    SAME(5, bits);
    step = asked(INPUTPLAY_REVOKE, 0, 0);
    SAME(INPUTPLAY_DONE, step_of(h, &step));
    SAME(INPUTPLAY_OK, inputplay_client(h, 0, &state));
    SAME(1, state.revoked);
    SAME(0, state.grabs);
    step = asked(INPUTPLAY_CLOSE, 0, 0);
    SAME(INPUTPLAY_DONE, step_of(h, &step));
    SAME(INPUTPLAY_BAD_ARGUMENT, inputplay_client(h, 0, &state));
    SAME(1, state.revoked);
    SAME(INPUTPLAY_BAD_ARGUMENT, inputplay_visible(h, 0, &count));
    SAME(1, count);
}

/* What the device supports and has: bits, axes, slots. */
static void asking_of_state(inputplay_handle_t *h) {
    inputplay_info_t info = {77, 77, 77, 77, 77, 77};
    uint64_t words[12];
    int32_t value = 77;
    memset(words, 77, sizeof words);
    SAME(INPUTPLAY_OK, inputplay_device_bits(h, 0, words));
    SAME(1 << 0 | 1 << 1 | 1 << 3 | 1 << 5 | 1 << 0x11, words[0]);
    for (int i = 1; i < 12; i++)
        SAME(0, words[i]);
    SAME(INPUTPLAY_OK, inputplay_device_bits(h, 1, words));
    SAME(1 << 30, words[0]);
    SAME(INPUTPLAY_OK, inputplay_device_bits(h, 3, words));
    SAME(1 | 1LL << 0x2f | 1LL << 0x35 | 1LL << 0x39, words[0]);
    SAME(INPUTPLAY_OK, inputplay_device_bits(h, 0xffff, words));
    SAME(0, words[0]);
    SAME(INPUTPLAY_OK, inputplay_device_state(h, 1, words));
    SAME(1 << 30, words[0]);
    SAME(0, words[11]);
    SAME(INPUTPLAY_OK, inputplay_device_state(h, 5, words));
    SAME(0, words[0]);
    frame(h, 0x11, 1, 1, 6);
    SAME(INPUTPLAY_OK, inputplay_device_state(h, 0x11, words));
    SAME(2, words[0]);
    SAME(INPUTPLAY_OK, inputplay_device_state(h, 0x12, words));
    SAME(0, words[0]);
    words[0] = 77;
    SAME(INPUTPLAY_BAD_ARGUMENT, inputplay_device_state(h, 3, words));
    SAME(77, words[0]);
    SAME(INPUTPLAY_OK, inputplay_device_axis(h, 0, &info));
    SAME(7, info.value);
    SAME(255, info.maximum);
    SAME(INPUTPLAY_OK, inputplay_device_axis(h, 63, &info));
    SAME(0, info.maximum);
    info.value = 77;
    SAME(INPUTPLAY_BAD_ARGUMENT, inputplay_device_axis(h, 64, &info));
    SAME(77, info.value);
    SAME(INPUTPLAY_OK, inputplay_device_slot(h, 1, 0x39, &value));
    SAME(-1, value);
    frame(h, 3, 0x35, 8, 7);
    SAME(INPUTPLAY_OK, inputplay_device_slot(h, 0, 0x35, &value));
    SAME(8, value);
    SAME(INPUTPLAY_BAD_ARGUMENT, inputplay_device_slot(h, 2, 0x39, &value));
    SAME(INPUTPLAY_BAD_ARGUMENT, inputplay_device_slot(h, 0, 0x2f, &value));
    SAME(INPUTPLAY_BAD_ARGUMENT, inputplay_device_slot(h, 0, 0x3e, &value));
    SAME(8, value);
}

/* A query is no step: after all of them the history has the steps alone, and a client reads all that was there. */
static void asking(void) {
    inputplay_handle_t h = INPUTPLAY_NOTHING;
    inputplay_limits_t limits;
    inputplay_event_t events[16];
    uint32_t line, cause, at, count, why;
    size_t left = 77;
    SAME(INPUTPLAY_OK, inputplay_device_new(bytes_of(PAD), strlen(PAD), 0, &h, &line, &cause));
    asking_of_clients(&h);
    asking_of_state(&h);
    SAME(INPUTPLAY_OK, inputplay_device_limits(&h, &limits));
    SAME(2, limits.slots);
    SAME(16, limits.hint);
    SAME(2000, limits.log);
    SAME(128, limits.ring);
    SAME(0, limits.realtime);
    SAME(0, limits.boottime);
    SAME(INPUTPLAY_OK, inputplay_history(&h, 0, NULL, 0, &left));
    SAME(14, left);
    SAME(INPUTPLAY_OK, inputplay_read(&h, 1, events, 16, &at, &count, &why));
    SAME(6, count);
    SAME(30, events[0].code);
    inputplay_free(&h);
}

/* When a key repeats: an armed timer, a tick before it is due and one at that moment, and a new setting. */
static void repeating(void) {
    static const char *const KEYBOARD = "inputrecord 1\ndevice kbd\ntype EV_REP\ncap EV_KEY KEY_A\nclock realtime 9\n"
                                        "clock boottime 500\nhint 64\nlog 90\nsource s\n";
    inputplay_handle_t h = INPUTPLAY_NOTHING;
    inputplay_step_t step = asked(INPUTPLAY_OPEN, 0, 0);
    inputplay_repeat_t repeat;
    inputplay_limits_t limits;
    uint64_t words[12];
    uint32_t line, cause, count = 77;
    memset(&repeat, 77, sizeof repeat);
    SAME(INPUTPLAY_OK, inputplay_device_new(bytes_of(KEYBOARD), strlen(KEYBOARD), 0, &h, &line, &cause));
    SAME(INPUTPLAY_OK, inputplay_device_repeat(&h, &repeat));
    SAME(250, repeat.delay);
    SAME(33, repeat.period);
    SAME(0, repeat.armed);
    SAME(0, repeat.key);
    SAME(0, repeat.due);
    SAME(INPUTPLAY_OK, inputplay_device_bits(&h, 0x14, words));
    SAME(3, words[0]);
    SAME(INPUTPLAY_OK, inputplay_device_limits(&h, &limits));
    SAME(512, limits.ring);
    SAME(9, limits.realtime);
    SAME(500, limits.boottime);
    frame(&h, 1, 30, 1, 1000);
    SAME(INPUTPLAY_OK, inputplay_device_repeat(&h, &repeat));
    SAME(1, repeat.armed);
    SAME(30, repeat.key);
    SAME(251000, repeat.due);
    SAME(INPUTPLAY_OPENED, step_of(&h, &step));
    step = asked(INPUTPLAY_TICK, 0, 0);
    step.now = 250999;
    SAME(INPUTPLAY_DONE, step_of(&h, &step));
    SAME(INPUTPLAY_OK, inputplay_visible(&h, 0, &count));
    SAME(0, count);
    step.now = 251000;
    SAME(INPUTPLAY_DONE, step_of(&h, &step));
    SAME(INPUTPLAY_OK, inputplay_visible(&h, 0, &count));
    SAME(2, count);
    SAME(INPUTPLAY_OK, inputplay_device_repeat(&h, &repeat));
    SAME(284000, repeat.due);
    frame(&h, 0x14, 1, 10, 251001);
    frame(&h, 1, 30, 0, 251001);
    SAME(INPUTPLAY_OK, inputplay_device_repeat(&h, &repeat));
    SAME(10, repeat.period);
    SAME(0, repeat.armed);
    SAME(30, repeat.key);
    SAME(0, repeat.due);
    inputplay_free(&h);
}

/* A read without a reply, and the steps of the history from a place on. */
static void taking(void) {
    inputplay_handle_t h = INPUTPLAY_NOTHING;
    static inputplay_event_t events[5000];
    inputplay_step_t steps[3], open = asked(INPUTPLAY_OPEN, 0, 0);
    inputplay_reply_t reply;
    int32_t cell;
    uint32_t line, cause, at = 77, count = 77, why = 77;
    size_t left = 77;
    memset(events, 77, sizeof events);
    memset(steps, 77, sizeof steps);
    SAME(INPUTPLAY_OK, inputplay_device_new(bytes_of(PAD), strlen(PAD), 0, &h, &line, &cause));
    SAME(INPUTPLAY_OK, inputplay_step(&h, &open, &reply, events, 0, &cell, 0));
    SAME(INPUTPLAY_BAD_ARGUMENT, inputplay_read(&h, 0, events, 4097, &at, &count, &why));
    SAME(77, at);
    SAME(INPUTPLAY_OK, inputplay_read(&h, 0, events, 4096, &at, &count, &why));
    SAME(1, at);
    SAME(0, count);
    SAME(0, why);
    SAME(INPUTPLAY_OK, inputplay_inject(&h, 1, 30, 1, 5, &at, &why));
    SAME(INPUTPLAY_OK, inputplay_inject(&h, 0, 0, 0, 6, &at, &why));
    SAME(INPUTPLAY_OK, inputplay_read(&h, 0, events, 1, &at, &count, &why));
    SAME(3, at);
    SAME(1, count);
    SAME(30, events[0].code);
    SAME(6, events[0].time);
    SAME(77 * 0x101, events[1].type);
    SAME(INPUTPLAY_OK, inputplay_read(&h, 9, events, 1, &at, &count, &why));
    SAME(4, at);
    SAME(0, count);
    SAME(INPUTPLAY_BAD_CLIENT, why);
    SAME(INPUTPLAY_OK, inputplay_history(&h, 2, steps, 1, &left));
    SAME(2, left);
    SAME(INPUTPLAY_INJECT, steps[0].step);
    SAME(6, steps[0].now);
    SAME(77 * 0x1010101, steps[1].step);
    SAME(INPUTPLAY_OK, inputplay_history(&h, 1, steps, 3, &left));
    SAME(3, left);
    SAME(30, steps[0].code);
    SAME(INPUTPLAY_READ, steps[2].step);
    SAME(1, steps[2].count);
    SAME(INPUTPLAY_OK, inputplay_history(&h, 4, steps, 3, &left));
    SAME(0, left);
    SAME(INPUTPLAY_BAD_ARGUMENT, inputplay_history(&h, 5, steps, 3, &left));
    inputplay_free(&h);
}

static void reading(inputplay_handle_t *h) {
    inputplay_event_t event;
    inputplay_step_t step;
    inputplay_reply_t reply;
    uint32_t told = 77, client = 77, why = 77, phase = 77;
    int32_t value = 77, slot = 77;
    memset(&event, 77, sizeof event);
    SAME(INPUTPLAY_OK, inputplay_reader_state(h, &client, &phase, &slot));
    SAME(INPUTPLAY_NO_CLIENT, client);
    SAME(INPUTPLAY_OK, inputplay_reader_next(h, INPUTPLAY_NORMAL, &event, &told));
    SAME(INPUTPLAY_NEXT_CLOSED, told);
    SAME(INPUTPLAY_OK, inputplay_reader_start(h, &client, &why));
    SAME(1, client);
    SAME(0, why);
    SAME(INPUTPLAY_OK, inputplay_reader_call(h, 1, &step, &reply));
    SAME(INPUTPLAY_GET_KEYS, step.step);
    SAME(1, step.client);
    SAME(INPUTPLAY_BITS, reply.reply);
    SAME(INPUTPLAY_BAD_ARGUMENT, inputplay_reader_call(h, 64, &step, &reply));
    SAME(INPUTPLAY_GET_KEYS, step.step);
    SAME(INPUTPLAY_BAD_ARGUMENT, inputplay_reader_next(h, 2, &event, &told));
    SAME(INPUTPLAY_OK, inputplay_reader_next(h, INPUTPLAY_NORMAL, &event, &told));
    SAME(INPUTPLAY_NEXT_AGAIN, told);
    SAME(77 * 0x101, event.type);
    SAME(INPUTPLAY_OK, inputplay_reader_value(h, 1, 30, &value));
    SAME(1, value);
    SAME(INPUTPLAY_OK, inputplay_reader_value(h, 3, 0, &value));
    SAME(7, value);
    SAME(INPUTPLAY_OK, inputplay_reader_value(h, 5, 0, &value));
    SAME(INPUTPLAY_OK, inputplay_reader_value(h, 0x11, 1, &value));
    SAME(0, value);
    SAME(INPUTPLAY_BAD_ARGUMENT, inputplay_reader_value(h, 1, 0x300, &value));
    SAME(INPUTPLAY_BAD_ARGUMENT, inputplay_reader_value(h, 3, 0x35, &value));
    SAME(INPUTPLAY_BAD_ARGUMENT, inputplay_reader_value(h, 2, 0, &value));
    SAME(INPUTPLAY_OK, inputplay_reader_slot_value(h, 1, 0x39, &value));
    SAME(-1, value);
    SAME(INPUTPLAY_BAD_ARGUMENT, inputplay_reader_slot_value(h, 2, 0x39, &value));
    SAME(INPUTPLAY_BAD_ARGUMENT, inputplay_reader_slot_value(h, 1, 0x2f, &value));
    SAME(INPUTPLAY_OK, inputplay_reader_force_sync(h));
    SAME(INPUTPLAY_OK, inputplay_reader_state(h, &client, &phase, &slot));
    SAME(1, phase);
    SAME(INPUTPLAY_OK, inputplay_reader_next(h, INPUTPLAY_SYNC, &event, &told));
    SAME(INPUTPLAY_NEXT_SYNCED, told);
}

/* Many events at once: all, none where one is too late, and as many as there is room for. */
static void injecting(void) {
    inputplay_handle_t h = INPUTPLAY_NOTHING;
    inputplay_stamped_t many[3] = {{1, 30, 1, 5}, {0, 0, 0, 6}, {1, 30, 0, 7}};
    static const char *const SHORT = "inputrecord 1\ndevice pad\ncap EV_KEY KEY_A\ncap EV_LED LED_CAPSL\nlog 4\nsource s\n";
    inputplay_event_t events[2] = {{7, 7, 7, 7, 7}, {7, 7, 7, 7, 7}};
    uint32_t line, cause, from = 77, count = 77, at, full = 77;
    SAME(INPUTPLAY_BAD_HANDLE, inputplay_inject_all(&h, many, 3, &from, &count));
    SAME(INPUTPLAY_BAD_HANDLE, inputplay_feedback(&h, events, 2, &at, &count, &full));
    SAME(INPUTPLAY_OK, inputplay_device_new(bytes_of(SHORT), strlen(SHORT), 0, &h, &line, &cause));
    many[2].now = INPUTPLAY_MOMENT_MAX + 1;
    SAME(INPUTPLAY_BAD_ARGUMENT, inputplay_inject_all(&h, many, 3, &from, &count));
    SAME(77, from);
    many[2].now = INPUTPLAY_MOMENT_MAX;
    SAME(INPUTPLAY_OK, inputplay_inject_all(&h, many, 3, &from, &count));
    SAME(0, from);
    SAME(3, count);
    SAME(INPUTPLAY_OK, inputplay_inject_all(&h, many, 3, &from, &count));
    SAME(3, from);
    SAME(1, count);
    SAME(INPUTPLAY_OK, inputplay_feedback(&h, events, 2, &at, &count, &full));
    SAME(4, at);
    SAME(0, count);
    SAME(0, full);
    SAME(7, events[0].type);
    inputplay_free(&h);
}

/* A joystick client hands out its startup, and then what happens. */
static void joying(inputplay_handle_t *h) {
    uint32_t client = 77, why = 77, told = 77, place = 77, at;
    uint8_t record_out[8] = {7, 7, 7, 7, 7, 7, 7, 7};
    static const uint8_t axis[8] = {5, 0, 0, 0, 9, 0, 2, 0};
    inputplay_picture_t picture;
    SAME(INPUTPLAY_OK, inputplay_joy_read(h, record_out, &told, &place));
    SAME(INPUTPLAY_JOY_CLOSED, told);
    SAME(7, record_out[0]);
    SAME(INPUTPLAY_OK, inputplay_joy_start(h, &client, &why));
    SAME(0, why);
    SAME(1, client != 77);
    do
        SAME(INPUTPLAY_OK, inputplay_joy_read(h, record_out, &told, &place));
    while (told == INPUTPLAY_JOY_RECORD);
    SAME(INPUTPLAY_JOY_AGAIN, told);
    SAME(INPUTPLAY_OK, inputplay_inject(h, 3, 0, 9, 5000, &at, &why));
    SAME(INPUTPLAY_OK, inputplay_inject(h, 0, 0, 0, 5000, &at, &why));
    SAME(INPUTPLAY_OK, inputplay_joy_read(h, record_out, &told, &place));
    SAME(INPUTPLAY_JOY_RECORD, told);
    SAME(0, memcmp(record_out, axis, 8));
    SAME(INPUTPLAY_OK, inputplay_joy_read(h, record_out, &told, &place));
    SAME(INPUTPLAY_JOY_FRAME, told);
    SAME(at, place);
    SAME(INPUTPLAY_OK, inputplay_joy_picture(h, &picture));
    SAME(9, picture.axes[0]);
    SAME(0, picture.buttons);
}

static void loading(void) {
    inputplay_handle_t h = INPUTPLAY_NOTHING;
    uint32_t line, cause;
    static const uint8_t key[24] = {1, 0, 0, 0, 0, 0, 0, 0, 0, 0, 0, 0, 0, 0, 0, 0, 1, 0, 30, 0, 1, 0, 0, 0};
    SAME(INPUTPLAY_OK, inputplay_record_new(bytes_of(STREAM), strlen(STREAM), &h, &line, &cause));
    SAME(INPUTPLAY_BAD_ARGUMENT, inputplay_record_load(&h, 1, key, 24));
    SAME(INPUTPLAY_BAD_STREAM, inputplay_record_load(&h, 0, key, 23));
    SAME(INPUTPLAY_OK, inputplay_record_load(&h, 0, key, 24));
    no_device(&h);
    no_queries(&h);
    inputplay_free(&h);
}

/* A record's lines name files, and its text is read piece by piece. */
static void migrating(void) {
    inputplay_handle_t h = INPUTPLAY_NOTHING;
    uint32_t line, cause;
    uint8_t out[8] = "#######";
    size_t len = 77, left;
    SAME(INPUTPLAY_OK, inputplay_record_new(bytes_of(STREAM), strlen(STREAM), &h, &line, &cause));
    SAME(INPUTPLAY_BAD_ARGUMENT, inputplay_record_file(&h, 1, out, 8, &len));
    SAME(77, len);
    SAME(INPUTPLAY_OK, inputplay_record_file(&h, 0, out, 3, &len));
    SAME(4, len);
    SAME(0, memcmp(out, "key####", 8));
    SAME(INPUTPLAY_OK, inputplay_record_text(&h, 0, out, 8, &left));
    SAME(0, left);
    SAME(INPUTPLAY_OK, inputplay_record_migrate(&h, &len));
    SAME(1, len > strlen(STREAM));
    SAME(INPUTPLAY_OK, inputplay_record_text(&h, 5, out, 3, &left));
    SAME(len - 5, left);
    SAME(0, memcmp(out, "rec####", 8));
    SAME(INPUTPLAY_BAD_ARGUMENT, inputplay_record_text(&h, len + 1, out, 8, &left));
    inputplay_free(&h);
}

/* A report replaces the text that was made before, and a stream that was given no bytes has no events. */
static void playing(void) {
    inputplay_handle_t h = INPUTPLAY_NOTHING;
    uint32_t line, cause;
    uint8_t out[128];
    size_t len = 77, left;
    static const char *const EMPTY = "device pad steps 0\nsource s calls 0 stop finished\n";
    static const char *const ONE = "device pad steps 1\nstep 0 inject 1 EV_KEY KEY_A 1\nsource s calls 1 stop finished\n";
    static const uint8_t key[24] = {0, 0, 0, 0, 0, 0, 0, 0, 1, 0, 0, 0, 0, 0, 0, 0, 1, 0, 30, 0, 1, 0, 0, 0};
    SAME(INPUTPLAY_OK, inputplay_record_new(bytes_of(STREAM), strlen(STREAM), &h, &line, &cause));
    SAME(INPUTPLAY_OK, inputplay_record_migrate(&h, &len));
    SAME(INPUTPLAY_OK, inputplay_record_play(&h, 0, &len));
    SAME(strlen(EMPTY), len);
    SAME(INPUTPLAY_OK, inputplay_record_text(&h, 0, out, sizeof out, &left));
    SAME(len, left);
    SAME(0, memcmp(out, EMPTY, len));
    SAME(INPUTPLAY_OK, inputplay_record_load(&h, 0, key, 24));
    for (uint32_t history = 1; history != 0; history <<= 31) {
        SAME(INPUTPLAY_OK, inputplay_record_play(&h, history, &len));
        SAME(strlen(ONE), len);
        SAME(INPUTPLAY_OK, inputplay_record_text(&h, 0, out, sizeof out, &left));
        SAME(0, memcmp(out, ONE, len));
    }
    SAME(2, h.kind);
    inputplay_free(&h);
}

/* A handle that keeps no record. */
static void no_record(inputplay_handle_t *h) {
    inputplay_counts_t counts = {77, 77, 77};
    inputplay_stamped_t stamped = {77, 77, 77, 77};
    inputplay_line_t told;
    uint8_t out[1] = {77};
    uint32_t role = 77, device = 77;
    size_t len = 77;
    memset(&told, 77, sizeof told);
    SAME(INPUTPLAY_BAD_HANDLE, inputplay_record_load(h, 0, bytes_of(""), 0));
    SAME(INPUTPLAY_BAD_HANDLE, inputplay_record_file(h, 0, out, 1, &len));
    SAME(INPUTPLAY_BAD_HANDLE, inputplay_record_play(h, 1, &len));
    SAME(INPUTPLAY_BAD_HANDLE, inputplay_record_migrate(h, &len));
    SAME(INPUTPLAY_BAD_HANDLE, inputplay_record_text(h, 0, out, 1, &len));
    SAME(INPUTPLAY_BAD_HANDLE, inputplay_record_counts(h, &counts));
    SAME(INPUTPLAY_BAD_HANDLE, inputplay_record_device(h, 0, out, 1, &len));
    SAME(INPUTPLAY_BAD_HANDLE, inputplay_record_actor(h, 0, &role, &device, out, 1, &len));
    SAME(INPUTPLAY_BAD_HANDLE, inputplay_record_line(h, 0, &told));
    SAME(INPUTPLAY_BAD_HANDLE, inputplay_record_events(h, 0, 0, &stamped, 1, &len));
    SAME(77, counts.devices);
    SAME(77, role);
    SAME(77, device);
    SAME(77, out[0]);
    SAME(77 * 0x1010101, told.step.step);
    SAME(77, stamped.type);
    SAME(77, len);
}

static void naming(void) {
    uint16_t type = 77, code = 77;
    uint8_t out[8] = "#######";
    size_t len = 77;
    SAME(INPUTPLAY_BAD_ARGUMENT, inputplay_code_of(bytes_of("KEY_NONE"), 8, &type, &code));
    SAME(INPUTPLAY_BAD_ARGUMENT, inputplay_code_of(bytes_of("\xff"), 1, &type, &code));
    SAME(77, code);
    SAME(INPUTPLAY_OK, inputplay_code_of(bytes_of("KEY_A"), 5, &type, &code));
    SAME(1, type);
    SAME(30, code);
    SAME(INPUTPLAY_BAD_ARGUMENT, inputplay_name_of(9, 0, out, 8, &len));
    SAME(77, len);
    SAME(INPUTPLAY_OK, inputplay_name_of(3, 0x39, out, 3, &len));
    SAME(strlen("ABS_MT_TRACKING_ID"), len);
    SAME(0, memcmp(out, "ABS####", 8));
}

int main(void) {
    inputplay_handle_t h = INPUTPLAY_NOTHING;
    uint32_t line, cause;
    SAME(INPUTPLAY_ABI, inputplay_abi());
    no_device(&h);
    no_queries(&h);
    making();
    no_record(&h);
    SAME(INPUTPLAY_OK, inputplay_device_new(bytes_of(PAD), strlen(PAD), 0, &h, &line, &cause));
    no_record(&h);
    stepping(&h);
    reading(&h);
    joying(&h);
    inputplay_free(&h);
    asking();
    repeating();
    taking();
    injecting();
    loading();
    migrating();
    playing();
    naming();
    return failures != 0;
}
