/*
 * What waits for the owner of a device, and how many calls the owner has left, are as before after each call of a reader and of a
 * joystick client. It is C and C++, and says where something else came.
 */
#include "inputplay.h"
#include "same.h"

#include <string.h>

enum { LOG = 300, LED_TYPE = 0x11, LED_CODE = 1, WRITER = 0 };

static inputplay_event_t no_events[1];
static int32_t no_cells[1];

static const char *const PAD = "inputrecord 1\ndevice pad\ncap EV_KEY BTN_TRIGGER\ncap EV_LED LED_CAPSL\n"
                               "axis ABS_X 7 0 255 0 0 0\nlog 300\nsource s\n";

/* A client of the device writes to its light, which its owner is to be told. */
static void write_light(inputplay_handle_t *device, int32_t value) {
    inputplay_step_t step;
    inputplay_reply_t reply;
    memset(&step, 0, sizeof step);
    step.step = INPUTPLAY_WRITE;
    step.client = WRITER;
    step.type = LED_TYPE;
    step.code = LED_CODE;
    step.value = value;
    SAME(INPUTPLAY_OK, inputplay_step(device, &step, &reply, no_events, 0, no_cells, 0));
    SAME(INPUTPLAY_DONE, reply.reply);
}

/* The owner takes what was written, and nothing else waits. */
static void owner_is_told(inputplay_handle_t *device, int32_t value) {
    inputplay_event_t events[INPUTPLAY_FEEDBACK_MAX];
    uint32_t at, count = 77, full = 77;
    memset(events, 77, sizeof events);
    SAME(INPUTPLAY_OK, inputplay_feedback(device, events, INPUTPLAY_FEEDBACK_MAX, &at, &count, &full));
    SAME(1, count);
    SAME(0, full);
    SAME(LED_TYPE, events[0].type);
    SAME(LED_CODE, events[0].code);
    SAME(value, events[0].value);
}

/* The owner may make so many calls more, and no other. */
static void owner_has_calls(inputplay_handle_t *device, int calls) {
    inputplay_event_t event;
    uint32_t at, count, full = 0;
    int made = 0;
    for (; made <= LOG && !full; made++)
        SAME(INPUTPLAY_OK, inputplay_feedback(device, &event, 1, &at, &count, &full));
    SAME(calls, made - 1);
}

static void reader(inputplay_handle_t *device) {
    inputplay_event_t event;
    uint32_t client, why = 77, told = 77;
    write_light(device, 1);
    SAME(INPUTPLAY_OK, inputplay_reader_start(device, &client, &why));
    SAME(0, why);
    owner_is_told(device, 1);
    write_light(device, 0);
    SAME(INPUTPLAY_OK, inputplay_reader_next(device, INPUTPLAY_NORMAL, &event, &told));
    SAME(INPUTPLAY_NEXT_AGAIN, told);
    owner_is_told(device, 0);
    write_light(device, 1);
    SAME(INPUTPLAY_OK, inputplay_reader_force_sync(device));
    SAME(INPUTPLAY_OK, inputplay_reader_next(device, INPUTPLAY_SYNC, &event, &told));
    SAME(INPUTPLAY_NEXT_SYNCED, told);
    owner_is_told(device, 1);
}

static void joystick(inputplay_handle_t *device) {
    uint8_t record_out[8];
    uint32_t client, why = 77, told = 77, place;
    write_light(device, 0);
    SAME(INPUTPLAY_OK, inputplay_joy_start(device, &client, &why));
    SAME(0, why);
    owner_is_told(device, 0);
    for (int32_t value = 1; value <= 3; value++) {
        write_light(device, value % 2);
        SAME(INPUTPLAY_OK, inputplay_joy_read(device, record_out, &told, &place));
        SAME(value < 3 ? INPUTPLAY_JOY_RECORD : INPUTPLAY_JOY_AGAIN, told);
        owner_is_told(device, value % 2);
    }
}

int main(void) {
    inputplay_handle_t device = INPUTPLAY_NOTHING;
    inputplay_step_t open;
    inputplay_reply_t reply;
    uint32_t line, cause;
    memset(&open, 0, sizeof open);
    open.step = INPUTPLAY_OPEN;
    SAME(INPUTPLAY_OK, inputplay_device_new((const uint8_t *)PAD, strlen(PAD), 0, &device, &line, &cause));
    SAME(INPUTPLAY_OK, inputplay_step(&device, &open, &reply, no_events, 0, no_cells, 0));
    SAME(WRITER, reply.client);
    reader(&device);
    joystick(&device);
    /* It made seven calls, and a reader and a joystick client made none. */
    owner_has_calls(&device, LOG - 7);
    inputplay_free(&device);
    return failures != 0;
}
