/*
 * A record line by line: its devices and actors, each command that a line may have, the events of its streams, and a play by
 * hand of what the lines say. It is C and C++, and says where something else came.
 */
#include "inputplay.h"
#include "same.h"

#include <string.h>

static const char *const EACH =
    "inputrecord 2\ndevice pad\ncap EV_KEY KEY_A\nlog 50\nsource s\nclient c\ntap t\njoy stick-1\n"
    "udevice lamp\ncap EV_LED LED_CAPSL\nlog 9\nowner o\n"
    "do s event 5 EV_KEY KEY_A -1\ndo s tick 250000\ndo s inhibit 9\ndo s uninhibit\ndo s stream keys\ndo s stream16 narrow\n"
    "do t open\ndo t close\ndo c grab\ndo t ungrab\ndo t revoke\ndo t mask EV_KEY 3 0x8000000000000001\ndo t clock boottime 8\n"
    "do c write 7 EV_LED LED_CAPSL 1\ndo t setaxis ABS_Y 1 -2 3 4 5 6\ndo t read 16\ndo t discard\ndo t keys\ndo t switches\n"
    "do t leds\ndo t sounds\ndo t syncslots\ndo t axis ABS_Y\ndo t slots ABS_MT_POSITION_X\ndo c next 10\ndo c skip 11\n"
    "do c follow\ndo c force\ndo o feedback 8\ndo stick-1 read 4294967295\n";

/* The actor, the step and the count of each line; the first 29 have the commands in the order of their numbers. */
static const uint32_t WANTED[30][3] = {
    {0, INPUTPLAY_INJECT, 0},       {0, INPUTPLAY_TICK, 0},       {0, INPUTPLAY_INHIBIT, 0},  {0, INPUTPLAY_UNINHIBIT, 0},
    {0, INPUTPLAY_NO_STEP, 0},      {0, INPUTPLAY_NO_STEP, 0},    {2, INPUTPLAY_OPEN, 0},     {2, INPUTPLAY_CLOSE, 0},
    {1, INPUTPLAY_GRAB, 0},         {2, INPUTPLAY_UNGRAB, 0},     {2, INPUTPLAY_REVOKE, 0},   {2, INPUTPLAY_MASK, 0},
    {2, INPUTPLAY_CLOCK, 0},        {1, INPUTPLAY_WRITE, 0},      {2, INPUTPLAY_SET_AXIS, 0}, {2, INPUTPLAY_READ, 16},
    {2, INPUTPLAY_DISCARD, 0},      {2, INPUTPLAY_GET_KEYS, 0},   {2, INPUTPLAY_GET_SWITCHES, 0},
    {2, INPUTPLAY_GET_LEDS, 0},     {2, INPUTPLAY_GET_SOUNDS, 0}, {2, INPUTPLAY_SYNC_SLOTS, 0},
    {2, INPUTPLAY_GET_AXIS, 0},     {2, INPUTPLAY_GET_SLOTS, 0},  {1, INPUTPLAY_NO_STEP, 10}, {1, INPUTPLAY_NO_STEP, 11},
    {1, INPUTPLAY_NO_STEP, 0},      {1, INPUTPLAY_NO_STEP, 0},    {4, INPUTPLAY_NO_STEP, 8},  {3, INPUTPLAY_READ, 4294967295u},
};

static void make_record(inputplay_handle_t *h, const char *text) {
    uint32_t line = 77, cause = 77;
    SAME(INPUTPLAY_OK, inputplay_record_new((const uint8_t *)text, strlen(text), h, &line, &cause));
    SAME(0, line);
}

static void naming(inputplay_handle_t *h) {
    static const char *const DEVICES[2] = {"pad", "lamp"};
    static const char *const ACTORS[5] = {"s", "c", "t", "stick-1", "o"};
    inputplay_counts_t counts = {77, 77, 77};
    uint8_t out[8];
    uint32_t role = 77, device = 77;
    size_t len = 77;
    SAME(INPUTPLAY_OK, inputplay_record_counts(h, &counts));
    SAME(2, counts.devices);
    SAME(5, counts.actors);
    SAME(30, counts.lines);
    for (uint32_t i = 0; i < 2; i++) {
        SAME(INPUTPLAY_OK, inputplay_record_device(h, i, out, 8, &len));
        SAME(strlen(DEVICES[i]), len);
        SAME(0, memcmp(out, DEVICES[i], len));
    }
    for (uint32_t i = 0; i < 5; i++) {
        SAME(INPUTPLAY_OK, inputplay_record_actor(h, i, &role, &device, out, 8, &len));
        SAME(INPUTPLAY_SOURCE + i, role);
        SAME(i == 4, device);
        SAME(strlen(ACTORS[i]), len);
        SAME(0, memcmp(out, ACTORS[i], len));
    }
    memcpy(out, "########", 8);
    SAME(INPUTPLAY_OK, inputplay_record_device(h, 1, out, 3, &len));
    SAME(4, len);
    SAME(0, memcmp(out, "lam#####", 8));
    SAME(INPUTPLAY_OK, inputplay_record_actor(h, 3, &role, &device, out, 5, &len));
    SAME(7, len);
    SAME(0, memcmp(out, "stick###", 8));
    SAME(INPUTPLAY_BAD_ARGUMENT, inputplay_record_device(h, 2, out, 8, &len));
    SAME(INPUTPLAY_BAD_ARGUMENT, inputplay_record_actor(h, 5, &role, &device, out, 8, &len));
    SAME(INPUTPLAY_JOYSTICK, role);
    SAME(0, device);
    SAME(7, len);
    SAME(0, memcmp(out, "stick###", 8));
}

/* A line by its number, with a step that is not there before. */
static inputplay_line_t line_at(inputplay_handle_t *h, uint32_t number) {
    inputplay_line_t line;
    memset(&line, 77, sizeof line);
    SAME(INPUTPLAY_OK, inputplay_record_line(h, number, &line));
    SAME(0, line.step.client);
    return line;
}

static void fields(inputplay_handle_t *h) {
    inputplay_line_t line = line_at(h, 0);
    SAME(1, line.step.type);
    SAME(30, line.step.code);
    SAME(-1, line.step.value);
    SAME(5, line.step.now);
    SAME(0, line.step.bits);
    line = line_at(h, 1);
    SAME(250000, line.step.now);
    SAME(0, line.step.type);
    line = line_at(h, 2);
    SAME(9, line.step.now);
    line = line_at(h, 11);
    SAME(1, line.step.type);
    SAME(3, line.step.code);
    SAME(1, line.step.bits == UINT64_C(0x8000000000000001));
    line = line_at(h, 12);
    SAME(7, line.step.clock);
    SAME(8, line.step.now);
    line = line_at(h, 13);
    SAME(0x11, line.step.type);
    SAME(1, line.step.code);
    SAME(1, line.step.value);
    SAME(7, line.step.now);
    line = line_at(h, 14);
    SAME(1, line.step.code);
    SAME(1, line.step.info.value);
    SAME(-2, line.step.info.minimum);
    SAME(6, line.step.info.resolution);
    line = line_at(h, 15);
    SAME(16, line.step.count);
    line = line_at(h, 22);
    SAME(1, line.step.code);
    line = line_at(h, 23);
    SAME(0x35, line.step.code);
    line = line_at(h, 28);
    SAME(0, line.step.count);
    SAME(0, line.step.now);
}

static void each_command(inputplay_handle_t *h) {
    inputplay_line_t line;
    for (uint32_t i = 0; i < 30; i++) {
        line = line_at(h, i);
        SAME(WANTED[i][0], line.actor);
        SAME(i < 29 ? i : (uint32_t)INPUTPLAY_DO_READ, line.command);
        SAME(WANTED[i][1], line.step.step);
        SAME(WANTED[i][2], line.count);
    }
    SAME(INPUTPLAY_BAD_ARGUMENT, inputplay_record_line(h, 30, &line));
    SAME(INPUTPLAY_READ, line.step.step);
}

/* The events of a stream from a place on; a stream whose bytes were not given has none. */
static void events(inputplay_handle_t *h) {
    static const uint8_t keys[48] = {1, 0, 0, 0, 0, 0, 0, 0, 5, 0, 0, 0, 0, 0, 0, 0, 1, 0, 30, 0, 1, 0, 0, 0,
                                     2, 0, 0, 0, 0, 0, 0, 0, 0, 0, 0, 0, 0, 0, 0, 0, 0, 0, 0,  0, 0, 0, 0, 0};
    inputplay_stamped_t came[3];
    size_t left = 77;
    memset(came, 77, sizeof came);
    SAME(INPUTPLAY_OK, inputplay_record_events(h, 4, 0, came, 3, &left));
    SAME(0, left);
    SAME(INPUTPLAY_OK, inputplay_record_load(h, 4, keys, 48));
    SAME(INPUTPLAY_OK, inputplay_record_events(h, 5, 0, came, 3, &left));
    SAME(0, left);
    SAME(77 * 0x101, came[0].type);
    SAME(INPUTPLAY_OK, inputplay_record_events(h, 4, 0, came, 1, &left));
    SAME(2, left);
    SAME(1, came[0].type);
    SAME(30, came[0].code);
    SAME(1, came[0].value);
    SAME(1000005, came[0].now);
    SAME(77 * 0x101, came[1].type);
    SAME(INPUTPLAY_OK, inputplay_record_events(h, 4, 1, came, 3, &left));
    SAME(1, left);
    SAME(0, came[0].type);
    SAME(2000000, came[0].now);
    SAME(77 * 0x101, came[1].type);
    SAME(INPUTPLAY_OK, inputplay_record_events(h, 4, 2, came, 3, &left));
    SAME(0, left);
    left = 77;
    SAME(INPUTPLAY_BAD_ARGUMENT, inputplay_record_events(h, 4, 3, came, 3, &left));
    SAME(INPUTPLAY_BAD_ARGUMENT, inputplay_record_events(h, 5, 1, came, 3, &left));
    SAME(INPUTPLAY_BAD_ARGUMENT, inputplay_record_events(h, 3, 0, came, 3, &left));
    SAME(INPUTPLAY_BAD_ARGUMENT, inputplay_record_events(h, 30, 0, came, 3, &left));
    SAME(77, left);
    SAME(2000000, came[0].now);
}

/* The steps of a record's lines, made on its device one after another, with the client that the tap opened. */
static void by_hand(void) {
    static const char *const TEXT =
        "inputrecord 2\ndevice pad\ncap EV_KEY KEY_A\nlog 50\nsource s\ntap t\ndo t keys\ndo t open\n"
        "do s event 5 EV_KEY KEY_A 1\ndo s event 6 EV_SYN SYN_REPORT 0\ndo t read 4\ndo s stream keys\n";
    static const uint32_t REPLIES[5] = {INPUTPLAY_STEP_REFUSED, INPUTPLAY_OPENED, INPUTPLAY_DONE, INPUTPLAY_DONE,
                                        INPUTPLAY_TOOK};
    inputplay_handle_t h = INPUTPLAY_NOTHING, pad = INPUTPLAY_NOTHING;
    inputplay_event_t read[4];
    inputplay_reply_t reply;
    inputplay_line_t line;
    int32_t cell;
    uint32_t number, cause, client = INPUTPLAY_NO_CLIENT;
    make_record(&h, TEXT);
    SAME(INPUTPLAY_OK, inputplay_device_new((const uint8_t *)TEXT, strlen(TEXT), 0, &pad, &number, &cause));
    for (uint32_t i = 0; i < 5; i++) {
        line = line_at(&h, i);
        line.step.client = client;
        SAME(INPUTPLAY_OK, inputplay_step(&pad, &line.step, &reply, read, 4, &cell, 0));
        SAME(REPLIES[i], reply.reply);
        if (reply.reply == INPUTPLAY_OPENED)
            client = reply.client;
    }
    SAME(2, reply.count);
    SAME(30, read[0].code);
    SAME(6, read[1].time);
    line = line_at(&h, 5);
    SAME(INPUTPLAY_BAD_ARGUMENT, inputplay_step(&pad, &line.step, &reply, read, 4, &cell, 0));
    inputplay_free(&h);
    inputplay_free(&pad);
}

int main(void) {
    inputplay_handle_t h = INPUTPLAY_NOTHING;
    make_record(&h, EACH);
    naming(&h);
    each_command(&h);
    fields(&h);
    events(&h);
    SAME(2, h.kind);
    inputplay_free(&h);
    by_hand();
    return failures != 0;
}
