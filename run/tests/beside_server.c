/* A server of tools/run with a reader of the library's own on the first device of a record. Its lines are
 * played on order (beside.h), which comes from the descriptor of the last word: beside_server --folder FOLDER
 * RECORD DESCRIPTOR */
#include "../server/client.h"
#include "../server/connection.h"
#include "../server/failure.h"
#include "../server/moments.h"
#include "../server/record.h"
#include "../server/settings.h"
#include "beside.h"

#include <poll.h>
#include <signal.h>
#include <stdio.h>
#include <stdlib.h>

static size_t next_action;
static struct handed events[EVENTS_MAX];
static int32_t values[VALUES_MAX];
static struct report report;

static bool is_report(const inputplay_step_t *step) {
    return step->step == INPUTPLAY_INJECT && step->type == EV_SYN && step->code == SYN_REPORT;
}

/* Plays the lines up to the end of a frame. */
static void play_frame(void) {
    bool has_ended = false;
    while (next_action < record.action_count && !has_ended) {
        inputplay_step_t step = record.actions[next_action++].step;
        inputplay_reply reply;
        set_line_moment(step.now);
        step.now = step_moment();
        device_step(&devices[0], &step, &reply);
        has_ended = is_report(&step);
    }
}

static void note(const inputplay_event *event, enum handing how) {
    if (report.event_count == EVENTS_MAX)
        fail("too many events in one report");
    events[report.event_count++] = (struct handed){event->type, event->code, event->value, how};
}

static uint32_t next_of_reader(uint32_t mode, inputplay_event *event) {
    uint32_t told;
    if (inputplay_reader_next(&devices[0].handle, mode, event, &told) != INPUTPLAY_OK)
        fail("the reader was refused a call");
    return told;
}

/* What the reader hands out after a loss, to the end. */
static void synchronise(void) {
    inputplay_event event;
    uint32_t told;
    while ((told = next_of_reader(INPUTPLAY_SYNC, &event)) == INPUTPLAY_NEXT_SYNC)
        note(&event, HANDED_MADE);
    if (told != INPUTPLAY_NEXT_SYNCED)
        fail("the reader told %u while it synchronised", told);
}

static void read_by_reader(uint32_t most) {
    inputplay_event event;
    uint32_t told = INPUTPLAY_NEXT_EVENT;
    while (most-- > 0 && told != INPUTPLAY_NEXT_AGAIN) {
        told = next_of_reader(INPUTPLAY_NORMAL, &event);
        if (told == INPUTPLAY_NEXT_EVENT) {
            note(&event, HANDED_READ);
        } else if (told == INPUTPLAY_NEXT_DROPPED) {
            note(&event, HANDED_LOSS);
            synchronise();
        } else if (told != INPUTPLAY_NEXT_AGAIN) {
            fail("the reader told %u", told);
        }
    }
    report.has_all = told == INPUTPLAY_NEXT_AGAIN;
}

static void add_value(uint32_t status, int32_t value) {
    if (status != INPUTPLAY_OK || report.value_count == VALUES_MAX)
        fail("a value of the reader: status %u", status);
    values[report.value_count++] = value;
}

static void add_values_of(uint16_t type) {
    int32_t value = 0;
    for (uint16_t code = 0; code < KEY_CNT; code++) {
        bool is_of_slots = type == EV_ABS && code >= ABS_MT_SLOT && code <= ABS_MT_TOOL_Y;
        if (device_has(&devices[0], type, code) && !is_of_slots) {
            uint32_t status = inputplay_reader_value(&devices[0].handle, type, code, &value);
            add_value(status, value);
        }
    }
}

static void add_values_of_slot(uint32_t slot) {
    int32_t value = 0;
    for (uint16_t code = ABS_MT_TOUCH_MAJOR; code <= ABS_MT_TOOL_Y; code++)
        if (device_has(&devices[0], EV_ABS, code) || code == ABS_MT_TRACKING_ID) {
            uint32_t status = inputplay_reader_slot_value(&devices[0].handle, slot, code, &value);
            add_value(status, value);
        }
}

static void add_values(void) {
    static const uint16_t types[] = {EV_KEY, EV_SW, EV_LED, EV_ABS};
    uint32_t client, phase;
    int32_t slot;
    for (size_t i = 0; i < sizeof types / sizeof types[0]; i++)
        add_values_of(types[i]);
    for (uint32_t number = 0; number < devices[0].slots; number++)
        add_values_of_slot(number);
    uint32_t status = inputplay_reader_state(&devices[0].handle, &client, &phase, &slot);
    if (devices[0].slots)
        add_value(status, slot);
}

/* Does what is ordered; false where nobody orders any more. */
static bool obey(int orders) {
    struct order order;
    if (!read_whole(orders, &order, sizeof order))
        return false;
    report = (struct report){0};
    for (uint32_t i = 0; i < order.frames; i++)
        play_frame();
    clients_refresh(&devices[0]);
    read_by_reader(order.most);
    add_values();
    report.has_more = next_action < record.action_count;
    return write_whole(orders, &report, sizeof report) &&
           write_whole(orders, events, report.event_count * sizeof events[0]) &&
           write_whole(orders, values, report.value_count * sizeof values[0]);
}

static void serve_connections(const struct pollfd *all, int served) {
    for (int i = served - 1; i >= 0; i--)
        if (all[i].revents)
            connection_serve(i);
}

/* One turn; false at the end. */
static bool turn(int orders, int listening) {
    struct pollfd all[2 + CONNECTIONS];
    int served = connection_count;
    all[0] = (struct pollfd){.fd = orders, .events = POLLIN};
    all[1] = (struct pollfd){.fd = listening, .events = POLLIN};
    for (int i = 0; i < served; i++)
        all[2 + i] = (struct pollfd){.fd = connections[i].descriptor, .events = POLLIN};
    if (poll(all, (nfds_t)served + 2, -1) < 0)
        return false;
    serve_connections(all + 2, served);
    if (all[1].revents)
        connection_accept(listening);
    return !all[0].revents || obey(orders);
}

int main(int count, char **words) {
    uint32_t client, why;
    if (count != 5)
        fail("usage: beside_server --folder FOLDER RECORD DESCRIPTOR");
    int orders = atoi(words[--count]);
    settings_take(count, words);
    settings.is_record_clock = true;
    signal(SIGPIPE, SIG_IGN);
    record_read();
    int listening = listen_for_programs();
    if (inputplay_reader_start(&devices[0].handle, &client, &why) != INPUTPLAY_OK || why)
        fail("the reader did not start: %u", why);
    puts("ready");
    fclose(stdout);
    while (turn(orders, listening))
        ;
    return 0;
}
