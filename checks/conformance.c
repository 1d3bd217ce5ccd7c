/*
 * Makes the steps that `checks/conformance` noted, and compares all that comes of each.
 *
 * Standard input has lines `device NUMBER LENGTH`, with so many bytes of a record's text behind it, and lines `described
 * NUMBER` with a device's description in place of a text. Lines `step NUMBER` have the step's fields, the reply's, and the
 * events and values that were read, and lines `feedback NUMBER` an owner's call and what came of it. The lines `start NUMBER`,
 * `force NUMBER`, `next NUMBER` and `joyread NUMBER` are calls of a reader and of a joystick client. The lines from `visible
 * NUMBER` to `repeat NUMBER` are queries, with what is asked, the status, and what is told, which is zeros where the status is
 * not 0. A line `record LENGTH STREAMS REPORT` has a record's text behind it, so many lines `stream LINE LENGTH` with a stream's
 * bytes, a line `said` with its devices, actors and lines, and a line `report` with the text that is to come, of REPORT bytes.
 * It says how many were the same, or prints the first that was not and ends with status 1.
 */
#include "inputplay.h"

#include <inttypes.h>
#include <stdio.h>
#include <stdlib.h>
#include <string.h>

enum { DEVICES = 8, CELLS = 14 * 256, WORDS = 12, UNTOUCHED = 77, NAME_ROOM = 32 };

static inputplay_handle devices[DEVICES];
static inputplay_event events[INPUTPLAY_READ_MAX];
static int32_t cells[CELLS];
static unsigned long steps = 0, queries = 0, reports = 0;

static int64_t number(void) {
    char word[32];
    if (scanf("%31s", word) != 1)
        exit(3);
    return word[0] == '-' ? (int64_t)strtoll(word, NULL, 10) : (int64_t)strtoull(word, NULL, 10);
}

static void same(const char *what, int64_t wanted, int64_t came) {
    if (wanted != came) {
        printf("step %lu, query %lu: %s: %" PRId64 " was wanted, and %" PRId64 " came\n", steps, queries, what, wanted, came);
        exit(1);
    }
}

/* The bytes behind a line. */
static uint8_t *bytes(size_t len) {
    uint8_t *made = malloc(len + 1);
    if (!made || getchar() != '\n' || fread(made, 1, len, stdin) != len)
        exit(3);
    return made;
}

static void make_device(void) {
    int64_t at = number();
    size_t len = (size_t)number();
    uint32_t line, cause;
    uint8_t *text = bytes(len);
    inputplay_free(&devices[at]);
    same("device", INPUTPLAY_OK, inputplay_device_new(text, len, (uint32_t)at, &devices[at], &line, &cause));
    free(text);
}

static void read_info(inputplay_info *info) {
    int32_t *fields[] = {&info->value, &info->minimum, &info->maximum, &info->fuzz, &info->flat, &info->resolution};
    for (int i = 0; i < 6; i++)
        *fields[i] = (int32_t)number();
}

/* The words of a description's bits, its axes, its limits and its filters. */
static void read_description(inputplay_description_t *made) {
    uint64_t *words[] = {&made->relatives, &made->axes, &made->miscs, &made->switches, &made->leds, &made->sounds};
    uint32_t *limits[] = {&made->slots, &made->hint, &made->log, &made->filter_count};
    memset(made, 0, sizeof *made);
    made->types = (uint64_t)number();
    for (int i = 0; i < WORDS; i++)
        made->keys[i] = (uint64_t)number();
    for (int i = 0; i < 6; i++)
        *words[i] = (uint64_t)number();
    for (int64_t axes = number(); axes > 0; axes--) {
        int64_t code = number();
        read_info(&made->infos[code]);
    }
    for (int i = 0; i < 4; i++)
        *limits[i] = (uint32_t)number();
    made->realtime = (uint64_t)number();
    made->boottime = (uint64_t)number();
    for (uint32_t i = 0; i < made->filter_count; i++) {
        inputplay_filter_t *filter = &made->filters[i];
        filter->filter = (uint32_t)number();
        filter->micros = (uint32_t)number();
        filter->type = (uint16_t)number();
        filter->code = (uint16_t)number();
        filter->second = (uint16_t)number();
    }
}

static void make_described(void) {
    inputplay_handle *device = &devices[number()];
    inputplay_description_t description;
    uint32_t cause;
    read_description(&description);
    inputplay_free(device);
    same("described", INPUTPLAY_OK, inputplay_device_of(&description, device, &cause));
}

static inputplay_step_t read_step(void) {
    inputplay_step_t step;
    step.step = (uint32_t)number();
    step.client = (uint32_t)number();
    step.type = (uint16_t)number();
    step.code = (uint16_t)number();
    step.value = (int32_t)number();
    step.now = (uint64_t)number();
    step.count = (uint32_t)number();
    step.clock = (uint32_t)number();
    step.bits = (uint64_t)number();
    read_info(&step.info);
    return step;
}

static void compare_reply(const inputplay_reply *reply) {
    inputplay_info info;
    same("reply", number(), reply->reply);
    same("at", number(), reply->at);
    same("client", number(), reply->client);
    same("count", number(), reply->count);
    same("slot", number(), reply->slot);
    same("why", number(), reply->why);
    for (int i = 0; i < 12; i++)
        same("words", number(), (int64_t)reply->words[i]);
    read_info(&info);
    same("info", 0, memcmp(&info, &reply->info, sizeof info));
}

/* One event is injected by a call for many. */
static void inject_as_many(inputplay_handle *device, const inputplay_step_t *step, inputplay_reply *reply) {
    inputplay_stamped one = {step->type, step->code, step->value, step->now};
    uint32_t from, count;
    same("status", 0, inputplay_inject_all(device, &one, 1, &from, &count));
    reply->reply = count ? INPUTPLAY_DONE : INPUTPLAY_STEP_REFUSED;
    reply->at = from;
    reply->why = count ? 0 : INPUTPLAY_LOG_FULL;
}

static void compare_feedback(void) {
    int64_t device = number();
    size_t room = (size_t)number();
    uint32_t at, count, full;
    same("status", 0, inputplay_feedback(&devices[device], events, room, &at, &count, &full));
    same("at", number(), at);
    same("full", number(), full);
    same("count", number(), count);
    for (uint32_t i = 0; i < count; i++) {
        same("type", number(), events[i].type);
        same("code", number(), events[i].code);
        same("value", number(), events[i].value);
    }
    steps++;
}

/* The reader starts, or where the number is 1 the joystick client. */
static void compare_start(void) {
    inputplay_handle *device = &devices[number()];
    int64_t which = number();
    uint32_t client, why;
    same("status", 0, (which ? inputplay_joy_start : inputplay_reader_start)(device, &client, &why));
    same("why", number(), why);
    same("client", number(), why ? 0 : client);
    steps++;
}

static void force_reader(void) {
    same("status", 0, inputplay_reader_force_sync(&devices[number()]));
    steps++;
}

static void compare_next(void) {
    inputplay_handle *device = &devices[number()];
    uint32_t told, mode = (uint32_t)number();
    inputplay_event event;
    memset(&event, 0, sizeof event);
    same("status", 0, inputplay_reader_next(device, mode, &event, &told));
    same("told", number(), told);
    same("type", number(), event.type);
    same("code", number(), event.code);
    same("value", number(), event.value);
    same("time", number(), (int64_t)event.time);
    same("place", number(), event.place);
    steps++;
}

static void compare_joy_read(void) {
    inputplay_handle *device = &devices[number()];
    uint8_t record_out[8] = {0};
    uint32_t told, place;
    same("status", 0, inputplay_joy_read(device, record_out, &told, &place));
    same("told", number(), told);
    same("place", number(), place);
    for (int i = 0; i < 8; i++)
        same("record", number(), record_out[i]);
    steps++;
}

static void compare_visible(void) {
    inputplay_handle *device = &devices[number()];
    uint32_t client = (uint32_t)number(), count = 0;
    same("status", number(), inputplay_visible(device, client, &count));
    same("visible", number(), count);
    queries++;
}

/* There is room for more or fewer of them in turn. */
static void compare_readable(void) {
    inputplay_handle *device = &devices[number()];
    uint32_t clients[INPUTPLAY_CLIENTS_MAX + 1], count = 0;
    uint32_t room = (uint32_t)(queries % 3 ? queries % 3 : INPUTPLAY_CLIENTS_MAX);
    for (size_t i = 0; i <= INPUTPLAY_CLIENTS_MAX; i++)
        clients[i] = UNTOUCHED;
    same("status", number(), inputplay_readable(device, clients, room, &count));
    same("readable", number(), count);
    for (uint32_t i = 0; i < count; i++) {
        int64_t wanted = number();
        same("a readable client", i < room ? wanted : UNTOUCHED, clients[i]);
    }
    same("behind them", UNTOUCHED, clients[count]);
    queries++;
}

static void compare_client(void) {
    inputplay_handle *device = &devices[number()];
    uint32_t client = (uint32_t)number();
    inputplay_client_t state = {0, 0, 0};
    same("status", number(), inputplay_client(device, client, &state));
    same("clock", number(), state.clock);
    same("revoked", number(), state.revoked);
    same("grabs", number(), state.grabs);
    queries++;
}

static void compare_mask(void) {
    inputplay_handle *device = &devices[number()];
    uint32_t client = (uint32_t)number();
    uint16_t type = (uint16_t)number(), word = (uint16_t)number();
    uint64_t bits = 0;
    same("status", number(), inputplay_client_mask(device, client, type, word, &bits));
    same("mask", number(), (int64_t)bits);
    queries++;
}

/* The words of what is supported, or of what is on. */
static void compare_words(uint32_t (*ask)(inputplay_handle_t *, uint16_t, uint64_t *)) {
    inputplay_handle *device = &devices[number()];
    uint16_t type = (uint16_t)number();
    uint64_t words[WORDS] = {0};
    same("status", number(), ask(device, type, words));
    for (int i = 0; i < WORDS; i++)
        same("words", number(), (int64_t)words[i]);
    queries++;
}

static void compare_codes(void) { compare_words(inputplay_device_bits); }

static void compare_state(void) { compare_words(inputplay_device_state); }

static void compare_axis(void) {
    inputplay_handle *device = &devices[number()];
    uint16_t code = (uint16_t)number();
    inputplay_info info = {0, 0, 0, 0, 0, 0}, wanted;
    same("status", number(), inputplay_device_axis(device, code, &info));
    read_info(&wanted);
    same("axis", 0, memcmp(&wanted, &info, sizeof info));
    queries++;
}

static void compare_slot(void) {
    inputplay_handle *device = &devices[number()];
    uint32_t slot = (uint32_t)number();
    uint16_t code = (uint16_t)number();
    int32_t value = 0;
    same("status", number(), inputplay_device_slot(device, slot, code, &value));
    same("slot", number(), value);
    queries++;
}

static void compare_limits(void) {
    inputplay_limits_t limits;
    same("status", 0, inputplay_device_limits(&devices[number()], &limits));
    same("status", number(), 0);
    same("slots", number(), limits.slots);
    same("hint", number(), limits.hint);
    same("log", number(), limits.log);
    same("ring", number(), limits.ring);
    same("realtime", number(), (int64_t)limits.realtime);
    same("boottime", number(), (int64_t)limits.boottime);
    queries++;
}

static void compare_repeat(void) {
    inputplay_repeat_t repeat;
    same("status", 0, inputplay_device_repeat(&devices[number()], &repeat));
    same("status", number(), 0);
    same("delay", number(), repeat.delay);
    same("period", number(), repeat.period);
    same("armed", number(), repeat.armed);
    same("key", number(), repeat.key);
    same("due", number(), (int64_t)repeat.due);
    queries++;
}

static void load_stream(inputplay_handle *record) {
    char word[16];
    if (scanf("%15s", word) != 1 || strcmp(word, "stream"))
        exit(3);
    uint32_t line = (uint32_t)number();
    size_t len = (size_t)number();
    uint8_t *content = bytes(len);
    same("stream", INPUTPLAY_OK, inputplay_record_load(record, line, content, len));
    free(content);
}

/* A name that was told. */
static void compare_name(const uint8_t *name, size_t len) {
    char word[64];
    if (scanf("%63s", word) != 1)
        exit(3);
    same("length of a name", (int64_t)strlen(word), (int64_t)len);
    same("name", 0, memcmp(word, name, len));
}

static void compare_device_name(inputplay_handle *record, uint32_t device) {
    uint8_t name[NAME_ROOM];
    size_t len;
    same("status", 0, inputplay_record_device(record, device, name, sizeof name, &len));
    compare_name(name, len);
}

static void compare_actor(inputplay_handle *record, uint32_t actor) {
    uint8_t name[NAME_ROOM];
    uint32_t role, device;
    size_t len;
    same("status", 0, inputplay_record_actor(record, actor, &role, &device, name, sizeof name, &len));
    same("role", number(), role);
    same("device", number(), device);
    compare_name(name, len);
}

static void compare_events(inputplay_handle *record, uint32_t line) {
    size_t count = (size_t)number(), left;
    inputplay_stamped_t *came = calloc(count + 1, sizeof *came);
    if (!came)
        exit(3);
    same("status", 0, inputplay_record_events(record, line, 0, came, count, &left));
    same("events", (int64_t)count, (int64_t)left);
    for (size_t i = 0; i < count; i++) {
        same("type", number(), came[i].type);
        same("code", number(), came[i].code);
        same("value", number(), came[i].value);
        same("moment", number(), (int64_t)came[i].now);
    }
    free(came);
}

static void compare_line(inputplay_handle *record, uint32_t line) {
    inputplay_line_t said;
    same("status", 0, inputplay_record_line(record, line, &said));
    same("actor", number(), said.actor);
    same("command", number(), said.command);
    same("count", number(), said.count);
    inputplay_step_t step = read_step();
    same("the step of a line", 0, memcmp(&step, &said.step, sizeof step));
    if (said.command == INPUTPLAY_DO_STREAM || said.command == INPUTPLAY_DO_STREAM16)
        compare_events(record, line);
}

/* What the record says: its devices, actors and lines. */
static void compare_said(inputplay_handle *record) {
    inputplay_counts_t counts;
    char word[16];
    if (scanf("%15s", word) != 1 || strcmp(word, "said"))
        exit(3);
    same("status", 0, inputplay_record_counts(record, &counts));
    same("devices", number(), counts.devices);
    same("actors", number(), counts.actors);
    same("lines", number(), counts.lines);
    for (uint32_t i = 0; i < counts.devices; i++)
        compare_device_name(record, i);
    for (uint32_t i = 0; i < counts.actors; i++)
        compare_actor(record, i);
    for (uint32_t i = 0; i < counts.lines; i++)
        compare_line(record, i);
}

static void compare_report(void) {
    inputplay_handle record = INPUTPLAY_NOTHING;
    char word[16];
    size_t len = (size_t)number(), streams = (size_t)number(), wanted_len = (size_t)number(), left;
    uint32_t line, cause;
    uint8_t *text = bytes(len);
    same("record", INPUTPLAY_OK, inputplay_record_new(text, len, &record, &line, &cause));
    while (streams-- > 0)
        load_stream(&record);
    compare_said(&record);
    if (scanf("%15s", word) != 1 || strcmp(word, "report"))
        exit(3);
    uint8_t *wanted = bytes(wanted_len), *came = malloc(wanted_len + 1);
    same("status", INPUTPLAY_OK, inputplay_record_play(&record, 0, &len));
    same("length", (int64_t)wanted_len, (int64_t)len);
    same("status", INPUTPLAY_OK, inputplay_record_text(&record, 0, came, wanted_len, &left));
    same("report", 0, memcmp(wanted, came, wanted_len));
    inputplay_free(&record);
    free(text);
    free(wanted);
    free(came);
    reports++;
}

static void compare_step(void) {
    int64_t at = number();
    inputplay_step_t step = read_step();
    inputplay_reply reply;
    memset(&reply, 0, sizeof reply);
    /* An injected event goes each of three ways in turn. */
    if (step.step == INPUTPLAY_INJECT && steps % 3 == 2) {
        inject_as_many(&devices[at], &step, &reply);
    } else if (step.step == INPUTPLAY_INJECT && steps % 3) {
        uint32_t place, why;
        same("status", 0, inputplay_inject(&devices[at], step.type, step.code, step.value, step.now, &place, &why));
        reply.reply = why ? INPUTPLAY_STEP_REFUSED : INPUTPLAY_DONE;
        reply.at = place;
        reply.why = why;
    } else {
        same("status", 0, inputplay_step(&devices[at], &step, &reply, events, INPUTPLAY_READ_MAX, cells, CELLS));
    }
    compare_reply(&reply);
    for (uint32_t i = 0; reply.reply == INPUTPLAY_TOOK && i < reply.count; i++) {
        same("type", number(), events[i].type);
        same("code", number(), events[i].code);
        same("value", number(), events[i].value);
        same("time", number(), (int64_t)events[i].time);
        same("place", number(), events[i].place);
    }
    for (uint32_t i = 0; reply.reply == INPUTPLAY_CELLS && i < reply.count; i++)
        same("cells", number(), cells[i]);
    steps++;
}

/* What each line but `stream` and `report` begins with, and what is then done. */
static const struct {
    const char *word;
    void (*make)(void);
} lines[] = {
    {"device", make_device},
    {"described", make_described},
    {"step", compare_step},
    {"feedback", compare_feedback},
    {"start", compare_start},
    {"force", force_reader},
    {"next", compare_next},
    {"joyread", compare_joy_read},
    {"record", compare_report},
    {"visible", compare_visible},
    {"readable", compare_readable},
    {"client", compare_client},
    {"mask", compare_mask},
    {"codes", compare_codes},
    {"state", compare_state},
    {"axis", compare_axis},
    {"slot", compare_slot},
    {"limits", compare_limits},
    {"repeat", compare_repeat},
};

int main(void) {
    char word[16];
    while (scanf("%15s", word) == 1) {
        size_t i = 0, count = sizeof lines / sizeof *lines;
        while (i < count && strcmp(word, lines[i].word))
            i++;
        if (i == count)
            exit(3);
        lines[i].make();
    }
    for (int i = 0; i < DEVICES; i++)
        inputplay_free(&devices[i]);
    printf("%lu steps and calls and %lu queries are told the same, and %lu reports\n", steps, queries, reports);
    return 0;
}
