#include "record.h"

#include "failure.h"
#include "moments.h"
#include "settings.h"

#include <stdio.h>
#include <stdlib.h>
#include <string.h>
#include <time.h>

struct record record;

/** A description that is read line by line. */
struct reading {
    struct device *device;
    FILE *file; /**< Its lines, or NULL where none is read. */
    char *text;
    size_t length;
};

void record_add(const struct action *action) {
    if ((record.action_count & (record.action_count + 1)) == 0) {
        size_t room = 2 * (record.action_count + 1);
        record.actions = realloc(record.actions, room * sizeof *action);
        if (!record.actions)
            fail("memory ran out");
    }
    record.actions[record.action_count++] = *action;
}

static bool begins_with(const char *line, const char *word) {
    return !strncmp(line, word, strlen(word));
}

/* Whether a line is none of a description, and so ends the one before it. */
static bool ends_description(const char *line) {
    static const char *const words[] = {"device ", "udevice ", "source ", "client ",
                                        "tap ",    "joy ",     "owner ",  "do "};
    for (size_t i = 0; i < sizeof words / sizeof words[0]; i++)
        if (begins_with(line, words[i]))
            return true;
    return false;
}

static void begin_description(struct reading *reading, const char *line) {
    reading->device = device_new(strchr(line, ' ') + 1);
    reading->file = open_memstream(&reading->text, &reading->length);
    if (!reading->device || !reading->file)
        fail("memory ran out");
    fprintf(reading->file, "inputrecord 2\n%s\n", line);
}

/* A line of a description goes to the library as it stands, but for two things: clocks are those of this
 * machine, and a history is as long as it may be where the record does not say. */
static void add_description(FILE *file, const char *line) {
    static const char realtime[] = "clock realtime ", boottime[] = "clock boottime ";
    bool is_here = !settings.is_record_clock;
    if (!strcmp(line, "log 1048576"))
        fprintf(file, "log %d\n", LONGEST_LOG);
    else if (is_here && begins_with(line, realtime))
        fprintf(file, "%s%llu\n", realtime, (unsigned long long)clock_ahead(CLOCK_REALTIME));
    else if (is_here && begins_with(line, boottime))
        fprintf(file, "%s%llu\n", boottime, (unsigned long long)clock_ahead(CLOCK_BOOTTIME));
    else
        fprintf(file, "%s\n", line);
}

/* What the device has, as the library tells it. */
static void take_abilities(struct device *device) {
    uint64_t words[KEY_CNT / 64];
    inputplay_limits_t limits;
    if (inputplay_device_limits(&device->handle, &limits) != INPUTPLAY_OK)
        fail("the library does not tell of %s", device->record_name);
    device->slots = limits.slots;
    device->ahead[0] = limits.realtime;
    device->ahead[1] = limits.boottime;
    for (unsigned type = EV_SYN; type < EV_CNT; type++) {
        inputplay_device_bits(&device->handle, (uint16_t)type, words);
        for (unsigned code = 0; code < KEY_CNT; code++)
            if (words[code / 64] >> code % 64 & 1)
                device_set(device, type, code);
    }
}

static void end_description(struct reading *reading) {
    if (!reading->file)
        return;
    if (fclose(reading->file))
        fail("memory ran out");
    if (!device_make(reading->device, reading->text))
        fail("the device %s was refused", reading->device->record_name);
    free(reading->text);
    reading->file = NULL;
    take_abilities(reading->device);
}

static void make_devices(char *text) {
    struct reading reading = {0};
    char *rest = NULL;
    for (char *line = strtok_r(text, "\n", &rest); line; line = strtok_r(NULL, "\n", &rest)) {
        if (ends_description(line))
            end_description(&reading);
        if (begins_with(line, "device ") || begins_with(line, "udevice "))
            begin_description(&reading, line);
        else if (reading.file)
            add_description(reading.file, line);
    }
    end_description(&reading);
    if (!device_count)
        fail("%s has no device", settings.record);
}

static inputplay_handle_t handle_of(const uint8_t *text, size_t length) {
    inputplay_handle_t handle = INPUTPLAY_NOTHING;
    uint32_t line, cause;
    uint32_t status = inputplay_record_new(text, length, &handle, &line, &cause);
    if (status == INPUTPLAY_REFUSED)
        fail("%s: line %u: %s", settings.record, line, inputplay_cause_text(cause));
    if (status == INPUTPLAY_TOO_LONG)
        fail("%s: it is longer than 16 MiB", settings.record);
    if (status != INPUTPLAY_OK)
        fail("memory ran out");
    return handle;
}

/* The record's text in its newest version, where each thing has one form. */
static char *newest_text(inputplay_handle_t *handle) {
    size_t made, left;
    char *newest = NULL;
    if (inputplay_record_migrate(handle, &made) == INPUTPLAY_OK)
        newest = malloc(made + 1);
    if (!newest)
        fail("memory ran out");
    inputplay_record_text(handle, 0, (uint8_t *)newest, made, &left);
    newest[made] = 0;
    return newest;
}

static void take_actor(inputplay_handle_t *handle, uint32_t number) {
    struct actor *actor = &record.actors[number];
    const char *program = settings.actor;
    uint32_t role, device;
    size_t length;
    *actor = (struct actor){.client = INPUTPLAY_NO_CLIENT};
    if (inputplay_record_actor(handle, number, &role, &device, (uint8_t *)actor->name, NAME_ROOM - 1,
                               &length) != INPUTPLAY_OK)
        fail("the library does not tell of the actors of %s", settings.record);
    actor->device = &devices[device];
    actor->is_source = role == INPUTPLAY_SOURCE;
    actor->is_program =
        program && !actor->is_source && (!strcmp(program, "*") || !strcmp(program, actor->name));
}

/* A wrong name of --as would leave the program beside the one that it is to be. */
static void check_program(void) {
    const char *name = settings.actor;
    if (!name || !strcmp(name, "*"))
        return;
    for (size_t i = 0; i < record.actor_count; i++)
        if (record.actors[i].is_program)
            return;
    fail("--as %s: %s has no client, tap or joystick of this name", name, settings.record);
}

void record_read(void) {
    size_t length;
    inputplay_counts_t counts;
    uint8_t *bytes = file_bytes(settings.record, &length);
    inputplay_handle_t handle = handle_of(bytes, length);
    char *text = newest_text(&handle);
    make_devices(text);
    free(text);
    inputplay_record_counts(&handle, &counts);
    record.actor_count = counts.actors;
    record.actors = calloc(counts.actors + 1, sizeof *record.actors);
    if (!record.actors)
        fail("memory ran out");
    for (uint32_t i = 0; i < counts.actors; i++)
        take_actor(&handle, i);
    check_program();
    for (uint32_t i = 0; i < counts.lines; i++)
        actions_take(&handle, i);
    inputplay_free(&handle);
    identities_take((const char *)bytes, length);
    nodes_make_maker();
    for (int i = 0; i < device_count; i++)
        nodes_make(&devices[i]);
    free(bytes);
}
