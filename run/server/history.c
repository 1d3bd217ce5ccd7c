#include "history.h"

#include "failure.h"
#include "record.h"
#include "settings.h"
#include "steps.h"

#include <ctype.h>
#include <errno.h>
#include <stdbool.h>
#include <stdio.h>
#include <stdlib.h>
#include <string.h>

enum { STEPS_AT_ONCE = 1024, NAMES_AT_ONCE = 64, COMMAND_ROOM = 32, USUAL_LOG = 1048576 };

/** The first name of each client that was opened of a device, by the order of opening. */
static struct opening {
    char name[NAME_ROOM];
    uint32_t client;
} *openings[DEVICES];
static size_t opening_counts[DEVICES];

/** A tap of the record that is written: it makes the calls of one client after another. */
struct tap {
    char name[NAME_ROOM];
    char first_name[NAME_ROOM];
    const struct device *device;
    uint32_t client;
    bool is_open;
};

/** What is gathered while a history is written. */
struct writing {
    FILE *actions;
    struct tap *taps;
    size_t tap_count;
    char sources[DEVICES][NAME_ROOM];
};

static void note(const struct device *device, const char *name, uint32_t client) {
    int at = device_index(device);
    size_t count = opening_counts[at]++;
    if (count % NAMES_AT_ONCE == 0)
        openings[at] = realloc(openings[at], (count + NAMES_AT_ONCE) * sizeof *openings[at]);
    if (!openings[at])
        fail("memory ran out");
    struct opening *opening = &openings[at][count];
    opening->client = client;
    snprintf(opening->name, sizeof opening->name, "%s", name);
}

void history_note_actor(const struct device *device, const char *name, uint32_t client) {
    note(device, name, client);
}

/* Names of a record are of small letters, digits, _ and -. */
static char name_character(int character) {
    return isalnum(character) ? (char)tolower(character) : character == '_' ? '_' : '-';
}

/* A process's name as a name of a record. */
static void take_command_name(pid_t process, char *name) {
    char path[COMMAND_ROOM];
    snprintf(path, sizeof path, "/proc/%d/comm", (int)process);
    FILE *file = fopen(path, "r");
    size_t length = file ? fread(name, 1, NAME_ROOM - 5, file) : 0;
    if (file)
        fclose(file);
    length -= length && name[length - 1] == '\n';
    for (size_t i = 0; i < length; i++)
        name[i] = name_character((unsigned char)name[i]);
    name[length] = 0;
    if (!length)
        snprintf(name, NAME_ROOM, "program");
}

void history_note_open(const struct device *device, uint32_t client, pid_t process) {
    char name[NAME_ROOM];
    if (settings.actor && strcmp(settings.actor, "*"))
        snprintf(name, sizeof name, "%.*s", NAME_ROOM - 5, settings.actor);
    else
        take_command_name(process, name);
    note(device, name, client);
}

static bool is_used(const struct writing *writing, const char *name) {
    for (int i = 0; i < DEVICES; i++)
        if (!strcmp(writing->sources[i], name))
            return true;
    for (size_t i = 0; i < writing->tap_count; i++)
        if (!strcmp(writing->taps[i].name, name))
            return true;
    return false;
}

/* The first of NAME, NAME-2, NAME-3 .. that no actor has. */
static void take_free_name(const struct writing *writing, const char *first, char *name) {
    snprintf(name, NAME_ROOM, "%s", first);
    for (unsigned number = 2; is_used(writing, name); number++)
        snprintf(name, NAME_ROOM, "%.*s-%u", NAME_ROOM - 6, first, number % 1000);
}

/* The tap for a client that is opened: one of the same first name whose client was closed, or a new one. */
static struct tap *tap_for(struct writing *writing, const struct device *device, const char *first) {
    for (size_t i = 0; i < writing->tap_count; i++) {
        struct tap *tap = &writing->taps[i];
        if (tap->device == device && !tap->is_open && !strcmp(tap->first_name, first))
            return tap;
    }
    if (writing->tap_count % NAMES_AT_ONCE == 0)
        writing->taps = realloc(writing->taps, (writing->tap_count + NAMES_AT_ONCE) * sizeof *writing->taps);
    if (!writing->taps)
        fail("memory ran out");
    struct tap tap = {.device = device};
    take_free_name(writing, first, tap.name);
    snprintf(tap.first_name, sizeof tap.first_name, "%s", first);
    writing->taps[writing->tap_count] = tap;
    return &writing->taps[writing->tap_count++];
}

static struct tap *tap_of(struct writing *writing, const struct device *device, uint32_t client) {
    for (size_t i = 0; i < writing->tap_count; i++) {
        struct tap *tap = &writing->taps[i];
        if (tap->device == device && tap->is_open && tap->client == client)
            return tap;
    }
    return NULL;
}

/* Who makes a step: the source, or a tap. */
static const char *actor_of(struct writing *writing, const struct device *device,
                            const inputplay_step_t *step, size_t *opens) {
    if (is_step_of_source(step->step))
        return writing->sources[device_index(device)];
    struct tap *tap;
    if (step->step == INPUTPLAY_OPEN) {
        const struct opening *opening = &openings[device_index(device)][(*opens)++];
        tap = tap_for(writing, device, opening->name);
        tap->client = opening->client;
        tap->is_open = true;
    } else {
        tap = tap_of(writing, device, step->client);
    }
    if (tap && step->step == INPUTPLAY_CLOSE)
        tap->is_open = false;
    return tap ? tap->name : NULL;
}

static void write_actions(struct writing *writing, struct device *device) {
    static inputplay_step_t steps[STEPS_AT_ONCE];
    size_t from = 0, left = 1, opens = 0;
    while (left) {
        inputplay_history(&device->handle, from, steps, STEPS_AT_ONCE, &left);
        size_t count = left < STEPS_AT_ONCE ? left : STEPS_AT_ONCE;
        for (size_t i = 0; i < count; i++) {
            const char *actor = actor_of(writing, device, &steps[i], &opens);
            if (actor)
                write_step(writing->actions, actor, &steps[i]);
        }
        from += count;
        left -= count;
    }
}

static void name_sources(struct writing *writing) {
    for (size_t i = record.actor_count; i-- > 0;)
        if (record.actors[i].is_source)
            snprintf(writing->sources[device_index(record.actors[i].device)], NAME_ROOM, "%s",
                     record.actors[i].name);
    for (int i = 0; i < device_count; i++) {
        char name[NAME_ROOM];
        if (writing->sources[i][0])
            continue;
        take_free_name(writing, "source", name);
        memcpy(writing->sources[i], name, sizeof name);
    }
}

/* The lines of a description. A history that is not long wants no room for a longer one than usual. */
static void write_description(FILE *file, const struct device *device) {
    const char *device_line = strchr(device->description, '\n') + 1, *line = strchr(device_line, '\n') + 1;
    while (*line) {
        const char *end = strchr(line, '\n') + 1;
        if (device->steps > USUAL_LOG || strncmp(line, "log ", 4) != 0)
            fwrite(line, 1, (size_t)(end - line), file);
        line = end;
    }
}

static void write_device(FILE *file, const struct writing *writing, const struct device *device) {
    fprintf(file, "device %s\n", device->record_name);
    write_identity(file, device);
    write_description(file, device);
    fprintf(file, "source %s\n", writing->sources[device_index(device)]);
    for (size_t i = 0; i < writing->tap_count; i++)
        if (writing->taps[i].device == device)
            fprintf(file, "tap %s\n", writing->taps[i].name);
}

void history_write(void) {
    if (!settings.history)
        return;
    char *text = NULL;
    size_t length;
    struct writing writing = {.actions = open_memstream(&text, &length)};
    FILE *file = fopen(settings.history, "w");
    if (!file || !writing.actions)
        fail("%s: %s", settings.history, strerror(errno));
    name_sources(&writing);
    for (int i = 0; i < device_count; i++)
        write_actions(&writing, &devices[i]);
    fclose(writing.actions);
    fprintf(file, "inputrecord 2\n# What programs did on the devices of a record, as tools/run saw it.\n");
    for (int i = 0; i < device_count; i++)
        write_device(file, &writing, &devices[i]);
    bool is_written = fwrite(text, 1, length, file) == length;
    if (fclose(file) || !is_written)
        fail("%s: %s", settings.history, strerror(errno));
    free(text);
    free(writing.taps);
}
