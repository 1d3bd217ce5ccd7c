/* The action lines of a record, as steps. */
#include "record.h"

#include "failure.h"
#include "settings.h"

#include <errno.h>
#include <stdio.h>
#include <stdlib.h>
#include <string.h>

enum { PATH_ROOM = 8192, FILE_ROOM = 4096, READ_AT_ONCE = 65536, EVENTS_AT_ONCE = 512 };

uint8_t *file_bytes(const char *name, size_t *length) {
    FILE *file = fopen(name, "rb");
    uint8_t *bytes = NULL;
    size_t room = 0, got = 1;
    *length = 0;
    if (!file)
        fail("%s: %s", name, strerror(errno));
    while (got) {
        if (room - *length < READ_AT_ONCE + 1)
            bytes = realloc(bytes, room = 2 * room + READ_AT_ONCE + 1);
        if (!bytes)
            fail("memory ran out");
        got = fread(bytes + *length, 1, READ_AT_ONCE, file);
        *length += got;
    }
    if (ferror(file))
        fail("%s: %s", name, strerror(errno));
    fclose(file);
    bytes[*length] = 0;
    return bytes;
}

/* Gives a stream line the bytes of its file, which lies beside the record. */
static void load_stream(inputplay_handle_t *handle, uint32_t number) {
    char name[FILE_ROOM] = {0}, path[PATH_ROOM];
    size_t length = 0;
    inputplay_record_file(handle, number, (uint8_t *)name, sizeof name - 1, &length);
    const char *slash = strrchr(settings.record, '/');
    int folder = slash && name[0] != '/' ? (int)(slash - settings.record + 1) : 0;
    snprintf(path, sizeof path, "%.*s%s", folder, settings.record, name);
    uint8_t *bytes = file_bytes(path, &length);
    uint32_t status = inputplay_record_load(handle, number, bytes, length);
    if (status != INPUTPLAY_OK)
        fail("%s: %s", path, inputplay_status_text(status));
    free(bytes);
}

static void add_stream(inputplay_handle_t *handle, uint32_t number, struct actor *actor) {
    static inputplay_stamped_t events[EVENTS_AT_ONCE];
    struct action action = {.actor = actor, .is_timed = true, .step.step = INPUTPLAY_INJECT};
    size_t from = 0, left = 1;
    load_stream(handle, number);
    while (left) {
        inputplay_record_events(handle, number, from, events, EVENTS_AT_ONCE, &left);
        size_t count = left < EVENTS_AT_ONCE ? left : EVENTS_AT_ONCE;
        for (size_t i = 0; i < count; i++) {
            action.step.type = events[i].type;
            action.step.code = events[i].code;
            action.step.value = events[i].value;
            action.step.now = events[i].now;
            record_add(&action);
        }
        from += count;
        left -= count;
    }
}

/* Whether a command changes something for others. What only asks is left out. */
static bool is_change(uint32_t command) {
    return command <= INPUTPLAY_DO_SET_AXIS && command != INPUTPLAY_DO_CLOCK;
}

static bool has_moment(uint32_t step) {
    return step == INPUTPLAY_INJECT || step == INPUTPLAY_WRITE || step == INPUTPLAY_TICK ||
           step == INPUTPLAY_INHIBIT;
}

void actions_take(inputplay_handle_t *handle, uint32_t number) {
    inputplay_line_t line;
    if (inputplay_record_line(handle, number, &line) != INPUTPLAY_OK)
        fail("the library does not tell of the lines of %s", settings.record);
    struct actor *actor = &record.actors[line.actor];
    if (actor->is_program && line.command == INPUTPLAY_DO_OPEN && !record.is_opened) {
        record.is_opened = true;
        record.before_open = record.action_count;
    }
    if (actor->is_program)
        return;
    if (line.command == INPUTPLAY_DO_STREAM || line.command == INPUTPLAY_DO_STREAM16)
        add_stream(handle, number, actor);
    else if (is_change(line.command))
        record_add(&(struct action){actor, has_moment(line.step.step), line.step});
}
