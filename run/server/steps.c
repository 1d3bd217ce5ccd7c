#include "steps.h"

enum { CODE_ROOM = 64 };

static const char *const COMMANDS[] = {
    "event",  "tick",   "open",  "close",   "read",    "discard",   "keys",  "switches",
    "leds",   "sounds", "axis",  "setaxis", "slots",   "syncslots", "write", "grab",
    "ungrab", "mask",   "clock", "revoke",  "inhibit", "uninhibit",
};

bool is_step_of_source(uint32_t step) {
    return step == INPUTPLAY_INJECT || step == INPUTPLAY_TICK || step >= INPUTPLAY_INHIBIT;
}

static const char *type_name(uint16_t type, char *room) {
    static const char *const names[EV_CNT] = {
        [EV_SYN] = "EV_SYN", [EV_KEY] = "EV_KEY", [EV_REL] = "EV_REL",
        [EV_ABS] = "EV_ABS", [EV_MSC] = "EV_MSC", [EV_SW] = "EV_SW",
        [EV_LED] = "EV_LED", [EV_SND] = "EV_SND", [EV_REP] = "EV_REP",
    };
    if (type < EV_CNT && names[type])
        return names[type];
    snprintf(room, CODE_ROOM, "%u", type);
    return room;
}

static const char *code_name(uint16_t type, uint16_t code, char *room) {
    size_t length;
    if (inputplay_name_of(type, code, (uint8_t *)room, CODE_ROOM - 1, &length) == INPUTPLAY_OK &&
        length < CODE_ROOM)
        room[length] = 0;
    else
        snprintf(room, CODE_ROOM, "%u", code);
    return room;
}

static void write_event(FILE *file, const inputplay_step_t *step) {
    char type[CODE_ROOM], code[CODE_ROOM];
    fprintf(file, " %s %s %d", type_name(step->type, type), code_name(step->type, step->code, code),
            (int)step->value);
}

static void write_axis(FILE *file, const inputplay_step_t *step) {
    const inputplay_info *info = &step->info;
    char code[CODE_ROOM];
    fprintf(file, " %s", code_name(EV_ABS, step->code, code));
    if (step->step == INPUTPLAY_SET_AXIS)
        fprintf(file, " %d %d %d %d %d %d", (int)info->value, (int)info->minimum, (int)info->maximum,
                (int)info->fuzz, (int)info->flat, (int)info->resolution);
}

static void write_clock(FILE *file, const inputplay_step_t *step) {
    const char *name = step->clock == 0 ? "realtime" : step->clock == 1 ? "monotonic" : "boottime";
    fprintf(file, " %s %llu", name, (unsigned long long)step->now);
}

static void write_mask(FILE *file, const inputplay_step_t *step) {
    char type[CODE_ROOM];
    fprintf(file, " %s %u 0x%llx", type_name(step->type, type), step->code, (unsigned long long)step->bits);
}

static void write_words(FILE *file, const inputplay_step_t *step) {
    switch (step->step) {
    case INPUTPLAY_INJECT:
    case INPUTPLAY_WRITE:
        fprintf(file, " %llu", (unsigned long long)step->now);
        write_event(file, step);
        break;
    case INPUTPLAY_TICK:
    case INPUTPLAY_INHIBIT: fprintf(file, " %llu", (unsigned long long)step->now); break;
    case INPUTPLAY_READ: fprintf(file, " %u", step->count); break;
    case INPUTPLAY_CLOCK: write_clock(file, step); break;
    case INPUTPLAY_MASK: write_mask(file, step); break;
    case INPUTPLAY_GET_AXIS:
    case INPUTPLAY_GET_SLOTS:
    case INPUTPLAY_SET_AXIS: write_axis(file, step); break;
    default: break;
    }
}

void write_step(FILE *file, const char *actor, const inputplay_step_t *step) {
    if (step->step >= sizeof COMMANDS / sizeof COMMANDS[0])
        return;
    fprintf(file, "do %s %s", actor, COMMANDS[step->step]);
    write_words(file, step);
    fputc('\n', file);
}
