/* Where libevdev and the library's reader differ, and which row of docs/KERNEL.md says so. */
#include "beside_libevdev.h"

#include <errno.h>
#include <stdarg.h>
#include <stdio.h>
#include <string.h>

struct tally tally;

static const char *const NAMES[KNOWN] = {
    [HIDDEN_IDS] = "hands out no tracking id where the slot has a contact already",
    [LONG_READS] = "reads up to 256 events at once",
    [OTHER_CONTACTS] = "makes other events of contacts after a loss",
    [REPEATS] = "takes an autorepeat for a press",
};

__attribute__((format(printf, 1, 2))) static void differs(const char *format, ...) {
    va_list words;
    va_start(words, format);
    if (tally.unexplained++ < 5) {
        printf("differ, round %lu: ", tally.rounds);
        vprintf(format, words);
        putchar('\n');
    }
    va_end(words);
}

static void note_known(enum known known, bool *is_noted) {
    tally.known[known] += !*is_noted;
    *is_noted = true;
}

/* What both believe */

/* A value that differs is known where it is stale in libevdev: a key by its repeat, or the id of a contact.
 */
static void compare_value(uint32_t at, int32_t believed, unsigned type, unsigned code, int slot,
                          bool *is_noted) {
    int32_t other = reader_side.values[at];
    tally.values++;
    if (believed == other)
        return;
    if (type == EV_KEY && libevdev_side.is_repeated[code])
        note_known(REPEATS, &is_noted[REPEATS]);
    else if (slot >= 0 && code == ABS_MT_TRACKING_ID && libevdev_side.has_stale_id[slot])
        note_known(HIDDEN_IDS, &is_noted[HIDDEN_IDS]);
    else
        differs("%s of slot %d: libevdev %d, reader %d", libevdev_event_code_get_name(type, code), slot,
                believed, other);
}

static bool is_of_slots(unsigned type, unsigned code) {
    return type == EV_ABS && code >= ABS_MT_SLOT && code <= ABS_MT_TOOL_Y;
}

static uint32_t compare_type(struct libevdev *device, unsigned type, uint32_t at, bool *is_noted) {
    for (unsigned code = 0; code <= (unsigned)libevdev_event_type_get_max(type); code++)
        if (libevdev_has_event_code(device, type, code) && !is_of_slots(type, code)) {
            int value = libevdev_get_event_value(device, type, code);
            compare_value(at++, type == EV_ABS ? value : value != 0, type, code, -1, is_noted);
        }
    return at;
}

static uint32_t compare_slot(struct libevdev *device, unsigned slot, uint32_t at, bool *is_noted) {
    for (unsigned code = ABS_MT_TOUCH_MAJOR; code <= ABS_MT_TOOL_Y; code++)
        if (libevdev_has_event_code(device, EV_ABS, code))
            compare_value(at++, libevdev_get_slot_value(device, slot, code), EV_ABS, code, (int)slot,
                          is_noted);
    return at;
}

void compare_values(struct libevdev *device) {
    static const unsigned types[] = {EV_KEY, EV_SW, EV_LED, EV_ABS};
    bool is_noted[KNOWN] = {false};
    uint32_t at = 0;
    int slots = libevdev_get_num_slots(device);
    for (size_t i = 0; i < sizeof types / sizeof types[0]; i++)
        at = compare_type(device, types[i], at, is_noted);
    for (int slot = 0; slot < slots; slot++)
        at = compare_slot(device, (unsigned)slot, at, is_noted);
    if (slots > 0)
        compare_value(at++, libevdev_get_current_slot(device), EV_ABS, ABS_MT_SLOT, -1, is_noted);
    if (at != reader_side.value_count)
        differs("libevdev has %u values, and the reader %u", at, reader_side.value_count);
}

/* What both handed out */

static bool is_same(const struct handed *one, const struct handed *other) {
    return one->type == other->type && one->code == other->code && one->value == other->value &&
           one->how == other->how;
}

/* Whether an event that libevdev made is of contacts, as are the buttons that tell how many fingers there
 * are. */
static bool is_made_of_contacts(const struct handed *event) {
    bool is_finger = event->code == BTN_TOOL_FINGER || event->code == BTN_TOOL_QUINTTAP ||
                     (event->code >= BTN_TOOL_DOUBLETAP && event->code <= BTN_TOOL_QUADTAP);
    return event->how == HANDED_MADE && (is_of_slots(event->type, event->code) || event->type == EV_SYN ||
                                         (event->type == EV_KEY && is_finger));
}

/* Whether an event that one of both made is of a key that libevdev took for pressed, since it repeated; or is
 * the report behind it. */
static bool is_made_of_repeats(const struct handed *event) {
    return event->how == HANDED_MADE &&
           (event->type == EV_SYN || (event->type == EV_KEY && round_now.was_repeated[event->code]));
}

/* Leaves such events out of a side; how many there were. */
static uint32_t leave_out(struct side *side, bool (*is_left_out)(const struct handed *event)) {
    uint32_t kept = 0;
    for (uint32_t i = 0; i < side->count; i++)
        if (!is_left_out(&side->events[i]))
            side->events[kept++] = side->events[i];
    uint32_t left_out = side->count - kept;
    side->count = kept;
    return left_out;
}

static bool is_new_id(const struct handed *event) {
    return event->type == EV_ABS && event->code == ABS_MT_TRACKING_ID && event->how == HANDED_READ;
}

/* How far both lists are the same, where the reader's may have so many ids more. */
static bool is_alike(uint32_t ids) {
    uint32_t at = 0;
    for (uint32_t i = 0; i < reader_side.count; i++) {
        const struct handed *event = &reader_side.events[i];
        if (at < libevdev_side.count && is_same(event, &libevdev_side.events[at]))
            at++;
        else if (ids && is_new_id(event))
            ids--;
        else
            return false;
    }
    return at == libevdev_side.count;
}

static bool has_slots(struct libevdev *device) {
    return libevdev_get_num_slots(device) > 0;
}

static void show_side(const char *name, const struct side *side) {
    printf("%s, %u events:", name, side->count);
    for (uint32_t i = 0; i < side->count && i < 60; i++)
        printf(" %u/%u/%d%s", side->events[i].type, side->events[i].code, side->events[i].value,
               side->events[i].how == HANDED_READ ? "" : side->events[i].how == HANDED_LOSS ? "!" : "+");
    putchar('\n');
}

/* Whether both lists are the same but for events that were made after a loss, of which a row says that they
 * may differ. */
static bool is_alike_without(bool (*is_left_out)(const struct handed *event), enum known known) {
    bool has_any = leave_out(&libevdev_side, is_left_out) + leave_out(&reader_side, is_left_out);
    bool is_same_now = has_any && is_alike(round_now.hidden_ids);
    tally.known[known] += is_same_now;
    return is_same_now;
}

/* The events of a round. After a loss on one side or both in a round in which one left something unread, they
 * may differ, since libevdev's own queue holds what the reader's ring would. */
static void compare_events(struct libevdev *device) {
    if (is_alike(0))
        return;
    if (round_now.is_partial && libevdev_side.losses + reader_side.losses) {
        tally.known[LONG_READS]++;
        return;
    }
    if (round_now.hidden_ids && is_alike(round_now.hidden_ids)) {
        tally.known[HIDDEN_IDS]++;
        return;
    }
    bool has_loss = libevdev_side.losses && libevdev_side.losses == reader_side.losses;
    if (has_loss && has_slots(device) && is_alike_without(is_made_of_contacts, OTHER_CONTACTS))
        return;
    if (has_loss && is_alike_without(is_made_of_repeats, REPEATS))
        return;
    differs("other events");
    show_side("libevdev", &libevdev_side);
    show_side("reader", &reader_side);
}

void compare_round(struct libevdev *device) {
    tally.rounds++;
    tally.events[0] += libevdev_side.count;
    tally.events[1] += reader_side.count;
    tally.losses[0] += libevdev_side.losses;
    tally.losses[1] += reader_side.losses;
    compare_values(device);
    compare_events(device);
}

void print_tally(void) {
    printf("rounds %lu events %lu %lu losses %lu %lu values %lu\n", tally.rounds, tally.events[0],
           tally.events[1], tally.losses[0], tally.losses[1], tally.values);
    for (int known = 0; known < KNOWN; known++)
        if (tally.known[known])
            printf("known %lu %s\n", tally.known[known], NAMES[known]);
}
