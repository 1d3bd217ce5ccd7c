/* The job of `inputplay --make NUMBER --count COUNT`, written in plain C, to measure the proved program against.
 *
 * It is meant to do the same work on the same data: it makes the whole record first, then plays it line by line. The
 * device and the readers are those of plain_device.h. Nothing here is proved.
 */
#include "plain_device.h"

/* The record */

typedef enum { DO_EVENT, DO_OPEN, DO_FOLLOW } Command;
typedef struct { uint32_t actor; uint8_t command; Event event; uint64_t moment; } Line;
typedef struct { Line *lines; size_t count, room; } Record;
enum { FINGER, FAST, MID, SLOW, ACTORS };
static const char *const NAMES[ACTORS] = { "finger", "fast", "mid", "slow" };

static void add(Record *rec, Line line) {
    if (rec->count == rec->room) {
        rec->room = rec->room ? 2 * rec->room : 4;
        rec->lines = must(realloc(rec->lines, rec->room * sizeof *rec->lines));
    }
    rec->lines[rec->count++] = line;
}

static void add_event(Record *rec, uint64_t moment, uint16_t kind, uint16_t code, int32_t value) {
    add(rec, (Line){ FINGER, DO_EVENT, { kind, code, value }, moment });
}

static Record generated(uint64_t number, uint64_t count) {
    Record rec = { 0 };
    for (uint32_t a = FAST; a <= SLOW; a++) add(&rec, (Line){ .actor = a, .command = DO_OPEN });
    for (uint64_t f = 0; f < count; f++) {
        uint64_t moment = 10000 * (f + 1);
        if (f == 0) add_event(&rec, moment, EV_KEY, BTN_TOUCH, 1);
        for (uint64_t i = 0; i < SLOTS; i++) {
            add_event(&rec, moment, EV_ABS, MT_SLOT, i);
            if (f == 0) add_event(&rec, moment, EV_ABS, MT_ID, i);
            add_event(&rec, moment, EV_ABS, MT_X, (number + 7 * f + 13 * i) % 4096 + 1);
            add_event(&rec, moment, EV_ABS, MT_Y, (number + 11 * f + 17 * i) % 4096 + 1);
        }
        add_event(&rec, moment, EV_SYN, SYN_REPORT, 0);
        add(&rec, (Line){ .actor = FAST, .command = DO_FOLLOW });
        if (f % 10 == 9) add(&rec, (Line){ .actor = MID, .command = DO_FOLLOW });
    }
    add(&rec, (Line){ .actor = SLOW, .command = DO_FOLLOW });
    return rec;
}

static Device *generated_device(void) {
    Device *d = new_device(64, SLOTS);
    set_bit(d->key_codes, BTN_TOUCH, 1);
    d->abs_codes = 1ull << MT_SLOT | 1ull << MT_X | 1ull << MT_Y | 1ull << MT_ID;
    return d;
}

static void do_line(Actor *actors, Device *d, const Line *line) {
    Actor *a = &actors[line->actor];
    if (line->command == DO_OPEN) start(a, d);
    else if (line->command == DO_FOLLOW) follow(a, d);
    else call(a, d, (Step){ .tag = INJECT, .event = line->event, .now = line->moment }, NULL, NULL);
}

static uint32_t count_of(const Sights *sights, SightTag tag) {
    uint32_t count = 0;
    for (size_t i = 0; i < sights->count; i++) count += sights->items[i].tag == tag;
    return count;
}

int main(int argc, char **argv) {
    if (argc != 5 || strcmp(argv[1], "--make") || strcmp(argv[3], "--count")) {
        puts("usage: plain --make NUMBER --count COUNT");
        return 2;
    }
    uint64_t number = strtoull(argv[2], NULL, 10), count = strtoull(argv[4], NULL, 10);
    if (number > UINT32_MAX || count < 1 || count > 10000) {
        puts("usage: plain --make NUMBER --count COUNT");
        return 2;
    }
    Record rec = generated(number, count);
    Device *d = generated_device();
    static Actor actors[ACTORS];
    for (size_t i = 0; i < rec.count; i++) do_line(actors, d, &rec.lines[i]);
    printf("make %llu %llu\n", (unsigned long long)number, (unsigned long long)count);
    printf("device pad steps %u\nsource finger calls %u\n", d->length, actors[FINGER].accepted);
    for (int a = FAST; a <= SLOW; a++) {
        const Sights *s = &actors[a].sights;
        const int32_t *last = actors[a].reader.view.cells[SLOTS - 1];
        printf("client %s took %u made %u again %u x %d y %d\n", NAMES[a], count_of(s, TOOK_SEEN),
               count_of(s, MADE_SEEN), count_of(s, AGAIN_SEEN), last[MT_X - MT_FIRST], last[MT_Y - MT_FIRST]);
    }
    return 0;
}
