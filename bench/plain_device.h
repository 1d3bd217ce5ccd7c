/* A device with its clients and their readers, in plain C: what the other programs in plain C share.
 *
 * It is meant to do the same work on the same data as the program: the device keeps its history, each client has a ring, a
 * mask and a clock, and each actor keeps all that it saw: every call with its reply, every event. Each client has a
 * libevdev-like reader with a view, which synchronises after a loss. It has the types and steps that the records use which
 * the programs play, and no others; WITH_MSC adds events of EV_MSC. Nothing here is proved.
 */
#include <stdint.h>
#include <stdio.h>
#include <stdlib.h>
#include <string.h>

enum { EV_SYN = 0, EV_KEY = 1, EV_ABS = 3, EV_MSC = 4 };
enum { SYN_REPORT = 0, SYN_DROPPED = 3, BTN_TOUCH = 0x14a };
enum { MT_SLOT = 0x2f, MT_FIRST = 0x30, MT_X = 0x35, MT_Y = 0x36, MT_ID = 0x39, MT_LAST = 0x3d };
enum { SLOTS = 10, VALUES = 14, CELLS = SLOTS * VALUES, KEYS = 768, KEY_WORDS = KEYS / 64, HINT_MOST = 512 };
enum { AT_ONCE = 64, LOG = 1048576, CLIENTS = 64, NO_CLIENT = -1 };

typedef struct { uint16_t kind, code; int32_t value; } Event;
typedef struct { Event event; uint64_t time; uint32_t place; } Taken;

typedef enum { INJECT, OPEN, READ, DISCARD, GET_KEYS, SYNC_SLOTS } StepTag;
typedef struct { uint8_t tag; uint32_t client, count; Event event; uint64_t now; } Step;

typedef enum { DONE, OPENED, TOOK, DISCARDED, BITS, CELLS_TOLD, AGAIN, REFUSED } ReplyTag;
typedef struct {
    uint8_t tag;
    uint32_t at;
    union {
        struct { uint32_t client, ring; } opened;
        uint32_t count;
        uint64_t words[KEY_WORDS];
        struct { uint32_t count; int32_t slot; } cells;
        uint32_t ends;
    } of;
} Reply;

typedef enum { CALL_SEEN, TOOK_SEEN, MADE_SEEN, AGAIN_SEEN } SightTag;
typedef struct {
    uint8_t tag;
    union {
        struct { Step step; Reply reply; } call;
        Taken taken;
        Event made;
        uint32_t at;
    } of;
} Sight;
typedef struct { Sight *items; size_t count, room; } Sights;

static void *must(void *memory) {
    if (!memory) { puts("inputplay: out of memory"); exit(5); }
    return memory;
}

static void see(Sights *sights, Sight sight) {
    if (sights->count == sights->room) {
        sights->room = sights->room ? 2 * sights->room : 4;
        sights->items = must(realloc(sights->items, sights->room * sizeof *sights->items));
    }
    sights->items[sights->count++] = sight;
}

/* The device */

typedef struct {
    Taken *places;
    uint32_t first, count, visible;
    uint64_t offset;
    uint64_t kinds, keys[KEY_WORDS], axes, misc;
    int open, revoked;
} Client;

typedef struct {
    uint32_t hint, ring, slots;
    uint64_t key_codes[KEY_WORDS], abs_codes, misc_codes;
    int32_t fuzz[64];
    uint64_t keys[KEY_WORDS];
    int32_t cells[SLOTS][VALUES];
    int32_t staged, announced, at_frame;
    Event batch[HINT_MOST + 2];
    uint32_t in_batch;
    Client clients[CLIENTS];
    uint32_t opens, ends;
    int32_t holder;
    int inhibited;
    Step *history;
    uint32_t length;
} Device;

static int bit(const uint64_t *words, uint32_t i) { return words[i / 64] >> (i % 64) & 1; }

static void set_bit(uint64_t *words, uint32_t i, int on) {
    if (on) words[i / 64] |= 1ull << (i % 64); else words[i / 64] &= ~(1ull << (i % 64));
}

static int is_report(Event e) { return e.kind == EV_SYN && e.code == SYN_REPORT; }

static void put(Client *c, uint32_t ring, Taken item) {
    if (is_report(item.event) && c->visible == c->count) return;
    if (c->count == ring - 1) {
        c->first = 0;
        c->count = 1;
        c->visible = 0;
        c->places[0] = (Taken){ { EV_SYN, SYN_DROPPED, 0 }, item.time, item.place };
    }
    c->places[(c->first + c->count++) & (ring - 1)] = item;
    if (is_report(item.event)) c->visible = c->count;
}

static int admits(const Client *c, Event e) {
    if (e.kind == EV_SYN) return 1;
    if (!(c->kinds >> e.kind & 1)) return 0;
#ifdef WITH_MSC
    if (e.kind == EV_MSC) return (int)(c->misc >> e.code & 1);
#endif
    return e.kind == EV_KEY ? bit(c->keys, e.code) : (int)(c->axes >> e.code & 1);
}

static void pass_frame(Device *d, uint64_t now, uint32_t place) {
    d->at_frame = d->announced;
    for (int i = 0; i < (int)d->opens; i++) {
        Client *c = &d->clients[i];
        if (!c->open || c->revoked || (d->holder != NO_CLIENT && d->holder != i)) continue;
        for (uint32_t k = 0; k < d->in_batch; k++)
            if (admits(c, d->batch[k])) put(c, d->ring, (Taken){ d->batch[k], now + c->offset, place });
    }
    d->in_batch = 0;
}

static int32_t defuzz(int64_t v, int64_t o, int64_t f) {
    if (f == 0) return v;
    if (o - f / 2 < v && v < o + f / 2) return o;
    if (o - f < v && v < o + f) return (3 * o + v) / 4;
    if (o - 2 * f < v && v < o + 2 * f) return (o + v) / 2;
    return v;
}

static int supports(const Device *d, Event e) {
    if (e.kind == EV_SYN) return e.code <= SYN_DROPPED;
    if (e.kind == EV_KEY) return e.code > 0 && e.code < KEYS && bit(d->key_codes, e.code);
#ifdef WITH_MSC
    if (e.kind == EV_MSC) return e.code < 8 && (d->misc_codes >> e.code & 1);
#endif
    return e.kind == EV_ABS && e.code < 64 && (d->abs_codes >> e.code & 1);
}

/* Appends to the batch what is passed for a raw event. */
static void gather(Device *d, Event e) {
    if (!supports(d, e)) return;
    if (e.kind == EV_SYN && e.code == SYN_DROPPED) return;
    if (e.kind == EV_KEY && e.value != 2) {
        if (bit(d->keys, e.code) == (e.value != 0)) return;
        set_bit(d->keys, e.code, e.value != 0);
    }
    if (e.kind == EV_ABS) {
        if (e.code == MT_SLOT) {
            if (e.value >= 0 && e.value < (int32_t)d->slots) d->staged = e.value;
            return;
        }
        int32_t *cell = &d->cells[d->staged][e.code - MT_FIRST];
        e.value = defuzz(e.value, *cell, d->fuzz[e.code]);
        if (e.value == *cell) return;
        *cell = e.value;
        if (d->staged != d->announced) {
            d->announced = d->staged;
            d->batch[d->in_batch++] = (Event){ EV_ABS, MT_SLOT, d->staged };
        }
    }
    d->batch[d->in_batch++] = e;
}

static void inject(Device *d, Event e, uint64_t now, uint32_t place) {
    if (d->inhibited) return;
    uint32_t before = d->in_batch;
    gather(d, e);
    if (is_report(e)) {
        if (d->in_batch == 1) d->in_batch = 0; else pass_frame(d, now, place);
    } else if (d->in_batch != before && d->in_batch >= d->hint) {
        d->batch[d->in_batch++] = (Event){ EV_SYN, SYN_REPORT, 1 };
        pass_frame(d, now, place);
    }
}

static uint32_t take(Client *c, uint32_t ring, uint32_t count, Taken *out) {
    if (count > c->visible) count = c->visible;
    for (uint32_t i = 0; i < count; i++) out[i] = c->places[(c->first + i) & (ring - 1)];
    c->first = (c->first + count) & (ring - 1);
    c->count -= count;
    c->visible -= count;
    return count;
}

static int is_slot_event(Event e) { return e.kind == EV_ABS && e.code >= MT_SLOT && e.code <= MT_LAST; }

static int is_key_event(Event e) { return e.kind == EV_KEY; }

/* Removes the events that an answer tells, and each report that is left alone in its group, but not the first one. */
static void flush(Client *c, uint32_t ring, int (*is_told)(Event)) {
    uint32_t kept = 0, in_group = 1, visible = 0;
    for (uint32_t i = 0; i < c->count; i++) {
        Taken item = c->places[(c->first + i) & (ring - 1)];
        int report = is_report(item.event);
        if (is_told(item.event) || (report && in_group == 0)) continue;
        c->places[(c->first + kept++) & (ring - 1)] = item;
        in_group = report ? 0 : in_group + 1;
        if (report) visible = kept;
    }
    c->count = kept;
    c->visible = visible;
}

/* One step: it is entered and answered, or refused and nothing changes. */
static Reply step(Device *d, Step s, Taken *out, int32_t *cells) {
    Reply r = { .tag = REFUSED, .at = d->length };
    Client *c = s.client < CLIENTS ? &d->clients[s.client] : NULL;
    if (s.tag != INJECT && s.tag != OPEN && (!c || !c->open || c->revoked)) return r;
    if (s.tag == READ && c->visible == 0) { r.tag = AGAIN; r.of.ends = d->ends; return r; }
    if ((s.tag == OPEN && d->opens == CLIENTS) || d->length == LOG) return r;
    d->history[d->length++] = s;
    switch (s.tag) {
    case INJECT:
        inject(d, s.event, s.now, r.at);
        r.tag = DONE;
        break;
    case OPEN:
        c = &d->clients[d->opens];
        c->open = 1;
        c->places = must(malloc(d->ring * sizeof *c->places));
        c->kinds = c->axes = c->misc = ~0ull;
        memset(c->keys, 0xff, sizeof c->keys);
        r.tag = OPENED;
        r.of.opened.client = d->opens++;
        r.of.opened.ring = d->ring;
        break;
    case READ:
        r.tag = TOOK;
        r.of.count = take(c, d->ring, s.count, out);
        break;
    case DISCARD:
        r.tag = DISCARDED;
        r.of.count = c->visible;
        c->first = (c->first + c->visible) & (d->ring - 1);
        c->count -= c->visible;
        c->visible = 0;
        break;
    case GET_KEYS:
        flush(c, d->ring, is_key_event);
        r.tag = BITS;
        memcpy(r.of.words, d->keys, sizeof d->keys);
        break;
    case SYNC_SLOTS:
        flush(c, d->ring, is_slot_event);
        memcpy(cells, d->cells, sizeof d->cells);
        r.tag = CELLS_TOLD;
        r.of.cells.count = CELLS;
        r.of.cells.slot = d->at_frame;
        break;
    }
    return r;
}

/* The reader */

typedef struct { uint64_t keys[KEY_WORDS]; int32_t slot, cells[SLOTS][VALUES]; } View;
typedef enum { PLAIN, NEEDED, HANDING } Phase;
typedef enum { SUCCESS, DROPPED, SYNCED_EVENT, SYNCED, NOTHING, STOPPED } Status;

typedef struct {
    uint32_t client;
    View view;
    Phase phase;
    Taken queue[AT_ONCE];
    uint32_t first, count;
    Event made[1024 + 20 * SLOTS];
    uint32_t next_made, in_made;
} Reader;

typedef struct { Reader reader; Sights sights; uint32_t accepted; } Actor;

static void view_event(View *v, Event e) {
    if (e.kind == EV_KEY && e.value != 2 && e.code < KEYS) set_bit(v->keys, e.code, e.value != 0);
    if (!is_slot_event(e)) return;
    if (e.code == MT_SLOT) v->slot = e.value;
    else if (v->slot >= 0 && v->slot < SLOTS) v->cells[v->slot][e.code - MT_FIRST] = e.value;
}

static Reply call(Actor *a, Device *d, Step s, Taken *out, int32_t *cells) {
    Sight sight;
    Reply r = step(d, s, out, cells);
    if (r.tag == AGAIN) {
        sight.tag = AGAIN_SEEN;
        sight.of.at = r.at;
    } else {
        sight.tag = CALL_SEEN;
        sight.of.call.step = s;
        sight.of.call.reply = r;
        if (r.tag != REFUSED) a->accepted++;
    }
    see(&a->sights, sight);
    return r;
}

/* Asks for the keys and the slots, and answers whether the device told them. */
static int ask(Actor *a, Device *d, View *v) {
    Step keys = { .tag = GET_KEYS, .client = a->reader.client };
    Reply r = call(a, d, keys, NULL, NULL);
    if (r.tag != BITS) return 0;
    memcpy(v->keys, r.of.words, sizeof v->keys);
    if (!d->slots) return 1;
    Step slots = { .tag = SYNC_SLOTS, .client = a->reader.client };
    r = call(a, d, slots, NULL, &v->cells[0][0]);
    if (r.tag != CELLS_TOLD) return 0;
    v->slot = r.of.cells.slot;
    return 1;
}

static void start(Actor *a, Device *d) {
    Step open = { .tag = OPEN };
    Reply r = call(a, d, open, NULL, NULL);
    if (r.tag != OPENED) return;
    a->reader.client = r.of.opened.client;
    a->reader.phase = ask(a, d, &a->reader.view) ? PLAIN : NEEDED;
}

static void make(Reader *r, Event e) { r->made[r->in_made++] = e; }

static void make_slot(Reader *r, int32_t *current, int32_t slot) {
    if (*current == slot) return;
    *current = slot;
    make(r, (Event){ EV_ABS, MT_SLOT, slot });
}

/* The events that lead from the old view to the new one. */
static void synthesise(Reader *r, View *old, const View *new) {
    int32_t current = old->slot;
    r->next_made = r->in_made = 0;
    for (int i = 0; i < SLOTS; i++) {
        int32_t *id = &old->cells[i][MT_ID - MT_FIRST], to = new->cells[i][MT_ID - MT_FIRST];
        if (*id < 0 || to < 0 || *id == to) continue;
        make_slot(r, &current, i);
        make(r, (Event){ EV_ABS, MT_ID, -1 });
        *id = -1;
    }
    if (r->in_made) make(r, (Event){ EV_SYN, SYN_REPORT, 0 });
    uint32_t lifted = r->in_made;
    for (uint32_t k = 0; k < KEYS; k++)
        if (bit(old->keys, k) != bit(new->keys, k)) make(r, (Event){ EV_KEY, k, bit(new->keys, k) });
    for (int i = 0; i < SLOTS; i++)
        for (int k = 0; k < VALUES; k++)
            if (old->cells[i][k] != new->cells[i][k]) {
                make_slot(r, &current, i);
                make(r, (Event){ EV_ABS, MT_FIRST + k, new->cells[i][k] });
            }
    make_slot(r, &current, new->slot);
    if (r->in_made != lifted) make(r, (Event){ EV_SYN, SYN_REPORT, 0 });
}

static int synchronise(Actor *a, Device *d) {
    Reader *r = &a->reader;
    r->count = 0;
    Step discard = { .tag = DISCARD, .client = r->client };
    View new = r->view;
    if (call(a, d, discard, NULL, NULL).tag != DISCARDED || !ask(a, d, &new)) return 0;
    synthesise(r, &r->view, &new);
    r->view = new;
    r->phase = HANDING;
    return 1;
}

/* The next event, as libevdev hands it out: read where nothing is lost, and else synthesised. */
static Status next(Actor *a, Device *d, Taken *event) {
    Reader *r = &a->reader;
    if (r->phase == NEEDED && !synchronise(a, d)) return STOPPED;
    if (r->phase == HANDING) {
        if (r->next_made == r->in_made) { r->phase = PLAIN; return SYNCED; }
        event->event = r->made[r->next_made++];
        return SYNCED_EVENT;
    }
    if (r->count == 0) {
        Step read = { .tag = READ, .client = r->client, .count = AT_ONCE };
        Reply reply = call(a, d, read, r->queue, NULL);
        if (reply.tag == AGAIN) return NOTHING;
        if (reply.tag != TOOK) return STOPPED;
        r->first = 0;
        r->count = reply.of.count;
    }
    *event = r->queue[r->first++];
    r->count--;
    view_event(&r->view, event->event);
    if (event->event.kind != EV_SYN || event->event.code != SYN_DROPPED) return SUCCESS;
    r->phase = NEEDED;
    return DROPPED;
}

static void follow(Actor *a, Device *d) {
    for (;;) {
        Sight sight;
        Taken event;
        Status status = next(a, d, &event);
        if (status == NOTHING || status == STOPPED) return;
        if (status == SYNCED) continue;
        if (status == SYNCED_EVENT) {
            sight.tag = MADE_SEEN;
            sight.of.made = event.event;
        } else {
            sight.tag = TOOK_SEEN;
            sight.of.taken = event;
        }
        see(&a->sights, sight);
    }
}

static Device *new_device(uint32_t hint, uint32_t slots) {
    Device *d = must(calloc(1, sizeof *d));
    d->hint = hint;
    d->slots = slots;
    for (d->ring = 64; d->ring < 8 * hint;) d->ring *= 2;
    for (int i = 0; i < SLOTS; i++) d->cells[i][MT_ID - MT_FIRST] = -1;
    d->holder = NO_CLIENT;
    d->history = must(malloc(LOG * sizeof *d->history));
    return d;
}
