/* The job of `inputplay FILE` in plain C, for a record as tools/record writes it of a keyboard.
 *
 * It is meant to do the same work on the same data as the proved program: it looks at every byte, knows all names of types
 * and codes, and gives the first line that is refused and its cause. It knows the lines that such a record has, one device
 * without axes, and no others. Nothing here is proved. bench/plain_names writes its table of names.
 */
#define WITH_MSC
#include "plain_report.h"

/* Names of types and codes */

typedef struct { const char *text; uint8_t length; uint16_t kind, code; } Name;

#include "plain_names.h"

enum { COUNT_OF_KINDS = sizeof KINDS / sizeof *KINDS, COUNT_OF_CODES = sizeof CODES / sizeof *CODES };
enum { NAME_PLACES = 1024, KIND_MAX = 31 };
static const uint64_t MOMENT_MAX = 9000000000000000ull; /* and no number of a record is above it */

static uint16_t code_places[NAME_PLACES];  /* a row's number and 1, at its name's hash or behind it */
static uint16_t name_of[KIND_MAX + 1][KEYS]; /* the same, by type and code */
static const Name *kind_name[KIND_MAX + 1];

static uint32_t hash(Word w) {
    uint32_t h = 2166136261u;
    for (size_t i = 0; i < w.length; i++) h = (h ^ (unsigned char)w.text[i]) * 16777619u;
    return h ^ h >> 15;
}

static int is(Word w, const char *text, size_t length) { return length == w.length && !memcmp(w.text, text, length); }

#define IS(w, literal) is(w, literal, sizeof literal - 1)

static void know_names(void) {
    for (uint32_t i = 0; i < COUNT_OF_KINDS; i++) kind_name[KINDS[i].kind] = &KINDS[i];
    for (uint32_t i = 0; i < COUNT_OF_CODES; i++) {
        const Name *n = &CODES[i];
        uint32_t at = hash((Word){ n->text, n->length }) % NAME_PLACES;
        while (code_places[at]) at = (at + 1) % NAME_PLACES;
        code_places[at] = (uint16_t)(i + 1);
        if (!name_of[n->kind][n->code]) name_of[n->kind][n->code] = (uint16_t)(i + 1);
    }
}

/* The record */

enum { PLACES = 256, WORDS = 8, HINT_MIN = 2, SOURCES_MAX = 8 };

typedef enum { DO_EVENT, DO_OPEN, DO_FOLLOW } Command;
typedef struct { uint64_t moment; Event event; uint16_t actor; uint8_t command; } Line;
typedef enum { AT_HEADER, AT_DEVICES, AT_DESCRIPTION, AT_ACTORS, AT_ACTIONS } Place;
typedef struct {
    Place place;
    char device[NAME + 1];
    uint32_t hint;
    int has_hint;
    uint64_t key_codes[KEY_WORDS], misc_codes;
    Named actors[ACTORS];
    uint8_t by_name[PLACES]; /* an actor's number and 1, at its name's hash or behind it */
    uint32_t count_of_actors, count_of_sources, last_actor;
    Line *lines;
    size_t count, room;
} Record;

/* Why a line is refused; NULL where it is not. */
typedef const char *Cause;
static const char BAD_WORD[] = "bad-word", OUT_OF_PLACE[] = "out-of-place", UNKNOWN[] = "no line that is known here";

static uint32_t place_of(const Record *rec, Word name) {
    uint32_t at = hash(name) % PLACES;
    for (;; at = (at + 1) % PLACES) {
        const Named *a = &rec->actors[rec->by_name[at] - 1];
        if (!rec->by_name[at] || is(name, a->text, a->length)) return at;
    }
}

/* The actor of this name; most often it is that of the line before. */
static int find_actor(Record *rec, Word name, uint32_t *actor) {
    const Named *last = &rec->actors[rec->last_actor];
    if (!is(name, last->text, last->length)) {
        uint8_t found = rec->by_name[place_of(rec, name)];
        if (!found) return 0;
        rec->last_actor = found - 1u;
    }
    *actor = rec->last_actor;
    return 1;
}

static int hex_digit(char c) {
    if (c >= '0' && c <= '9') return c - '0';
    if (c >= 'a' && c <= 'f') return c - 'a' + 10;
    return c >= 'A' && c <= 'F' ? c - 'A' + 10 : 16;
}

/* Reads a number in decimal, or in hexadecimal behind 0x; answers whether it is one of at most so much. */
static int number(const char *text, size_t length, uint64_t most, uint64_t *number) {
    uint64_t n = 0;
    size_t i = 0;
    if (!length) return 0;
    if (length > 2 && text[0] == '0' && text[1] == 'x') {
        for (i = 2; i < length; i++) {
            unsigned digit = (unsigned)hex_digit(text[i]);
            if (digit == 16 || n > most >> 4) return 0;
            n = n << 4 | digit;
        }
    } else {
        for (; i < length; i++) {
            unsigned digit = (unsigned)(text[i] - '0');
            if (digit > 9 || n > MOMENT_MAX) return 0;
            n = 10 * n + digit;
        }
    }
    *number = n;
    return n <= most;
}

static int signed_number(Word w, int32_t *value) {
    uint64_t n;
    int minus = w.length && w.text[0] == '-';
    if (!number(w.text + minus, w.length - (size_t)minus, minus ? 2147483648u : 2147483647u, &n)) return 0;
    *value = (int32_t)(minus ? -(int64_t)n : (int64_t)n);
    return 1;
}

static int kind_word(Word w, uint16_t *kind) {
    uint64_t n;
    for (uint32_t i = 0; i < COUNT_OF_KINDS; i++)
        if (is(w, KINDS[i].text, KINDS[i].length)) { *kind = KINDS[i].kind; return 1; }
    if (!number(w.text, w.length, 65535, &n)) return 0;
    *kind = (uint16_t)n;
    return 1;
}

static int code_word(Word w, uint16_t kind, uint16_t *code) {
    uint64_t n;
    for (uint32_t at = hash(w) % NAME_PLACES; code_places[at]; at = (at + 1) % NAME_PLACES) {
        const Name *name = &CODES[code_places[at] - 1];
        if (!is(w, name->text, name->length)) continue;
        *code = name->code;
        return name->kind == kind;
    }
    if (!number(w.text, w.length, 65535, &n)) return 0;
    *code = (uint16_t)n;
    return 1;
}

static int is_name(Word w) {
    if (!w.length || w.length > NAME) return 0;
    for (size_t i = 0; i < w.length; i++) {
        char c = w.text[i];
        if (!((c >= 'a' && c <= 'z') || (c >= '0' && c <= '9') || c == '_' || c == '-')) return 0;
    }
    return 1;
}

static Cause add_header(Record *rec, const Word *w, int count) {
    if (count != 2 || !IS(w[0], "inputrecord") || !(IS(w[1], "1") || IS(w[1], "2"))) return "bad-header";
    rec->place = AT_DEVICES;
    return NULL;
}

static Cause add_device(Record *rec, const Word *w) {
    if (rec->place == AT_ACTIONS) return OUT_OF_PLACE;
    if (!is_name(w[1])) return BAD_WORD;
    if (rec->place != AT_DEVICES) return UNKNOWN;
    memcpy(rec->device, w[1].text, w[1].length);
    rec->place = AT_DESCRIPTION;
    return NULL;
}

static Cause add_hint(Record *rec, const Word *w) {
    uint64_t n;
    if (rec->place != AT_DESCRIPTION) return OUT_OF_PLACE;
    if (!number(w[1].text, w[1].length, UINT32_MAX, &n)) return BAD_WORD;
    if (rec->has_hint) return "twice";
    if (n < HINT_MIN || n > HINT_MOST) return "bad-hint";
    rec->hint = (uint32_t)n;
    rec->has_hint = 1;
    return NULL;
}

static Cause add_code(Record *rec, const Word *w) {
    uint16_t kind, code;
    if (rec->place != AT_DESCRIPTION) return OUT_OF_PLACE;
    if (!kind_word(w[1], &kind) || !code_word(w[2], kind, &code)) return BAD_WORD;
    if (kind == EV_SYN || kind == EV_ABS) return "bad-code";
    if (kind != EV_KEY && kind != EV_MSC) return UNKNOWN;
    if (kind == EV_KEY ? !code || code >= KEYS : code > 7) return "bad-code";
    if (kind == EV_KEY) set_bit(rec->key_codes, code, 1);
    else rec->misc_codes |= 1ull << code;
    return NULL;
}

static Cause add_actor(Record *rec, const Word *w, int is_source) {
    if (rec->place != AT_DESCRIPTION && rec->place != AT_ACTORS) return OUT_OF_PLACE;
    if (!is_name(w[1])) return BAD_WORD;
    uint32_t at = place_of(rec, w[1]);
    if (rec->by_name[at]) return "twice";
    if (is_source && rec->count_of_sources == SOURCES_MAX) return "too-many";
    if (rec->count_of_actors == ACTORS) return UNKNOWN;
    Named *a = &rec->actors[rec->count_of_actors];
    memcpy(a->text, w[1].text, w[1].length);
    a->length = w[1].length;
    a->is_source = is_source;
    rec->count_of_sources += (uint32_t)is_source;
    rec->by_name[at] = (uint8_t)++rec->count_of_actors;
    rec->place = AT_ACTORS;
    return NULL;
}

static void add_line(Record *rec, Line line) {
    if (rec->count == rec->room) {
        rec->room = rec->room ? 2 * rec->room : 4;
        rec->lines = must(realloc(rec->lines, rec->room * sizeof *rec->lines));
    }
    rec->lines[rec->count++] = line;
}

static Cause add_action(Record *rec, const Word *w, int count) {
    Line line = { 0 };
    uint32_t actor;
    if (rec->place < AT_ACTORS) return rec->place == AT_HEADER ? "bad-header" : "no-actor";
    if (!find_actor(rec, w[1], &actor)) return "no-actor";
    int is_source = rec->actors[actor].is_source;
    line.actor = (uint16_t)actor;
    if (is_source && count == 7 && IS(w[2], "event")) {
        line.command = DO_EVENT;
        if (!number(w[3].text, w[3].length, MOMENT_MAX, &line.moment) || !kind_word(w[4], &line.event.kind)
            || !code_word(w[5], line.event.kind, &line.event.code) || !signed_number(w[6], &line.event.value)) return BAD_WORD;
    } else if (!is_source && count == 3 && IS(w[2], "follow")) {
        line.command = DO_FOLLOW;
    } else if (!is_source && count == 3 && IS(w[2], "open")) {
        line.command = DO_OPEN;
    } else if (is_source ? IS(w[2], "follow") || IS(w[2], "open") || IS(w[2], "event") : IS(w[2], "event")) {
        return "bad-command";
    } else {
        return UNKNOWN;
    }
    add_line(rec, line);
    rec->place = AT_ACTIONS;
    return NULL;
}

static Cause add_words(Record *rec, const Word *w, int count) {
    if (rec->place == AT_HEADER) return add_header(rec, w, count);
    if (IS(w[0], "do")) return count >= 3 ? add_action(rec, w, count) : "bad-line";
    if (IS(w[0], "cap")) return count == 3 ? add_code(rec, w) : "bad-line";
    if (IS(w[0], "source")) return count == 2 ? add_actor(rec, w, 1) : "bad-line";
    if (IS(w[0], "client")) return count == 2 ? add_actor(rec, w, 0) : "bad-line";
    if (IS(w[0], "hint")) return count == 2 ? add_hint(rec, w) : "bad-line";
    if (IS(w[0], "device")) return count == 2 ? add_device(rec, w) : "bad-line";
    if (IS(w[0], "inputrecord")) return count == 2 ? OUT_OF_PLACE : "bad-line";
    return UNKNOWN;
}

/* Cuts a line into words, up to its end; words past the last place are counted, not kept. */
static Cause add_text(Record *rec, const char *at, const char *end) {
    Word words[WORDS];
    int count = 0;
    while (at < end && (*at == ' ' || *at == '\t')) at++;
    if (at < end && *at == '#') return NULL;
    while (at < end) {
        const char *from = at;
        while (at < end && *at > ' ' && *at <= '~') at++;
        if (at > from) {
            if (count < WORDS) words[count] = (Word){ from, (size_t)(at - from) };
            count++;
        }
        if (at < end && *at != ' ' && *at != '\t') return "not-text";
        at += at < end;
    }
    return count ? add_words(rec, words, count) : NULL;
}

static Record *record_of(Bytes text) {
    Record *rec = must(calloc(1, sizeof *rec));
    const char *at = (const char *)text.bytes, *end = at + text.count;
    Cause cause = NULL;
    size_t line = 0;
    rec->hint = 16;
    for (int more = 1; more && !cause; line++) {
        const char *stop = memchr(at, '\n', (size_t)(end - at));
        more = stop != NULL;
        if (!more) stop = end;
        cause = add_text(rec, at, stop > at && stop[-1] == '\r' ? stop - 1 : stop);
        at = stop + 1;
    }
    if (!cause && rec->place == AT_HEADER) cause = "bad-header";
    if (!cause) return rec;
    printf("inputplay: line %zu: %s\n", line, cause);
    exit(cause == UNKNOWN ? 9 : 1);
}

/* The report */

static char *put_code(char *to, uint16_t kind, uint32_t code) {
    uint16_t row = code < KEYS ? name_of[kind][code] : 0;
    return row ? put_text(to, CODES[row - 1].text, CODES[row - 1].length) : put_number(to, code);
}

static char *put_key(char *to, uint32_t code) { return put_code(to, EV_KEY, code); }

static char *put_event(char *to, Event e) {
    to = put_text(to, kind_name[e.kind]->text, kind_name[e.kind]->length);
    *to++ = ' ';
    to = put_code(to, e.kind, e.code);
    *to++ = ' ';
    return put_signed(to, e.value);
}

static void do_line(Actor *actors, Device *d, const Line *line) {
    Actor *a = &actors[line->actor];
    switch (line->command) {
    case DO_EVENT: call(a, d, (Step){ .tag = INJECT, .event = line->event, .now = line->moment }, NULL, NULL); break;
    case DO_OPEN: start(a, d); break;
    case DO_FOLLOW: follow(a, d); break;
    }
}

int main(int argc, char **argv) {
    if (argc != 2 || argv[1][0] == '-') {
        puts("usage: plain_recorded FILE");
        return 2;
    }
    know_names();
    Record *rec = record_of(bytes_of(argv[1]));
    Device *d = new_device(rec->hint, 0);
    static Actor actors[ACTORS];
    Text text = { 0 };
    memcpy(d->key_codes, rec->key_codes, sizeof d->key_codes);
    d->misc_codes = rec->misc_codes;
    for (size_t i = 0; i < rec->count; i++) do_line(actors, d, &rec->lines[i]);
    put_device(&text, rec->device, d);
    for (uint32_t i = 0; i < rec->count_of_actors; i++) {
        if (rec->actors[i].is_source) put_source(&text, &rec->actors[i], &actors[i]);
        else put_client(&text, &rec->actors[i], &actors[i]);
    }
    return fwrite(text.bytes, 1, text.count, stdout) == text.count ? 0 : 4;
}
