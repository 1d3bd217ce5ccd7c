/* The job of `inputplay FILE` in plain C, for the records that bench/load writes, to measure the proved program against.
 *
 * It is meant to do the same work on the same data: it reads the whole record first and the streams that it names, plays
 * it line by line, keeps all that each actor saw, and then prints the same report, from one buffer, with digits of its
 * own. It knows the lines that such a record has, one device of keys, and no others. Nothing here is proved.
 */
#include "plain_report.h"

/* The record */

enum { PLACES = 256, EVENT_BYTES = 24, KEY_A = 30, KEY_B = 48 };

typedef enum { DO_EVENT, DO_STREAM, DO_OPEN, DO_FOLLOW } Command;
typedef struct { uint32_t actor; uint8_t command; Event event; uint64_t moment; uint32_t stream; } Line;
typedef struct {
    char device[NAME + 1];
    uint64_t key_codes[KEY_WORDS];
    Named actors[ACTORS];
    uint8_t by_name[PLACES]; /* an actor's number and 1, at its name's hash or behind it */
    uint32_t count_of_actors;
    Line *lines;
    size_t count, room;
    Bytes *streams;
    uint32_t count_of_streams;
} Record;

static void refuse(const char *what, size_t line) {
    fprintf(stderr, "plain_play: line %zu: %s\n", line, what);
    exit(1);
}

static int is(Word w, const char *text) { return strlen(text) == w.length && !memcmp(w.text, text, w.length); }

static uint32_t hash(Word w) {
    uint32_t h = 2166136261u;
    for (size_t i = 0; i < w.length; i++) h = (h ^ (unsigned char)w.text[i]) * 16777619u;
    return h % PLACES;
}

/* Where the name stands in the table, or the free place where it would. */
static uint32_t place_of(const Record *rec, Word name) {
    uint32_t at = hash(name);
    for (;; at = (at + 1) % PLACES) {
        const Named *a = &rec->actors[rec->by_name[at] - 1];
        if (!rec->by_name[at] || (a->length == name.length && !memcmp(a->text, name.text, name.length))) return at;
    }
}

static uint64_t number(Word w, size_t line) {
    uint64_t n = 0;
    if (!w.length) refuse("a number is missing", line);
    for (size_t i = 0; i < w.length; i++) {
        if (w.text[i] < '0' || w.text[i] > '9') refuse("not a number", line);
        n = 10 * n + (uint64_t)(w.text[i] - '0');
    }
    return n;
}

static uint16_t kind_of(Word w, size_t line) {
    if (is(w, "EV_KEY")) return EV_KEY;
    if (is(w, "EV_SYN")) return EV_SYN;
    refuse("a type that plain_play does not know", line);
    return 0;
}

static uint16_t code_of(Word w, size_t line) {
    if (is(w, "KEY_A")) return KEY_A;
    if (is(w, "SYN_REPORT")) return SYN_REPORT;
    if (is(w, "KEY_B")) return KEY_B;
    refuse("a code that plain_play does not know", line);
    return 0;
}

static void copy_name(char *to, Word w, size_t line) {
    if (!w.length || w.length > NAME) refuse("a bad name", line);
    memcpy(to, w.text, w.length);
    to[w.length] = 0;
}

static void add_actor(Record *rec, Word name, int is_source, size_t line) {
    if (rec->count_of_actors == ACTORS) refuse("too many actors", line);
    Named *a = &rec->actors[rec->count_of_actors];
    copy_name(a->text, name, line);
    a->length = name.length;
    a->is_source = is_source;
    rec->by_name[place_of(rec, name)] = (uint8_t)++rec->count_of_actors;
}

static void add_line(Record *rec, Line line) {
    if (rec->count == rec->room) {
        rec->room = rec->room ? 2 * rec->room : 4;
        rec->lines = must(realloc(rec->lines, rec->room * sizeof *rec->lines));
    }
    rec->lines[rec->count++] = line;
}

static uint32_t add_stream(Record *rec, Word file, size_t line) {
    char name[256];
    if (file.length >= sizeof name) refuse("a long file name", line);
    memcpy(name, file.text, file.length);
    name[file.length] = 0;
    rec->streams = must(realloc(rec->streams, (rec->count_of_streams + 1) * sizeof *rec->streams));
    rec->streams[rec->count_of_streams] = bytes_of(name);
    if (rec->streams[rec->count_of_streams].count % EVENT_BYTES) refuse("a bad stream", line);
    return rec->count_of_streams++;
}

static void add_action(Record *rec, const Word *w, int count, size_t line) {
    Line action = { 0 };
    uint8_t actor = rec->by_name[place_of(rec, w[1])];
    if (!actor) refuse("no actor has this name", line);
    action.actor = actor - 1u;
    if (count == 7 && is(w[2], "event")) {
        action.command = DO_EVENT;
        action.moment = number(w[3], line);
        action.event = (Event){ kind_of(w[4], line), code_of(w[5], line), (int32_t)number(w[6], line) };
    } else if (count == 3 && is(w[2], "follow")) {
        action.command = DO_FOLLOW;
    } else if (count == 3 && is(w[2], "open")) {
        action.command = DO_OPEN;
    } else if (count == 4 && is(w[2], "stream")) {
        action.command = DO_STREAM;
        action.stream = add_stream(rec, w[3], line);
    } else {
        refuse("a command that plain_play does not know", line);
    }
    if ((action.command <= DO_STREAM) != rec->actors[action.actor].is_source) refuse("not for this actor", line);
    add_line(rec, action);
}

static void add_words(Record *rec, const Word *w, int count, size_t line) {
    if (count >= 3 && is(w[0], "do")) add_action(rec, w, count, line);
    else if (count == 2 && is(w[0], "inputrecord")) return;
    else if (count == 2 && is(w[0], "device")) copy_name(rec->device, w[1], line);
    else if (count == 3 && is(w[0], "cap") && kind_of(w[1], line) == EV_KEY) set_bit(rec->key_codes, code_of(w[2], line), 1);
    else if (count == 2 && is(w[0], "source")) add_actor(rec, w[1], 1, line);
    else if (count == 2 && is(w[0], "client")) add_actor(rec, w[1], 0, line);
    else refuse("a line that plain_play does not know", line);
}

static Record *record_of(Bytes text) {
    Record *rec = must(calloc(1, sizeof *rec));
    const char *at = (const char *)text.bytes, *end = at + text.count;
    for (size_t line = 1; at < end; line++) {
        Word words[8];
        int count = 0;
        const char *stop = memchr(at, '\n', (size_t)(end - at));
        if (!stop) stop = end;
        while (at < stop) {
            const char *from = at;
            while (at < stop && *at != ' ') at++;
            if (count == 8) refuse("too many words", line);
            words[count++] = (Word){ from, (size_t)(at - from) };
            if (at < stop) at++;
        }
        add_words(rec, words, count, line);
        at = stop + 1;
    }
    return rec;
}

/* The play */

static uint64_t little(const unsigned char *bytes, int count) {
    uint64_t n = 0;
    for (int i = count - 1; i >= 0; i--) n = n << 8 | bytes[i];
    return n;
}

static void play_stream(Actor *a, Device *d, Bytes stream) {
    for (size_t i = 0; i < stream.count; i += EVENT_BYTES) {
        const unsigned char *b = stream.bytes + i;
        Event e = { (uint16_t)little(b + 16, 2), (uint16_t)little(b + 18, 2), (int32_t)little(b + 20, 4) };
        call(a, d, (Step){ .tag = INJECT, .event = e, .now = 1000000 * little(b, 8) + little(b + 8, 8) }, NULL, NULL);
    }
}

static void do_line(Actor *actors, Device *d, const Record *rec, const Line *line) {
    Actor *a = &actors[line->actor];
    switch (line->command) {
    case DO_EVENT: call(a, d, (Step){ .tag = INJECT, .event = line->event, .now = line->moment }, NULL, NULL); break;
    case DO_STREAM: play_stream(a, d, rec->streams[line->stream]); break;
    case DO_OPEN: start(a, d); break;
    case DO_FOLLOW: follow(a, d); break;
    }
}

/* The report */

static char *put_key(char *to, uint32_t code) {
    if (code == KEY_A) return PUT(to, "KEY_A");
    if (code == KEY_B) return PUT(to, "KEY_B");
    return put_number(to, code);
}

static char *put_event(char *to, Event e) {
    if (e.kind == EV_KEY) {
        to = PUT(to, "EV_KEY ");
        to = put_key(to, e.code);
    } else {
        to = PUT(to, "EV_SYN ");
        to = e.code == SYN_REPORT ? PUT(to, "SYN_REPORT") : PUT(to, "SYN_DROPPED");
    }
    *to++ = ' ';
    return put_signed(to, e.value);
}

int main(int argc, char **argv) {
    if (argc != 2 || argv[1][0] == '-') {
        puts("usage: plain_play FILE");
        return 2;
    }
    Record *rec = record_of(bytes_of(argv[1]));
    Device *d = new_device(16, 0);
    static Actor actors[ACTORS];
    Text text = { 0 };
    memcpy(d->key_codes, rec->key_codes, sizeof d->key_codes);
    for (size_t i = 0; i < rec->count; i++) do_line(actors, d, rec, &rec->lines[i]);
    put_device(&text, rec->device, d);
    for (uint32_t i = 0; i < rec->count_of_actors; i++) {
        if (rec->actors[i].is_source) put_source(&text, &rec->actors[i], &actors[i]);
        else put_client(&text, &rec->actors[i], &actors[i]);
    }
    return fwrite(text.bytes, 1, text.count, stdout) == text.count ? 0 : 4;
}
