/* What the programs in plain C that play a record share: a file's bytes, names, and the report.
 *
 * The report is printed from one buffer, with digits of its own. Nothing here is proved.
 */
#include "plain_device.h"

enum { ACTORS = CLIENTS + 1, NAME = 32 };

/* Files and names */

typedef struct { unsigned char *bytes; size_t count; } Bytes;
typedef struct { char text[NAME + 1]; size_t length; int is_source; } Named;
typedef struct { const char *text; size_t length; } Word;

static Bytes bytes_of(const char *file) {
    FILE *in = fopen(file, "rb");
    Bytes all = { NULL, 0 };
    size_t room = 1 << 16, n;
    if (!in) { fprintf(stderr, "%s cannot be opened\n", file); exit(3); }
    all.bytes = must(malloc(room));
    while ((n = fread(all.bytes + all.count, 1, room - all.count, in)) > 0) {
        all.count += n;
        if (all.count == room) all.bytes = must(realloc(all.bytes, room *= 2));
    }
    fclose(in);
    return all;
}

/* The report */

typedef struct { char *bytes; size_t count, room; } Text;
enum { LINE_MOST = 2048 };

/* Room for one line of the report, where there is none yet. */
static char *line_room(Text *t) {
    if (t->room - t->count < LINE_MOST) {
        t->room = t->room ? 2 * t->room : 1 << 16;
        t->bytes = must(realloc(t->bytes, t->room));
    }
    return t->bytes + t->count;
}

static char *put_text(char *to, const char *text, size_t length) { memcpy(to, text, length); return to + length; }

#define PUT(to, literal) put_text(to, literal, sizeof literal - 1)

/* Writes up to 20 bytes, of which the digits count. */
static char *put_number(char *to, uint64_t n) {
    static const char pairs[] =
        "0001020304050607080910111213141516171819202122232425262728293031323334353637383940414243444546474849"
        "5051525354555657585960616263646566676869707172737475767778798081828384858687888990919293949596979899";
    char digits[40];
    int at = 20;
    if (n < 10) { *to = (char)('0' + n); return to + 1; }
    for (; n >= 100; n /= 100) memcpy(digits + (at -= 2), pairs + 2 * (n % 100), 2);
    if (n >= 10) memcpy(digits + (at -= 2), pairs + 2 * n, 2);
    else digits[--at] = (char)('0' + n);
    memcpy(to, digits + at, 20);
    return to + (20 - at);
}

static char *put_signed(char *to, int32_t n) {
    if (n >= 0) return put_number(to, (uint64_t)n);
    *to++ = '-';
    return put_number(to, (uint64_t)-(int64_t)n);
}

/* A program says how it writes what its records have. */
static char *put_key(char *to, uint32_t code);
static char *put_event(char *to, Event e);

static char *put_keys(char *to, const uint64_t *words) {
    for (uint32_t i = 0; i < KEY_WORDS; i++)
        for (uint64_t left = words[i]; left; left &= left - 1) {
            *to++ = ' ';
            to = put_key(to, 64 * i + (uint32_t)__builtin_ctzll(left));
        }
    return to;
}

static char *put_counted(char *to, uint64_t at, uint64_t count) {
    to = put_number(to, at);
    *to++ = ' ';
    return put_number(to, count);
}

static char *put_call(char *to, const Step *s, const Reply *r) {
    switch (s->tag) {
    case OPEN: to = PUT(to, "call open"); break;
    case READ: to = PUT(to, "call read "); to = put_counted(to, s->client, s->count); break;
    case DISCARD: to = PUT(to, "call discard "); to = put_number(to, s->client); break;
    case GET_KEYS: to = PUT(to, "call getkeys "); to = put_number(to, s->client); break;
    }
    switch (r->tag) {
    case OPENED:
        to = PUT(to, " reply opened ");
        to = put_counted(to, r->at, r->of.opened.client);
        *to++ = ' ';
        return put_number(to, r->of.opened.ring);
    case TOOK: to = PUT(to, " reply took "); return put_counted(to, r->at, r->of.count);
    case DISCARDED: to = PUT(to, " reply discarded "); return put_counted(to, r->at, r->of.count);
    case BITS: to = PUT(to, " reply bits "); return put_keys(put_number(to, r->at), r->of.words);
    default: to = PUT(to, " reply refused "); to = put_number(to, r->at); return PUT(to, " bad-client");
    }
}

static char *put_sight(char *to, const Sight *s) {
    switch (s->tag) {
    case CALL_SEEN: to = put_call(to, &s->of.call.step, &s->of.call.reply); break;
    case TOOK_SEEN:
        to = PUT(to, "took ");
        to = put_counted(to, s->of.taken.place, s->of.taken.time);
        *to++ = ' ';
        to = put_event(to, s->of.taken.event);
        break;
    case MADE_SEEN: to = PUT(to, "made "); to = put_event(to, s->of.made); break;
    case AGAIN_SEEN: to = PUT(to, "again "); to = put_number(to, s->of.at); break;
    }
    *to++ = '\n';
    return to;
}

static void ends_at(Text *t, char *to) { t->count = (size_t)(to - t->bytes); }

static void put_client(Text *t, const Named *name, const Actor *a) {
    char *to = PUT(line_room(t), "client ");
    to = put_text(to, name->text, name->length);
    *to++ = '\n';
    ends_at(t, to);
    for (size_t i = 0; i < a->sights.count; i++) ends_at(t, put_sight(line_room(t), &a->sights.items[i]));
    to = put_keys(PUT(line_room(t), "keys"), a->reader.view.keys);
    ends_at(t, PUT(to, "\nstop finished\n"));
}

static void put_source(Text *t, const Named *name, const Actor *a) {
    char *to = PUT(line_room(t), "source ");
    to = put_text(to, name->text, name->length);
    to = PUT(to, " calls ");
    to = put_number(to, a->accepted);
    ends_at(t, PUT(to, " stop finished\n"));
}

static void put_device(Text *t, const char *name, const Device *d) {
    char *to = PUT(line_room(t), "device ");
    to = put_text(to, name, strlen(name));
    to = PUT(to, " steps ");
    to = put_number(to, d->length);
    *to++ = '\n';
    ends_at(t, to);
}
