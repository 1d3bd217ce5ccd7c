/* The steps of a client, by evdev's requests. */
#define _GNU_SOURCE
#include "guest.h"

#include <errno.h>
#include <fcntl.h>
#include <stdio.h>
#include <stdlib.h>
#include <string.h>
#include <sys/ioctl.h>
#include <time.h>
#include <unistd.h>

enum {
    LAST_OF_SLOTS = ABS_MT_TOOL_Y,
    FIRST_OF_SLOTS = ABS_MT_TOUCH_MAJOR,
    MOST_SLOTS = 256,
    BYTES_OF_KEYS = 96
};

typedef void step(struct actor *, const long long *);

static int failed(int result)
{
    return result < 0 ? errno : 0;
}

/* No request asks for an axis of such a code. Whether there is a device is asked by another one. */
static int no_code(struct actor *actor)
{
    int version, status = failed(ioctl(actor->fd, EVIOCGVERSION, &version));
    return status ? status : EINVAL;
}

static void open_client(struct actor *actor, const long long *words)
{
    (void)words;
    actor->fd = open(actor->device->events, O_RDWR | O_NONBLOCK);
    say_status(failed(actor->fd));
    if (actor->fd >= 0 && actor->role == CLIENT)
        open_reader(actor);
}

static void close_client(struct actor *actor, const long long *words)
{
    (void)words;
    close_reader(actor);
    say_status(0);
}

static void grab(struct actor *actor, const long long *words)
{
    (void)words;
    say_status(failed(ioctl(actor->fd, EVIOCGRAB, (void *)1)));
}

static void ungrab(struct actor *actor, const long long *words)
{
    (void)words;
    say_status(failed(ioctl(actor->fd, EVIOCGRAB, (void *)0)));
}

static void revoke_client(struct actor *actor, const long long *words)
{
    (void)words;
    say_status(failed(ioctl(actor->fd, EVIOCREVOKE, NULL)));
}

/* A type, a word of its mask and 64 bits: the mask is got, changed and set. */
static void mask(struct actor *actor, const long long *words)
{
    size_t word = (size_t)words[1], size = words[0] == EV_KEY ? BYTES_OF_KEYS : 8;
    if ((word + 1) * 8 > size)
        size = (word + 1) * 8;
    uint64_t *bits = calloc(size / 8, 8);
    struct input_mask of = {
        .type = (uint32_t)words[0], .codes_size = (uint32_t)size, .codes_ptr = (uintptr_t)bits};
    int status = failed(ioctl(actor->fd, EVIOCGMASK, &of));
    if (bits && !status) {
        bits[word] = (uint64_t)words[2];
        status = failed(ioctl(actor->fd, EVIOCSMASK, &of));
    }
    free(bits);
    say_status(status);
}

static void choose_clock(struct actor *actor, const long long *words)
{
    int clock = (int)words[0];
    wait_until(words[1]);
    say_status(failed(ioctl(actor->fd, EVIOCSCLOCKID, &clock)));
}

static void write_event(struct actor *actor, const long long *words)
{
    struct input_event event = {
        .type = (uint16_t)words[1], .code = (uint16_t)words[2], .value = (int)words[3]};
    wait_until(words[0]);
    say_status(write(actor->fd, &event, sizeof event) == (ssize_t)sizeof event ? 0 : errno);
}

static void describe_axis(struct actor *actor, const long long *words)
{
    struct input_absinfo info = {(int)words[1], (int)words[2], (int)words[3],
                                 (int)words[4], (int)words[5], (int)words[6]};
    say_status(words[0] < ABS_CNT ? failed(ioctl(actor->fd, EVIOCSABS((unsigned)words[0]), &info))
                                  : no_code(actor));
}

static void read_events(struct actor *actor, const long long *words)
{
    static struct input_event events[MOST_EVENTS];
    ssize_t size = read(actor->fd, events, (size_t)words[0] * sizeof events[0]);
    for (ssize_t i = 0; i < size / (ssize_t)sizeof events[0]; i++)
        say_event(&events[i]);
    say_status(size < 0 ? errno : 0);
}

static void discard(struct actor *actor, const long long *words)
{
    static struct input_event events[MOST_EVENTS];
    ssize_t size, count = 0;
    (void)words;
    while ((size = read(actor->fd, events, sizeof events)) > 0)
        count += size / (ssize_t)sizeof events[0];
    printf("= %d %zd\n", errno == EAGAIN ? 0 : errno, count);
}

/* A type: its codes that are on. */
static void ask_bits(struct actor *actor, const long long *words)
{
    uint8_t bits[BYTES_OF_KEYS] = {0};
    unsigned long request = words[0] == EV_KEY   ? EVIOCGKEY(sizeof bits)
                            : words[0] == EV_SW  ? EVIOCGSW(8)
                            : words[0] == EV_LED ? EVIOCGLED(8)
                                                 : EVIOCGSND(8);
    printf("= %d", failed(ioctl(actor->fd, request, bits)));
    for (int code = 0; code < 8 * BYTES_OF_KEYS; code++)
        if (bits[code / 8] >> (code % 8) & 1)
            printf(" %d", code);
    putchar('\n');
}

static void ask_axis(struct actor *actor, const long long *words)
{
    struct input_absinfo info = {0};
    int status = failed(ioctl(actor->fd, EVIOCGABS((unsigned)words[0]), &info));
    printf("= %d %d %d %d %d %d %d\n", status, info.value, info.minimum, info.maximum, info.fuzz, info.flat,
           info.resolution);
}

struct of_slots {
    uint32_t code;
    int32_t values[MOST_SLOTS];
};

/* The slot that was announced last, and then by slots the values of codes from a first to a last one. */
static void ask_cells(struct actor *actor, unsigned first, unsigned last)
{
    static struct of_slots cells[ABS_CNT];
    struct input_absinfo slot = {0};
    int status = 0;
    for (unsigned code = first; code <= last && !status; code++) {
        cells[code].code = code;
        status = failed(ioctl(actor->fd, EVIOCGMTSLOTS(sizeof cells[code]), &cells[code]));
    }
    if (!status)
        status = failed(ioctl(actor->fd, EVIOCGABS(ABS_MT_SLOT), &slot));
    printf("= %d %d", status, slot.value);
    for (int i = 0; i < actor->device->slots && !status; i++)
        for (unsigned code = first; code <= last; code++)
            printf(" %d", cells[code].values[i]);
    putchar('\n');
}

static void ask_slots(struct actor *actor, const long long *words)
{
    if (words[0] >= ABS_CNT)
        say_status(no_code(actor));
    else
        ask_cells(actor, (unsigned)words[0], (unsigned)words[0]);
}

static void synchronise_slots(struct actor *actor, const long long *words)
{
    (void)words;
    ask_cells(actor, FIRST_OF_SLOTS, LAST_OF_SLOTS);
}

static const struct {
    const char *name;
    step *does;
} STEPS[] = {
    {"close", close_client}, {"grab", grab},
    {"ungrab", ungrab},      {"revoke", revoke_client},
    {"mask", mask},          {"clock", choose_clock},
    {"write", write_event},  {"setaxis", describe_axis},
    {"read", read_events},   {"discard", discard},
    {"bits", ask_bits},      {"axis", ask_axis},
    {"slots", ask_slots},    {"syncslots", synchronise_slots},
};

bool do_step(struct actor *actor, const struct words *words)
{
    if (!strcmp(words->name, "open")) {
        open_client(actor, words->of);
        return true;
    }
    for (size_t i = 0; i < sizeof STEPS / sizeof STEPS[0]; i++)
        if (!strcmp(words->name, STEPS[i].name)) {
            if (actor->fd < 0)
                say_status(EBADF);
            else
                STEPS[i].does(actor, words->of);
            return true;
        }
    return false;
}
