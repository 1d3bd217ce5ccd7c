/* A client that reads by libevdev, and one that reads from joydev. */
#define _GNU_SOURCE
#include "guest.h"

#include <errno.h>
#include <fcntl.h>
#include <libevdev/libevdev.h>
#include <linux/joystick.h>
#include <stdio.h>
#include <string.h>
#include <unistd.h>

void open_reader(struct actor *actor)
{
    if (libevdev_new_from_fd(actor->fd, &actor->reader))
        give_up("libevdev_new_from_fd");
    actor->phase = PLAIN;
}

/* The reader is not told: its file is another one from then on, which cannot be read. */
void close_reader(struct actor *actor)
{
    int other = open("/dev/null", O_WRONLY);
    if (!actor->reader)
        close(actor->fd);
    else if (dup2(other, actor->fd) < 0)
        give_up("dup2");
    close(other);
    actor->fd = -1;
}

static void say_made(const struct input_event *event)
{
    printf("m %d %d %d\n", event->type, event->code, event->value);
}

/* One call; what it came to, as libevdev says it. */
static int advance(struct actor *actor, bool skips)
{
    struct input_event event;
    bool in_sync = !skips && actor->phase != PLAIN;
    unsigned mode = in_sync ? LIBEVDEV_READ_FLAG_SYNC : LIBEVDEV_READ_FLAG_NORMAL;
    int came = libevdev_next_event(actor->reader, mode, &event);
    if (came == LIBEVDEV_READ_STATUS_SYNC)
        actor->phase = in_sync ? HANDING : NEEDED;
    else if (came == LIBEVDEV_READ_STATUS_SUCCESS || came == -EAGAIN)
        actor->phase = PLAIN;
    if (came >= 0 && in_sync && came == LIBEVDEV_READ_STATUS_SYNC)
        say_made(&event);
    else if (came >= 0)
        say_event(&event);
    return came == -EAGAIN && in_sync ? LIBEVDEV_READ_STATUS_SYNC + 1 : came;
}

/* Is handed so many events, or all where the count is negative. */
static void hand_out(struct actor *actor, long long count, bool skips)
{
    long long handed = 0;
    int came = 0;
    while ((count < 0 || handed < count) && (came = advance(actor, skips)) >= 0)
        handed += came <= LIBEVDEV_READ_STATUS_SYNC;
    /* (libevdev answers -1 where some of its requests fail) */
    say_status(came == -1 ? errno : came < 0 ? -came : 0);
}

static void force(struct actor *actor)
{
    struct input_event event;
    if (libevdev_next_event(actor->reader, LIBEVDEV_READ_FLAG_FORCE_SYNC, &event) ==
        LIBEVDEV_READ_STATUS_SYNC)
        actor->phase = NEEDED;
    say_status(0);
}

static void say_codes(struct libevdev *reader, unsigned type, unsigned count)
{
    for (unsigned code = 0; code < count; code++)
        if (libevdev_get_event_value(reader, type, code))
            printf(" %u", code);
    printf(" ;");
}

/* What it believes: keys, switches, LEDs, axes, the current slot, and the values of each slot. */
static void say_view(struct actor *actor)
{
    struct libevdev *reader = actor->reader;
    printf("= 0");
    say_codes(reader, EV_KEY, KEY_CNT);
    say_codes(reader, EV_SW, SW_CNT);
    say_codes(reader, EV_LED, LED_CNT);
    for (unsigned code = 0; code < ABS_CNT; code++)
        printf(" %d", libevdev_get_event_value(reader, EV_ABS, code));
    printf(" ; %d ;", libevdev_get_current_slot(reader));
    for (int slot = 0; slot < libevdev_get_num_slots(reader); slot++)
        for (unsigned code = ABS_MT_TOUCH_MAJOR; code <= ABS_MT_TOOL_Y; code++)
            printf(" %d", libevdev_get_slot_value(reader, (unsigned)slot, code));
    putchar('\n');
}

bool do_reader_step(struct actor *actor, const struct words *words)
{
    const char *name = words->name;
    bool skips = !strcmp(name, "skip"), follows = !strcmp(name, "follow");
    if (strcmp(name, "next") && strcmp(name, "force") && strcmp(name, "view") && !skips && !follows)
        return false;
    if (!actor->reader)
        say_status(follows || words->of[0] || !strcmp(name, "view") ? EBADF : 0);
    else if (!strcmp(name, "force"))
        force(actor);
    else if (!strcmp(name, "view"))
        say_view(actor);
    else
        hand_out(actor, follows ? -1 : words->of[0], skips);
    return true;
}

static void open_joystick(struct actor *actor)
{
    if (!actor->device->joystick[0]) {
        say_status(ENXIO);
        return;
    }
    actor->fd = open(actor->device->joystick, O_RDONLY | O_NONBLOCK);
    say_status(actor->fd < 0 ? errno : 0);
}

static void read_joystick(struct actor *actor, long long count)
{
    struct js_event event;
    ssize_t size = sizeof event;
    while (count-- > 0 && (size = read(actor->fd, &event, sizeof event)) == (ssize_t)sizeof event)
        printf("j %d %d %d\n", event.value, event.type, event.number);
    say_status(size < 0 ? errno : 0);
}

bool do_joystick_step(struct actor *actor, const struct words *words)
{
    if (!strcmp(words->name, "open"))
        open_joystick(actor);
    else if (strcmp(words->name, "close"))
        read_joystick(actor, words->of[0]);
    else if (actor->fd < 0)
        say_status(EBADF);
    else {
        close(actor->fd);
        actor->fd = -1;
        say_status(0);
    }
    return true;
}
